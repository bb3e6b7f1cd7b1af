#!/usr/bin/env python3
"""Writes a class model of 4,096 classes and a delivery of N objects for it, as model.json and delivery.json in a folder.

chain: each class is below the one before it, with 65,535 features in all; the objects are of the lowest class.
flat:  unrelated classes, 65,535 features in all, with the same names in each; the objects are of each class in turn.
pairs: half of the classes have a feature of one and the same name, and each has one class below it; the objects are of those.

Each model has the class and the feature that examples/min-depth.code names, so that it can be judged by it.
"""
import argparse
import json
import os

CLASSES, FEATURES = 4096, 65535
BASE, DEPTH = "KabelOfLeiding", "diepte"


def attribute(name):
    return {"name": name, "type": "Integer", "lower": 0, "upper": 1, "ordered": False, "unique": True}


def class_of(name, supers, names):
    return {"name": name, "abstract": False, "supers": supers, "attributes": [attribute(it) for it in names]}


def name_of(number):
    return BASE if number == 0 else f"C{number}"


def shares():
    """How many of the features each class has, the depth left out."""
    rest = FEATURES - 1
    return [rest * (it + 1) // CLASSES - rest * it // CLASSES for it in range(CLASSES)]


def chain(count):
    classes = []
    for number, share in enumerate(shares()):
        names = [f"a{number}_{it}" for it in range(share)] + [DEPTH] * (number == 0)
        classes.append(class_of(name_of(number), [name_of(number - 1)] if number else [], names))
    lowest = name_of(CLASSES - 1)
    values = {DEPTH: 700, "a0_0": 1, "a2048_0": 2, f"a{CLASSES - 1}_0": 3}
    return classes, [(lowest, values)] * count


def flat(count):
    classes = [
        class_of(name_of(number), [], [f"a{it}" for it in range(share)] + [DEPTH] * (number == 0))
        for number, share in enumerate(shares())
    ]
    return classes, [(name_of(it % CLASSES), {"a0": 1, "a1": 2, "a2": 3, "a3": 4}) for it in range(count)]


def pairs(count):
    half = CLASSES // 2
    above = [class_of(name_of(it), [], ["a"] + [DEPTH] * (it == 0)) for it in range(half)]
    below = [class_of(f"D{it}", [name_of(it)], []) for it in range(half)]
    return above + below, [(f"D{it % half}", {"a": 1}) for it in range(count)]


def write(folder, name, tree):
    with open(os.path.join(folder, name), "w", encoding="utf-8") as to:
        json.dump(tree, to, separators=(",", ":"))


def main():
    shapes = {"chain": chain, "flat": flat, "pairs": pairs}
    reader = argparse.ArgumentParser(description=__doc__, formatter_class=argparse.RawDescriptionHelpFormatter)
    reader.add_argument("SHAPE", choices=shapes)
    reader.add_argument("N", type=int, help="the number of objects")
    reader.add_argument("FOLDER", help="where the two files are written")
    words = reader.parse_args()
    classes, objects = shapes[words.SHAPE](words.N)
    write(words.FOLDER, "model.json", {"model": "imkl-profile", "enums": [], "classes": classes, "associations": []})
    listed = [{"id": f"o{place}", "class": it, "features": values} for place, (it, values) in enumerate(objects)]
    write(words.FOLDER, "delivery.json", {"model": "imkl-profile", "objects": listed})


main()
