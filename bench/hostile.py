#!/usr/bin/env python3
"""Writes a class model and a delivery of N objects that are made to be slow, or their plain twin of the same size, as
model.json and delivery.json in a folder.

literals: 256 enumerations of 4,096 literals, whose names have one place under a fixed hash (twin: plain names); each object
          has one of the literals.
owners:   half of the classes have the same 16 names, and each has one class below it; the objects are of those (twin: names
          that differ).
chain:    each class is below the one before it and has 16 names of its own (twin: classes that are not related).
couples:  each name is that of two classes, which are not related (twin: names that differ).
depth:    each class is below the one before it, without features; the objects are of each class in turn (twin: classes that
          are not related).
renames:  as chain, and each feature has an old name (twin: as chain's, with as many old names).
olds:     half of the classes have the same 16 old names for their features, and each has one class below it; the objects are
          of those (twin: old names that differ).

Each model has the class and the feature that examples/min-depth.code names, so that it can be judged by it.
"""
import argparse
import itertools
import json
import os

CLASSES, NAMES = 4095, 16
ENUMERATIONS, LITERALS = 256, 4096
BASE, DEPTH = "KabelOfLeiding", "diepte"

MASK = 2**64 - 1
SEED, MULTIPLIER = 0x243F6A8885A308D3, 0x9E3779B97F4A7C15


def folded(a, b):
    product = a * b
    return (product & MASK) ^ (product >> 64)


def number(some):
    return int.from_bytes(some, "little")


def hash_of(name):
    """The 32 bits that a set keeps of the hash of a name of 16 bytes, which is written with a byte 255 after it."""
    state = folded(number(name[:8]) ^ (SEED + 16), number(name[8:]) ^ MULTIPLIER)
    state = folded(state ^ 0xFFFFFF, MULTIPLIER ^ 2)
    return (state ^ (state >> 32)) & 0xFFFFFFFF


def colliding(count):
    """Names of 16 bytes whose hashes agree in their low 9 bits, so that they share a place in a set of 4,096."""
    names = ("literal%09d" % it for it in itertools.count())
    return list(itertools.islice((it for it in names if hash_of(it.encode()) & 511 == 0), count))


def attribute(name, kind="Integer"):
    return {"name": name, "type": kind, "lower": 0, "upper": 1, "ordered": False, "unique": True}


def class_of(name, supers, names, kind="Integer"):
    return {"name": name, "abstract": False, "supers": supers, "attributes": [attribute(it, kind) for it in names]}


def base():
    return class_of(BASE, [], [DEPTH])


def literals(count, plain):
    names = [f"literal{it:09}" for it in range(LITERALS)] if plain else colliding(LITERALS)
    enumerations = [{"name": f"E{it}", "literals": names} for it in range(ENUMERATIONS)]
    classes = [base(), class_of("C", [], ["a"], "E0")]
    return enumerations, classes, [("C", {"a": names[it % LITERALS]}) for it in range(count)]


def owners(count, plain):
    half = CLASSES // 2

    def names(owner):
        return [f"a{owner}_{it}" if plain else f"a{it}" for it in range(NAMES)]

    above = [class_of(f"C{it}", [], names(it)) for it in range(half)]
    below = [class_of(f"D{it}", [f"C{it}"], []) for it in range(half)]
    objects = [(f"D{it % half}", {name: 1 for name in names(it % half)}) for it in range(count)]
    return [], [base()] + above + below, objects


def chain(count, plain):
    def supers(it):
        return [f"C{it - 1}"] if it > 0 and not plain else []

    classes = [class_of(f"C{it}", supers(it), [f"a{it}_{name}" for name in range(NAMES)]) for it in range(CLASSES - 1)]
    return [], [base()] + classes, [(f"C{it % len(classes)}", {f"a{it % len(classes)}_0": 1}) for it in range(count)]


def couples(count, plain):
    def label(it, name):
        return f"a{it if plain else it // 2}_{name}"

    classes = [class_of(f"C{it}", [], [label(it, name) for name in range(NAMES)]) for it in range(CLASSES - 1)]
    return [], [base()] + classes, [(f"C{it % len(classes)}", {label(it % len(classes), 0): 1}) for it in range(count)]


def depth(count, plain):
    classes = [class_of(f"C{it}", [f"C{it - 1}"] if it > 0 and not plain else [], []) for it in range(CLASSES - 1)]
    return [], [base()] + classes, [(f"C{it % len(classes)}", {}) for it in range(count)]


def old(owner, name, feature):
    return {"class": owner, "old": name, "new": feature}


def renames(count, plain):
    enumerations, classes, objects = chain(count, plain)
    features = [(it["name"], feature["name"]) for it in classes for feature in it["attributes"]]
    return enumerations, classes, objects, [old(owner, f"old_{it}", it) for owner, it in features]


def olds(count, plain):
    enumerations, classes, objects = owners(count, True)
    places = [(owner, it) for owner in range(CLASSES // 2) for it in range(NAMES)]
    names = [old(f"C{owner}", f"old{owner}_{it}" if plain else f"old{it}", f"a{owner}_{it}") for owner, it in places]
    return enumerations, classes, objects, names


def write(folder, name, tree):
    with open(os.path.join(folder, name), "w", encoding="utf-8") as to:
        json.dump(tree, to, separators=(",", ":"))


def main():
    shapes = {it.__name__: it for it in (literals, owners, chain, couples, depth, renames, olds)}
    reader = argparse.ArgumentParser(description=__doc__, formatter_class=argparse.RawDescriptionHelpFormatter)
    reader.add_argument("SHAPE", choices=shapes)
    reader.add_argument("N", type=int, help="the number of objects")
    reader.add_argument("FOLDER", help="where the two files are written")
    reader.add_argument("--plain", action="store_true", help="write the plain twin")
    words = reader.parse_args()
    enumerations, classes, objects, *names = shapes[words.SHAPE](words.N, words.plain)
    model = {"model": "imkl-profile", "enums": enumerations, "classes": classes, "associations": []}
    if names:
        model["renames"] = names[0]
    write(words.FOLDER, "model.json", model)
    listed = [{"id": f"o{place}", "class": it, "features": values} for place, (it, values) in enumerate(objects)]
    write(words.FOLDER, "delivery.json", {"model": "imkl-profile", "objects": listed})


main()
