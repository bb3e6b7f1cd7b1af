#!/usr/bin/env python3
"""Writes model.json, delivery.json and rules.code into a folder: rules that make one instruction do much work.

Each object has collections of N whole numbers, of each kind, and each rule applies the instruction to them. They stand in
order; with --mixed in none, each in its own. There are as many objects and rules as it takes to be charged some 20,000,000
in all. Prints what all runs are charged. With --none there is no rule, so that what remains is reading.

With --beside M an instruction of two collections has operands of unequal lengths, N first and then M. One object has them,
and its rules go over them again and again, some 20,000,000 charges' worth or a million times, whichever is less.
"""
import argparse
import json
import pathlib
import random
import struct

WORK, MAX_RULES = 20_000_000, 200
SELF, ADD, LT, ISEMPTY, SUM = b"\x01", b"\x10", b"\x19", b"\x31", b"\x36"
INTEGER, SET, BAG, SEQUENCE = b"\x02", b"\x12", b"\x32", b"\x42"
FEATURES = ["numbers", "moved", "repeated", "shuffled", "listed", "backwards", "others"]
MOST_TURNS = 1_000_000


def number(n):
    return struct.pack(">H", n)


def integer(n):
    return b"\x03" + struct.pack(">q", n)


def variable(n):
    return b"\x02" + number(n)


def all_of(feature):
    """Symbol 0 is the class; the features' symbols follow."""
    return [SELF, b"\x09" + number(1 + [*FEATURES, "turns"].index(feature))]


# Of each instruction a rule's code over collections of n elements, and what a run is charged. What is looked for is missing.
CASES = {
    "plain": lambda n: ([integer(1), *[integer(1), ADD] * n, integer(0), LT], 3 + 2 * n),
    "INCLUDES": lambda n: ([*all_of("numbers"), integer(-1), b"\x32" + INTEGER], 4 + n),
    "COUNT": lambda n: ([*all_of("repeated"), integer(-1), b"\x33" + INTEGER, integer(1), LT], 6 + n),
    "SUM": lambda n: ([*all_of("listed"), SUM, integer(0), LT], 5 + n),
    "EQ_SET": lambda n: ([*all_of("numbers"), *all_of("moved"), b"\x28" + SET], 5 + n * n),
    "EQ_BAG": lambda n: ([*all_of("repeated"), *all_of("shuffled"), b"\x28" + BAG], 5 + n * n),
    "EQ_SEQUENCE": lambda n: ([*all_of("listed"), *all_of("listed"), b"\x28" + SEQUENCE], 5 + n * n),
    "INCALL": lambda n: ([*all_of("listed"), *all_of("backwards"), b"\x34" + INTEGER], 5 + n * n),
    "EXCALL": lambda n: ([*all_of("listed"), *all_of("others"), b"\x35" + INTEGER], 5 + n * n),
    "ASSET": lambda n: ([*all_of("listed"), b"\x37" + INTEGER, ISEMPTY], 4 + n * n),
    "ISUNIQUE": lambda n: ([*all_of("numbers"), b"\x49" + INTEGER + number(1), variable(1)], 4 + 2 * n + n * n),
    "COLLECTFLAT": lambda n: ([integer(0), b"\x0b" + SET, b"\x48" + number(2), *all_of("repeated"), ISEMPTY], 8 + n),
}


# The instructions of two collections, with the features that they go over: the first operand and the second.
PAIRS = {
    "EQ_SET": ("numbers", "moved", b"\x28" + SET),
    "EQ_BAG": ("repeated", "shuffled", b"\x28" + BAG),
    "EQ_SEQUENCE": ("listed", "backwards", b"\x28" + SEQUENCE),
    "INCALL": ("listed", "backwards", b"\x34" + INTEGER),
    "EXCALL": ("listed", "others", b"\x35" + INTEGER),
}


def turned(instruction, n, beside):
    """A rule that goes over a collection of n elements beside one of others, again and again: its code, how many such rules
    there are, how many turns each has, and what a run is charged."""
    first, second, code = PAIRS[instruction]
    each = 6 + n * beside
    turns = min(MOST_TURNS, max(WORK // each, 1))
    rules = min(MAX_RULES, turns)
    turns //= rules
    body = [*all_of(first), *all_of(second), code]
    return [*all_of("turns"), b"\x42" + number(len(body)), *body], rules, turns, 4 + turns * each


def class_model():
    def attribute(name, ordered, unique):
        return {"name": name, "type": "Integer", "lower": 0, "upper": None, "ordered": ordered, "unique": unique}

    attributes = [attribute(name, False, True) for name in FEATURES[:2]]
    attributes += [attribute(name, False, False) for name in FEATURES[2:4]]
    attributes += [attribute(name, True, False) for name in [*FEATURES[4:], "turns"]]
    return {"model": "work", "enums": [], "associations": [],
            "classes": [{"name": "Box", "abstract": False, "supers": [], "attributes": attributes}]}


def delivery(objects, n, mixed):
    ascending = list(range(n))
    lists = [ascending, ascending, ascending, ascending, ascending, ascending[::-1], [n + it for it in ascending]]
    if mixed:
        chance = random.Random(n)
        lists = [chance.sample(it, n) for it in lists]
    return {"model": "work", "objects": [{"id": f"B{it}", "class": "Box", "features": dict(zip(FEATURES, lists))} for it in range(objects)]}


def unequal(instruction, n, beside, turns, mixed):
    """One object, whose first operand has n elements and whose second has others; no element of one is in the other."""
    first, second, _ = PAIRS[instruction]
    lists = [list(range(n)), list(range(n, n + beside))]
    if mixed:
        chance = random.Random(n)
        lists = [chance.sample(it, len(it)) for it in lists]
    features = dict(zip((first, second), lists)) | {"turns": list(range(turns))}
    return {"model": "work", "objects": [{"id": "B0", "class": "Box", "features": features}]}


def unit(code, rules):
    """The bytes of a code file with so many rules of the same code."""
    names = [*FEATURES, "turns"]
    texts = [b"Box", *(name.encode() for name in names), *(b"r%d" % it for it in range(rules))]
    symbols = [b"\x01" + number(0), *(b"\x03" + number(0) + number(1 + it) for it in range(len(names)))]
    out = b"OCLB" + number(1) + number(len(texts)) + b"".join(number(len(it)) + it for it in texts)
    out += number(len(symbols)) + b"".join(symbols) + number(rules)
    body = number(0) + number(len(code)) + b"".join(code)
    return out + b"".join(number(1 + len(names) + it) + body for it in range(rules))


def main():
    parser = argparse.ArgumentParser(description=__doc__, formatter_class=argparse.RawDescriptionHelpFormatter)
    parser.add_argument("instruction", choices=CASES)
    parser.add_argument("n", type=int, help="the number of elements")
    parser.add_argument("folder", type=pathlib.Path)
    parser.add_argument("--none", action="store_true", help="no rule")
    parser.add_argument("--mixed", action="store_true", help="in no order")
    parser.add_argument("--beside", type=int, help="the number of elements of the second operand, where it is another")
    given = parser.parse_args()
    if given.beside is None:
        code, charge = CASES[given.instruction](given.n)
        runs = max(1, WORK // charge)
        rules = min(MAX_RULES, runs)
        objects = runs // rules
        made = delivery(objects, given.n, given.mixed)
    else:
        code, rules, turns, charge = turned(given.instruction, given.n, given.beside)
        objects, made = 1, unequal(given.instruction, given.n, given.beside, turns, given.mixed)
    (given.folder / "model.json").write_text(json.dumps(class_model()))
    (given.folder / "delivery.json").write_text(json.dumps(made))
    (given.folder / "rules.code").write_bytes(unit(code, 0 if given.none else rules))
    print(objects * rules * charge)


if __name__ == "__main__":
    main()
