#!/usr/bin/env python3
"""Writes a rule text of about N bytes that is made to be slow, or its plain twin of the same size, for the class model
examples/catalogue.json, on standard output.

bindings:  one `let` with as many bindings as fit.
arguments: one call with as many arguments as fit.
chains:    rules of 255 steps that each collect over what the one before gave.
names:     rules whose names have 100,000 characters.
rules:     rules of a few characters, more than a code file may have.
last:      the plain twin, but for its last rule, which isn't a Boolean.
comments:  comments, and one rule at the end.
strings:   comparisons of strings of 1,000,000 characters.
context:   rules of one context, whose name is as long as they are together; there is no such class.

The twin has rules of a hundred comparisons each.
"""
import argparse
import sys


def plain(size):
    """Rules of a hundred comparisons each."""
    body = " and ".join(["self.diameter > 0"] * 100)
    rules = "".join(f"inv r{it}: {body}\n" for it in range(max(1, size // (len(body) + 12))))
    return "context Mantelbuis\n" + rules


def filled(size, head, item, tail):
    """As many items, with commas between them, as fit."""
    return head + ",".join([item] * max(1, (size - len(head) - len(tail)) // (len(item) + 1))) + tail


def bindings(size):
    return filled(size, "context Mantelbuis inv a: let ", "a:Integer=1", " in true\n")


def arguments(size):
    return filled(size, "context Mantelbuis inv a: self.diameter.max(", "1", ") > 0\n")


def chains(size):
    rule = "inv r%d: self" + ".leidingen.net" * 127 + "->notEmpty()\n"
    return "context Utiliteitsnet\n" + "".join(rule % it for it in range(max(1, size // len(rule))))


def names(size):
    return "context Mantelbuis\n" + "".join(f"inv n{it}{'x' * 100_000}: true\n" for it in range(max(1, size // 100_016)))


def rules(size):
    return "context Mantelbuis\n" + "inv: true\n" * (size // 10)


def last(size):
    return plain(size) + "inv wrong: self.diameter\n"


def comments(size):
    return "-- a comment, and /* another */\n" * (size // 32) + "context Mantelbuis inv c: true\n"


def strings(size):
    return "context KabelOfLeiding\n" + "".join(
        f"inv s{it}: self.identificatie <> '{'x' * min(size, 1_000_000)}'\n" for it in range(max(1, size // 1_000_040)))


def context(size):
    return f"context C{'C' * (size // 2)}\n" + "inv: true\n" * (size // 20)


def main():
    shapes = {it.__name__: it for it in (bindings, arguments, chains, names, rules, last, comments, strings, context)}
    reader = argparse.ArgumentParser(description=__doc__, formatter_class=argparse.RawDescriptionHelpFormatter)
    reader.add_argument("SHAPE", choices=shapes)
    reader.add_argument("N", type=int, help="the number of bytes")
    reader.add_argument("--plain", action="store_true", help="write the plain twin")
    words = reader.parse_args()
    sys.stdout.write(plain(words.N) if words.plain else shapes[words.SHAPE](words.N))


main()
