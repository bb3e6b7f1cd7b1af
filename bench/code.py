#!/usr/bin/env python3
"""Writes a code file at the format's limits, for the class model examples/catalogue.json.

long:  one rule of 65,535 instructions: BOOL, and NOT again and again.
many:  4,096 rules of 1,000 instructions.
deep:  one rule of 65,519 instructions, in which blocks stand 64 deep again and again.
"""
import argparse
import struct

TRUE, NOT, AND, LET, GET = b"\x04\x01", b"\x20", b"\x21", b"\x40", b"\x02"


def number(n):
    return struct.pack(">H", n)


def deep(blocks):
    """BOOL, and LETs in one another, each with GET of its variable: the count of the instructions, and their bytes."""
    lets = (LET + number(2 * (blocks - it) - 1) + GET + number(it + 1) for it in range(blocks))
    return 1 + 2 * blocks, TRUE + b"".join(lets)


def rules_of(shape):
    """The rules of a shape: of each the count of its instructions, and their bytes."""
    if shape == "long":
        return [(65535, TRUE + NOT * 65534)]
    if shape == "many":
        return [(1000, TRUE + NOT * 999)] * 4096
    count, code = deep(64)
    times = 65535 // (count + 1)
    return [(times * (count + 1) - 1, code + (code + AND) * (times - 1))]


def main():
    parser = argparse.ArgumentParser(description=__doc__, formatter_class=argparse.RawDescriptionHelpFormatter)
    parser.add_argument("shape", choices=["long", "many", "deep"])
    parser.add_argument("path")
    given = parser.parse_args()
    rules = rules_of(given.shape)
    texts = [b"KabelOfLeiding"] + [b"r%d" % it for it in range(len(rules))]
    with open(given.path, "wb") as out:
        out.write(b"OCLB" + number(1) + number(len(texts)))
        for text in texts:
            out.write(number(len(text)) + text)
        out.write(number(1) + b"\x01" + number(0) + number(len(rules)))
        for index, (count, code) in enumerate(rules):
            out.write(number(index + 1) + number(0) + number(count) + code)


if __name__ == "__main__":
    main()
