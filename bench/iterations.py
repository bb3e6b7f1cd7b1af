#!/usr/bin/env python3
"""Writes a code file for deliveries of `generate.py N --links`: four rules with iterations, each ten times. Prints the steps
of all runs.

all_deep:    a duct's cables are all deep enough.
some_wide:   of a network's pipes some are wide enough, by a selection and its size.
wide_enough: the diameters of a network's pipes, collected and added.
each_paired: for each pipe of a network, another of its pipes lies as deep (iterations in one another).

With --short: one rule of four instructions, which reads a pipe's diameter, two hundred times.
With --none: the file has no rule, so that what remains is reading.
"""
import argparse
import struct

from generate import CABLES, GROUP, PIPES

SELF, SIZE, SUM, GE, EQ_INTEGER = b"\x01", b"\x30", b"\x36", b"\x1c", b"\x28\x02"
GET, INT, ATTR, AS_TYPE, FORALL, EXISTS, SELECT, COLLECT = 0x02, 0x03, 0x09, 0x0E, 0x42, 0x43, 0x45, 0x47
TEXTS = ["Mantelbuis", "omvat", "Utiliteitsnet", "leidingen", "KabelOfLeiding", "diepte", "Waterleiding", "diameter"]
TIMES, TIMES_SHORT = 10, 200
DUCT, HELD, NETWORK, PIPES_OF, DEPTH, PIPE, DIAMETER = range(7)
SYMBOLS = [b"\x01\0\0", b"\x03\0\0\0\1", b"\x01\0\2", b"\x03\0\2\0\3", b"\x03\0\4\0\5", b"\x01\0\6", b"\x03\0\6\0\7"]


def number(n):
    return struct.pack(">H", n)


def with_number(opcode, n):
    return bytes([opcode]) + number(n)


def integer(n):
    return bytes([INT]) + struct.pack(">q", n)


def depth_of(variable):
    return [with_number(GET, variable), with_number(ATTR, DEPTH)]


def over(opcode, feature, body):
    """An iteration over a feature of the object."""
    return [SELF, with_number(ATTR, feature), with_number(opcode, len(body)), *body]


def rules():
    """Of each rule the name, the context's symbol, the code, and the steps of a run for one object."""
    deep = [*depth_of(1), integer(600), GE]
    width = [with_number(GET, 1), with_number(AS_TYPE, PIPE), with_number(ATTR, DIAMETER)]
    wide = [*width, integer(65), GE]
    paired = over(EXISTS, PIPES_OF, [*depth_of(2), *depth_of(1), EQ_INTEGER])
    pairs = 2 + 2 + PIPES * 6
    yield "all_deep", DUCT, over(FORALL, HELD, deep), 2 + 2 + CABLES * (1 + len(deep))
    yield "some_wide", NETWORK, [*over(SELECT, PIPES_OF, wide), SIZE, integer(1), GE], 2 + 2 + PIPES * (1 + len(wide)) + 3
    yield "wide_enough", NETWORK, [*over(COLLECT, PIPES_OF, width), SUM, integer(640), GE], 2 + 2 + PIPES * (1 + len(width)) + 3
    yield "each_paired", NETWORK, over(FORALL, PIPES_OF, paired), 2 + 2 + PIPES * (1 + pairs)


def short():
    """A rule that holds for each pipe."""
    yield "short", PIPE, [SELF, with_number(ATTR, DIAMETER), integer(1), GE], PIPES * 4


def chosen(given):
    """The rules that are asked for, each with a name of its own."""
    if given.none:
        return []
    wanted, times = (short, TIMES_SHORT) if given.short else (rules, TIMES)
    return [(f"{name}{time}", *rest) for time in range(times) for name, *rest in wanted()]


def main():
    parser = argparse.ArgumentParser(description=__doc__, formatter_class=argparse.RawDescriptionHelpFormatter)
    parser.add_argument("objects", type=int, help="the number of objects of the delivery")
    parser.add_argument("path", help="the code file")
    parser.add_argument("--short", action="store_true", help="one rule of four instructions")
    parser.add_argument("--none", action="store_true", help="no rule")
    given = parser.parse_args()
    written = chosen(given)
    texts = [text.encode() for text in TEXTS + [name for name, _, _, _ in written]]
    with open(given.path, "wb") as out:
        out.write(b"OCLB" + number(1) + number(len(texts)))
        for text in texts:
            out.write(number(len(text)) + text)
        out.write(number(len(SYMBOLS)) + b"".join(SYMBOLS) + number(len(written)))
        for index, (_, context, code, _) in enumerate(written):
            out.write(number(len(TEXTS) + index) + number(context) + number(len(code)) + b"".join(code))
    print(given.objects // GROUP * sum(steps for _, _, _, steps in written))


if __name__ == "__main__":
    main()
