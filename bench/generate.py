#!/usr/bin/env python3
"""Writes a delivery of N objects for examples/catalogue.json on standard output; the same N gives the same bytes.

Without --links: electricity cables, water pipes and ducts in turn, none of which holds anything.
With --links: groups of twenty objects, in each a duct that holds eight cables and a network of ten pipes.
"""
import argparse
import json
import sys

MOST_OBJECTS = 1_000_000
CABLES, PIPES = 8, 10
GROUP = 1 + CABLES + 1 + PIPES


def id_of(number):
    """An id whose digits run backwards, so that ids don't come in their order."""
    return "nl.imkl." + f"{number:07d}"[::-1]


def depth_of(number):
    """Depths from 400 to 999 mm; each tenth object has none."""
    return {} if number % 10 == 9 else {"diepte": 400 + number * 37 % 600}


def line_of(number, kind, features):
    """A cable, pipe or duct."""
    features = {"identificatie": f"object {number}", **features, **depth_of(number)}
    return {"id": id_of(number), "class": kind, "features": features}


def cable(number):
    return line_of(number, "Elektriciteitskabel", {"spanning": 400})


def pipe(number):
    return line_of(number, "Waterleiding", {"diameter": 63 + number % 5})


def duct(number, held):
    return line_of(number, "Mantelbuis", {"diameter": 110, **({"omvat": held} if held else {})})


def network(number, pipes):
    return {"id": id_of(number), "class": "Utiliteitsnet", "features": {"thema": "water", "leidingen": pipes}}


def plain(count):
    for number in range(count):
        if number % 3 == 0:
            yield cable(number)
        elif number % 3 == 1:
            yield pipe(number)
        else:
            yield duct(number, [])


def linked(count):
    """Whole groups first, then cables that nothing holds."""
    for start in range(0, count - GROUP + 1, GROUP):
        cables = range(start + 1, start + 1 + CABLES)
        pipes = range(start + GROUP - PIPES, start + GROUP)
        yield duct(start, [id_of(it) for it in cables])
        yield from map(cable, cables)
        yield network(start + 1 + CABLES, [id_of(it) for it in pipes])
        yield from map(pipe, pipes)
    yield from map(cable, range(count - count % GROUP, count))


def main():
    reader = argparse.ArgumentParser(description=__doc__, formatter_class=argparse.RawDescriptionHelpFormatter)
    reader.add_argument("N", type=int, help=f"the number of objects, 0 to {MOST_OBJECTS}")
    reader.add_argument("--links", action="store_true", help="ducts hold cables, and networks hold pipes")
    words = reader.parse_args()
    if not 0 <= words.N <= MOST_OBJECTS:
        reader.error(f"N is 0 to {MOST_OBJECTS}")
    write = sys.stdout.write
    write('{"model":"imkl-profile","objects":[')
    for place, it in enumerate((linked if words.links else plain)(words.N)):
        write((",\n" if place else "\n") + json.dumps(it, separators=(",", ":")))
    write("]}\n")


if __name__ == "__main__":
    main()
