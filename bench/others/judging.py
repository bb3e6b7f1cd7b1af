#!/usr/bin/env python3
"""The fifteen rules of bench/judging.rules by hand, as a script would have them: judging.py DELIVERY prints the report.

None is undecided. What the rules take for granted of a delivery (that features are there where they must be, and of their
types) is taken for granted here, too."""
import json
import sys


def both(left, right):
    return False if left is False or right is False else True if left and right else None


def either(left, right):
    return True if left or right else False if left is False and right is False else None


def negated(value):
    return None if value is None else not value


def implies(left, right):
    return either(negated(left), right)


def for_all(values):
    return False if False in values else None if None in values else True


def exists(values):
    return True if True in values else None if None in values else False


def at_least(value, least):
    return None if value is None else value >= least


def at_most(value, most):
    return None if value is None else value <= most


class Delivery:
    def __init__(self, objects):
        self.objects = objects
        self.by_id = {it["id"]: it for it in objects}
        self.holder, self.net = {}, {}
        for it in objects:
            for held in it["features"].get("omvat") or []:
                self.holder[held] = it
            for pipe in it["features"].get("leidingen") or []:
                self.net[pipe] = it

    def targets(self, it, end):
        return [self.by_id[held] for held in it["features"].get(end) or []]

    def depth(self, it):
        return it["features"].get("diepte")

    def in_network_or_duct(self, it):
        return it["id"] in self.net or it["id"] in self.holder or it["class"] == "Mantelbuis"

    def within_duct(self, it):
        duct = self.holder.get(it["id"])
        duct_depth = duct and self.depth(duct)
        return True if duct_depth is None else at_least(self.depth(it), duct_depth - 100)

    def one_depth(self, it):
        return len({self.depth(held) for held in self.targets(it, "omvat")}) <= 1

    def theme_of_pipes(self, it):
        pipes = [pipe["class"] == "Waterleiding" for pipe in self.targets(it, "leidingen")]
        return implies(it["features"]["thema"] == "water", for_all(pipes))

    def some_deep(self, it):
        return exists([at_least(self.depth(pipe), 701) for pipe in self.targets(it, "leidingen")])


LINES = ("Elektriciteitskabel", "Waterleiding", "Mantelbuis")
CABLES, PIPES, DUCTS, NETWORKS = ("Elektriciteitskabel",), ("Waterleiding",), ("Mantelbuis",), ("Utiliteitsnet",)
RULES = [
    ("deepEnough", LINES, lambda d, it: at_least(d.depth(it), 600)),
    ("notTooDeep", LINES, lambda d, it: at_most(d.depth(it), 5000)),
    ("identified", LINES, lambda d, it: len(it["features"]["identificatie"]) > 0),
    ("inNetworkOrDuct", LINES, Delivery.in_network_or_duct),
    ("shallowInDuct", LINES, lambda d, it: implies(at_most(d.depth(it), 799), it["id"] in d.holder)),
    ("withinDuct", LINES, Delivery.within_duct),
    ("knownVoltage", CABLES, lambda d, it: both(it["features"]["spanning"] > 0, it["features"]["spanning"] <= 380000)),
    ("highVoltageDeep", CABLES, lambda d, it: implies(it["features"]["spanning"] > 1000, at_least(d.depth(it), 1000))),
    ("width", PIPES, lambda d, it: both(it["features"]["diameter"] >= 20, it["features"]["diameter"] <= 2000)),
    ("holdsSomething", DUCTS, lambda d, it: len(d.targets(it, "omvat")) > 0),
    ("allDeep", DUCTS, lambda d, it: for_all([at_least(d.depth(held), 600) for held in d.targets(it, "omvat")])),
    ("noDuctInside", DUCTS, lambda d, it: not any(held["class"] == "Mantelbuis" for held in d.targets(it, "omvat"))),
    ("oneDepth", DUCTS, Delivery.one_depth),
    ("themeOfPipes", NETWORKS, Delivery.theme_of_pipes),
    ("someDeep", NETWORKS, Delivery.some_deep),
]


def main():
    with open(sys.argv[1], encoding="utf-8") as it:
        delivery = Delivery(json.load(it)["objects"])
    write = sys.stdout.write
    total = {False: 0, None: 0}
    for name, classes, verdict_of in RULES:
        count = {True: 0, False: 0, None: 0}
        for it in delivery.objects:
            if it["class"] in classes:
                verdict = verdict_of(delivery, it)
                count[verdict] += 1
                if not verdict:
                    write(f"{'undecided' if verdict is None else 'fail'} {name} {it['id']}\n")
        write(f"rule {name} checked {sum(count.values())} holds {count[True]} fails {count[False]} undecided {count[None]}\n")
        total = {it: total[it] + count[it] for it in total}
    write(f"total fails {total[False]} undecided {total[None]}\n")


main()
