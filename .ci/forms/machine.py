"""What rules say of objects, and for how many charges, in one grant and in many."""
import functools
import re

import answers
import case
import catalogue
from assembly import file_of_rule, file_of_rules
from several import of_each, several

INPUTS = answers.ROOT / "tests/inputs"
BOXES = [str(INPUTS / f"boxes.{part}.json") for part in ("model", "delivery")]

MOST = 2**63 - 1
# Grants of a charge at a time, which make step after step until one is charged more, and then greater and greater ones.
PIECES = [1] * 40 + list(range(2, 150)) + [MOST]

# What a report's first line says of the object b by a rule r.
VERDICTS = {
    "rule r checked 1 holds 1 fails 0 undecided 0": "Holds",
    "fail r b": "Fails",
    "undecided r b": "Undecided",
}


def script(calls):
    """Calls to a first job, and then to another that is granted in pieces."""
    return "\n".join([*calls, "enter", *(f"grant 1 {grant}" for grant in PIECES), "lines 1"])


def in_pieces(replies):
    """What was spent of the job that is granted in pieces, and its report; None where a grant made steps for more than it is."""
    paused, over, rest = replies.partition("over 1 ")
    spent = [0, *map(int, re.findall(r"^paused 1 (\d+)$", paused, re.MULTILINE))]
    if not over or any(not 0 <= after - before <= grant for before, after, grant in zip(spent, spent[1:], PIECES)):
        return None
    charges, *lines = rest.splitlines()
    return int(charges), [line for line in lines if line != "refused desk 2"]


def box_answer(answer):
    """`Holds for 7 charges`, of a rule r of the box b; of an answer that isn't of that form itself."""
    whole = re.fullmatch(r"job 0\nover 0 (\d+)\n((?:.*\n)+?)job 1\n((?:.*\n)+)", answer.out.decode())
    if not whole or answer.status != 0:
        return str(answer)
    charges, report = int(whole[1]), whole[2].splitlines()
    said = f"{VERDICTS.get(report[0], report)} for {charges} charge{'' if charges == 1 else 's'}"
    return said if in_pieces(whole[3]) == (charges, report) else f"{said}, but otherwise in pieces"


def rule_of_a_box(room, word, code, wanted):
    """A rule of the one box: its verdict, and its charges where these are given."""
    name = "".join(filter(str.isalnum, word))
    case.write(room, "script", script(["enter", f"grant 0 {MOST}", "lines 0"]))
    files = [case.write(room, f"{name}.code", file_of_rule("Box", code)), "script"]

    def found(answer):
        said = box_answer(answer)
        return said if " for " in wanted else re.sub(r" for \d+ charges?$", "", said)

    return case.Case(["ocl_check", "desk", *BOXES, *files], wanted, found)


def report_of(verdicts, told):
    """The report's lines on the first `told` of all verdicts, each of which is a rule, an object and its verdict."""
    lines = []
    for at, (rule, identity, verdict) in enumerate(verdicts[:told]):
        if verdict != "Holds":
            lines.append(f"{'fail' if verdict == 'Fails' else 'undecided'} {rule} {identity}")
        if [rule] != [following[0] for following in verdicts[at + 1 : at + 2]]:
            said = [word for name, _, word in verdicts if name == rule]
            counts = f"holds {said.count('Holds')} fails {said.count('Fails')} undecided {said.count('Undecided')}"
            lines.append(f"rule {rule} checked {len(said)} {counts}")
    if told == len(verdicts):
        said = [word for _, _, word in verdicts]
        lines.append(f"total fails {said.count('Fails')} undecided {said.count('Undecided')}")
    return lines


def verdicts_of_catalogue(room, _shows, objects, rules, wanted, charges):
    """What rules say of the objects of a delivery for the catalogue, `RULE OBJECT VERDICT, ..`, each for so many charges: a
    job is granted these for one object after another."""
    verdicts, each = [said.split(" ") for said in wanted.split(", ")], int(charges)
    last, replies = len(verdicts), ["job 0"]
    for told in range(1, last + 1):
        replies += [f"{'over' if told == last else 'paused'} 0 {told * each}", *report_of(verdicts, told)]
    case.write(room, "script", script(["enter", *[f"grant 0 {each}", "lines 0"] * last]))
    case.write(room, "rules.code", file_of_rules(rules))

    def found(answer):
        first, _, other = answer.out.decode().partition("job 1\n")
        return first.splitlines(), in_pieces(other)

    inputs = [catalogue.MODEL, catalogue.delivery(room, objects), "rules.code", "script"]
    return case.Case(["ocl_check", "desk", *inputs], (replies, (last * each, report_of(verdicts, last))), found)


# Of a type, its kind and how its elements are written.
TYPES = {"Integer": ("Integer", "{}"), "String": ("String", '"é{}"'), "Mood": ("Mood::", '"e{}"')}

# Steps from one element to the next, in a first order and in a second: primes, of which no count is a multiple.
ONE, OTHER = 7919, 104_729


def elements(step, count, first=0):
    """So many elements from a first one on, in an order."""
    return [at * step % count + first for at in range(count)]


@functools.cache
def long_box(written, count):
    """The delivery of a box with so many elements of a type, and as many parts.

    It has the same elements in two orders, `one` and `other`; `less` has another than the last of `other`, `far` others only,
    and `near` others but one. The Bags have each element twice: those of `one`, then those of `other` (`pairs`), or the other
    way round (`back`); `more` has the first where `back` has the last, and `wrong` one that isn't there. `again` ends with its
    first element. The ends `parts` and `turned` have all parts, in both orders."""
    one, other, far = elements(ONE, count), elements(OTHER, count), elements(ONE, count, count)
    lists = {
        "one": one,
        "other": other,
        "less": other[:-1] + [count],
        "far": far,
        "near": far[:-1] + [0],
        "pairs": one + other,
        "back": other + one,
        "more": other + one[:-1] + [0],
        "wrong": other + one[:-1] + [count],
        "again": one + [0],
    }
    features = {name: ",".join(map(TYPES[written][1].format, numbers)) for name, numbers in lists.items()}
    features |= {"parts": ",".join(f'"p{at}"' for at in one), "turned": ",".join(f'"p{at}"' for at in other)}
    box = ",".join(f'"{name}":[{values}]' for name, values in features.items())
    parts = "".join(f',{{"id":"p{at}","class":"Part","features":{{}}}}' for at in range(count))
    return f'{{"model":"boxes","objects":[{{"id":"b","class":"Box","features":{{{box}}}}}{parts}]}}'


# What words of the rules of long boxes stand for: the number whose digits the elements are; null in the place of each number
# below 3; and of each number whether it is below another.
SHORT = {
    "{digits}": "int 0; fold Integer 7; get 2; int 31; mul; get 1; add; int 1000003; mod",
    "{nulls below 3}": "collect 6; get 1; int 3; lt; if Integer 1 1; null; get 1",
    "{each below 5}": "collect 3; get 1; int 5; lt",
    "{each below 6}": "collect 3; get 1; int 6; lt",
}


def holds_of_long_box(room, rule, written, count):
    """A rule that holds of a box with so many elements of a type."""
    model = (INPUTS / "long-boxes.model.json").read_text(encoding="utf-8").replace("TYPE", written)
    files = [
        case.write(room, f"{written}.model", model),
        case.write(room, f"{written}.{count}", long_box(written, count)),
        case.write(room, f"{written}.code", file_of_rule("Box", rule.replace("KIND", TYPES[written][0]))),
    ]

    def found(answer):
        return f"{count} of {written}: {'holds' if answer.status == 0 else answer}"

    return case.Case(["ocl_check", "judge", *files], f"{count} of {written}: holds", found)


def rule_of_a_long_box(room, _shows, count, code, wanted):
    """A rule of a box with so many Integers: its verdict and its charges."""
    model = (INPUTS / "long-boxes.model.json").read_text(encoding="utf-8").replace("TYPE", "Integer")
    case.write(room, "script", script(["enter", f"grant 0 {MOST}", "lines 0"]))
    files = [
        case.write(room, "long.model", model),
        case.write(room, "long.delivery", long_box("Integer", int(count))),
        case.write(room, "long.code", file_of_rule("Box", code)),
    ]
    return case.Case(["ocl_check", "desk", *files, "script"], wanted, box_answer)


def holds_of(boxes):
    def form(room, _shows, rule):
        for word, code in SHORT.items():
            rule = rule.replace(word, code)
        return several(room, [holds_of_long_box(room, rule, *box) for box in boxes])

    form.__doc__ = f"A rule that holds of boxes with so many elements of a type: {boxes}."
    return form


COLLECTIONS = "Set, OrderedSet, Bag, Sequence"
SOME = [("Integer", count) for count in (7, 8, 9, 17, 1000)]
TWO_OR_MORE = [
    ("Integer", 2), *SOME, ("Integer", 2000),
    ("String", 2), ("String", 9), ("String", 17), ("String", 1000), ("String", 2000),
    ("Mood", 2), ("Mood", 9), ("Mood", 17),
]
FORMS = {
    "rule of a box": rule_of_a_box,
    "rule of a box, each kind of collection": of_each(COLLECTIONS, rule_of_a_box),
    "rule of a box, Set and Bag": of_each("Set, Bag", rule_of_a_box),
    "rule of a box, OrderedSet and Sequence": of_each("OrderedSet, Sequence", rule_of_a_box),
    "rule of a box, Bag and Sequence": of_each("Bag, Sequence", rule_of_a_box),
    "rule of a box, null and invalid": of_each("null, invalid", rule_of_a_box),
    "rule of a box, each of": of_each(None, rule_of_a_box),
    "rule of a long box": rule_of_a_long_box,
    "verdicts": verdicts_of_catalogue,
    "holds of any elements": holds_of([("Integer", 0), ("Integer", 1), *TWO_OR_MORE]),
    "holds of one element or more": holds_of([("Integer", 1), *TWO_OR_MORE]),
    "holds of two elements or more": holds_of(TWO_OR_MORE),
    "holds of some numbers": holds_of(SOME),
    "holds of some numbers and of many": holds_of([*SOME, ("Integer", 2000)]),
    "holds of what is gathered from forty numbers": holds_of([("Integer", 40)]),
}
