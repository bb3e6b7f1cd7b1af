"""Rule texts: what they say of objects, and the limits of the code that is made of them."""
import case
import inputs
from notation import parts_of, written_out
from texts import COMPILE

VERDICTS = {
    "Holds": (0, "rule {0} checked 1 holds 1 fails 0 undecided 0\ntotal fails 0 undecided 0\n"),
    "Fails": (1, "fail {0} {1}\nrule {0} checked 1 holds 0 fails 1 undecided 0\ntotal fails 1 undecided 0\n"),
    "Undecided": (1, "undecided {0} {1}\nrule {0} checked 1 holds 0 fails 0 undecided 1\ntotal fails 0 undecided 1\n"),
}


def report_of(verdict, rule, object):
    """The status and the whole report where one rule judges one object; else the status 2 and a line."""
    status, lines = VERDICTS.get(verdict, (2, verdict + "\n"))
    return status, lines.format(rule, object)


def verdict_of(model, delivery, context, object):
    """A form: an expression => what it says of the one object of its context class."""

    def form(room, shows, row):
        expression, verdict = parts_of(row)
        names = inputs.put(room, "model.json", model), inputs.put(room, "delivery.json", delivery)
        rules = case.write(room, "rules.ocl", f"context {context} inv r: {expression}")
        return case.Case(["ocl_check", "judge", "--text", *names, rules], report_of(verdict, "r", object))

    return form


def limit(room, shows, wanted, text):
    """The first line that `compile` answers to a text for the boxes."""
    inputs.put(room, "model.json", "boxes.model.json")
    case.write(room, "rules.ocl", written_out(text))
    return case.Case(COMPILE, wanted, case.first_line)


FORMS = {
    "verdict of the box": verdict_of("boxes.model.json", "boxes.delivery.json", "Box", "b"),
    "verdict of the numbers": verdict_of("numbers.model.json", "numbers-of-one.delivery.json", "Box", "B1"),
    "limit of code": limit,
}
