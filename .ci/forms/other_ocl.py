"""What is read otherwise than in other OCL, on one object: the duct D of tests/inputs/ducts.delivery.json."""
import re

import inputs
import case
from notation import parts_of
from texts import outcome

VERDICTS = {
    "rule r checked 1 holds 1 fails 0 undecided 0": "Holds",
    "fail r D": "Fails",
    "undecided r D": "Undecided",
}
TOKEN = re.compile(r"\w+|->|::|<=|>=|<>|'[^']*'|.")


def token_at(text, offset):
    """The token, or the character, at a byte of a text."""
    rest = text.encode()[offset:].decode()
    return TOKEN.match(rest)[0] if rest else "the end"


def judged(room, text, wanted):
    """A case: the verdict of the rule r of a text on D, or its fault and the token there."""
    names = inputs.put(room, "model.json", "ducts.model.json"), inputs.put(room, "delivery.json", "ducts.delivery.json")
    case.write(room, "rules.ocl", text)

    def found(answer):
        line = outcome(answer)
        fault = re.fullmatch(r"(\w+) at (\d+)", line)
        return f"{fault[1]} at {token_at(text, int(fault[2]))}" if fault else VERDICTS.get(line, line)

    return case.Case(["ocl_check", "judge", "--text", *names, "rules.ocl"], wanted, found)


def expression(room, shows, row):
    """An expression => its verdict on D, or its fault and the token there."""
    text, wanted = parts_of(row)
    return judged(room, "context Duct inv r: " + text, wanted)


def whole_text(room, shows, row):
    """The same of a text whose rule is named r."""
    return judged(room, *parts_of(row))


FORMS = {"expression on the duct": expression, "text on the duct": whole_text}
