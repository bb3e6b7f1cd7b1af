"""What rules may be charged, and which are within a budget."""
import re

import answers
import case
import catalogue
from assembly import file_of_rule, file_of_rules

BOXES = [str(answers.ROOT / f"tests/inputs/bounded-boxes.{part}.json") for part in ("model", "delivery")]


def nested(rules):
    """The rules, in which `{3 deep}` is `true` in three iterations over all cables, pipes and ducts in one another."""

    def code(deep):
        depth = int(deep[1])
        return "".join(f"all KabelOfLeiding; forall {2 * inside + 1}; " for inside in reversed(range(depth))) + "true"

    return re.sub(r"\{(\d+) deep\}", code, rules)


def bounds(answer):
    """The bounds, `a 1, b over`; of another answer than these itself."""
    if answer.status != 0:
        return str(answer)
    return ", ".join(line.removeprefix("bound ") for line in answer.out.decode().splitlines()) or "nothing"


def admission(answer):
    """How many objects each rule judged, `a for 3, b for 0`; or `TooCostly at 1`, where rule 1 isn't within the budget."""
    if refused := re.fullmatch(r"refused cost 1 (\d+)", case.first_line(answer)):
        return f"TooCostly at {refused[1]}"
    if answer.status not in (0, 1):
        return str(answer)
    judged = re.findall(r"^rule (\w+) checked (\d+) ", answer.out.decode(), re.MULTILINE)
    return ", ".join(f"{name} for {count}" for name, count in judged) or "nothing"


def bound_of_a_box(room, _shows, code, wanted):
    """The bound of a rule of a box, over three boxes and five lids."""
    case.write(room, "rule.code", file_of_rule("Box", code))
    return case.Case(["ocl_check", "bound", *BOXES, "rule.code"], f"r {wanted}", bounds)


def bounds_over_catalogue(room, _shows, objects, rules, wanted):
    """The bounds of rules over a delivery for the catalogue."""
    case.write(room, "rules.code", file_of_rules(nested(rules)))
    inputs = [catalogue.MODEL, catalogue.delivery(room, objects), "rules.code"]
    return case.Case(["ocl_check", "bound", *inputs], wanted, bounds)


def within_over_catalogue(room, _shows, objects, rules, budget, wanted):
    """Rules judged within a budget over a delivery for the catalogue."""
    case.write(room, "rules.code", file_of_rules(nested(rules)))
    inputs = [catalogue.MODEL, catalogue.delivery(room, objects), "rules.code"]
    return case.Case(["ocl_check", "judge", "--budget", budget, *inputs], wanted, admission)


def within_over_boxes(room, _shows, rules, budget, wanted):
    """Rules judged within a budget over three boxes and five lids."""
    case.write(room, "rules.code", file_of_rules(rules))
    return case.Case(["ocl_check", "judge", "--budget", budget, *BOXES, "rules.code"], wanted, admission)


FORMS = {
    "bound of a rule of a box": bound_of_a_box,
    "bounds": bounds_over_catalogue,
    "within a budget": within_over_catalogue,
    "boxes within a budget": within_over_boxes,
}
