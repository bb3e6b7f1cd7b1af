"""Reports of rules on deliveries."""
import case
import catalogue
from assembly import file_of_rules


def report(room, _shows, objects, rules, lines):
    """The report of rules on a delivery for the catalogue, with ` / ` between its lines, and the status that it ends with."""
    case.write(room, "rules.code", file_of_rules(rules))
    status = 0 if lines.endswith("total fails 0 undecided 0") else 1
    words = ["ocl_check", "judge", catalogue.MODEL, catalogue.delivery(room, objects), "rules.code"]
    return case.Case(words, (status, lines.replace(" / ", "\n") + "\n"))


FORMS = {"report": report}
