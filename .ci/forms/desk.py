"""Scripts of calls to a desk, and its replies."""
import re

import case
import catalogue
from assembly import file_of_rules

DEEP_ENOUGH = "Mantelbuis d: self; attr Mantelbuis.omvat; forall 4; get 1; attr KabelOfLeiding.diepte; int 600; ge"
DUCT = "M1 omvat E1 E2; E1 diepte 600; E2"


def script_of(calls):
    """The script that is written with `/` for a line feed, and with `\\xff` for a byte."""
    return re.sub(r"\\x(..)", lambda byte: bytes.fromhex(byte[1]).decode(errors="surrogateescape"), calls.replace("/", "\n"))


def said(answer):
    """The replies, with ` / ` between their lines, `nothing`, or `line 2` for the line that is no call."""
    out = answer.out.decode().removesuffix("\n")
    if answer.status == 2 and re.fullmatch(r"refused script \d+", out):
        return out.removeprefix("refused script").replace(" ", "line ")
    return (out.replace("\n", " / ") or "nothing") if answer.status == 0 else str(answer)


def command(room, objects, rules, script, name="script"):
    case.write(room, "rules.code", file_of_rules(rules))
    inputs = [catalogue.MODEL, catalogue.delivery(room, objects), "rules.code"]
    return ["ocl_check", "desk", *inputs, case.write(room, name, script)]


def replies(room, _shows, objects, rules, calls, wanted):
    """The replies to the calls of a script, where each job is the report of rules on a delivery for the catalogue."""
    return case.Case(command(room, objects, rules, script_of(calls)), wanted, said)


def replies_on_duct(room, shows, calls, wanted):
    """The replies to the calls of a script, where each job judges one duct, for 14 charges."""
    return replies(room, shows, DUCT, DEEP_ENOUGH, calls, wanted)


def dice():
    """Numbers that look random, the same each time."""
    state = 1
    while True:
        state = (state * 6_364_136_223_846_793_005 + 1_442_695_040_888_963_407) % 2**64
        yield state >> 33


def random_calls(jobs, count):
    """Calls to so many jobs, mostly grants of 0 to 5; once in 64 times a job is withdrawn. `{}` is for the job's number."""
    numbers = dice()
    for _ in range(count):
        job, number = next(numbers) % jobs, next(numbers) % 64
        yield job, f"grant {{}} {number % 6}" if number > 13 else "lines {}" if number > 0 else "withdraw {}"


def as_if_alone(room, _shows, jobs, count):
    """So many jobs, and random calls to them: each job is answered as it is where it is alone. Behind each call stands a grant
    to one job more, whose reply is told from all others."""
    jobs, calls = int(jobs), list(random_calls(int(jobs), int(count)))

    def script(entered, made):
        lines = [f"{call.format(job)}\ngrant {entered} 0" for job, call in made]
        return "\n".join(["enter"] * (entered + 1) + lines)

    def replies_in(answer, entered):
        """The replies to the calls, without the jobs' numbers."""
        out = re.sub(r"^(job|paused|over|withdrawn) (?!%d)\d+" % entered, r"\1", answer.out.decode(), flags=re.MULTILINE)
        return out.removeprefix("job\n" * entered + f"job {entered}\n").split(f"paused {entered} 0\n")[:-1]

    def others(answer):
        among = replies_in(answer, jobs)
        found = [] if len(among) == len(calls) else [f"{len(among)} replies"]
        for job in range(jobs):
            made = [(0, call) for called, call in calls if called == job]
            alone = replies_in(case.run(room, command(room, DUCT, DEEP_ENOUGH, script(1, made), f"script{job}")), 1)
            if alone != [reply for reply, (called, _) in zip(among, calls) if called == job] or not alone:
                found.append(f"job {job} is answered otherwise")
        return found

    return case.Case(command(room, DUCT, DEEP_ENOUGH, script(jobs, calls)), [], others)


FORMS = {"replies": replies, "replies on a duct": replies_on_duct, "jobs as if alone": as_if_alone}
