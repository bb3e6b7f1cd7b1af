"""What ocl_explain prints on standard error, and its output where that differs from ocl_check's.

The words are in a file of tests/explain: those of a row below a line of `== ` and what the row shows, up to an empty line."""
import functools
import json
import re

import answers
import case
import commands
import inputs
from assembly import file_of_rule
from notation import lines_of, parts_of, written_out

FOLDER = answers.ROOT / "tests/explain"
JUDGED = ["model.json", "delivery.json", "rules.ocl"]


def words_of(file, shows):
    """The words for a row."""
    sections = re.split("^== ", (FOLDER / file).read_text(encoding="utf-8"), flags=re.MULTILINE)
    (words,) = [it.removeprefix(shows + "\n") for it in sections if it.startswith(shows + "\n")]
    return words.removesuffix("\n") if words.endswith("\n\n") or words == "\n" else words


def said(file, words, shows, is_refusal=True):
    """A case of the words on standard error; where there are some, an input is refused."""
    wanted = words_of(file, shows)
    found = lambda answer: (answer.status == 2, answer.err.decode())
    return case.Case(["ocl_explain", *words], (is_refusal and wanted != "", wanted), found)


def judge(room, options, *cells):
    """The words of `judge` over a class model, a delivery and rules."""
    return ["judge", *options, *map(functools.partial(inputs.put, room), JUDGED, cells)]


def of_judge(file, *options, model="catalogue.json", delivery="deep-cable.delivery.json", rules="-", is_refusal=True):
    """A form: what is said of `judge` over these inputs, each None of which a cell stands for."""

    def form(room, shows, *cells):
        rest = iter(cells)
        given = [next(rest) if it is None else it for it in (model, delivery, rules)]
        return said(file, judge(room, options, *given), shows, is_refusal)

    return form


def cut(room, shows, length, digits):
    """Why `judge` refuses the first bytes of min-depth.code and then others."""
    code = "hex " + inputs.bytes_of("min-depth.code")[: int(length)].hex() + digits.removeprefix("-")
    return of_judge("codes.said", rules=None)(room, shows, code)


def hint_of(begin):
    """A form: what stands behind a text's beginning => the last line that is said, which is what to write instead."""

    def form(room, shows, row):
        text, wanted = parts_of(row)
        words = judge(room, ["--text"], "catalogue.json", "deep-cable.delivery.json", begin + text)
        found = lambda answer: (answer.status, answer.err.decode().splitlines()[-1:])
        return case.Case(["ocl_explain", *words], (2, ["  " + wanted]), found)

    return form


def places(room, shows, file, wanted):
    """Where a text of tests/habits is refused, and for what: the line, the column and the fault of each note, `-` for none."""
    text = (answers.ROOT / "tests/habits" / file).read_bytes()
    words = ["compile", inputs.put(room, "model.json", "catalogue.json"), case.write(room, "rules.ocl", text), "out.code"]
    noted = lambda answer: re.findall(r"^rules\.ocl:(\d+:\d+): .*\((\w+ \d+)\)$", answer.err.decode(), flags=re.MULTILINE)
    found = lambda answer: (answer.status, ", ".join(map(" ".join, noted(answer))) or "-")
    return case.Case(["ocl_explain", *words], (0 if wanted == "-" else 2, wanted), found)


def marked(room, shows, faults, text):
    """Where a text is refused, and for what. In the text `‸` stands before each place, and the faults are those of these places."""
    parts = written_out(text).split("‸")
    ends = ["".join(parts[:count]) for count in range(1, len(parts))]
    places = [(end.count("\n") + 1, len(end) - end.rfind("\n"), fault) for end, fault in zip(ends, written_out(faults).split(", "), strict=True)]
    words = ["compile", inputs.put(room, "model.json", "catalogue.json"), case.write(room, "rules.ocl", "".join(parts)), "out.code"]
    noted = lambda answer: re.findall(r"^rules\.ocl:(\d+):(\d+): .*\((\w+ \d+)\)$", answer.err.decode(), flags=re.MULTILINE)
    found = lambda answer: (answer.status, sorted((int(line), int(column), fault) for line, column, fault in noted(answer)))
    return case.Case(["ocl_explain", *words], (2, places), found)


def rule(room, shows, context, code):
    """Why `verify` doesn't accept the code of a rule r."""
    inputs.put(room, "model.json", "catalogue.json")
    case.write(room, "r.code", file_of_rule(context, code))
    return said("codes.said", ["verify", "model.json", "r.code"], shows)


def script(room, shows, script):
    """Why `desk` refuses a script."""
    names = judge(room, [], "catalogue.json", "duct-600-and-none.delivery.json", "duct-depth.words")[1:]
    return said("codes.said", ["desk", *names, case.write(room, "calls", lines_of(script))], shows)


def warning_compiled(room, shows, rules):
    """What is hardly meant in a text that `compile` answers."""
    names = inputs.put(room, "model.json", "catalogue.json"), inputs.put(room, "rules.ocl", rules)
    return said("warnings.said", ["compile", *names, "rules.code"], shows, is_refusal=False)


def silent(room, shows, word, rules):
    """A command that is answered without a word on standard error: `bound` of a code file, or `compile` of a text."""
    names = [inputs.put(room, "model.json", "catalogue.json")]
    names += [inputs.put(room, "delivery.json", "duct-600-and-none.delivery.json")] * (word == "bound")
    names += [inputs.put(room, "rules", rules)] + ["rules.code"] * (word == "compile")
    return case.Case(["ocl_explain", word, *names], (0, b""), lambda answer: (answer.status, answer.err))


def listing(room, shows, model, code):
    """What `list` prints of a code file, with a class model or `-`."""
    names = [inputs.put(room, "r.code", code)] + [inputs.put(room, "model.json", model)] * (model != "-")
    found = lambda answer: (answer.status, answer.out.decode(), answer.err)
    return case.Case(["ocl_explain", "list", *names], (0, words_of("listings.said", shows), b""), found)


def schema(room, shows, model, wanted):
    """The JSON Schema of the deliveries of a class model, but for what each has: its definitions without `id` and `integer`."""
    name = inputs.put(room, "model.json", model)

    def found(answer):
        try:
            definitions = json.loads(answer.out)["$defs"]
        except (ValueError, KeyError):
            return answer.status, answer.out, answer.err
        return answer.status, {it: at for it, at in definitions.items() if it not in ("id", "integer")}, answer.err

    return case.Case(["ocl_explain", "schema", name], (0, json.loads(wanted), b""), found)


def no_schema(room, shows, model):
    """Why no schema is printed for a class model that is refused."""
    return said("inputs.said", ["schema", inputs.put(room, "model.json", model)], shows)


def asked(room, delivery, object, rules):
    """The words of `why` the rule r has its verdict for an object."""
    return ["ocl_explain", "why", *judge(room, [], "catalogue.json", delivery, rules)[1:], "r", object]


def why(room, shows, delivery, object, rules):
    """Why the rule r of a text has its verdict for an object."""
    found = lambda answer: (answer.status, answer.out.decode(), answer.err)
    return case.Case(asked(room, delivery, object, rules), (0, words_of("whys.said", shows), b""), found)


def why_cut(room, shows, lines, delivery, object, rules):
    """So many lines of why the rule r of a text has its verdict for an object."""
    found = lambda answer: (answer.status, answer.out.decode(), answer.err)
    words = [*asked(room, delivery, object, rules), "--lines", lines]
    return case.Case(words, (0, words_of("whys.said", shows), b""), found)


CABLE = '{"id":"%s","class":"Elektriciteitskabel","features":{"identificatie":"e","spanning":400,"diepte":600}}'


def delivery_of(objects):
    """A delivery of these objects."""
    return '{"model":"imkl-profile","objects":[' + ",".join(objects) + "]}"


def why_many(room, shows, count):
    """Why a rule holds for a duct of so many cables, which all decide: ten are shown, and how many more there are."""
    ids = [f"E{it}" for it in range(int(count))]
    names = ",".join(f'"{it}"' for it in ids)
    duct = '{"id":"M1","class":"Mantelbuis","features":{"identificatie":"m","diameter":1,"omvat":[%s]}}' % names
    rules = f"context Mantelbuis inv r: self.omvat->select(k | true)->size() = {count}"
    more, ten = int(count) - 10, ids[:10]
    shown = "Set{" + ", ".join(ten) + f", and {more} more}}"
    lines = ["rule r holds for M1 : Mantelbuis", f"  self.omvat->select(k | true)->size() = {count} is true"]
    lines += [f"    self.omvat->select(k | true)->size() is {count}", f"      self.omvat->select(k | true) is {shown}"]
    lines += [f"        self.omvat is {shown}", *(f"        k is {it} : Elektriciteitskabel" for it in ten), f"        and {more} more", ""]
    found = lambda answer: (answer.status, answer.out.decode(), answer.err)
    words = asked(room, delivery_of([duct, *(CABLE % it for it in ids)]), "M1", rules)
    return case.Case(words, (0, "\n".join(lines), b""), found)


def why_deep(room, shows, count):
    """Why a rule of so many operators, each the source of the next, holds for a cable: each has its line."""
    part = lambda number: "self.diepte" + ".max(1)" * number
    rules = f"context KabelOfLeiding inv r: {part(int(count))} >= 600"
    lines = ["rule r holds for E1 : Elektriciteitskabel", f"  {part(int(count))} >= 600 is true"]
    lines += [f"{'  ' * (level + 2)}{part(int(count) - level)} is 600" for level in range(int(count) + 1)] + [""]
    found = lambda answer: (answer.status, answer.out.decode(), answer.err)
    return case.Case(asked(room, delivery_of([CABLE % "E1"]), "E1", rules), (0, "\n".join(lines), b""), found)


def why_not(room, shows, object, line, rules):
    """Why there is no verdict: the line that is printed, or `-`, and the words on standard error."""
    found = lambda answer: (answer.status, answer.out.decode(), answer.err.decode())
    wanted = 2, lines_of(line), words_of("whys.said", shows)
    return case.Case(asked(room, "duct-600-and-none.delivery.json", object, rules), wanted, found)


def evaluated(room, object, expression):
    """The words of `eval` for an expression in the delivery of examples/network.json; `self` is an object, or none for `-`."""
    names = [inputs.put(room, "model.json", "catalogue.json"), inputs.put(room, "delivery.json", "network.json")]
    return ["ocl_explain", "eval", *names, written_out(expression), *([object] if object != "-" else [])]


def value(room, shows, object, wanted, expression):
    """The value of an expression, and its type."""
    found = lambda answer: (answer.status, answer.out.decode(), answer.err.decode())
    return case.Case(evaluated(room, object, expression), (0, wanted + "\n", ""), found)


def no_value(room, shows, object, expression):
    """Why an expression has no value."""
    found = lambda answer: (answer.status, answer.out.decode(), answer.err.decode())
    return case.Case(evaluated(room, object, expression), (2, "", words_of("evals.said", shows)), found)


def json_report(room, shows, delivery, status, lines, rules):
    """What `judge --json` prints for a text."""
    words = judge(room, ["--text", "--json"], "catalogue.json", delivery, rules)
    return case.Case(["ocl_explain", *words], (int(status), lines_of(lines)))


def explained_report(room, shows, status, options, delivery, rules):
    """What `judge --why` prints for a text, with more options or `-`."""
    more = [] if options == "-" else options.split()
    words = judge(room, ["--text", "--why", *more], "catalogue.json", delivery, rules)
    return case.Case(["ocl_explain", *words], (int(status), words_of("reports.said", shows)), lambda answer: (answer.status, answer.out.decode()))


def explained_rule(room, shows, name, options, delivery, rules):
    """What `why` prints of a rule of a text, with more options or `-`, and the words on standard error."""
    more = [] if options == "-" else options.split()
    words = ["why", *judge(room, [], "catalogue.json", delivery, rules)[1:], name, *more]
    wanted = words_of("reports.said", shows)
    found = lambda answer: (answer.status, answer.out.decode(), answer.err)
    return case.Case(["ocl_explain", *words], (0, wanted, b""), found)


def same(form):
    """A form of ocl_check's commands, for ocl_explain."""

    def by_ocl_explain(room, *cells):
        made = form(room, *cells)
        made.words[0] = "ocl_explain"
        return made

    return by_ocl_explain


FORMS = {
    "hint": hint_of("context Mantelbuis inv a: "),
    "hint of a text": hint_of(""),
    "faults of a text": places,
    "faults at marks": marked,
    "explained hint": of_judge("hints.said", "--text", rules=None),
    "explained text": of_judge("texts.said", "--text", rules=None),
    "explained text and delivery": of_judge("texts.said", "--text", delivery=None, rules=None),
    "explained delivery": of_judge("inputs.said", "--text", delivery=None),
    "explained class model": of_judge("inputs.said", model=None),
    "explained code file": of_judge("codes.said", rules=None),
    "explained cost": of_judge("codes.said", "--text", "--budget", "18", delivery="duct-600-and-none.delivery.json", rules=None),
    "warning": of_judge("warnings.said", "--text", rules=None, is_refusal=False),
    "explained cut code file": cut,
    "explained rule": rule,
    "explained script": script,
    "warning of compile": warning_compiled,
    "no words": silent,
    "listing": listing,
    "schema": schema,
    "no schema": no_schema,
    "value": value,
    "no value": no_value,
    "why": why,
    "why in few lines": why_cut,
    "why of many elements": why_many,
    "why of many parts": why_deep,
    "why not": why_not,
    "report as JSON": json_report,
    "report with explanations": explained_report,
    "findings of a rule": explained_rule,
} | {
    f"{name} of ocl_explain": same(commands.FORMS[name])
    for name in ("judge command", "judge command by text", "bound command", "verify command", "compile command", "desk command")
}
