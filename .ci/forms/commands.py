"""The commands of ocl_check: what each prints of its inputs, and with which status it ends."""
import case
import inputs
from assembly import file_of_rule, file_of_rules
from notation import lines_of, parts_of, written_out
from verdicts import report_of

TWO_CLASSES = (
    '{"model":"m","enums":[],"classes":[{"name":"A","abstract":false,"supers":[],"attributes":[]},'
    '{"name":"B","abstract":false,"supers":[],"attributes":[]}],"associations":[]}'
)
NAMES = ["model.json", "delivery.json", "rules", "script"]


def answered(status, lines):
    """What is wanted: the status, and the lines of a cell."""
    return int(status), lines_of(written_out(lines))


def command(word, *options, inputs_of=NAMES[:3]):
    """A form: the inputs of a command, its status and what it prints."""

    def form(room, shows, *cells):
        *given, status, lines = cells
        names = [inputs.put(room, name, cell) for name, cell in zip(inputs_of, given)]
        return case.Case(["ocl_check", word, *options, *names], answered(status, lines))

    return form


def judge_within(room, shows, budget, *cells):
    """`judge` with a budget, and then as the other commands."""
    return command("judge", "--budget", budget)(room, shows, *cells)


def judge_text(room, shows, budget, model, delivery, status, lines, text):
    """`judge --text` with a budget, or `-`; the text stands last, since there may be bars in it."""
    options = ["--text", *([] if budget == "-" else ["--budget", budget])]
    return command("judge", *options)(room, shows, model, delivery, text, status, lines)


def judge_catalogue(room, shows, delivery, status, lines, text):
    """`judge --text` of a delivery for the catalogue."""
    return judge_text(room, shows, "-", "catalogue.json", delivery, status, lines, text)


def code_verdict(room, shows, row):
    """Instructions of a rule of KabelOfLeiding => what it says of the cable E1, which has no depth, or the line of a refusal."""
    code, wanted = parts_of(row)
    names = inputs.put(room, "model.json", "cables.model.json"), inputs.put(room, "delivery.json", "one-cable.delivery.json")
    code = case.write(room, "rules.code", file_of_rule("KabelOfLeiding", code))
    return case.Case(["ocl_check", "judge", *names, code], report_of(wanted, "r", "E1"))


def classes(room, shows, text, status, lines):
    """`judge` of no objects by no rules, for a class model of these classes."""
    model = '{"model":"m","enums":[],"classes":[%s],"associations":[]}' % text.removeprefix("-")
    return command("judge")(room, shows, model, "no-objects.delivery.json", "no-rules.code", status, lines)


def cut(room, shows, length, line):
    """`judge` by the first bytes of min-depth.code."""
    code = "hex " + inputs.bytes_of("min-depth.code")[: int(length)].hex()
    return command("judge")(room, shows, "cables.model.json", "no-objects.delivery.json", code, "2", line)


def refusal(room, shows, line, input):
    """The line with which `judge` refuses an input of the sort that the line's second word names. A code file is hexadecimal; what
    the verifier refuses, or a budget of nothing, stands in words, its class first."""
    sort = line.split()[1]
    model, delivery, rules, options = "catalogue.json", '{"model":"imkl-profile","objects":[]}', "", []
    if sort == "model":
        model = input
    elif sort == "delivery":
        delivery = input
    elif sort == "code":
        rules = f"hex {input}"
    elif sort in ("verify", "cost"):
        rules = "code {} r: {}".format(*input.split(" ", 1))
        options = ["--budget", "0"] * (sort == "cost")
    else:
        rules, options = input, ["--text"]
    return command("judge", *options)(room, shows, model, delivery, rules, "2", line)


def nested_lets(room, shows, depth, status, line):
    """`verify` of so many lets, each in the body of the one before it."""
    lets = "".join(f"null; let {2 * left - 1}; " for left in range(int(depth), 0, -1))
    code = f"code Mantelbuis r: {lets}true"
    return command("verify", inputs_of=["model.json", "rules"])(room, shows, "catalogue.json", code, status, line)


def over_objects(room, words, count, code, status, lines):
    """A command over a delivery of so many objects of the class A and none of B, by a rule x of B."""
    case.write(room, "model.json", TWO_CLASSES)
    objects = ",".join(f'{{"id":"a{number}","class":"A","features":{{}}}}' for number in range(count))
    case.write(room, "delivery.json", f'{{"model":"m","objects":[{objects}]}}')
    case.write(room, "rules", file_of_rules(f"B x: {code}"))
    return case.Case(["ocl_check", *words.split(), *NAMES[:3]], answered(status, lines))


def nested(room, shows, words, depth, status, lines):
    """Iterations over 1,000 objects inside each other; `in one over none`: all of them in one over no objects."""
    depth, _, around = depth.partition(" ")
    code = "".join(f"all A; forall {2 * left - 1}; " for left in range(int(depth), 0, -1)) + "true"
    if around:
        code = f"all B; forall {2 * int(depth) + 1}; " + code
    return over_objects(room, words, 1000, code, status, lines)


def doubled(room, shows, words, nots, status, lines):
    """60 iterations over two objects inside each other round BOOL, NOT, NOT, which are charged 3: with the 5 of their iteration
    2^60 times 8, less the outermost 5. A NOT that is charged 4 times stands behind the third iteration, and after the outermost
    so many that are charged once."""
    bodies = [2 * left + 1 + (left > 58) for left in range(60, 0, -1)]
    code = "".join(f"all A; forall {body}; " for body in bodies) + "true; not; not; not" + "; not" * int(nots)
    return over_objects(room, words, 2, code, status, lines)


def renamed(room, shows, renames, delivery, rules, status, lines):
    """`judge` for the catalogue with KabelOfLeiding named Leidingdeel and diepte diepteMm, and these entries of old names; a rule
    text is judged by its text."""
    model = inputs.bytes_of("catalogue.json").decode().replace("KabelOfLeiding", "Leidingdeel").replace('"diepte"', '"diepteMm"')
    model = model.replace('"enums"', '"renames":[%s],"enums"' % renames.removeprefix("-"), 1)
    options = ["--text"] * rules.startswith("context")
    return command("judge", *options)(room, shows, model, delivery, rules, status, lines)


def compiled(room, shows, model, status, line, code, text):
    """What `compile` prints, and the code file that it writes: this one, `some` or `none`."""
    names = inputs.put(room, "model.json", model), inputs.put(room, "rules.ocl", text)
    file = room / "rules.code"
    written = lambda: "none" if not file.exists() else "some" if code == "some" else file.read_bytes()
    found = lambda answer: (answer.status, answer.out.decode(), written())
    wanted = code if code in ("none", "some") else inputs.bytes_of(code)
    return case.Case(["ocl_check", "compile", *names, "rules.code"], (int(status), line + "\n", wanted), found)


def desk(room, shows, model, delivery, code, script, status, lines):
    """`desk` of a script, whose lines ` / ` separates; with a picture of a control character it is the very text."""
    script = written_out(script)
    script = script if set(script) & set("\n\r") else lines_of(script)
    names = [inputs.put(room, *it) for it in zip(NAMES, (model, delivery, code))]
    return case.Case(["ocl_check", "desk", *names, case.write(room, "script", script)], answered(status, lines))


def nested_desk(room, shows, depth, script, status, lines):
    """`desk` of a script, by so many iterations over 1,000 objects inside each other."""
    made = nested(room, shows, "desk", depth, status, lines)
    return case.Case([*made.words, case.write(room, "script", lines_of(script))], made.wanted)


def desk_by_ones(room, shows, delivery, code, row):
    """Grants of 1 to a job for the catalogue, and its lines after each. `CHARGE: LINE / LINE; ..` says which lines there are more
    once so much is spent; with the last the job is over."""
    pieces = [piece.split(": ") for piece in row.split("; ")]
    total = int(pieces[-1][0])
    replies = "job 0\n"
    for spent in range(1, total + 1):
        word = "over" if spent == total else "paused"
        replies += f"{word} 0 {spent}\n" + "".join(lines_of(lines) for charge, lines in pieces if int(charge) <= spent)
    names = [inputs.put(room, *it) for it in zip(NAMES, ("catalogue.json", delivery, code))]
    script = case.write(room, "script", "enter\n" + "grant 0 1\nlines 0\n" * total)
    return case.Case(["ocl_check", "desk", *names, script], (0, replies))


FORMS = {
    "judge command": command("judge"),
    "judge command within a budget": judge_within,
    "judge command by text": judge_text,
    "judge command for the catalogue": judge_catalogue,
    "bound command": command("bound"),
    "verify command": command("verify", inputs_of=["model.json", "rules"]),
    "compile command": compiled,
    "desk command": desk,
    "nested desk": nested_desk,
    "desk command by ones": desk_by_ones,
    "verdict of code": code_verdict,
    "judge command of classes": classes,
    "judge command by a cut file": cut,
    "refused input": refusal,
    "nested lets": nested_lets,
    "nested iterations": nested,
    "doubled iterations": doubled,
    "old names": renamed,
}
