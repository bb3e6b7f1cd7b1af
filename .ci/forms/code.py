"""Code files: the output of `verify` and `list`."""
import dataclasses
import re

import answers
import case
import catalogue
from assembly import bytes_of, file_of_rule, file_of_rules
from several import of_each, several

THINGS = str(answers.ROOT / "tests/inputs/things.model.json")
RENAMED_THINGS = str(answers.ROOT / "tests/inputs/things-renamed.model.json")

# The faults of code files and of code, by their numbers from 1.
CODE_FLAWS = "Magic Version Truncated BadOpcode BadText BadNumber Limit Trailing".split()
VERIFY_FLAWS = "NoSuchName MissingOperand WrongKind BadVariable BadNesting LeftOver StackLimit NestLimit".split()


def write_code(room, data):
    """Writes a code file under a name that isn't taken."""
    return case.write(room, f"{sum(1 for _ in room.iterdir())}.code", data)


def outcome(answer):
    """What verifying answers, in words: `accepted 1`, `Truncated at 26`, `LeftOver at 2` (in the first rule)."""
    line = case.first_line(answer)
    if answer.status == 2 and (fault := re.fullmatch(r"refused code ([1-8]) (\d+)", line)):
        return f"{CODE_FLAWS[int(fault[1]) - 1]} at {fault[2]}"
    if answer.status == 2 and (fault := re.fullmatch(r"refused verify ([1-8]) 0 (\d+)", line)):
        return f"{VERIFY_FLAWS[int(fault[1]) - 1]} at {fault[2]}"
    return line if answer.status == 0 else (answer.status, answer.out)


def verified(room, model, data, wanted):
    """A code file that is verified for a class model."""
    return case.Case(["ocl_check", "verify", model, write_code(room, data)], wanted, outcome)


def code_file(room, _shows, digits, wanted):
    """A code file of these bytes, verified for the catalogue."""
    return verified(room, catalogue.MODEL, bytes_of(digits), wanted)


def one_instruction(version):
    def form(room, shows, digits, wanted):
        before = f"4f434c42 {version} 0001 0001 61 0001 01 0000 0001 0000 0000 0001"
        return code_file(room, shows, f"{before} {digits}", wanted)

    form.__doc__ = f"A code file of version {version} with a rule a, whose one instruction begins at byte 24."
    return form


def many_rules(room, _shows, count, wanted):
    """A code file of so many rules r0, r1 and so on, of one instruction each."""
    rules = "\n".join(f"KabelOfLeiding r{number}: true" for number in range(int(count)))
    return verified(room, catalogue.MODEL, file_of_rules(rules), wanted)


def rules_in_words(room, _shows, rules, digits):
    """Rules in words, as the rows have them, whose code file has these bytes and is accepted."""
    data = file_of_rules(rules)
    made = verified(room, catalogue.MODEL, data, ("accepted 1", bytes_of(digits).hex()))
    return dataclasses.replace(made, found=lambda answer: (outcome(answer), data.hex()))


def compiled(room, _shows, text, digits):
    """A rule text that is compiled to a code file of these bytes."""
    out = room / "rules.code"
    words = ["ocl_check", "compile", catalogue.MODEL, case.write(room, "rules.ocl", text), out.name]

    def found(answer):
        return (case.first_line(answer), out.read_bytes().hex() if out.exists() else "no file")

    return case.Case(words, ("compiled 1", bytes_of(digits).hex()), found)


def rule_of_a_cable(room, _shows, code, wanted):
    """A rule of a cable, verified: in a file of version 1 where that has its instructions, and in one of version 2."""
    files = {file_of_rule("Cable", code, version) for version in ((2,) if "fold " in code else (1, 2))}
    wanted = "accepted 1" if wanted == "accepted" else wanted
    return several(room, [verified(room, THINGS, data, wanted) for data in sorted(files)])


def let_in_let(room, shows, blocks, wanted):
    """As many LETs in one another as a number says, each with GET of its variable, round nothing."""
    code = ["true"]
    for block in range(1, int(blocks) + 1):
        code += [f"let {2 * (int(blocks) - block) + 1}", f"get {block}"]
    return rule_of_a_cable(room, shows, "; ".join(code), wanted)


def old_names(room, _shows, code, wanted):
    """A rule of a cable, verified for the class model after Cable is Line and the depth of a Thing its level."""
    return verified(room, RENAMED_THINGS, file_of_rule("Cable", code), "accepted 1" if wanted == "accepted" else wanted)


def listed(room, words, wanted, found):
    """What `list` prints of a code file, by lines whose words stand one space apart."""

    def lines(answer):
        return found([" ".join(line.split()) for line in answer.out.decode().splitlines()] or [str(answer)])

    return case.Case(["ocl_explain", "list", *words], wanted, lines)


def last_instruction(lines):
    """What stands in the last line behind the instruction's offset."""
    return lines[-1].partition(" ")[2]


def listed_file(room, _shows, digits, wanted):
    """A code file of these bytes, listed; its lines stand with ` / ` between them."""
    return listed(room, [write_code(room, bytes_of(digits))], wanted, " / ".join)


def listed_instruction(versions):
    def form(room, _shows, digits, wanted):
        before = "0002 0001 41 0002 5f62 0004 01 0001 02 0000 03 0000 0001 04 0000 0001 0001 0000 0000 0001"
        files = [write_code(room, bytes_of(f"4f434c42 {version} {before} {digits}")) for version in versions]
        return several(room, [listed(room, [file], wanted, last_instruction) for file in files])

    form.__doc__ = f"""An instruction of these bytes, listed, in files of the versions {", ".join(versions)}, whose texts are A and
    _b, and whose symbols are the class _b, the enumeration A, the feature A._b and the literal A::_b."""
    return form


def kinds_beside(room, _shows, code, wanted):
    """The last instruction of a rule of old names, listed with the kinds on the stack in the class model of new ones."""
    return listed(room, [write_code(room, file_of_rule("Cable", code)), RENAMED_THINGS], wanted, last_instruction)


FORMS = {
    "code file": code_file,
    "instruction in version 1": one_instruction("0001"),
    "instruction in version 2": one_instruction("0002"),
    "code file of so many rules": many_rules,
    "rules in words": rules_in_words,
    "compiled text": compiled,
    "listed file": listed_file,
    "listed instruction": listed_instruction(["0001", "0002"]),
    "listed instruction of version 2": listed_instruction(["0002"]),
    "rule of a cable": rule_of_a_cable,
    "rule of a cable, each of": of_each(None, rule_of_a_cable),
    "LET in LET": let_in_let,
    "rule of old names": old_names,
    "kinds beside an instruction": kinds_beside,
}
