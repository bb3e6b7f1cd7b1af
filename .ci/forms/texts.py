"""Rule texts: which are read, and which are refused where."""
import json

import case
import inputs
import trees
from notation import parts_of

TEXT_FLAWS = "BadCharacter OpenString BadEscape NumberTooLarge OpenComment Syntax TooDeep DuplicateRule".split()
TYPE_FLAWS = "UnknownName WrongType NoCommonType NestedCollection NotBoolean UnknownOperation WrongArgumentCount".split()
COMPILE = ["ocl_check", "compile", "model.json", "rules.ocl", "rules.code"]
NO_CLASSES = '{"model":"m","enums":[],"classes":[],"associations":[]}'


def outcome(answer):
    """A refusal as `Syntax at 18` or `WrongType at 24`; else the first line."""
    line = case.first_line(answer)
    flaws = {"refused text": TEXT_FLAWS, "refused types": TYPE_FLAWS}.get(" ".join(line.split()[:2]))
    if flaws is None or (flaws is TYPE_FLAWS and line.split()[3] != "0"):
        return line
    return f"{flaws[int(line.split()[2]) - 1]} at {line.split()[-1]}"


def rule_text(room, shows, row):
    """A text => its fault, `read`, or `no rules`; no class is there, so the types of a text that is read are refused."""
    text, wanted = parts_of(row)
    case.write(room, "model.json", NO_CLASSES)
    case.write(room, "rules.ocl", text)
    known = {"UnknownName at 8": "read", "compiled 0": "no rules"}
    return case.Case(COMPILE, wanted, lambda answer: known.get(outcome(answer), outcome(answer)))


def expression_text(room, shows, row):
    """The same of an expression, before which `context A inv: ` stands."""
    return rule_text(room, shows, "context A inv: " + row)


def first_token(room, shows, row):
    """A text that begins as no rules do => how many characters of it are underlined: those of its first token."""
    text, wanted = parts_of(row)
    case.write(room, "model.json", NO_CLASSES)
    case.write(room, "rules.ocl", text)
    found = lambda answer: f"{case.first_line(answer)}, {answer.err.decode().count('^')} underlined"
    return case.Case(["ocl_explain", *COMPILE[1:]], f"refused text 6 0, {wanted} underlined", found)


def class_of(features):
    """A class model with a class A and these features: `a b Integer, x Integer*, u A`. A star stands for any number."""
    attributes, ends = [], []
    for words in filter(None, features.split(", ")):
        *names, kind = words.split(" ")
        many = {"lower": 0, "upper": None if kind.endswith("*") else 1, "ordered": False}
        for name in names:
            if kind == "A":
                opposite = {"name": f"{name}Of", "lower": 0, "upper": None, "ordered": False}
                ends.append({"name": name, "from": "A", "to": "A", "end": {"name": name, **many}, "opposite": opposite})
            else:
                attributes.append({"name": name, "type": kind.rstrip("*"), **many, "unique": True})
    a = {"name": "A", "abstract": False, "supers": [], "attributes": attributes}
    enums = [{"name": "E", "literals": ["l"]}]
    return json.dumps({"model": "m", "enums": enums, "classes": [a], "associations": ends})


def trees_in(room, answer):
    """Each rule's name, context class and tree, where a code file was written; else None."""
    if not answer.out.startswith(b"compiled"):
        return None
    return trees.trees_of((room / "rules.code").read_bytes())


def tree_found(room):
    """The tree of the one rule that is compiled, else its fault."""

    def found(answer):
        rules = trees_in(room, answer)
        return outcome(answer) if rules is None else rules[0][2]

    return found


def tree(room, shows, features, row):
    """An expression => the tree of its code, or its fault, where the class A has these features."""
    expression, wanted = parts_of(row)
    case.write(room, "model.json", class_of(features))
    case.write(room, "rules.ocl", "context A inv: " + expression)
    return case.Case(COMPILE, wanted, tree_found(room))


def grouping(room, shows, features, row):
    """An expression => the same with every group in parentheses, of which the same code is made."""
    expression, wanted = parts_of(row)
    case.write(room, "model.json", class_of(features))
    case.write(room, "rules.ocl", f"context A inv: ({expression}) = null inv: ({wanted}) = null")

    def found(answer):
        rules = trees_in(room, answer)
        if rules is None:
            return outcome(answer)
        return wanted if rules[0][2] == rules[1][2] else rules[0][2]

    return case.Case(COMPILE, wanted, found)


def node(room, shows, row):
    """An expression that stands at byte 15 => the offset of its node, where a class's name is wanted in its place."""
    expression, wanted = parts_of(row)
    case.write(room, "model.json", class_of(""))
    case.write(room, "rules.ocl", f"context A inv: self.oclIsKindOf({expression})")
    start = len("self.oclIsKindOf(")
    return case.Case(COMPILE, f"refused types 1 0 {int(wanted) + start}", case.first_line)


def core_tree(room, shows, context, row):
    """An expression for a class of tests/inputs/trays.model.json => the tree of its code, or its fault."""
    expression, wanted = parts_of(row)
    inputs.put(room, "model.json", "trays.model.json")
    case.write(room, "rules.ocl", f"context {context} inv: {expression}")
    return case.Case(COMPILE, wanted, tree_found(room))


def rule_trees(room, shows, row):
    """A text for that class model => each rule's name, context class and tree, or the line of its refusal."""
    text, wanted = parts_of(row)
    inputs.put(room, "model.json", "trays.model.json")
    case.write(room, "rules.ocl", text)

    def found(answer):
        rules = trees_in(room, answer)
        if rules is None:
            return case.first_line(answer)
        return "; ".join(f"{name} of {context}: {tree}" for name, context, tree in rules)

    return case.Case(COMPILE, wanted, found)


FORMS = {
    "rule text": rule_text,
    "expression": expression_text,
    "first token": first_token,
    "tree": tree,
    "grouping": grouping,
    "node": node,
    "core tree": core_tree,
    "rule trees": rule_trees,
}
