"""Code files (docs/formats/code-file.md) that are read back as the expressions that their rules compute."""
import struct

from assembly import COLLECTIONS, ELEMENTS, INSTRUCTIONS

# By its opcode each instruction's word and the forms of its fields.
WORDS = {opcode[0]: (word, forms) for word, (opcode, forms) in INSTRUCTIONS.items()}
WORDS[4] = "bool", ["truth"]
COLLECTION_WORDS = {digit >> 4: word for word, digit in COLLECTIONS.items()}
ELEMENT_WORDS = {digit: word for word, digit in ELEMENTS.items()}
SYMBOLS = {1: "{}", 2: "{}", 3: "{}.{}", 4: "{}::{}"}


class Reader:
    """A code file that is read, with names in place of the numbers of texts and symbols."""

    def __init__(self, data):
        self.data, self.at = data, 6
        self.texts = [self.take(self.number()).decode() for _ in range(self.number())]
        self.symbols = [self.named() for _ in range(self.number())]
        self.rules = [self.rule() for _ in range(self.number())]

    def take(self, count):
        self.at += count
        return self.data[self.at - count : self.at]

    def number(self):
        return struct.unpack(">H", self.take(2))[0]

    def named(self):
        """A symbol: a class `Cable`, an enumeration `Thema`, a feature `Cable.depth`, a literal `Thema::water`."""
        form = SYMBOLS[self.take(1)[0]]
        return form.format(*(self.texts[self.number()] for _ in range(form.count("{}"))))

    def field(self, form):
        if form == "number":
            return self.number()
        if form == "integer":
            return struct.unpack(">q", self.take(8))[0]
        if form == "truth":
            return "true" if self.take(1)[0] else "false"
        if form == "text":
            return self.texts[self.number()]
        if form == "symbol":
            return self.symbols[self.number()]
        collection, element = divmod(self.take(1)[0], 16)
        element = ELEMENT_WORDS[element] if element in ELEMENT_WORDS else self.symbols[self.number()]
        return f"{COLLECTION_WORDS[collection]}({element})" if collection else element

    def instruction(self):
        word, forms = WORDS[self.take(1)[0]]
        return [word, *map(self.field, forms)]

    def rule(self):
        """A rule's name, its context class and its instructions."""
        return self.texts[self.number()], self.symbols[self.number()], [self.instruction() for _ in range(self.number())]


# What the trees of expressions call an instruction, and how many operands it takes.
OPERATORS = {
    word: (name, count)
    for count, names in [
        (1, "neg Negate, abs Absolute, not Not, undef IsUndefined, isinv IsInvalid, tlen CharacterCount, size ElementCount, "
            "isempty IsEmpty, sum Sum, asset AsSet, kindof IsKindOf, typeof IsTypeOf, astype AsType"),
        (2, "add Add, sub Subtract, mul Multiply, div Divide, mod Modulo, min Minimum, max Maximum, lt Less, le LessEqual, "
            "gt Greater, ge GreaterEqual, and And, or Or, xor Xor, implies Implies, eqx BothNull, eq Equal, "
            "includes Includes, count Occurrences, incall IncludesAll, excall ExcludesAll"),
        (3, "substr Substring"),
    ]
    for word, name in (it.split() for it in names.split(", "))
}
ITERATIONS = dict(it.split() for it in (
    "forall ForAll, exists Exists, one One, select Select, reject Reject, collect Collect, collectflat CollectFlat, "
    "isunique IsUnique, fold Fold").split(", "))
CONSTANTS = {
    "self": "$0", "get": "${}", "int": "{}", "bool": "{}", "text": "'{}'", "enum": "{}", "null": "null",
    "invalid": "invalid", "all": "all({})",
}


def parts_of(code, at, end):
    """The tree that instructions of a body compute, as its parts in order."""
    stack = []
    while at < end:
        word, *fields = code[at]
        at += 1
        if word in CONSTANTS:
            stack.append([CONSTANTS[word].format(*fields)])
        elif word == "attr":
            stack[-1].append("." + fields[0].split(".")[1])
        elif word == "ascoll":
            stack[-1].append(f".as[{fields[0]}]")
        elif word == "let":
            stack[-1] = ["let(", *stack[-1], " in ", *parts_of(code, at, at + fields[0]), ")"]
            at += fields[0]
        elif word == "if":
            kind, first, second = fields
            then = parts_of(code, at, at + first)
            other = parts_of(code, at + first, at + first + second)
            stack[-1] = [f"if[{kind}](", *stack[-1], ", ", *then, ", ", *other, ")"]
            at += first + second
        elif word in ITERATIONS:
            *kinds, length = fields
            start = ["(", *stack.pop(), ")"] if word == "fold" else []
            name = "." + ITERATIONS[word] + "".join(f"[{kind}]" for kind in kinds)
            stack[-1] += [name, *start, "{", *parts_of(code, at, at + length), "}"]
            at += length
        else:
            name, count = OPERATORS[word]
            operands = stack[len(stack) - count + 1 :]
            del stack[len(stack) - count + 1 :]
            stack[-1] += [f".{name}" + "".join(f"[{field}]" for field in fields), "("]
            for number, operand in enumerate(operands):
                stack[-1] += [", "] * (number > 0) + operand
            stack[-1].append(")")
    (tree,) = stack
    return tree


def trees_of(data):
    """For each rule of a code file its name, its context class and its tree: `$1` is variable 1, an operation stands behind its
    first operand with the others in parentheses, a body in braces."""
    return [(name, context, "".join(parts_of(code, 0, len(code)))) for name, context, code in Reader(data).rules]
