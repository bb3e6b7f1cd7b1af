"""Class models: whether they are read, names, old names, and the kinds of features."""
import answers
import assembly
import case
import shorthand

# as docs/use/class-model.md numbers them
FAULTS = ["read", "NotJson", "Shape", "DuplicateName", "UnknownName", "Cycle", "FeatureClash", "BadMultiplicity", "Limit"]

# A owns x; B and C are below it and own y and z; D is below both; N stands alone and owns w.
FIVE = "A (x : Integer 0..1); B < A (y : Integer 0..1); C < A (z : Integer 0..1); D < B C; N (w : Integer 0..1)"
RENAMED = shorthand.model("E = l", FIVE, more=shorthand.renames("A.o -> x; O -> A; N.x -> w; P -> B; B.p -> y"))
OBJECTS = 'A A; B B; C C; D D {"x":1,"y":2,"z":3}; N N {"w":4}'
VALUES = {"x": 1, "y": 2, "z": 3, "w": 4}

CATALOGUE = answers.ROOT / "examples/catalogue.json"
PIPES = shorthand.model(
    "Theme = gas",
    "abstract Pipe (depth : Integer 0..1, title : String 0..1, names : String 0..* ordered repeated); Gas < Pipe; "
    "Net (theme : Theme 1..1)",
    "parts: Net.pipes 0..* -> Pipe.net 0..1",
)
# as docs/use/language.md numbers the faults of types
TYPES = ["typed", "UnknownName", "WrongType", "NoCommonType", "NestedCollection", "NotBoolean"]


def reading(room, document, answer):
    """A class model is read, or refused with a fault by its name."""
    case.write(room, "model.json", document)
    case.write(room, "none.code", assembly.NO_RULES)
    wanted = (0, "accepted 0\n") if answer == "read" else (2, f"refused model {FAULTS.index(answer)}\n")
    return case.Case(["ocl_check", "verify", "model.json", "none.code"], wanted)


def as_text(room, _, text, answer):
    """Reading this text, in which \\xff is that byte, answers so; `N times X` is X so often."""
    return reading(room, "".join(shorthand.spread(text)).replace("\\xff", "\udcff"), answer)


def members(room, _, more, answer):
    """Reading a class model with these members behind the first four answers so."""
    return reading(room, shorthand.model(more="," + more), answer)


def class_model(room, _, enumerations, classes, associations, answer):
    """Reading a class model answers so."""
    return reading(room, shorthand.model(enumerations, classes, associations), answer)


def enumerations(room, shows, cell, answer):
    """Reading a class model of these enumerations answers so."""
    return class_model(room, shows, cell, "-", "-", answer)


def classes(room, shows, cell, answer):
    """Reading a class model of these classes answers so."""
    return class_model(room, shows, "-", cell, "-", answer)


def associations(room, shows, cell, answer):
    """Reading a class model of a class A, with these associations, answers so."""
    return class_model(room, shows, "-", "A", cell, answer)


def no_name(room, word):
    """A reserved word, or a text that is no identifier, can't be the name of a literal."""
    return enumerations(room, word, f"E = {word}", "Shape")


def class_name(room, shows, letters, answer):
    """Reading a class model with a class whose name has so many letters answers so."""
    return classes(room, shows, "x" * int(letters), answer)


def own_name(room, _, characters, answer):
    """Reading a class model whose own name has so many characters, of two bytes each, answers so."""
    return reading(room, shorthand.model(name="é" * int(characters)), answer)


def old_names(room, _, classes, old, answer):
    """Reading a class model with an enumeration E and these old names answers so."""
    return reading(room, shorthand.model("E = l", classes, more=shorthand.renames(old)), answer)


def old_names_of_five(room, shows, old, answer):
    """Reading a class model of five classes with these old names answers so."""
    return old_names(room, shows, FIVE, old, answer)


def class_by_name(room, _, name, objects):
    """The objects that code judges whose context class has this name, of one object of each class; none where it names none."""
    write_five(room)
    case.write(room, "r.code", assembly.file_of_rule(name, "false"))
    ids = objects.split()
    report = "".join(f"fail r {it}\n" for it in ids)
    report += f"rule r checked {len(ids)} holds 0 fails {len(ids)} undecided 0\ntotal fails {len(ids)} undecided 0\n"
    wanted = (2, "refused verify 1 0 0\n") if objects == "none" else (1, report)
    return case.Case(["ocl_check", "judge", "model.json", "five.json", "r.code"], wanted)


def feature_by_name(room, _, symbol, feature):
    """The feature that code reads by a class's and a feature's name, from an object of D, or of N for a name of N; or none."""
    write_five(room)
    value = VALUES.get(feature, 0)
    context = "N" if symbol.startswith("N.") else "D"
    case.write(room, "r.code", assembly.file_of_rule(context, f"self; attr {symbol}; int {value}; eq Integer"))
    report = "rule r checked 1 holds 1 fails 0 undecided 0\ntotal fails 0 undecided 0\n"
    wanted = (2, "refused verify 1 0 1\n") if feature == "none" else (0, report)
    return case.Case(["ocl_check", "judge", "model.json", "five.json", "r.code"], wanted)


def write_five(room):
    case.write(room, "model.json", RENAMED)
    case.write(room, "five.json", shorthand.delivery(OBJECTS))


def typing(room, model, rule, answer):
    """A rule `CLASS: EXPRESSION` is typed over a class model, or refused at the token behind its `^` with a fault of types."""
    case.write(room, "model.json", model)
    context, expression = rule.split(": ", 1)
    text = f"context {context} inv: {expression}"
    case.write(room, "r.rules", text.replace("^", ""))
    wanted = (0, "compiled 1\n") if answer == "typed" else (2, f"refused types {TYPES.index(answer)} 0 {text.index('^')}\n")
    return case.Case(["ocl_check", "compile", "model.json", "r.rules", "r.code"], wanted)


def present_names(room, _, rule, answer):
    """Types over the class model with old names answer so."""
    return typing(room, RENAMED, rule, answer)


def catalogue(room, _, rule, answer):
    """Types over the shipped class model answer so."""
    return typing(room, CATALOGUE.read_bytes(), rule, answer)


def pipes(room, _, rule, answer):
    """Types over pipes, of which gas pipes are some, and nets answer so."""
    return typing(room, PIPES, rule, answer)


def value_of(kind):
    """Code for a value of a kind."""
    return f"null; ascoll {kind}" if "(" in kind else f"true; if {kind} 1 1; null; null"


def fits(room, _, kind, wanted, answer):
    """Whether code may compare two values of a kind as if they were of another: where its operands fit that."""
    case.write(room, "model.json", PIPES)
    code = f"{value_of(kind)}; {value_of(kind)}; eq {wanted}"
    case.write(room, "r.code", assembly.file_of_rule("Net", code))
    line = f"refused verify 3 0 {code.count('; ')}\n"
    return case.Case(["ocl_check", "verify", "model.json", "r.code"], (0, "accepted 1\n") if answer == "fits" else (2, line))


def compiled(room, _, expression, code):
    """What a rule on gas pipes is compiled to."""
    case.write(room, "model.json", PIPES)
    case.write(room, "r.rules", f"context Gas inv r: {expression}")

    def found(answer):
        return answer.status, answer.out, (room / "r.code").read_bytes().hex()

    wanted = (0, b"compiled 1\n", assembly.file_of_rule("Gas", code).hex())
    return case.Case(["ocl_check", "compile", "model.json", "r.rules", "r.code"], wanted, found)


FORMS = {
    "class model as text": as_text,
    "members of a class model": members,
    "class model": class_model,
    "enumerations": enumerations,
    "classes": classes,
    "associations": associations,
    "reserved word": no_name,
    "no identifier": no_name,
    "letters of a class's name": class_name,
    "characters of a class model's own name": own_name,
    "class model with old names": old_names,
    "old names among A, B, C, D and N": old_names_of_five,
    "class by its name in code": class_by_name,
    "feature by its name in code": feature_by_name,
    "text on a class model with old names": present_names,
    "text on the catalogue": catalogue,
    "text on pipes": pipes,
    "kind that fits": fits,
    "compiled on pipes": compiled,
}
