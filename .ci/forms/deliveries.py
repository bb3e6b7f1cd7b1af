"""Deliveries: whether they are loaded, and what is read of a population."""
import re

import answers
import assembly
import case
import several
import shorthand

# The faults as docs/use/delivery.md numbers them: those of a delivery, the last three with an object, and those of its population.
FAULTS = ["loaded", "NotJson", "Shape", "OtherModel", "UnknownClass", "UnknownFeature", "UnknownTarget"]
POPULATION_FAULTS = ["", "DuplicateId", "AbstractClass", "WrongFeature", "WrongKind", "TooFew", "TooMany", "WrongClass"]
POPULATION_FAULTS += ["DuplicateTarget", "Derived", "Limit", "BadId"]

# Cables with one or two voltages and at most one depth, and ducts that hold at most one line each.
LINES = shorthand.model(
    classes="abstract Line (depth : Integer 0..1); Cable < Line (volts : Integer 1..2); Duct",
    associations="holding: Duct.held 0..1 -> Line.holder 0..1",
)
# Nets that have lines, where no net and no line stands alone.
NETS = shorthand.model(classes="Net; Line", associations="having: Net.lines 1..* -> Line.nets 1..*")
# A class with an attribute of each type.
TYPES = shorthand.model(
    "E = a, b",
    "T (truth : Boolean 0..1, text : String 0..* ordered repeated, number : Integer 0..* ordered repeated, literal : E 0..1)",
)
# Cables of which some are glass fibre, ducts that hold at most two, and bundles of at least three.
DUCTS = shorthand.model(
    "Thema = water, gas, riool",
    "abstract Leiding (naam : String 0..1, diepten : Integer 0..* ordered repeated); Kabel < Leiding (themas : Thema 1..2); "
    "Glasvezel < Kabel (actief : Boolean 0..*); Buis < Leiding; Bundel",
    "omhulling: Buis.omvat 0..2 -> Kabel.ligtIn 0..2; bundeling: Bundel.bundelt 3..* -> Kabel.gebundeld 0..*",
)
# Two superclasses of the same two classes, and below one of these a chain of which only the last has objects of its own.
STATIONS = shorthand.model(
    classes="abstract Net; abstract Gebied; Station < Net Gebied; Put < Gebied Net; Gasstation < Station; "
    "Regelstation < Gasstation; Mast < Net",
)


CATALOGUE = answers.ROOT / "examples/catalogue.json"

# Populations that several rows read, with their class models, and the class model's name where it isn't m.
POPULATIONS = {
    # Three cables and two ducts that hold some of them.
    "five": (
        DUCTS,
        'k Kabel {"themas":["gas","water"]}; b Buis {"omvat":["h","g"]}; g Glasvezel {"themas":["water"]}; '
        'c Buis {"omvat":["g","k"],"diepten":[7,-7,7]}; h Kabel {"themas":["gas"]}',
    ),
    # Attributes of each type.
    "three": (
        DUCTS,
        'k Kabel {"naam":"kabel","themas":"gas"}; h Kabel {"diepten":9,"themas":"water"}; '
        'g Glasvezel {"naam":"glasé","diepten":[5,-3,5],"themas":["riool","water"],"actief":[true]}',
    ),
    # A cable and a glass fibre in two ducts, with attributes of which some aren't written.
    "four": (
        DUCTS,
        'k Kabel {"themas":"gas"}; b Buis {"diepten":[],"omvat":"g"}; g Glasvezel {"themas":["water","riool"],"naam":"glas"}; '
        'c Buis {"diepten":[7,-7,7],"omvat":["g","k"]}',
    ),
    # Values of few among two hundred objects.
    "scattered": (
        DUCTS,
        'o0 Buis {"naam":"first"}; o1 Buis; o2 Buis {"diepten":2}; o3 Buis {"diepten":3}; 126 times p# Buis; '
        'o130 Buis {"diepten":130}; 68 times q# Buis; o199 Buis {"diepten":199,"naam":"last"}',
    ),
    # A class and its subclass have three objects among two hundred of another class.
    "few": (
        DUCTS,
        'g Glasvezel {"themas":"gas"}; 200 times o# Buis; k Kabel {"themas":"gas"}; h Glasvezel {"themas":"gas"}',
    ),
    "none": (DUCTS, "-"),
    "stations": (STATIONS, "r Regelstation; p Put; s Regelstation; q Put"),
    "no stations": (STATIONS, "-"),
    # A value of each type: a truth, texts with escapes, numbers at the edges, and a literal; and little of them.
    "typed": (
        TYPES,
        't T {"literal":"b","number":[-7,9223372036854775807],"text":["a\\"\\\\\\/\\n\\u00e9\\ud83d\\ude00",""],"truth":true}; '
        'u T {"text":"one"}',
    ),
    # Six cables, whose entries have their members in each order.
    "orders": (
        LINES,
        '{"id":"a","class":"Cable","features":{"volts":1}}; {"id":"b","features":{"volts":2},"class":"Cable"}; '
        '{"class":"Cable","id":"c","features":{"volts":3}}; {"class":"Cable","features":{"volts":4},"id":"d"}; '
        '{"features":{"volts":5},"id":"e","class":"Cable"}; {"features":{"volts":6},"class":"Cable","id":"f"}',
    ),
    # Names that are written twice: of each the last counts.
    "twice": (
        LINES,
        '{"id":"a","class":"Cable","features":{"volts":1,"depth":7},"features":{"volts":2}}; '
        '{"class":"Duct","features":{"volts":[3,4],"depth":8,"volts":[5]},"class":"Cable","id":"a","id":"b"}',
    ),
    # Escapes in an id, a class, names of features, a target, a text and a literal.
    "escapes": (
        DUCTS,
        '{"id":"\\u006b","class":"K\\u0061bel","features":{"na\\u0061m":"gl\\u0061s\\u00e9","them\\u0061s":"g\\u0061s"}}; '
        'b Buis {"omvat":"\\u006b"}; c Buis {"omv\\u0061t":["\\u006b"]}',
    ),
    # Two nets that have lines, which stand behind them.
    "nets": (NETS, 'b Net {"lines":["l","k"]}; a Net {"lines":["k"]}; k Line; l Line'),
    # The duct M1 holds the duct M2.
    "duct in duct": (
        CATALOGUE.read_bytes(),
        'M1 Mantelbuis {"identificatie":"m","diameter":110,"omvat":"M2"}; M2 Mantelbuis {"identificatie":"n","diameter":90}',
        "imkl-profile",
    ),
}


def line_of(answer):
    """The line of a refusal that is written `UnknownClass 1`: the fault and the object, if it has one."""
    fault, *place = answer.split(" ")
    number = [FAULTS.index(fault), *place] if fault in FAULTS else [7, *place, POPULATION_FAULTS.index(fault)]
    return "refused delivery " + " ".join(map(str, number)) + "\n"


def loading(room, model, document, answer):
    """A delivery is loaded, or refused with a fault by its name."""
    case.write(room, "model.json", model)
    case.write(room, "delivery.json", document)
    case.write(room, "none.code", assembly.NO_RULES)
    wanted = (0, "total fails 0 undecided 0\n") if answer == "loaded" else (2, line_of(answer))
    return case.Case(["ocl_check", "judge", "model.json", "delivery.json", "none.code"], wanted)


def features(cell):
    return "{" + ("" if cell == "-" else cell) + "}"


def as_text(room, _, text, answer):
    """Loading this text, which may begin `400 spaces, then `, answers so."""
    document = re.sub(r"^(\d+) spaces, then ", lambda found: " " * int(found[1]), text)
    return loading(room, LINES, document, answer)


def cut(room, _, document):
    """No first bytes of a delivery that don't reach its end are JSON."""
    whole = document.encode()
    case.write(room, "model.json", LINES)
    case.write(room, "none.code", assembly.NO_RULES)
    names = [case.write(room, f"{length}.json", whole[:length]) for length in range(len(whole))]
    refused = (2, line_of("NotJson"))
    return several.several(room, [case.Case(["ocl_check", "judge", "model.json", name, "none.code"], refused) for name in names])


def of_lines(room, _, objects, answer):
    """Loading a delivery of these cables and ducts answers so."""
    return loading(room, LINES, shorthand.delivery(objects), answer)


def of_nets(room, _, objects, answer):
    """Loading a delivery of these nets and lines answers so."""
    return loading(room, NETS, shorthand.delivery(objects), answer)


def of_cable(room, shows, written, answer):
    """Loading a cable with these features answers so."""
    return of_lines(room, shows, "c Cable " + features(written), answer)


def of_duct(room, shows, written, answer):
    """Loading a duct d with these features, and two cables, c and e, answers so."""
    cables = 'c Cable {"volts":1}; e Cable {"volts":1}'
    return of_lines(room, shows, f"d Duct {features(written)}; {cables}", answer)


def of_each_type(room, _, written, answer):
    """Loading an object that has an attribute of each type, with these features, answers so."""
    return loading(room, TYPES, shorthand.delivery("t T " + features(written)), answer)


def of_ducts(room, _, objects, answer):
    """Loading a delivery of these cables, ducts and bundles answers so."""
    return loading(room, DUCTS, shorthand.delivery(objects), answer)


def bad_id(room, id):
    """No object can have this id."""
    return loading(room, DUCTS, shorthand.delivery('{"id":"%s","class":"Buis","features":{}}' % id), "BadId 0")


def id_length(room, shows, characters, answer):
    """Loading an object whose id has so many characters answers so."""
    return of_ducts(room, shows, f"{'a' * int(characters)} Buis", answer)


def for_catalogue(room, _, objects, answer):
    """Loading a delivery of these objects for the shipped class model answers so."""
    return loading(room, CATALOGUE.read_bytes(), shorthand.delivery(objects, "imkl-profile"), answer)


def write_population(room, name):
    """Writes a population's class model and delivery; gives the classes of its objects by their ids, but for those in JSON."""
    model, objects, *model_name = POPULATIONS[name]
    case.write(room, "model.json", model)
    case.write(room, "delivery.json", shorthand.delivery(objects, *model_name))
    return dict(item.split(" ")[:2] for item in objects.split("; ") if item[0] not in "-{")


def true_of(room, _, population, objects, rule):
    """The objects of which a condition is true, in the order of the report (none where that is `-`), of `CLASS: CONDITION`."""
    write_population(room, population)
    context, condition = rule.split(": ", 1)
    case.write(room, "r.rules", f"context {context} inv r: not ({condition})")

    def found(answer):
        ids = re.findall(r"^fail r (\S+)$", answer.out.decode(), re.M)
        return (" ".join(ids) or "-") if answer.status in (0, 1) else answer.out

    return case.Case(["ocl_check", "judge", "--text", "model.json", "delivery.json", "r.rules"], objects, found)


def value_of(room, _, population, read, value):
    """The value that is shown of an expression for an object, of `OBJECT: EXPRESSION`."""
    id, expression = read.split(": ", 1)
    context = write_population(room, population)[id]
    case.write(room, "r.rules", f"context {context} inv r: {expression}->size() >= 0")

    def found(answer):
        lines = [it.strip() for it in answer.out.decode().splitlines()]
        return next((it for it in lines if it.startswith(f"{expression} is ")), answer.out)

    return case.Case(["ocl_explain", "why", "model.json", "delivery.json", "r.rules", "r", id], f"{expression} is {value}", found)


def size(room, _, population, what, number):
    """How many objects a class has, or how many values an object has at a feature at most: by the bound of a FORALL over them,
    whose body is charged 1."""
    write_population(room, population)
    context = what.split(".")[0]
    code = f"self; attr {what}; forall 1; true" if "." in what else f"all {what}; forall 1; true"
    case.write(room, "r.code", assembly.file_of_rule(context, code))
    bound = (4 if "." in what else 3) + 2 * int(number)
    return case.Case(["ocl_check", "bound", "model.json", "delivery.json", "r.code"], (0, f"bound r {bound}\n"))


FORMS = {
    "delivery as text": as_text,
    "delivery cut at each byte": cut,
    "delivery of cables and ducts": of_lines,
    "delivery of nets and lines": of_nets,
    "features of a cable": of_cable,
    "features of a duct": of_duct,
    "features of each type": of_each_type,
    "delivery of cables, ducts and bundles": of_ducts,
    "bad id": bad_id,
    "characters of an id": id_length,
    "delivery for the catalogue": for_catalogue,
    "condition that is true": true_of,
    "value that is shown": value_of,
    "size by a bound": size,
}
