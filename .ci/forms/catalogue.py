"""The catalogue of cables, pipes, ducts and nets (examples/catalogue.json), and deliveries for it in short."""
import json
import re

import answers
import case

MODEL = str(answers.ROOT / "examples" / "catalogue.json")

# By the letter that its id begins with, an object's class and the features that it must have.
CLASSES = {
    "E": ("Elektriciteitskabel", {"identificatie": "e", "spanning": 400}),
    "P": ("Waterleiding", {"identificatie": "p", "diameter": 90}),
    "M": ("Mantelbuis", {"identificatie": "m", "diameter": 110}),
    "N": ("Utiliteitsnet", {"thema": "water"}),
}
NUMBERS = ("diepte", "spanning", "diameter")
ENDS = ("omvat", "leidingen")


def feature_of(words):
    """A feature and its value, of `diepte 600`, `thema riool` or `omvat E1 E2`."""
    name, *values = words.split(" ")
    if name in ENDS:
        return name, values
    return name, int(values[0]) if name in NUMBERS else values[0]


def objects_of(objects):
    """The objects of `M1 omvat E1 E2; E1 diepte 600, spanning 1; 7 cables`; none of `nothing`."""
    for item in [] if objects == "nothing" else objects.split("; "):
        if count := re.fullmatch(r"(\d+) cables", item):
            yield from objects_of("; ".join(f"E{number}" for number in range(int(count[1]))))
            continue
        identity, _, written = item.partition(" ")
        name, features = CLASSES[identity[0]]
        features = features | dict(map(feature_of, filter(None, written.split(", "))))
        yield {"id": identity, "class": name, "features": features}


def delivery(room, objects):
    """Writes the delivery of these objects."""
    return case.write(room, "delivery.json", json.dumps({"model": "imkl-profile", "objects": list(objects_of(objects))}))
