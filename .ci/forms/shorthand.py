"""Class models and deliveries in short.

In a list of items, which `; ` separates (attributes and literals `, `), `N times ITEM` is N of them with the numbers from 0 in
the place of `#`; `-` is the empty list; and an item that begins with `{` is JSON as it stands.

an enumeration    E = a, b
a class           abstract B < A C (x : Integer 0..1, y : String 0..* ordered repeated)
an association    r: A.x 0..* ordered -> B.y 0..1        its source end x belongs to A, its opposite end y to B
an old name       O -> A of a class, A.o -> x of a feature
an object         k Kabel {"naam":"a"}                   id, class, features"""
import re

ENUMERATION = re.compile(r"(\S+) = (.*)")
CLASS = re.compile(r"(abstract )?(\S+?)(?: < ([^(]*?))?(?: \((.*)\))?")
ATTRIBUTE = re.compile(r"(\S+) : (\S+) (\S+)\.\.(\S+)( ordered)?( repeated)?")
ASSOCIATION = re.compile(r"(\S+): (\S+)\.(\S+) (\S+)\.\.(\S+)( ordered)? -> (\S+)\.(\S+) (\S+)\.\.(\S+)( ordered)?")


def spread(item):
    """An item, or the items that `N times` stands for."""
    found = re.fullmatch(r"(\d+) times (.*)", item)
    return [found[2].replace("#", str(number)) for number in range(int(found[1]))] if found else [item]


def listed(cell, write, separator="; "):
    """The JSON of a list of items, without its brackets."""
    items = [] if cell in ("", "-") else [it for item in cell.split(separator) for it in spread(item)]
    return ",".join(it if it.startswith("{") else write(it) for it in items)


def matched(pattern, item):
    found = pattern.fullmatch(item)
    if not found:
        raise ValueError(f"this isn't written as .ci/forms/shorthand.py says: {item}")
    return found


def truth(word):
    return "true" if word else "false"


def upper(word):
    return "null" if word == "*" else word


def enumeration(item):
    name, literals = matched(ENUMERATION, item).groups()
    return '{"name":"%s","literals":[%s]}' % (name, listed(literals, lambda it: f'"{it}"', ", "))


def attribute(item):
    name, kind, low, high, ordered, repeated = matched(ATTRIBUTE, item).groups()
    values = (name, kind, low, upper(high), truth(ordered), truth(not repeated))
    return '{"name":"%s","type":"%s","lower":%s,"upper":%s,"ordered":%s,"unique":%s}' % values


def class_of(item):
    is_abstract, name, supers, attributes = matched(CLASS, item).groups()
    supers = ",".join(f'"{it}"' for it in (supers or "").split())
    values = (name, truth(is_abstract), supers, listed(attributes or "", attribute, ", "))
    return '{"name":"%s","abstract":%s,"supers":[%s],"attributes":[%s]}' % values


def end(name, low, high, ordered):
    return '{"name":"%s","lower":%s,"upper":%s,"ordered":%s}' % (name, low, upper(high), truth(ordered))


def association(item):
    name, source, *ends = matched(ASSOCIATION, item).groups()
    values = (name, source, ends[4], end(*ends[:4]), end(*ends[5:]))
    return '{"name":"%s","from":"%s","to":"%s","end":%s,"opposite":%s}' % values


def rename(item):
    old, arrow, new = item.partition(" -> ")
    if not arrow:
        return item
    owner, dot, name = old.partition(".")
    return f'{{"class":"{owner}","old":"{name}","new":"{new}"}}' if dot else f'{{"old":"{old}","new":"{new}"}}'


def model(enumerations="-", classes="-", associations="-", more="", name="m"):
    """A class model, with more members behind the first four."""
    values = (name, listed(enumerations, enumeration), listed(classes, class_of), listed(associations, association), more)
    return '{"model":"%s","enums":[%s],"classes":[%s],"associations":[%s]%s}' % values


def renames(cell):
    """The member of a class model that lists old names."""
    return ',"renames":[%s]' % listed(cell, rename)


def written_object(item):
    id, class_name, *features = item.split(" ", 2)
    return '{"id":"%s","class":"%s","features":%s}' % (id, class_name, features[0] if features else "{}")


def delivery(objects, model_name="m"):
    return '{"model":"%s","objects":[%s]}' % (model_name, listed(objects, written_object))
