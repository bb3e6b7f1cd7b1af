"""A case of several commands."""
import case


def several(room, cases):
    """One case of all of these: what is wanted of each, in their order."""
    first, *others = cases

    def found(answer):
        return [first.found(answer), *(other.found(case.run(room, other.words)) for other in others)]

    return case.Case(first.words, [it.wanted for it in cases], found)


def of_each(words, form):
    """A form of the same cells that makes a case of each word, which stands in the place of `_` in the cells.

    `words` are the words, separated by `, `; or None, where the cell behind the first has them."""

    def each(room, shows, *cells):
        own, cells = (words, cells) if words else (cells[0], cells[1:])
        return several(room, [form(room, word, *(cell.replace("_", word) for cell in cells)) for word in own.split(", ")])

    each.__doc__ = f"{form.__doc__} With each of {words or 'the words'} in the place of `_`."
    return each
