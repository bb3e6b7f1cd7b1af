"""How the cells of rows write what a line can't hold."""
import re

# ␀ to ␟ stand for the characters 0 to 31.
CONTROLS = {0x2400 + number: number for number in range(32)}


def repeated(found):
    """`3 x` as `xxx`; in each piece the sign # is its number, from 0."""
    count, piece = found[1].split(" ", 1)
    return "".join(piece.replace("#", str(number)) for number in range(int(count)))


def written_out(cell):
    """The text that a cell stands for: `«3 x»` is `xxx`, also inside others, ␊ is a line feed, and ‹FEFF› the character of
    that number."""
    while "«" in cell:
        cell = re.sub("«([^«»]*)»", repeated, cell)
    return re.sub("‹([0-9A-F]{4})›", lambda found: chr(int(found[1], 16)), cell.translate(CONTROLS))


def parts_of(row):
    """A text and what comes of it, which ` => ` separates."""
    return written_out(row).rsplit(" => ", 1)


def lines_of(cell):
    """The lines that a cell names, which ` / ` separates; `-` is none."""
    return "" if cell == "-" else "".join(line + "\n" for line in cell.split(" / "))
