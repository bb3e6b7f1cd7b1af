"""The inputs that the cells of rows name or hold."""
import re

import answers
import case
from assembly import file_of_rules
from notation import written_out


def bytes_of(cell):
    """An input: a file of tests/inputs or of examples by its name (of one of words the code file), `hex` and digits, `code` and
    rules in words that ` / ` separates, `-` for no bytes, or its own text."""
    if cell == "-":
        return b""
    if re.fullmatch(r"[a-z0-9.-]+\.(json|code|words)", cell):
        own = answers.ROOT / "tests/inputs" / cell
        data = (own if own.is_file() else answers.ROOT / "examples" / cell).read_bytes()
        return file_of_rules(data.decode().rstrip()) if cell.endswith(".words") else data
    kind, _, rest = cell.partition(" ")
    if kind == "hex":
        return bytes.fromhex(rest)
    if kind == "code":
        return file_of_rules(written_out(rest).replace(" / ", "\n"))
    return written_out(cell).encode()


def put(room, name, cell):
    """Writes an input by this name, and gives the name."""
    return case.write(room, name, bytes_of(cell))
