"""What follows from the tree: the lists of the pages, the README of each crate, the manual pages, and the
completions of shells."""
import pathlib
import re
import sys
import textwrap

import completion
from manual import manual

ROOT = pathlib.Path(__file__).resolve().parent.parent
CRATES_FOLDER = ROOT / "crates"
USES = {
    line.split(":")[0].split()[0]: line.split(":")[1].split()
    for line in (ROOT / "crates.txt").read_text(encoding="utf-8").splitlines()
    if line.strip() and not line.startswith("#")
}
CRATES = list(USES)
COMPLETIONS = ROOT / "examples" / "editors" / "completion"
# the crate that has the command line of each program
COMMAND_LINES = {"ocl_check": "ocl_check_main", "ocl_explain": "explain_command_line"}
# the heading in the README of a crate under which its contracts are
PROVED = "## What is proved"


def slug(heading):
    """The anchor of a heading, as GitHub makes it."""
    plain = re.sub(r"\[([^\]]*)\]\([^)]*\)", r"\1", heading).replace("`", "")
    return re.sub(r"[^\w\- ]", "", plain.strip().lower()).replace(" ", "-")


# The specs, the heads and the sources of crates


def modules(crate, wanted):
    """The modules of a part of a crate's specs/Lib.antt: `definitions` or `bookkeeping`."""
    path = CRATES_FOLDER / crate / "specs" / "Lib.antt"
    found, part = [], "definitions"
    for line in path.read_text(encoding="utf-8").splitlines() if path.is_file() else []:
        if line.startswith("-- Definitions"):
            part = "definitions"
        elif line.startswith("-- Bookkeeping"):
            part = "bookkeeping"
        module = re.match(r"pub mod (\S+)", line)
        if module and part == wanted:
            found.append(module[1])
    return found


def size_of(crate, module):
    """How many lines of a module define something: no imports, comments or empty lines."""
    text = (CRATES_FOLDER / crate / "specs" / f"{module}.antt").read_text(encoding="utf-8")
    return sum(1 for it in text.splitlines() if it.strip() and not re.match(r"\s*--|(pub )?use ", it))


def head_of(path):
    """The comment at the head of a source or of a file of definitions."""
    lines = path.read_text(encoding="utf-8").splitlines() if path.is_file() else []
    if path.suffix == ".rt":
        return " ".join(it.removeprefix("//!").strip() for it in lines if it.startswith("//!"))
    head = []
    for line in lines:
        if not line.startswith("--"):
            break
        head.append(line.removeprefix("--").strip())
    return " ".join(head)


def crate_head(crate):
    src = CRATES_FOLDER / crate / "src"
    return head_of(src / "lib.rt") or head_of(src / "main.rt")


def nearest(crate):
    """The crates of the repository that a crate builds on and that it doesn't reach through another."""
    direct = [it for it in USES[crate] if it in USES]
    through = {below for it in direct for below in all_below(it)}
    return [it for it in direct if it not in through]


def all_below(crate):
    direct = [it for it in USES[crate] if it in USES]
    return set(direct).union(*(all_below(it) for it in direct))


# Lists of pages


def in_words(text, most=28):
    """A head's first sentence; where that is long, what is before its colon."""
    first = re.match(r"(.*?[.])(?: |$)", text)
    first = (first[1] if first else text).removesuffix(".")
    return first.split(":")[0] if len(first.split()) > most else first


def crates():
    rows = ["| crate | what it is | builds on |", "|---|---|---|"]
    for crate in CRATES:
        below = ", ".join(f"`{it}`" for it in nearest(crate)) if len(nearest(crate)) < 7 else "most libraries"
        rows.append(f"| [`{crate}`](../crates/{crate}/README.md) | {in_words(crate_head(crate))} | {below} |")
    return rows


def trusted():
    rows, total = [], 0
    for crate in CRATES:
        counts = [(it, size_of(crate, it)) for it in modules(crate, "definitions")]
        if counts:
            whole = sum(count for _, count in counts)
            total += whole
            listed = ", ".join(f"`{name}` {count}" for name, count in counts)
            rows.append(wrapped(f"- [`{crate}`](../../crates/{crate}/specs) ({whole} lines): {listed}", others="  "))
    return [*rows, "", f"Together {total} lines."]


def limits():
    rows = ["| limit | value | of | crate |", "|---|---|---|---|"]
    for crate in CRATES:
        for path in sorted((CRATES_FOLDER / crate / "src").rglob("*.rt")):
            text = path.read_text(encoding="utf-8")
            found = re.findall(r"((?:^///.*\n)+)^pub const ((?:MAX_\w+)|STEP_LIMIT): \w+ = (\w+);", text, flags=re.M)
            for comment, name, value in found:
                what = in_words(" ".join(it.removeprefix("///").strip() for it in comment.splitlines()))
                where = f"../../{path.relative_to(ROOT)}"
                rows.append(f"| [`{name}`]({where}) | {int(value.replace('_', ''), 0):,} | {what} | `{crate}` |")
    return rows


def edits(folder):
    """The wrong bodies of a folder: name and where each is refused."""
    found = []
    for path in sorted((ROOT / folder).glob("*.edit")):
        first = path.read_text(encoding="utf-8").splitlines()[0]
        if not first.startswith("refused at: "):
            sys.exit(f"{path.relative_to(ROOT)}: its first line doesn't say where it is refused")
        found.append((path.stem, first.removeprefix("refused at: ")))
    return found


def counts_of_wrong_bodies():
    rows = ["| crate | in `must-fail/` | in `edits/` | last all refused |", "|---|---|---|---|"]
    for crate in CRATES:
        inside, beside = edits(f"crates/{crate}/must-fail"), edits(f"edits/{crate}")
        mark = ROOT / "edits" / crate / "last-refused"
        when = mark.read_text(encoding="utf-8").split()[0] if mark.is_file() else ""
        if inside or beside:
            rows.append(f"| `{crate}` | {len(inside)} | {len(beside)} | {when} |")
    return rows


def wrong_bodies():
    rows = []
    for crate in CRATES:
        inside, beside = edits(f"crates/{crate}/must-fail"), edits(f"edits/{crate}")
        if not inside and not beside:
            continue
        rows += [f"### `{crate}`", "", "| wrong body | refused at | in |", "|---|---|---|"]
        both = sorted([(*it, "`must-fail/`") for it in inside] + [(*it, "`edits/`") for it in beside])
        rows += [f"| `{name}` | {where} | {folder} |" for name, where, folder in both] + [""]
    return rows[:-1]


SOURCES = {"Single": "no collection", "AnyCollection": "a collection"}
ON_ELEMENTS = {
    "Includes": ("a single value with something in common with its elements", "Boolean"),
    "Occurrences": ("a single value with something in common with its elements", "Integer"),
    "IncludesAll": ("a collection whose elements have something in common with its own", "Boolean"),
    "ExcludesAll": ("a collection whose elements have something in common with its own", "Boolean"),
    "AsSet": ("", "a Set of its elements"),
}


def operations():
    """The operations that are called by name, from their table in the definitions."""
    text = (CRATES_FOLDER / "ocl_types/specs/Operators.antt").read_text(encoding="utf-8")
    rows = ["| operation | source | arguments | result |", "|---|---|---|---|"]
    for line in re.findall(r"row \(codes .*", text):
        name, source, effect = re.match(r"row \(codes \"(\w+)\"\) (\(.*?\)|\w+) \((.*)\)$", line).groups()
        source = SOURCES.get(source) or source.strip("()").replace("OfType ", "").replace("CollectionOf ", "a collection of ")
        kind, operator, rest = re.match(r"(\w+) \w+\.(\w+) ?(.*)", effect).groups()
        if kind == "OnElements":
            arguments, result = ON_ELEMENTS[operator]
        else:
            parameters, result = re.match(r"(\[\]|\(.*\)) (\w+)", rest).groups()
            arguments = ", ".join(re.findall(r"[A-Z]\w+", parameters))
        rows.append(f"| `{name}` | {source} | {arguments} | {result} |")
    return rows


LISTS = {
    "crates": crates,
    "trusted definitions": trusted,
    "limits": limits,
    "counts of wrong bodies": counts_of_wrong_bodies,
    "wrong bodies": wrong_bodies,
    "operations": operations,
}


def page_with_lists(path):
    """A page with its lists as they follow from the tree, each between `<!-- generated: NAME -->` and `<!-- end -->`."""
    parts = re.split(r"(<!-- generated: [^>]+ -->\n)(.*?)(<!-- end -->)", path.read_text(encoding="utf-8"), flags=re.S)
    for at in range(1, len(parts), 4):
        name = re.match(r"<!-- generated: ([^>]+) -->", parts[at])[1]
        parts[at + 1] = "\n".join(["", *LISTS[name](), "", ""])
    return "".join(parts)


# READMEs and manual pages


def wrapped(text, first="", others=""):
    return textwrap.fill(text, 120, initial_indent=first, subsequent_indent=others, break_long_words=False, break_on_hyphens=False)


def files_of(crate):
    """The sources of a crate and its definitions that a reader must agree with, each with the comment at its head."""
    folder = CRATES_FOLDER / crate
    roots = (folder / "src/lib.rt", folder / "src/main.rt")
    sources = [it for it in sorted((folder / "src").rglob("*.rt")) if it not in roots]
    definitions = [folder / "specs" / f"{it}.antt" for it in modules(crate, "definitions")]
    return sources, definitions


def listed(folder, paths):
    lines = []
    for path in paths:
        name = path.relative_to(folder)
        head = head_of(path)
        lines.append(wrapped(f"- [`{name}`]({name})" + (f": {with_links(head)}" if head else ""), others="  "))
    return "\n".join(lines)


def with_links(text):
    """A text for a crate's README, in which names of pages are links."""
    link = lambda found: f"[{found[1]}](../../{found[1]})" if (ROOT / found[1]).is_file() else found[0]
    return re.sub(r"`(docs/[\w./-]+\.md)`", link, text)


def proved_of(crate):
    """What is proved of a crate, as it stands in its README: the one part of it that is written by hand."""
    path = CRATES_FOLDER / crate / "README.md"
    found = re.search(rf"(?ms)^{PROVED}\n\n(.*?)(?=^## |\Z)", path.read_text(encoding="utf-8")) if path.is_file() else None
    return found[1].rstrip("\n") if found else ""


def readme(crate):
    """What a crate is, file by file, from the heads of its files; and what is proved of it."""
    folder = CRATES_FOLDER / crate
    sources, definitions = files_of(crate)
    parts = [f"# `{crate}`", wrapped(with_links(crate_head(crate)))]
    below = ", ".join(f"[`{it}`](../{it}/README.md)" for it in USES[crate] if it in USES)
    kit = ", ".join(f"`{it}`" for it in USES[crate] if it not in USES)
    if below or kit:
        uses = below + (" and " if below and kit else "") + (f"the kit's {kit}" if kit else "")
        parts.append(wrapped(f"Builds on {uses}."))
    proved = proved_of(crate)
    if proved:
        parts += [PROVED, proved]
    if sources:
        parts += ["## Sources", listed(folder, sources)]
    if definitions:
        parts += ["## Definitions that a reader must agree with", listed(folder, definitions)]
    return "\n\n".join(parts) + "\n"


def readmes():
    return {CRATES_FOLDER / it / "README.md": readme(it) for it in CRATES}


def sources_of_programs():
    """The texts of the command line of each program, by its name; those of a command of its own file `X_words.rt` too."""
    shared = [CRATES_FOLDER / "ocl_programs/src" / it for it in ("help.rt", "commands.rt")]
    owns = {program: CRATES_FOLDER / crate / "src" for program, crate in COMMAND_LINES.items()}
    return {
        program: "\n".join(it.read_text(encoding="utf-8") for it in [*shared, *sorted(own.glob("*_words.rt")), own / "command_line.rt"])
        for program, own in owns.items()
    }


def manuals():
    """The manual page of each program, by its path."""
    return {ROOT / "docs" / f"{program}.1": manual(program, sources) for program, sources in sources_of_programs().items()}


def completions():
    """The completions of each program for shells, by their paths."""
    found = [completion.files(program, sources) for program, sources in sources_of_programs().items()]
    return {COMPLETIONS / name: text for it in found for name, text in it.items()}


def all_generated():
    """Each file that has a generated part, with its whole text."""
    pages = [ROOT / "README.md", *sorted((ROOT / "docs").rglob("*.md"))]
    return {**{it: page_with_lists(it) for it in pages}, **readmes(), **manuals(), **completions()}
