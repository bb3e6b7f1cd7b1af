"""Checks of the pages by reading them: links, lengths of pages, the cells of tables, blocks, the names in the table of
promises and its page's excerpts, the page of contracts, the table of the gate, and that rows try what a page's tables claim."""
import re

from generated import CRATES, ROOT, proved_of, slug

# the most lines of pages that have to be short
MOST_LINES = {"README.md": 180, "docs/proofs/promises.md": 150}
MOST_WORDS = 30
LANGUAGES = {"console", "dockerfile", "sh", "json", "ocl", "text", "ebnf", "python", "toml"}
# what names pages, besides the pages themselves
SOURCES = ["ocl_check", ".ci/*", ".ci/forms/*.py", "bench/*", "examples/*.sh", "tests/*.rows"]
PROMISES = ROOT / "docs" / "proofs" / "promises.md"
CONTRACTS = ROOT / "docs" / "proofs" / "contracts.md"
ARCHITECTURE = ROOT / "docs" / "architecture.md"
GATE = ROOT / ".ci" / "run"
# a page whose tables are tried by rows: each piece of code in them stands in a row
TRIED = {ROOT / "docs" / "use" / "from-omg-ocl.md": ROOT / "tests" / "from-omg-ocl.rows"}


def pages():
    return [ROOT / "README.md", *sorted((ROOT / "docs").rglob("*.md")), *sorted((ROOT / "examples").rglob("README.md"))]


def all_pages():
    return [*pages(), *sorted((ROOT / "crates").glob("*/README.md"))]


def lines_outside_blocks(text):
    """The lines of a page that are in no fenced block, with their numbers."""
    fenced = False
    for number, line in enumerate(text.splitlines(), 1):
        if line.startswith("```"):
            fenced = not fenced
        elif not fenced:
            yield number, line


def blocks(text):
    """The fenced blocks of a page: number of the first line, words behind the fence, lines."""
    begin, info, found = None, None, []
    for number, line in enumerate(text.splitlines(), 1):
        if line.startswith("```") and begin is None:
            begin, info, found = number, line[3:].split(), []
        elif line.startswith("```"):
            yield begin, info, found
            begin = None
        elif begin is not None:
            found.append(line)


def anchors(path):
    """The anchors of a page: those of its headings, numbered where two are alike."""
    found, seen = set(), {}
    for _, line in lines_outside_blocks(path.read_text(encoding="utf-8")):
        heading = re.match(r"#+ (.*)", line)
        if heading:
            name = slug(heading[1])
            count = seen[name] = seen.get(name, -1) + 1
            found.add(f"{name}-{count}" if count else name)
    return found


def link_faults(path, text):
    for number, line in lines_outside_blocks(text):
        for target in re.findall(r"\]\(([^)\s]+)\)", line):
            if re.match(r"[a-z]+:", target):
                continue
            name, _, anchor = target.partition("#")
            there = (path.parent / name).resolve() if name else path
            if not there.exists():
                yield number, f"{target} isn't there"
            elif anchor and (there.suffix != ".md" or anchor not in anchors(there)):
                yield number, f"{target}: no heading has this anchor"


def name_faults(text):
    """Names of files that aren't there, and names of pages that are no links."""
    for number, line in lines_outside_blocks(text):
        for name in re.findall(r"`((?:docs|\.ci|bench|examples|tests|edits)/[\w./-]*\w)`", line):
            if not (ROOT / name).exists():
                yield number, f"`{name}` isn't there"
        for name in re.findall(r"`([\w./-]+\.md)`", line):
            yield number, f"`{name}` names a page and is no link"


def rendered(cell):
    """The words of a cell as a reader sees them."""
    cell = re.sub(r"\[([^\]]*)\]\([^)]*\)", r"\1", cell)
    return re.sub(r"<br>", " ", cell).replace("`", "").replace("**", "").split()


def cell_faults(text):
    for number, line in lines_outside_blocks(text):
        if line.startswith("|"):
            for cell in re.split(r"(?<!\\)\|", line)[1:-1]:
                if len(rendered(cell)) > MOST_WORDS:
                    yield number, f"a cell of {len(rendered(cell))} words; {MOST_WORDS} at most: {' '.join(rendered(cell)[:6])} .."


def untried_faults(text, rows):
    """Pieces of code in tables that no row of a file has in its last cell."""
    tried = [line.split(" | ", 1)[-1] for line in rows.read_text(encoding="utf-8").splitlines() if not line.startswith("#")]
    for number, line in lines_outside_blocks(text):
        for code in re.findall(r"`([^`]+)`", line) if line.startswith("|") else ():
            written = code.replace("\\|", "|")
            if not any(written in it for it in tried):
                yield number, f"`{written}` is in no row of {rows.relative_to(ROOT)}"


def block_faults(text):
    for number, info, lines in blocks(text):
        if not info or info[0] not in LANGUAGES:
            yield number, f"a block without a language ({', '.join(sorted(LANGUAGES))})"
        elif info[0] != "console" and any(it.startswith("$ ") for it in lines):
            yield number, "commands after `$ ` in a block that isn't run; `console` is"
        elif info[0] == "console" and not (lines and lines[0].startswith("$ ")):
            yield number, "a console block that doesn't begin with a command"


def contracts(source, function):
    """The contracts of the public functions of that name: their lines up to their bodies."""
    return re.findall(rf"(?ms)^\s*pub fn {re.escape(function)}\b.*?^\s*\{{", source)


def promise_faults(text):
    """Rows of the table of promises whose functions haven't the clauses named, or whose definitions aren't in the files named."""
    for number, line in lines_outside_blocks(text):
        cells = re.split(r"(?<!\\)\|", line)[1:-1]
        files = [re.findall(r"\]\(([^)\s#]+\.(?:rt|antt))\)", it) for it in cells]
        if not line.startswith("|") or len(cells) != 3 or not files[1]:
            continue
        sources = ["\n".join((PROMISES.parent / it).read_text(encoding="utf-8") for it in paths if (PROMISES.parent / it).is_file()) for paths in files]
        functions, colon, clauses = re.sub(r"\[[^\]]*\]\([^)]*\)", "", cells[1]).partition("`: ")
        for function in re.findall(r"`([^`]+)`", functions + colon[:1]):
            found = contracts(sources[1], function.split("::")[-1])
            if not found:
                yield number, f"no public function `{function}` in the file named"
            for clause in re.findall(r"`([^`]+)`", clauses):
                if found and not any(re.search(rf"\bensures {re.escape(clause)}\b", it) for it in found):
                    yield number, f"`{function}` has no clause `{clause}`"
        for name in re.findall(r"`([^`]+)`", re.sub(r"\[[^\]]*\]\([^)]*\)", "", cells[2])):
            if not re.search(rf"\b{re.escape(name)}\b", sources[2]):
                yield number, f"`{name}` is in none of the files named"


def is_excerpt(shown, source):
    """Whether the lines are some of a source's, where a line `...` stands for any number of lines."""
    pattern = "".join(r"(?:.*\n)*?" if it == "..." else re.escape(it) + "\n" for it in shown)
    return re.search("(?m)^" + pattern, source) is not None


def excerpt_faults(text):
    """Blocks that aren't excerpts of the definitions that the first link of the lines right above them names."""
    lines = text.splitlines()
    for number, info, shown in blocks(text):
        above = "\n".join(lines[: number - 1]).rstrip().rsplit("\n\n", 1)[-1]
        path = re.search(r"\]\(([^)\s#]+\.antt)\)", above)
        if info == ["text"] and not (path and is_excerpt(shown, (PROMISES.parent / path[1]).read_text(encoding="utf-8"))):
            yield number, "a block that is no excerpt of the definitions linked above it"


def gate_faults(text):
    """Scripts of the gate that the table of the gate hasn't, and those of the table that the gate doesn't run."""
    chain = next(it for it in GATE.read_text(encoding="utf-8").splitlines() if " && " in it and "rt ci" in it)
    run = {re.sub(r" \d+$", "", it.strip().removeprefix("python3 .ci/prover.py -- ")) for it in chain.split("&&") if it.strip()}
    section = text.split("\n## The gate\n")[1].split("\n## ")[0]
    listed = set(re.findall(r"(?m)^\| `([^`]+)` \|", section))
    number = text[: text.index("\n## The gate\n")].count("\n") + 2
    for name in sorted(run - listed):
        yield number, f"`{name}`, which .ci/run calls, isn't in the table of the gate"
    for name in sorted(listed - run):
        yield number, f"`{name}` is in the table of the gate, and .ci/run doesn't call it"


def contract_faults(text):
    """Crates whose contracts the page doesn't lead to, and crates with none. Crates of tests promise nothing."""
    for crate in CRATES:
        is_linked = f"(../../crates/{crate}/README.md#what-is-proved)" in text
        if proved_of(crate) and not is_linked:
            yield 1, f"no link to what is proved of `{crate}`"
        if not proved_of(crate) and not crate.endswith(("_tests", "_support")):
            yield 1, f"the README of `{crate}` doesn't say what is proved"


def page_faults(path):
    text = path.read_text(encoding="utf-8")
    yield from link_faults(path, text)
    if path in pages():
        yield from name_faults(text)
    yield from cell_faults(text)
    yield from block_faults(text)
    if path in TRIED:
        yield from untried_faults(text, TRIED[path])
    if path == ARCHITECTURE:
        yield from gate_faults(text)
    if path == CONTRACTS:
        yield from contract_faults(text)
    if path == PROMISES:
        yield from promise_faults(text)
        yield from excerpt_faults(text)
    count, most = len(text.splitlines()), MOST_LINES.get(str(path.relative_to(ROOT)))
    if most and count > most:
        yield count, f"{count} lines; {most} at most"


def source_faults():
    """Pages that scripts, rows and sources name and that aren't there."""
    for path in sorted(it for pattern in SOURCES for it in ROOT.glob(pattern) if it.is_file()):
        for number, line in enumerate(path.read_text(encoding="utf-8").splitlines(), 1):
            for name in re.findall(r"\bdocs/[\w./-]*\.(?:md|svg|1)\b", line):
                if not (ROOT / name).is_file():
                    yield f"{path.relative_to(ROOT)}:{number}: {name} isn't there"


def faults():
    """All faults of all pages, as `PATH:LINE: WHAT`."""
    for path in all_pages():
        for number, what in page_faults(path):
            yield f"{path.relative_to(ROOT)}:{number}: {what}"
    yield from source_faults()
