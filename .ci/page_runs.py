"""Runs the console blocks of the pages, in a folder with a copy of examples/ and the built programs, and compares what they
print with what the page shows.

A console block has lines that begin with `$ `, each a command, and below each what it prints, on standard output and on
standard error. A line `...` stands for any number of lines. A block whose first line names a file behind its language, as
```ocl depth.rules, is that file from there on. The blocks of one page are run in one folder, one after another."""
import os
import pathlib
import re
import shutil
import subprocess
import tempfile

import answers
from generated import ROOT
from page_checks import blocks, pages

BUILT_BY_CI = {"ocl_check": answers.PROGRAM, "ocl_explain": answers.EXPLAIN}
SECONDS = 60


def program(name):
    """A built program: in $OCL_CHECK_DIR where that is set, else as `rt ci` leaves it, else as the first use does."""
    if "OCL_CHECK_DIR" in os.environ:
        return pathlib.Path(os.environ["OCL_CHECK_DIR"]).resolve() / name
    return BUILT_BY_CI[name] if os.access(BUILT_BY_CI[name], os.X_OK) else ROOT / "out" / "built" / name


def commands_of(lines):
    """The commands of a console block, each with the lines that are shown below it. A command goes on behind a backslash."""
    found, goes_on = [], False
    for line in lines:
        if line.startswith("$ "):
            found.append(([line[2:]], []))
        elif goes_on:
            found[-1][0].append(line)
        else:
            found[-1][1].append(line)
        goes_on = (line.startswith("$ ") or goes_on) and line.endswith("\\")
    return [("\n".join(command), shown) for command, shown in found]


def is_as_shown(shown, found):
    """Whether printed lines are those shown, where `...` stands for any number of lines."""
    pattern = "".join(r"(?:.*\n)*" if it == "..." else re.escape(it) + "\n" for it in shown)
    return re.fullmatch(pattern, "".join(it + "\n" for it in found)) is not None


def run_block(room, commands):
    """What each command prints, all in one shell, so that `$?` is the status of the command before."""
    mark = "\036"
    script = "".join(f"s=$?; printf '{mark}'; (exit $s)\n{command}\n" for command, _ in commands)
    environment = {**os.environ, "PATH": f"{room}:{os.environ['PATH']}", "LC_ALL": "C.UTF-8"}
    done = subprocess.run(
        ["sh", "-c", script],
        cwd=room,
        env=environment,
        stdin=subprocess.DEVNULL,
        stdout=subprocess.PIPE,
        stderr=subprocess.STDOUT,
        timeout=SECONDS,
    )
    return [it.splitlines() for it in done.stdout.decode("utf-8", errors="replace").split(mark)[1:]]


def run_page(path):
    """What is wrong with the console blocks of a page, and how many commands it has."""
    wrong, count = [], 0
    with tempfile.TemporaryDirectory(prefix="ocl-page-") as folder:
        room = pathlib.Path(folder)
        shutil.copytree(ROOT / "examples", room / "examples")
        for name in BUILT_BY_CI:
            (room / name).symlink_to(program(name))
        for number, info, shown_lines in blocks(path.read_text(encoding="utf-8")):
            if len(info) > 1:
                (room / info[1]).write_text("\n".join(shown_lines) + "\n", encoding="utf-8")
            elif info == ["console"]:
                commands = commands_of(shown_lines)
                count += len(commands)
                for (command, shown), found in zip(commands, run_block(room, commands), strict=True):
                    if not is_as_shown(shown, found):
                        lines = [f"{path.relative_to(ROOT)}:{number}: {command}", "  shown:", *(f"    {it}" for it in shown)]
                        wrong.append("\n".join([*lines, "  printed:", *(f"    {it}" for it in found)]))
    return wrong, count


def run_all():
    """Runs the blocks of all pages; the status is 1 where one prints something else than its page shows."""
    answers.require_programs(*(program(name) for name in BUILT_BY_CI))
    failed = False
    for path in pages():
        wrong, count = run_page(path)
        for it in wrong:
            print(it)
        if count:
            print(f"{path.relative_to(ROOT)}: {count - len(wrong)} of {count} commands print what it shows", flush=True)
        failed |= bool(wrong)
    return 1 if failed else 0
