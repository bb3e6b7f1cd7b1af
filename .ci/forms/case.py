"""What a form of .ci/rows makes of a row: a command over files, and the wanted output."""
import dataclasses
import subprocess
import typing

import answers

PROGRAMS = {"ocl_check": answers.PROGRAM, "ocl_explain": answers.EXPLAIN}


@dataclasses.dataclass
class Case:
    """The words of a command, its program's name first; what is wanted; and what an answer is compared by."""

    words: list
    wanted: typing.Any
    found: typing.Callable = lambda answer: (answer.status, answer.out.decode(errors="backslashreplace"))


def run(room, words, seconds=60):
    """Runs a command in a folder."""
    done = subprocess.run([PROGRAMS[words[0]], *words[1:]], cwd=room, stdin=subprocess.DEVNULL, capture_output=True, timeout=seconds)
    return answers.Answer(done.returncode, done.stdout, done.stderr)


def first_line(answer):
    """The first line of an answer, without its line feed."""
    return answer.out.decode(errors="backslashreplace").split("\n", 1)[0]


def write(room, name, text):
    """Writes an input; a str as UTF-8, with lone bytes as `\\udcff` and the like."""
    data = text if isinstance(text, bytes) else text.encode("utf-8", errors="surrogateescape")
    (room / name).write_bytes(data)
    return name
