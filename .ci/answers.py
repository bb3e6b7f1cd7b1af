"""What the built programs may print and how they may end: shared by .ci/fuzz, .ci/damage, .ci/refusals and .ci/rows."""
import os
import pathlib
import re
import resource
import subprocess
import sys
import unicodedata

ROOT = pathlib.Path(__file__).resolve().parent.parent
PROGRAM = pathlib.Path(os.environ.get("OCL_CHECK", ROOT / "crates/ocl_check_main/out/ocl_check_main"))
EXPLAIN = pathlib.Path(os.environ.get("OCL_EXPLAIN", ROOT / "crates/ocl_explain_main/out/ocl_explain_main"))

# (a hostile input may want any amount of memory; a refused request for memory is an accepted end)
MOST_MEMORY = 4 << 30

# signs of numbers and verses, and of Egyptian writing: of the format characters those that are seen
SEEN = "\u0600\u0601\u0602\u0603\u0604\u0605\u06dd\u070f\u0890\u0891\u08e2\U000110bd\U000110cd" + "".join(map(chr, range(0x13430, 0x13440)))

NAME = rb"[A-Za-z_][A-Za-z0-9_]*"
ID = rb"[A-Za-z0-9._:-]{1,128}"
REPORT_LINE = (
    rb"(fail|undecided) " + NAME + rb" " + ID + rb"\n"
    rb"|rule " + NAME + rb" checked \d+ holds \d+ fails \d+ undecided \d+\n"
)
REPORT = re.compile(rb"(" + REPORT_LINE + rb")*total fails (\d+) undecided (\d+)\n")
REPLIES = {
    "compile": re.compile(rb"compiled \d+\n"),
    "verify": re.compile(rb"accepted \d+\n"),
    "bound": re.compile(rb"(bound " + NAME + rb" (\d+|over)\n)*"),
    "desk": re.compile(
        rb"(job \d+\n|(paused|over) \d+ \d+\n|withdrawn \d+\n|refused desk [12]\n|" + REPORT_LINE
        + rb"|total fails \d+ undecided \d+\n)*"
    ),
}
REFUSAL = re.compile(
    rb"refused (model \d+|delivery \d+( \d+){0,2}|text \d+ \d+|types \d+ \d+ \d+|compile \d+ \d+|code \d+ \d+"
    rb"|verify \d+ \d+ \d+|cost 1 \d+|script \d+)\n"
)
FAILURE = re.compile(rb"failed (memory|read|write)\n")


class Answer:
    """How one run of the program ended; `status` is None where it was ended after some seconds."""

    def __init__(self, status, out, err):
        self.status, self.out, self.err = status, out, err

    def __eq__(self, other):
        return (self.status, self.out, self.err) == (other.status, other.out, other.err)

    def __str__(self):
        status = "none, it didn't end" if self.status is None else self.status
        return f"status {status}, standard output {self.out[:300]!r}, standard error {self.err[:300]!r}"


def require_programs(*paths):
    """Ends where a program isn't built; says which ones are run."""
    for path in paths or (PROGRAM, EXPLAIN):
        if not os.access(path, os.X_OK):
            sys.exit(f"{sys.argv[0]}: {path} isn't built; rt ci builds it")
        print(f"{sys.argv[0]}: runs {path}", flush=True)


def limit_memory():
    """From here on the programs that are run have no more than MOST_MEMORY."""
    resource.setrlimit(resource.RLIMIT_AS, (MOST_MEMORY, MOST_MEMORY))


def run(folder, words, seconds=10, environment=None, before=None, program=PROGRAM):
    """Runs a program in a folder with these arguments."""
    try:
        done = subprocess.run(
            [program, *words],
            cwd=folder,
            stdin=subprocess.DEVNULL,
            capture_output=True,
            timeout=seconds,
            env=environment,
            preexec_fn=before,
        )
        return Answer(done.returncode, done.stdout, done.stderr)
    except subprocess.TimeoutExpired:
        return Answer(None, b"", b"")


def fault_in(words, answer):
    """What is wrong with an answer to a well-formed command line; None where nothing is."""
    if answer.status is None:
        return "it didn't end"
    if answer.status < 0:
        return f"it ended by signal {-answer.status}"
    if answer.status == 3:
        return None if FAILURE.fullmatch(answer.err) else "status 3 without its line on standard error"
    if answer.err:
        return "something on standard error"
    if answer.status == 2:
        return None if REFUSAL.fullmatch(answer.out) else "status 2 without the line of a refusal"
    if words[0] == "judge":
        report = REPORT.fullmatch(answer.out)
        if not report:
            return "no report"
        holds = report[3] == b"0" and report[4] == b"0"
        return None if answer.status == (0 if holds else 1) else "a status that isn't its report's"
    if answer.status != 0:
        return "a status that there isn't"
    return None if REPLIES[words[0]].fullmatch(answer.out) else "no reply"


def explained_fault(answer, explained):
    """What is wrong with what ocl_explain answers where ocl_check gives this answer; None where nothing is."""
    if explained.status is None:
        return "ocl_explain didn't end"
    if (explained.status, explained.out) != (answer.status, answer.out):
        return f"ocl_explain answers otherwise: {explained}"
    return raw_fault(explained.err)


def is_hidden(character):
    """Whether a terminal obeys a character, turns by it, shows nothing of it, or shows a space, by Unicode's own tables."""
    kind = unicodedata.category(character)
    return kind in ("Cc", "Zl", "Zp") or kind == "Zs" and character != " " or kind == "Cf" and character not in SEEN


def raw_fault(written):
    """What is wrong with what ocl_explain writes, if it hides something or steers a terminal."""
    try:
        text = written.decode("utf-8")
    except UnicodeDecodeError:
        return "ocl_explain writes something that is no UTF-8"
    raw = next((it for it in text if it != "\n" and is_hidden(it)), None)
    return raw and f"ocl_explain writes the raw character U+{ord(raw):04X}"


def listing_fault(listed):
    """What is wrong with a listing of ocl_explain; None where nothing is."""
    if listed.status not in (0, 2):
        return f"ocl_explain list ends otherwise: {listed}"
    if listed.status == 0 and not listed.out or listed.status == 2 and not listed.err:
        return f"ocl_explain list writes nothing: {listed}"
    return raw_fault(listed.out) or raw_fault(listed.err)
