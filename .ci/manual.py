"""The manual page of a program, from the texts of its command line: what its commands say of themselves, and the ends of
their help texts."""
import re


def texts(source):
    """The constant texts of sources, by name."""
    found = re.findall(r'const (\w+): &str = "(?:\\\n)?(.*?)";', source, flags=re.S)
    return {name: text.replace("\\\\", "\\") for name, text in found}


def functions(source):
    """The bodies of the functions of sources, by name."""
    return dict(re.findall(r"(?ms)^(?:pub(?:\([a-z]+\))? )?fn (\w+).*?\n?\{\n(.*?)^\}", source))


def arguments(body, shared):
    """What a command's body names: the arguments that must be given, each with what it is."""
    flat = re.sub(r"\s+", " ", body)
    named = r'file\( ?alloc, "(\w+)", "([^"]+)"'
    alone = r'Arg::new\(alloc, "(\w+)"\) ?\.required\(true\)(?: ?\.allow_\w+\(true\))* ?\.help\("([^"]+)"\)'
    below = re.search(r'on_delivery\( ?alloc, \w+, "(\w+)", "([^"]+)"', flat)
    first = re.findall(named, re.sub(r"\s+", " ", shared)) + [below.groups()] if below else []
    return first + re.findall(named, flat) + re.findall(alone, flat)


def optional_arguments(body):
    """The arguments of a command that may be left out, each with what it is."""
    return re.findall(r'Arg::new\(alloc, "(\w+)"\)(?: ?\.allow_\w+\(true\))* ?\.help\("([^"]+)"\)', re.sub(r"\s+", " ", body))


def options(body, functions):
    """The options of a command: how each is written, and what it does."""
    found = []
    for name in re.findall(r"\.arg\((\w+)\(alloc\)\??\)", body):
        option = functions[name]
        value = re.search(r'value_name\("(\w+)"\)', option)
        written = "--" + re.search(r'long\("([\w-]+)"\)', option)[1] + (f" {value[1]}" if value else "")
        found.append((written, re.search(r'\.help\("([^"]+)"\)', option)[1]))
    flat = re.sub(r"\s+", " ", body)
    for name, more, meaning in re.findall(r'Arg::new\(alloc, "[\w-]+"\) ?\.long\("([\w-]+)"\)((?: ?\.\w+\((?!")[^)]*\)+| ?\.value_name\("\w+"\))*) ?\.help\("([^"]+)"\)', flat):
        value = re.search(r'value_name\("(\w+)"\)', more)
        found.append((f"--{name}" + (f" {value[1]}" if value else ""), meaning))
    return found


def about(body):
    """What a command does, in a line."""
    return re.search(r'\.about\("([^"]+)"\)', body)[1]


def commands(bodies):
    """The commands of a program, each with the options that the program adds to it: a command may be shared with another."""
    return re.findall(r"\.subcommand\(\s*(\w+)\(alloc\)\?((?:\s*\.arg\(\w+\(alloc\)\??\)\?)*),?\s*\)", bodies["command"])


def escaped(text):
    """A text as a manual page writes it: no line of it is a request."""
    lines = text.replace("\\", "\\e").replace("-", "\\-").split("\n")
    return "\n".join("\\&" + it if it.startswith((".", "'")) else it for it in lines)


def paragraphs(text):
    """Paragraphs of a help text; one with indented lines stays as it is laid out."""
    written = []
    for it in text.split("\n\n"):
        laid_out = re.search(r"(?m)^ ", it)
        written += [".PP", *([".nf"] if laid_out else []), escaped(it), *([".fi"] if laid_out else [])]
    return written


def manual(program, sources):
    """The page in the form of `man`, from the sources of the command line and of the commands."""
    said, bodies = texts(sources), functions(sources)
    of_program = dict(commands(bodies))
    page = [f'.TH {program.upper()} 1 "" "{program} {said["VERSION"].split()[0]}"', ".SH NAME",
            f"{program} \\- {about(bodies['command'])}", ".SH SYNOPSIS"]
    for name in of_program:
        chosen = [f"[\\fB{escaped(it)}\\fR]" for it, _ in options(bodies[name] + of_program[name], bodies)]
        files = [f"\\fI{it}\\fR" for it, _ in arguments(bodies[name], bodies["on_delivery"])]
        files += [f"[\\fI{it}\\fR]" for it, _ in optional_arguments(bodies[name])]
        page += [f"\\fB{program} {name}\\fR {' '.join([*chosen, *files])}", ".br"]
    page += [".SH DESCRIPTION", *paragraphs(said["HELP"])[1:], ".SH COMMANDS"]
    for name in of_program:
        page += [f".SS {name}", escaped(about(bodies[name])) + "."]
        named = arguments(bodies[name], bodies["on_delivery"]) + optional_arguments(bodies[name])
        for written, meaning in named + options(bodies[name] + of_program[name], bodies):
            page += [".TP", f"\\fB{escaped(written)}\\fR", escaped(meaning)]
        page += paragraphs(said[name.upper()])
    return "\n".join(page) + "\n"
