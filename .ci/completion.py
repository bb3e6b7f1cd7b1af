"""Completion of a program's commands, options and arguments for bash, zsh and fish, from the texts of its command line."""
import re

import manual

# what isn't a file, of the arguments of commands
WORDS = {"RULE", "ID", "NAME", "EXPR"}
# values of options that are files
FILES = {"RULES"}

BASH = """# completion of {program} for bash
_{program}() {{
    local word=${{COMP_WORDS[COMP_CWORD]}} place=0 at options kinds
    if [ "$COMP_CWORD" = 1 ]; then
        mapfile -t COMPREPLY < <(compgen -W "{commands} --help --version" -- "$word")
        return
    fi
    case ${{COMP_WORDS[1]}} in
{cases}
        *) return ;;
    esac
    for ((at = 2; at < COMP_CWORD; at++)); do
        case ${{COMP_WORDS[at]}} in
            {valued})
                ((++at))
                if [ "${{COMP_WORDS[at]}}" = = ]; then ((++at)); fi
                ;;
            -?*) ;;
            *) ((++place)) ;;
        esac
    done
    COMPREPLY=()
    # (the value of an option is none of the words)
    if ((at > COMP_CWORD)); then
        at=${{COMP_WORDS[COMP_CWORD - 1]}}
        if [ "$at" = = ]; then at=${{COMP_WORDS[COMP_CWORD - 2]}}; fi
        case $at in
{values}
        esac
        return
    fi
    if [[ $word == -* ]]; then
        mapfile -t COMPREPLY < <(compgen -W "$options --help" -- "$word")
        return
    fi
    compopt -o filenames 2>/dev/null
    case ${{kinds[place]}} in
        json)
            mapfile -t COMPREPLY < <(compgen -f -X '!*.json' -- "$word")
            if ((${{#COMPREPLY[@]}})); then
                mapfile -t -O "${{#COMPREPLY[@]}}" COMPREPLY < <(compgen -d -- "$word")
            else
                mapfile -t COMPREPLY < <(compgen -f -- "$word")
            fi
            ;;
        file) mapfile -t COMPREPLY < <(compgen -f -- "$word") ;;
    esac
}}
complete -F _{program} {program}
"""

ZSH = """#compdef {program}
# completion of {program} for zsh
_{program}() {{
    local curcontext=$curcontext state line
    typeset -A opt_args
    _arguments -C '(- *)--help[Prints help]' '(- *)--version[Prints the version]' '1:command:->command' '*::argument:->argument'
    case $state in
        command)
            local -a commands=(
{commands}
            )
            _describe command commands
            ;;
        argument)
            case $line[1] in
{cases}
            esac
            ;;
    esac
}}
_{program} "$@"
"""

FISH = """# completion of {program} for fish

# Whether the command is the first word given, and as many arguments as the second says stand before the cursor.
function __{program}_at
    set -l words (commandline -opc)
    test (count $words) -gt 1; and test $words[2] = $argv[1]; or return 1
    set -e words[1..2]
    set -l place 0
    set -l is_value 0
    for word in $words
        if test $is_value = 1
            set is_value 0
        else if contains -- $word {valued}
            set is_value 1
        else if not string match -qr -- '^-.' $word
            set place (math $place + 1)
        end
    end
    test $place = $argv[2]
end

complete -c {program} -f
complete -c {program} -l help -d 'Prints help'
complete -c {program} -n __fish_use_subcommand -l version -d 'Prints the version'
{commands}
"""


def commands(sources):
    """The commands of a program: name, what it does, its options and its arguments, each with its meaning."""
    bodies = manual.functions(sources)
    for name, more in manual.commands(bodies):
        body = bodies[name]
        needed = manual.arguments(body, bodies["on_delivery"]) + manual.optional_arguments(body)
        yield name, manual.about(body), manual.options(body + more, bodies), needed


def kind(name, meaning):
    """What an argument is: `json`, `file` or `word`."""
    if name in WORDS:
        return "word"
    return "json" if meaning.endswith("a JSON file") else "file"


def valued(sources):
    """The options that have a value."""
    return sorted({it.split()[0] for _, _, options, _ in commands(sources) for it, _ in options if " " in it})


def values(sources):
    """The values that an option may have, of those that have a closed list of them."""
    lists = dict(re.findall(r"const (\w+): \[&str; \d+\] = \[([^\]]*)\];", sources))
    found = re.findall(r'long\("([\w-]+)"\)(?:(?!long\()[^;])*?value_parser\((\w+)\.as_slice\(\)\)', re.sub(r"(?s)\n}", ";", sources))
    return {f"--{option}": re.findall(r'"([^"]+)"', lists[name]) for option, name in found}


def file_options(sources):
    """The options whose value is a file."""
    return sorted({it.split()[0] for _, _, options, _ in commands(sources) for it, _ in options if it.partition(" ")[2] in FILES})


def bash(program, sources):
    cases = []
    for name, _, options, arguments in commands(sources):
        listed = " ".join(it.split()[0] for it, _ in options)
        cases.append(f'        {name}) options="{listed}" kinds=({" ".join(kind(*it) for it in arguments)}) ;;')
    names = " ".join(it for it, *_ in commands(sources))
    offers = [
        f'            {option}) mapfile -t COMPREPLY < <(compgen -W "{" ".join(words)}" -- "$word") ;;'
        for option, words in values(sources).items()
    ]
    offers += [f'            {it}) mapfile -t COMPREPLY < <(compgen -f -- "$word") ;;' for it in file_options(sources)]
    offers = offers or ["            *) ;;"]
    return BASH.format(program=program, commands=names, cases="\n".join(cases), valued="|".join(valued(sources)), values="\n".join(offers))


def in_quotes(text):
    """A text as a word of a shell."""
    return "'" + text.replace("'", "'\\''") + "'"


def escaped(text, characters):
    """A text with a backslash before each of these characters."""
    return re.sub(f"([{re.escape(characters)}])", r"\\\1", text)


def zsh_words(options, arguments, offers):
    """What `_arguments` is told of a command."""
    completers = {"json": '_files -g "*.json(-.)"', "file": "_files", "word": " "}
    yield in_quotes("--help[Prints help]")
    for written, meaning in options:
        option, _, value = written.partition(" ")
        words = f"({' '.join(offers[option])})" if option in offers else completers["file" if value in FILES else "word"]
        many = "*" if meaning.endswith("may be repeated") else ""
        yield in_quotes(f"{many}{option}[{escaped(meaning, '[]:')}]" + (f":{value}:{words}" if value else ""))
    for place, (name, meaning) in enumerate(arguments, 1):
        said = escaped(f"{name}, {meaning[0].lower()}{meaning[1:]}", ":")
        yield in_quotes(f"{place}:{said}:{completers[kind(name, meaning)]}")


def zsh(program, sources):
    names = [f"{' ' * 16}{in_quotes(f'{name}:{about}')}" for name, about, _, _ in commands(sources)]
    cases = []
    for name, _, options, arguments in commands(sources):
        words = " \\\n".join(" " * 24 + it for it in zsh_words(options, arguments, values(sources)))
        cases.append(f"                {name})\n                    _arguments \\\n{words}\n                    ;;")
    return ZSH.format(program=program, commands="\n".join(names), cases="\n".join(cases))


def fish(program, sources):
    quoted = lambda text: "'" + escaped(text, "\\'") + "'"
    offers = {"json": "-k -a '(__fish_complete_suffix .json)'", "file": "-F"}
    lines = []
    for name, about, options, arguments in commands(sources):
        lines += ["", f"complete -c {program} -n __fish_use_subcommand -a {name} -d {quoted(about)}"]
        for written, meaning in options:
            option, _, value = written.partition(" ")
            shape = f"-l {option.removeprefix('--')}" + (" -r -F" if value in FILES else " -x" if value else "")
            if option in values(sources):
                shape += f" -a '{' '.join(values(sources)[option])}'"
            lines.append(f"complete -c {program} -n '__fish_seen_subcommand_from {name}' {shape} -d {quoted(meaning)}")
        for place, it in enumerate(arguments):
            if kind(*it) != "word":
                lines.append(f"complete -c {program} -n '__{program}_at {name} {place}' {offers[kind(*it)]}")
    return FISH.format(program=program, valued=" ".join(valued(sources)), commands="\n".join(lines))


def files(program, sources):
    """The completions of a program: for each its text, by the name of its file."""
    return {f"{program}.bash": bash(program, sources), f"_{program}": zsh(program, sources), f"{program}.fish": fish(program, sources)}
