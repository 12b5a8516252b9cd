#!/usr/bin/env python3
"""The completions of l4d and l4sh for bash and zsh, made from the help that the programs print.

packaging/completions.py NAME PROGRAM bash|zsh      writes them to standard output
"""
import re, subprocess, sys

OPTION = re.compile(r"^ +(?:(-\w), +)?(--[\w-]+)(?: <(\w+)>)? +(.*)$")
COMMAND = re.compile(r"^  ([a-z]\w*) +(\S.*)$")
HELP = "Prints what a command does and takes"
# the words that stand for a file or a folder
PLACES = {"FILE": "file", "OLD": "file", "NEW": "file", "DIR": "folder"}


class Words:
    """A command's options and subcommands, as its help lists them."""

    def __init__(self, program, path=()):
        told = subprocess.run([program, *path, "--help"], capture_output=True, text=True, stdin=subprocess.DEVNULL)
        text = told.stdout + told.stderr
        self.options = [match.groups() for match in map(OPTION.match, text.splitlines()) if match]
        under = text.partition("\nCommands:\n")[2].partition("\n\n")[0]
        names = [match.groups() for match in map(COMMAND.match, under.splitlines()) if match]
        self.commands = {name: (what, Words(program, (*path, name))) for name, what in names if name != "help"}
        usage = text.partition("Usage:")[2].partition("\n")[0]
        self.takes = next((kind for word, kind in PLACES.items() if f"<{word}>" in usage or f"[{word}]" in usage), None)
        if not self.options:
            raise SystemExit(f"completions: {program} {' '.join(path)} --help lists no option")

    def long(self):
        return [long for _, long, _, _ in self.options]


def bash(name, words):
    lines = [f"# bash completion of {name}, made from its help.", f"_{name}() {{",
             "    local word=${COMP_WORDS[COMP_CWORD]} before=${COMP_WORDS[COMP_CWORD-1]} command=${COMP_WORDS[1]}",
             "    COMPREPLY=()"]
    every = [words, *(below for _, below in words.commands.values())]
    for kind, made in (("FILE", "-f"), ("DIR", "-d")):
        wanted = sorted({long for each in every for _, long, value, _ in each.options if value == kind})
        if wanted:
            lines += [f"    case $before in {'|'.join(wanted)})", "        compopt -o filenames 2>/dev/null",
                      f"        local IFS=$'\\n'; COMPREPLY=($(compgen {made} -- \"$word\")); return;;", "    esac"]
    # of other values nothing is known
    valued = sorted({long for each in every for _, long, value, _ in each.options if value and value not in PLACES})
    if valued:
        lines += [f"    case $before in {'|'.join(valued)}) return;; esac"]
    lines += ["    if [ \"$COMP_CWORD\" -eq 1 ]; then",
              f"        COMPREPLY=($(compgen -W \"{' '.join([*words.commands, 'help', *words.long()])}\" -- \"$word\")); return",
              "    fi"]
    if words.commands:
        lines += ["    case $command in",
                  f"    help) [ \"$COMP_CWORD\" -eq 2 ] && COMPREPLY=($(compgen -W \"{' '.join(words.commands)}\" -- \"$word\"));;"]
        for command, (_, below) in words.commands.items():
            made = {"file": "-f", "folder": "-d"}.get(below.takes)
            files = f"; [[ $word == -* ]] || {{ compopt -o filenames 2>/dev/null; local IFS=$'\\n'; COMPREPLY+=($(compgen {made} -- \"$word\")); }}" if made else ""
            lines += [f"    {command}) COMPREPLY=($(compgen -W \"{' '.join(below.long())}\" -- \"$word\")){files};;"]
        lines += ["    esac"]
    else:
        lines += [f"    COMPREPLY=($(compgen -W \"{' '.join(words.long())}\" -- \"$word\"))"]
    return "\n".join([*lines, "}", f"complete -F _{name} {name}", ""])


def zsh_options(words, indent):
    for short, long, value, what in words.options:
        what = re.sub(r" \[default: .*\]$", "", what).replace("[", "(").replace("]", ")").replace(":", "\\:").replace("'", "'\\''")
        place = {"FILE": ":file:_files", "DIR": ":folder:_files -/", None: ""}.get(value, f":{value}:")
        yield f"{indent}'{long}[{what}]{place}' \\"


def zsh(name, words):
    lines = [f"#compdef {name}", f"# zsh completion of {name}, made from its help."]
    if not words.commands:
        return "\n".join([*lines, "_arguments \\", *zsh_options(words, "    "), "    '1:: :(help)' \\", "    && return 0", ""])
    lines += ["if (( CURRENT == 2 )); then", "    local -a commands=("]
    for command, (what, _) in words.commands.items():
        escaped = what.replace("'", "'\\''").replace(":", "\\:")
        lines += [f"        '{command}:{escaped}'"]
    lines += [f"        'help:{HELP}'", "    )", "    _describe command commands", "    _arguments \\", *zsh_options(words, "        "), "        && return 0"]
    lines += ["    return", "fi", "local command=$words[2]", "shift words", "(( CURRENT-- ))",
              "case $command in", "(help)", f"    _arguments '1:command:({' '.join(words.commands)})' && return 0;;"]
    for command, (_, below) in words.commands.items():
        place = {"file": ["        '*:file:_files' \\"], "folder": ["        ':folder:_files -/' \\"]}.get(below.takes, [])
        lines += [f"({command})", "    _arguments \\", *zsh_options(below, "        "), *place, "        && return 0;;"]
    return "\n".join([*lines, "esac", ""])


def main():
    name, program, shell = sys.argv[1:]
    print({"bash": bash, "zsh": zsh}[shell](name, Words(program)), end="")


if __name__ == "__main__":
    main()
