#!/usr/bin/env python3
"""The man pages of l4d, l4sh, l4x and the formats, made from what the programs say of themselves and from docs/.

packaging/manpages.py FOLDER PROGRAMS       writes l4d.1, l4sh.1, l4x.1 and hashkarst.7 into FOLDER; PROGRAMS is the folder of the programs
"""
import os, re, subprocess, sys

from roff import examples, lines_of, paragraphs_of, plain, table_of

ROOT = os.path.dirname(os.path.dirname(os.path.abspath(__file__)))
ABOUT = {
    "l4d": (1, "a server of synchronous IPC between processes, over Unix sockets"),
    "l4sh": (1, "scripts, traces and live threads of synchronous IPC"),
    "l4x": (1, "examples of threads of l4d, and its name server"),
    "hashkarst": (7, "words, frames, lines and codes of l4d and l4sh"),
}
# What follows in the pages of programs, by the headings of docs/.
OF_L4D = ["When it is ready", "Permissions", "Ending", "What a client sees", "Asking it", "A trace", "What it tells", "Memory over time", "At home on a system"]
OF_L4X = ["Finding the server", "Requests", "Answers", "Who is registered"]
OF_L4SH = ["Run and wire", "Looking at a trace", "Talking to a kernel", "Questions about words", "When a server hangs"]
FORMATS = ["Words", "Frames", "Text lines", "The script of `l4sh run`", "The script of `l4sh wire`", "Traces", "Parts of traces", "Codes", "Limits",
           "Glossary"]
FILES = {
    "l4d": [("DIR/spaceN", "the path of space N, a Unix socket, which is there as long as l4d runs"),
            ("DIR/control", "the path by which its owner asks what it does"),
            ("FILE.began", "when moment 0 of the trace FILE was, which l4d writes beside it"),
            ("/run/l4d", "DIR of the unit l4d.service"),
            ("PREFIX/lib/hashkarst/l4d", "the program itself, which l4d starts with SIGINT and SIGTERM blocked")],
    "l4sh": [("DIR/spaceN", "the path of space N of a live l4d, as whose thread `l4sh talk DIR` speaks")],
    "l4x": [("DIR/space1", "the path of the l4d whose thread it is"), ("/run/l4d", "DIR of the unit l4d-names.service")],
}
ENVIRONMENT = [("NOTIFY_SOCKET", "the socket of a service manager, which is told READY=1 once clients can connect")]
OPTION = re.compile(r"^ +((?:-\w, +)?--[\w-]+(?: <\w+>)?|[\[<]\w+[\]>](?:\.\.\.)?)(?:  +(\S.*))?$")
# Of an argument that may be a folder, too, `--help` has the first name alone.
FILES_ALONE, FILES_OR_DIR = "<FILE>...", "<FILE>... | <DIR>"
COMMAND = re.compile(r"^  ([a-z]\w*) +(\S.*)$")


class Help:
    """What a program, or one of its commands, says of itself by --help."""

    def __init__(self, program, *path):
        told = subprocess.run([program, *path, "--help"], capture_output=True, text=True, stdin=subprocess.DEVNULL)
        self.text = told.stdout + told.stderr
        self.usage = re.search(r"^Usage: (.*)$", self.text, re.M)[1]
        self.about = self.text.partition("\n")[0]
        found = [OPTION.match(line) for line in self.text.splitlines()]
        self.options = [(it[1].strip(), it[2]) for it in found if it]
        if any("; or DIR," in (about or "") for _, about in self.options):
            self.usage = self.usage.replace(FILES_ALONE, FILES_OR_DIR)
            self.options = [(term.replace(FILES_ALONE, FILES_OR_DIR), about) for term, about in self.options]
        under = self.text.partition("\nCommands:\n")[2].partition("\n\n")[0]
        self.commands = [it.groups() for it in map(COMMAND.match, under.splitlines()) if it]


def section(heading):
    """The lines of the one section of docs/ that has this heading, without it."""
    marks, found = {f"{'#' * depth} {heading}": depth for depth in (2, 3)}, []
    for name in sorted(os.listdir(f"{ROOT}/docs")):
        if not name.endswith(".md"):
            continue
        with open(f"{ROOT}/docs/{name}") as file:
            lines = file.read().splitlines()
        for at, line in enumerate(lines):
            if line in marks:
                ends = re.compile(f"#{{1,{marks[line]}}} ")
                rest = lines[at + 1:]
                found.append(rest[: next((n for n, it in enumerate(rest) if ends.match(it)), len(rest))])
    if len(found) != 1:
        raise SystemExit(f"manpages: {len(found)} sections of docs/ are headed {heading!r}, and one is wanted")
    return found[0]


def sections(headings):
    return [line for heading in headings for line in [".SH " + plain(heading, is_head=True).upper(), *lines_of(section(heading))]]


def items(pairs):
    return [line for term, what in pairs for line in (".TP", f".B {plain(term)}", plain(what or "-"))]


def synopsis(usages):
    lines = [".SH SYNOPSIS"]
    for usage in usages:
        name, _, rest = usage.partition(" ")
        lines += [f".B {name}", plain(rest), ".br"]
    return lines[:-1]


def statuses(heading):
    """The table of exit statuses of a section."""
    rows = table_of(section(heading), "Status")
    return [".SH EXIT STATUS", *[line for row in rows for line in (".TP", f".B {plain(row[0])}", plain(": ".join(row[1:])))]]


def server(programs):
    told = Help(f"{programs}/l4d")
    return [*synopsis([told.usage, "l4d help", "l4d --version"]), ".SH DESCRIPTION", *lines_of(paragraphs_of(f"{ROOT}/docs/OPERATING.md", "Starting")),
            ".SH OPTIONS", *items(told.options), *sections(OF_L4D), ".SH ENVIRONMENT", *items(ENVIRONMENT),
            ".SH EXAMPLES", *examples(section("Starting") + section("A trace")), *statuses("Ending")]


def shell(programs):
    told = Help(f"{programs}/l4sh")
    below = [(name, what, Help(f"{programs}/l4sh", name)) for name, what in told.commands if name != "help"]
    lines = [*synopsis([it.usage for _, _, it in below] + ["l4sh help", "l4sh --version"]), ".SH DESCRIPTION", plain(told.about + "."), ".PP",
             plain("What it reads and prints is in hashkarst(7). A history is a list of entries, one a line; a trace is a file of them, as l4d writes by --trace."),
             ".SH COMMANDS"]
    for name, what, it in below:
        own = [(option, about) for option, about in it.options if not option.endswith("--help")]
        lines += [f".SS {name}", plain(f"{what}."), ".PP", ".B " + plain(it.usage), *items(own)]
    with open(f"{ROOT}/README.md") as file:
        readme = file.read().split("\n## A script, and its trace\n")[1].split("\n## ")[0]
    return [*lines, *sections(OF_L4SH), ".SH EXAMPLES", *examples(readme.splitlines()), *statuses("Exit statuses")]


def roles(programs):
    told = subprocess.run([f"{programs}/l4x", "--help"], capture_output=True, text=True, stdin=subprocess.DEVNULL, check=True)
    usage = told.stdout.strip()
    return [*synopsis(["l4x DIR ROLE", "l4x --version"]), ".SH DESCRIPTION",
            plain("l4x is a thread of the l4d that listens in DIR. What it is says its second word. `l4x DIR names` is a name server: servers register a "
                  "name there, and clients look it up. The unit l4d-names.service runs it."), ".PP", ".EX",
            *[plain(line, is_code=True) for line in usage.splitlines()], ".EE", *sections(OF_L4X),
            ".SH EXIT STATUS", *items([("0", "its task is done"), ("1", "it failed; standard error says why"), ("2", "bad words")])]


def formats(_):
    return [".SH DESCRIPTION", plain("What l4d and its clients send each other, and what l4sh reads and prints."), *sections(FORMATS)]


PAGES = {"l4d": server, "l4sh": shell, "l4x": roles, "hashkarst": formats}


def main():
    folder, programs = sys.argv[1:]
    os.makedirs(folder, exist_ok=True)
    for name, made in PAGES.items():
        number, what = ABOUT[name]
        others = [f"\\fB{other}\\fR({ABOUT[other][0]})" for other in PAGES if other != name]
        files = [".SH FILES", *items(FILES[name])] if name in FILES else []
        page = [f'.TH {name.upper()} {number} "" Hashkarst', ".SH NAME", f"{name} \\- {what}", *made(programs), *files, ".SH SEE ALSO", ", ".join(others)]
        with open(f"{folder}/{name}.{number}", "w") as file:
            file.write("\n".join(page) + "\n")


if __name__ == "__main__":
    main()
