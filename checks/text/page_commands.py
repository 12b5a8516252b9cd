#!/usr/bin/env python3
"""checks/text/page_commands.py L4SH: what docs/TOOLS.md, docs/FORMATS.md and examples/README.md show of l4sh is what it prints.

- Each block of commands that a block of text follows is run, in the order of the page, in a folder that has `l4sh` and `examples`.
  The lines of the text stand in what is printed, one behind the other.
- Each command in the first table of TOOLS ends well, but for those that want a live server.
- Each script of connections in FORMATS prints what stands behind it.
- Each code that `l4sh explain` knows has its row in FORMATS; each ErrorCode and each period there is one that l4sh reads so.

Its last line is `N checked, M failed`; the status is 0 where M is 0.
"""

import os
import re
import subprocess
import sys
import tempfile

sys.path.insert(1, f"{sys.path[0]}/../lib")

from kit import ROOT
from page_text import dialogues, text_of

PAGES = ["docs/TOOLS.md", "docs/FORMATS.md", "examples/README.md"]
SHOWN = re.compile(r"```sh\n(.*?)```\n(?:\n[^`\n|#][^\n]*\n)?(?=\n```text\n(.*?)```)?", re.S)
# They want a live server.
LIVE = ("l4sh talk meet",)
# What asks a live server, of whose folder the name of a trace begins with the same letters.
ASKS = ("l4sh state meet", "l4sh follow --failures meet", "l4sh rotate meet")
FEWEST = {"blocks": 6, "commands": 12, "connections": 2, "codes": 45, "words": 10}


class Book:
    """What was checked, and how much of each kind."""

    def __init__(self):
        self.kinds, self.failed = {}, 0

    def check(self, kind, what, holds, text=""):
        self.kinds[kind] = self.kinds.get(kind, 0) + 1
        if not holds:
            self.failed += 1
            print(f"FAILED {what}: {text}", flush=True)


def shell(command, folder, given=""):
    return subprocess.run(["sh", "-c", command], input=given, capture_output=True, text=True, cwd=folder, timeout=60, check=False)


def blocks(book, page, folder):
    """The blocks of commands of a page, each with the text that it prints."""
    for commands, shown in SHOWN.findall(text_of(page)):
        if any(word in commands for word in ("./l4d", "$EDITOR", "diff")):
            continue
        ran = shell(commands, folder)
        if shown:
            book.check("blocks", f"{page}: {commands}", f"\n{shown}" in f"\n{ran.stdout}", ran.stdout + ran.stderr)


def commands_of_tools(book, folder):
    """The first table of TOOLS: each command ends well."""
    table = text_of("docs/TOOLS.md").split("\n## ")[0]
    script = dialogues()[0][0]
    shell("cat > bytes.l4", folder, script)
    shell("./l4sh run < examples/rendezvous.l4 | grep -v '^[=!]' | tee meetings trace.1 > old", folder)
    shell("./l4sh part trace.1 > trace", folder)
    for row in re.findall(r"^\| `(.*?)` \|(.*)\|$", table, re.M):
        command = row[0].replace("\\|", "|")
        if command.startswith(LIVE) or command in ASKS:
            continue
        ran = shell(command.replace("l4sh ", "./l4sh ", 1), folder)
        prints = re.search(r"`(\w+)`\s*$", row[1])
        is_shown = not prints or prints[1] in ran.stdout
        book.check("commands", f"TOOLS: {command}", ran.returncode == 0 and is_shown, ran.stdout + ran.stderr)


def connections(book, folder):
    for script, printed in dialogues():
        ran = shell("./l4sh wire", folder, script)
        book.check("connections", f"FORMATS: {script}", ran.stdout == printed, ran.stdout)


def codes(book, folder):
    """Each code that l4sh knows has a row; `N1 to N5` is one of five."""
    known = re.findall(r"^ +([A-Z]+)(\d+) to [A-Z]+(\d+):", shell("./l4sh explain none", folder).stderr, re.M)
    told = re.findall(r"^\| ([A-Z]+)(\d+)(?: to [A-Z]+(\d+))? \|", text_of("docs/FORMATS.md"), re.M)
    rows = {f"{letter}{n}" for letter, first, last in told for n in range(int(first), int(last or first) + 1)}
    for letter, first, last in known:
        for number in range(int(first), int(last) + 1):
            book.check("codes", f"FORMATS: {letter}{number}", f"{letter}{number}" in rows)


def words(book, folder):
    """The tables of ErrorCodes and periods, by what l4sh says of their words."""
    formats = text_of("docs/FORMATS.md")
    for code in re.findall(r"`(0x\w)`", formats.split("\n### ErrorCodes\n")[1].split("\n## ")[0]):
        said = shell(f"./l4sh explain {code}", folder).stdout
        book.check("words", f"FORMATS: {code}", re.search("^as an ErrorCode: (?!none)", said, re.M), said)
    periods = formats.split("\n### Periods and timeouts\n")[1].split("\n### ")[0]
    for period, worth in re.findall(r"^\| `(0x\w+)` \| ([\d,]+)", periods, re.M):
        said = shell(f"./l4sh period {period}", folder).stdout.rstrip("\n")
        wanted = f"{period}  " + ("zero time" if worth == "0" else f"{worth.replace(',', '')} µs")
        book.check("words", f"FORMATS: {period}", said == wanted, said)


def main():
    book, l4sh = Book(), os.path.abspath(sys.argv[1])
    with tempfile.TemporaryDirectory() as folder:
        os.symlink(l4sh, f"{folder}/l4sh")
        os.symlink(f"{ROOT}/examples", f"{folder}/examples")
        commands_of_tools(book, folder)
        for page in PAGES:
            blocks(book, page, folder)
        for look in (connections, codes, words):
            look(book, folder)
    for kind, fewest in FEWEST.items():
        book.check("kinds", f"{kind}: at least {fewest}", book.kinds.get(kind, 0) >= fewest, book.kinds.get(kind, 0))
    print(f"{sum(book.kinds.values())} checked, {book.failed} failed")
    return 1 if book.failed else 0


if __name__ == "__main__":
    sys.exit(main())
