#!/usr/bin/env python3
"""Looks whether each clause, function and file that the documents name is where they say that it is.

`checks/tree/names.py` looks whether a name is anywhere in the tree; this looks at the place.

- A name behind which stands the crate (`finish`, `put` of `ipc_trace`), in any document, has to be a word of that crate.
- Each name in a crate's README has to be a word of that crate, or of a crate that the same line names. So the clauses of its
  tables are clauses there.
- A word in a column of clauses, or at the end of an item below `What you may rely on`, has to be the name of a clause, a
  function or a definition of that crate, and not a word that stands there by chance.
- A file that is named by its ending has to be there: below the crate of the README, or below the root.
- Each function between a connection's reader and the port of its pen that has no clause has to stand in the list of these in PROMISES.

It prints what is missing; the status is 1 where something is. The last line is `N names, M missing`.
"""

import glob
import os
import re
import sys

from names import OUTSIDE, ROOT, documents

NAME = re.compile(r"[A-Za-z_]\w*(?:::\w+)*(?:\(\))?")
FILE = re.compile(r"[\w./-]+\.(?:rt|antt|py|c|h|l4|edit|txt|md|service|tmpfiles|svg)")
# Names and behind them the crate whose they are.
OF_A_CRATE = re.compile(r"((?:`[^`\n]+`(?:,\s+|\s+and\s+|,\s+and\s+)?)+)(?:\s*\([^()]*\))?\s+of\s+(?:\[)?`((?:ipc|l4sh|tests)_\w+|l4sh|l4x)`")
# What gives a name to a clause, a function or a definition: in programs, and at the begin of a line in specs and proofs.
DECLARED = (
    r"\b(?:ensures|requires|decreases|ghost|fn|struct|enum|trait|type|const|static|mod|record|data|abbrev)\s+(?:pub\s+)?(\w+)",
    r"\bimpl\b.*?\b(\w+)\s+for\b",
    r"^\s*(?:pub\s+)?(\w+)(?:\s+[\w'-]+)*\s*[:=]",
)
# What stands for any name in a path.
ANY = re.compile(r"\b(?:NAME|Module|X|x)\b")
PROGRAMS = {"l4d", "l4sh", "l4x"}
# What lies between the reader of a connection and the port of its pen.
BETWEEN = (
    "ipc_session/src/reading.rt",
    *(f"ipc_server/src/{name}.rt" for name in ("caller", "noted", "services", "serving")),
    "ipc_seats/src/**/*.rt",
    "ipc_lock/src/**/*.rt",
    *(f"ipc_connection/src/{name}.rt" for name in ("given", "pen", "writing")),
)
# A function: its name, and all before its body.
HEAD_OF = re.compile(r"^( *)((?:pub(?:\([a-z ]+\))? )?(?:const )?fn (\w+)[\s\S]*?)(?:^\1\{|\{$|;$)", re.M)
BLOCK = re.compile(r"^(?:pub )?(impl|trait)\b(?:<[^{]*?>)?\s*([^{;]*)", re.M)


def files_below(place):
    for folder, folders, files in os.walk(place):
        folders[:] = [it for it in folders if it not in ("out", ".git", "__pycache__")]
        for name in files:
            yield f"{folder}/{name}"


def words_of(crate):
    """All words of a crate's sources and of its files' names, and those that are declared there."""
    words, declared = set(), set()
    for path in files_below(f"crates/{crate}"):
        words.update(re.findall(r"\w+", os.path.basename(path)))
        if path.endswith((".rt", ".antt", ".edit")):
            with open(path, encoding="utf-8", errors="replace") as file:
                text = file.read()
            words.update(re.findall(r"\w+", text))
            if not path.endswith(".edit"):
                declared.update(name for pattern in DECLARED for name in re.findall(pattern, text, re.M))
    return words, declared


def is_there(name, words):
    return all(part in words or part in OUTSIDE or part in PROGRAMS for part in re.findall(r"\w+", name))


def is_name(quoted):
    return NAME.fullmatch(quoted) and not quoted.startswith(("ipc_", "l4sh_", "tests_", "std::")) and quoted not in ("std", "core")


def columns_of_clauses(lines):
    """Each cell of a column that is headed Clause, with the line that it is in."""
    place = None
    for line in lines:
        cells = [it.strip() for it in line.strip().strip("|").split("|")] if line.startswith("|") else []
        if not cells:
            place = None
        elif place is None:
            heads = [n for n, it in enumerate(cells) if it in ("Clause", "Clauses")]
            place = heads[0] if heads else -1
        elif 0 <= place < len(cells) and not re.fullmatch(r":?-+:?", cells[place]):
            yield cells[place], line


def lists_of_clauses(text):
    """What stands behind the last colon of each item, or of a list of laws before its first one, with the item that it is in."""
    for heading, items in re.findall(r"^((?:What you may rely on|Its laws).*:)\n\n((?:- .*\n(?:  .*\n)*)+)", text, re.M):
        for item in re.findall(r"^- (.*\n(?:  .*\n)*)", items, re.M):
            line = " ".join(item.split())
            yield line.partition(": ")[0] if heading.startswith("Its laws") else line.rpartition(": ")[2], line


def crates_of(line, own, crates):
    return {it for it in re.findall(r"(?:ipc|l4sh|tests)_\w+", line) if it in crates} | {own}


def names_of(path, crates, files):
    """Each name of a document, and whether it is where it is said to be."""
    with open(path, encoding="utf-8") as file:
        text = re.sub(r"```.*?```", "", file.read(), flags=re.S)
    for listed, crate in OF_A_CRATE.findall(text):
        for quoted in filter(is_name, re.findall(r"`([^`]+)`", listed)):
            yield f"{quoted} of {crate}", crate in crates and is_there(quoted, crates[crate][0])
    own = re.fullmatch(r"crates/(\w+)/README\.md", path)
    if own:
        for line in text.split("\n"):
            places = crates_of(line, own[1], crates)
            for quoted in filter(is_name, re.findall(r"`([^`\n]+)`", line)):
                yield quoted, any(is_there(quoted, crates[it][0]) for it in places)
        for cell, line in [*columns_of_clauses(text.split("\n")), *lists_of_clauses(text)]:
            places = crates_of(line, own[1], crates)
            names = re.findall(r"`([^`]+)`", cell) if "`" in cell else re.split(r",\s*", cell)
            # (a cell without a quoted name that is more than a list of words is a sentence)
            if "`" in cell or all(map(is_name, names)):
                for quoted in filter(is_name, names):
                    yield f"clause {quoted}", any(is_there(quoted, crates[it][1]) for it in places)
    for quoted in re.findall(r"`([^`\n]+)`", text):
        if FILE.fullmatch(quoted):
            ending = "[\\w.-]+".join(map(re.escape, ANY.split("/" + quoted.removeprefix("./"))))
            yield quoted, re.search(f"{ending}$", files, re.M) is not None


def without_clause(path):
    """The functions of a file that have no clause of their own: of a trait its name, of a type that is made the type's. A trait's impl has those of the trait."""
    with open(path, encoding="utf-8") as file:
        text = file.read()
    for found in HEAD_OF.finditer(text):
        owner = [it for it in BLOCK.finditer(text, 0, found.start())][-1:] if found[1] else []
        kind, of = owner[0].groups() if owner else ("", "")
        if "ensures" in found[2] or kind == "impl" and " for " in f" {of} ":
            continue
        yield re.match(r"\w+", of)[0] if kind == "trait" or found[3] == "new" else found[3]


def not_listed():
    """Which of those between a reader and a pen's port PROMISES does not list."""
    with open("docs/PROMISES.md", encoding="utf-8") as file:
        listed = file.read().partition("\nThese have none:\n\n")[2].partition("\n\n")[0]
    named = {name for item in listed.split("\n- ") for name in re.findall(r"`(\w+)`", item.partition(":")[0])}
    paths = [path for pattern in BETWEEN for path in glob.glob(f"crates/{pattern}", recursive=True)]
    found = {name for path in paths for name in without_clause(path)}
    return sorted(found - named) if found else ["a function without a clause"]


def main():
    os.chdir(ROOT)
    crates = {name: words_of(name) for name in os.listdir("crates")}
    files = "\n".join(path[1:] for path in files_below("."))
    count, missing = 0, []
    for path in documents():
        for name, is_so in names_of(path, crates, files):
            count += 1
            if not is_so:
                missing.append((path, name))
    missing += [("docs/PROMISES.md", f"{name}, which has no clause,") for name in not_listed()]
    for path, name in missing:
        print(f"{path}: {name} is not there")
    print(f"{count} names, {len(missing)} missing")
    return 1 if missing or not count else 0


if __name__ == "__main__":
    sys.exit(main())
