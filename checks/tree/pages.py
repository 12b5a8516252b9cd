#!/usr/bin/env python3
"""Looks at the form of the documents: their width, their length, their dates, their links, and what they count.

- No line has more than 100 columns, but for the rows of tables.
- Nor has a comment of a source or a definition, but for a table's row.
- All pages together have at most so many words as `MOST_WORDS` says. A word has a letter or a digit: the bars of a table are none.
- A date stands only in bench/README.md and CHANGELOG.md: a page tells how things are.
- No path of somebody's machine stands anywhere.
- Each link leads to a file that is there and, behind a `#`, to a heading of it.
- In a table of docs/CHANGING.md each file that stands behind the name of a crate is a file of that
  crate: `X.rt` of its `src`, and a name with a capital, as `Limits`, of its `specs` or `proofs`.
- docs/LAYERS.md has each crate of crates.txt, in the same order.
- Where a page tells `N crates`, and so of each name in `counts_of_the_tree`, the tree has so many of them.
  N is in digits, or one of the words up to `twelve`. Figures of a day, in the pages with dates, are not
  held to the tree.

It prints what is wrong, and the status is 1 where something is. The last line is `N pages, W words, M faults`.

`pages.py --wrap PAGE..` brings the paragraphs of these pages to that width, and changes no word.
"""

import glob
import os
import re
import runpy
import sys
import textwrap

from names import ROOT, documents

WIDTH = 100
MOST_WORDS = 45_000
DATED = {"bench/README.md", "CHANGELOG.md"}
MONTHS = "January|February|March|April|May|June|July|August|September|October|November|December"
DATE = re.compile(rf"\b20\d\d-[01]\d(?:-[0-3]\d)?\b|\b(?:{MONTHS}) (?:\d{{1,2}}, )?20\d\d\b")
LOCAL = re.compile(r"(?<![\w.])/(?:home|opt|root|tmp|work|Users)/[\w.-]+")
LINK = re.compile(r"\]\(([^)\s]+)\)")
ROWS = "docs/CHANGING.md"
# A crate, or a file of it: of a word with a capital only what ends an item of a list.
PLACED = re.compile(r"`(\w+)`|([\w/]+\.rt)\b|\b([A-Z][a-z]+(?:[A-Z][a-z]+)*)(?=\s*(?:[,;(]|$))")
# What begins an item of a list; and a dash, a plus or a number with a dot inside a sentence, which would be one at a line's begin.
ITEM = re.compile(r"\s*(?:[-*]|\d+\.)\s+")
INSIDE = re.compile(r" (?=(?:[-+*>#]|\d+\.) )")
# Code and a link stand in one line, where they have room.
WHOLE = re.compile(r"`[^`]{1,90}`|\[[^\]`]{1,40}\]\([^)]*\)")
# (`no edits` and `one step` tell nothing of the tree.)
NUMBERS = {word: number for number, word in enumerate("two three four five six seven eight nine ten eleven twelve".split(), 2)}
COUNTED = re.compile(rf"\b(\d[\d,]*|{'|'.join(NUMBERS)}) (crates|checks|edits|examples|roles|scripts|steps)\b", re.I)
COMMENT = re.compile(r"\s*(?://[/!]?|--)(?![/!]? ?\|)")
WORD = re.compile(r"\S*[A-Za-z0-9]\S*")


def counts_of_the_tree():
    """How many there are of what the documents count."""
    return {
        "crates": len(glob.glob("crates/*/")),
        "checks": len(runpy.run_path("test", run_name="counted")["CHECKS"]),
        "edits": len(glob.glob("crates/*/must-fail/*.edit") + glob.glob("crates/*/wrong/**/*.edit", recursive=True)),
        "examples": len(glob.glob("examples/*.l4")),
        "scripts": len(glob.glob("examples/*.l4")),
        "steps": len(glob.glob("examples/tutorial/*.l4")),
        "roles": roles_of_l4x(),
    }


def roles_of_l4x(path="crates/l4x/src/role.rt"):
    """How many names of roles `l4x` takes."""
    with open(path, encoding="utf-8") as file:
        return len(set(re.findall(r'^\s+"(\w+)" => (?:Some\()?Role::', file.read(), re.M)))


def number_of(told):
    """The number that digits or a word tell."""
    return NUMBERS.get(told.lower()) or int(told.replace(",", ""))


def lines_of(text):
    """Each line with its number, and whether it stands in a block of code."""
    is_code = False
    for number, line in enumerate(text.split("\n"), 1):
        is_fence = line.lstrip().startswith("```")
        is_code ^= is_fence
        yield number, line, is_code or is_fence


def heading_names(path):
    """The names of a page's headings, as links spell them."""
    names = set()
    with open(path, encoding="utf-8") as file:
        for _, line, is_code in lines_of(file.read()):
            heading = None if is_code else re.fullmatch(r"#+ (.*)", line)
            if heading:
                text = re.sub(r"\[([^\]]*)\]\([^)]*\)", r"\1", heading[1])
                name = re.sub(r"[^\w\- ]", "", text.strip().lower()).replace(" ", "-")
                # (of two headings of one text the second is `name-1`)
                names.add(name if name not in names else f"{name}-1")
    return names


def is_dead(path, target):
    if re.match(r"[a-z]+:", target):
        return False
    place, _, heading = target.partition("#")
    file = os.path.normpath(os.path.join(os.path.dirname(path), place)) if place else path
    if not os.path.exists(file):
        return True
    return bool(heading) and (not file.endswith(".md") or heading not in heading_names(file))


def misplaced(line, crates):
    """The files of a row that are not of the crate behind whose name they stand."""
    for cell in line.split("|"):
        crate = None
        for quoted, program, definition in PLACED.findall(cell.strip()):
            if quoted:
                crate = quoted if quoted in crates else crate
                continue
            below = {"src": program} if program else {"specs": f"{definition}.antt", "proofs": f"{definition}.antt"}
            if crate and not any(glob.glob(f"crates/{crate}/{it}/**/{name}", recursive=True) for it, name in below.items()):
                yield f"{program or definition} of {crate}"


def faults_of_line(path, line, is_code, counts):
    if len(line) > WIDTH and (is_code or not line.startswith("|")):
        yield f"{len(line)} columns"
    if path not in DATED:
        yield from (f"the date {it}" for it in DATE.findall(line))
        for number, what in COUNTED.findall(line):
            if number_of(number) != counts[what.lower()]:
                yield f"{number} {what}, where there are {counts[what]}"
    yield from (f"the local path {it}" for it in LOCAL.findall(line))
    if path == ROWS and line.startswith("|"):
        yield from (f"{it} is not there" for it in misplaced(line, set(os.listdir("crates"))))
    if not is_code:
        yield from (f"the dead link {it}" for it in LINK.findall(line) if is_dead(path, it))


def faults_of_layers(layers="docs/LAYERS.md"):
    """The first crate of crates.txt that docs/LAYERS.md does not have at its place."""
    with open("crates.txt", encoding="utf-8") as file:
        listed = re.findall(r"^(\w+):", file.read(), re.M)
    with open(layers, encoding="utf-8") as file:
        told = re.findall(r"\[`(\w+)`\]\(\.\./crates/", file.read())
    for place, crate in enumerate(listed):
        if told[place:place + 1] != [crate]:
            yield f"{layers}: {crate} is not at its place, behind {', '.join(listed[place - 1:place]) or 'none'}"
            return
    yield from (f"{layers}: {it} is not in crates.txt" for it in told[len(listed):])


def faults_of(path, counts):
    with open(path, encoding="utf-8") as file:
        for number, line, is_code in lines_of(file.read()):
            for fault in faults_of_line(path, line, is_code, counts):
                yield f"{path}:{number}: {fault}"


def faults_of_comments():
    """The comments of sources and definitions that are too wide."""
    for path in sorted(glob.glob("crates/*/src/**/*.rt", recursive=True) + glob.glob("crates/*/specs/**/*.antt", recursive=True)):
        with open(path, encoding="utf-8") as file:
            for number, line in enumerate(file.read().split("\n"), 1):
                if len(line) > WIDTH and COMMENT.match(line):
                    yield f"{path}:{number}: a comment of {len(line)} columns"


def length_of(pages):
    """How many words all pages have together."""
    count = 0
    for path in pages:
        with open(path, encoding="utf-8") as file:
            count += len(WORD.findall(file.read()))
    return count


def wrapped(paragraph):
    """A paragraph's lines at the width; an item's further lines stand below its text."""
    begin = (ITEM.match(paragraph[0]) or re.match(r"\s*", paragraph[0]))[0]
    words = " ".join([paragraph[0][len(begin):], *map(str.strip, paragraph[1:])])
    words = WHOLE.sub(lambda it: it[0].replace(" ", "\0"), INSIDE.sub("\0", words))
    lines = textwrap.wrap(words, WIDTH, initial_indent=begin, subsequent_indent=" " * len(begin),
                          break_long_words=False, break_on_hyphens=False)
    return [line.replace("\0", " ") for line in lines]


def wrap(text):
    """The text with each paragraph at the width. Tables, headings and code stay."""
    out, paragraph = [], []
    for _, line, is_code in lines_of(text):
        is_begun = bool(paragraph)
        stays = is_code or not line.strip() or line.startswith(("|", "#")) or line.startswith("    ") and not is_begun
        if is_begun and (stays or ITEM.match(line)):
            out += wrapped(paragraph)
            paragraph = []
        if stays:
            out.append(line)
        else:
            paragraph.append(line)
    return "\n".join(out + (wrapped(paragraph) if paragraph else []))


def wrap_pages(paths):
    for path in paths:
        with open(path, encoding="utf-8") as file:
            text = file.read()
        with open(path, "w", encoding="utf-8") as file:
            file.write(wrap(text))
    return 0


def main():
    if sys.argv[1:2] == ["--wrap"]:
        return wrap_pages(sys.argv[2:])
    os.chdir(ROOT)
    counts = counts_of_the_tree()
    pages = documents()
    words = length_of(pages)
    faults = [fault for path in pages for fault in faults_of(path, counts)] 
    faults += [*faults_of_layers(), *faults_of_comments()]
    if words > MOST_WORDS:
        faults.append(f"the pages have {words:,} words together, where {MOST_WORDS:,} are the most")
    for fault in faults:
        print(fault)
    print(f"{len(pages)} pages, {words:,} words, {len(faults)} faults")
    return 1 if faults or not pages else 0


if __name__ == "__main__":
    sys.exit(main())
