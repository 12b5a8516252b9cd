"""Markdown of docs/ as roff, for the man pages. What names a file of the sources, which is not installed, is left out: links and sentences."""
import re

# A sentence that names such a file, or a page of docs/ that is no page of man.
OF_SOURCES = re.compile(r"(?:crates|checks|bench|examples|clients|proofs|specs|packaging)/|\.antt|\.rt\b|`\./test`|`\./build`|`\./install`|"
                        r"\b(?:CHANGING|DECISIONS|LAYERS|PROFILE|PROMISES|TUTORIAL)\.md")
# What stands before a command of the tree.
OF_THE_TREE = re.compile(r"(?<![\w/])\./(?=l4(?:d|sh|x)\b)")
OF_THE_TREE_WITH_WORDS = re.compile(OF_THE_TREE.pattern + r"(?=\w+ )")

# Which page of man has what a page of docs/ has.
PAGES = {"FORMATS": "hashkarst(7)", "TOOLS": "l4sh(1)", "OPERATING": "l4d(1)", "NAMES": "l4x(1)"}


def plain(text, is_head=False, is_code=False):
    """A line's text as roff: links as their texts, code and bold."""
    if not is_code:
        # (before pages are named, since those names have parentheses)
        text = re.sub(r"\[([^\]]+)\]\([^)]+\)", r"\1", OF_THE_TREE_WITH_WORDS.sub("", text))
    text = re.sub(r"\b([A-Z]{3,})\.md", lambda it: PAGES.get(it[1], it[1]), text)
    text = text.replace("\\", "\\e").replace("-", "\\-")
    if not is_code:
        bold = r"\1" if is_head else r"\\fB\1\\fR"
        text = re.sub(r"`([^`]+)`", bold, text)
        text = re.sub(r"\*\*([^*]+)\*\*", bold, text)
        text = re.sub(r"(?<![\w*])\*([^*\s][^*]*)\*", r"\1" if is_head else r"\\fI\1\\fR", text)
    return "\\&" + text if text[:1] in (".", "'") else text


def of_users(text):
    """The sentences of a paragraph that name no file of the sources."""
    return " ".join(it for it in re.split(r"(?<=[.!?]) (?=[A-Z`*\[(])", text) if not OF_SOURCES.search(re.sub(r"\]\([^)]+\)", "]", it)))


def cells(line):
    marked = line.strip().strip("|").replace("\\|", "\0")
    return [cell.strip().replace("\0", "|") for cell in marked.split("|")]


def table(rows):
    """A table as paragraphs: the first cell leads, the others follow under their heads. What the first ones are is said before them where one word does not."""
    head = cells(rows[0])
    lines = [".PP", plain(head[0]) + ":"] if " " in head[0] else []
    for row in rows[2:]:
        first, *rest = cells(row)
        told = [value if len(rest) == 1 or not name else f"{name}: {value}" for name, value in zip(head[1:], rest) if value]
        said = of_users(". ".join(told)) if told else "-"
        if said:
            lines += [".TP", ".B " + plain(first, is_head=True), plain(said)]
    return lines


def table_of(lines, first):
    """The rows of the one table whose first head is this, as lists of cells."""
    at = next(n for n, line in enumerate(lines) if line.startswith("|") and cells(line)[0] == first)
    rows = []
    for line in lines[at + 2:]:
        if not line.startswith("|"):
            break
        rows.append([it for it in cells(line) if it])
    return rows


def code(lines):
    """A block of code, with the commands as they are called once they are installed."""
    return [".PP", ".EX", *[plain(OF_THE_TREE.sub("", line), is_code=True) for line in lines], ".EE"]


def paragraph(lines):
    """Lines of text that belong together: a paragraph, an item of a list, or a heading."""
    text = of_users(" ".join(line.strip() for line in lines))
    if not text:
        return []
    item = re.match(r"(-|\d+\.) (.*)", text)
    if item:
        return [".IP \\(bu 2" if item[1] == "-" else f".IP {item[1]} 4", plain(item[2])]
    return [".PP", plain(text)]


def blocks_of(lines):
    """The blocks of a page: kind and lines. A block of code has no fences."""
    kind, block = None, []
    # (a line that is a comment says who makes a table)
    for line in [*(it for it in lines if not it.startswith("<!--")), ""]:
        if kind == "code":
            if line.startswith("```"):
                yield kind, block
                kind, block = None, []
            else:
                block.append(line)
            continue
        is_head = line.startswith("#")
        new = "code" if line.startswith("```") else "table" if line.startswith("|") else "head" if is_head else "text" if line.strip() else None
        if new != kind or is_head or re.match(r"(?:-|\d+\.) ", line):
            if block:
                yield kind, block
            kind, block = new, []
        if kind and kind != "code":
            block.append(line)


def lines_of(lines):
    """Lines of a page as roff."""
    made = []
    for kind, block in blocks_of(lines):
        if kind == "code":
            made += code(block)
        elif kind == "table":
            made += table(block)
        elif kind == "head":
            made += [".SS " + plain(block[0].lstrip("# "), is_head=True)]
        else:
            made += paragraph(block)
    return made[1:] if made[:1] == [".PP"] else made


def examples(lines):
    """The blocks of code of a page."""
    return [it for kind, block in blocks_of(lines) if kind == "code" for it in code([line.replace("examples/rendezvous.l4", "script") for line in block])]


def paragraphs_of(path, heading):
    """What stands in a page between its title and this heading."""
    with open(path) as file:
        lines = file.read().splitlines()
    return lines[1: lines.index(f"## {heading}")]
