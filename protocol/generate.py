#!/usr/bin/env python3
"""protocol/generate.py: writes what clients, checks and pages have of the protocol, from the texts of this folder.

    protocol/generate.py            writes each file that is not as the texts say, and tells it
    protocol/generate.py --check    writes nothing; tells what it would write, and the status is then 1

What is wrong with a text is told with its file and its line, and nothing is written.
"""

import os
import sys

HERE = os.path.dirname(os.path.abspath(__file__))
sys.path.insert(0, HERE)

import of_c
import of_pages
import of_python
import of_rattle
import of_scripts
from model import load
from reader import Bad

ROOT = os.path.dirname(HERE)
WHOLE = {
    "clients/c/src/protocol.h": of_c.header,
    "clients/c/src/meanings.h": of_c.meanings,
    "clients/c/include/l4/told.h": of_c.told,
    "clients/python/src/l4ipc/protocol.py": of_python.client,
    "checks/lib/protocol_tables.py": of_python.checks,
    "crates/l4sh_explain/src/families.rt": of_rattle.families,
    **of_scripts.whole(),
}
PAGES = ["docs/FORMATS.md"]


def committed(path, root=ROOT):
    """What stands in a file; None where there is none."""
    try:
        with open(os.path.join(root, path), encoding="utf-8") as file:
            return file.read()
    except FileNotFoundError:
        return None


def outputs(root=ROOT):
    """Each file that is made, or has a part that is, with the text that it should have."""
    protocol = load()
    texts = {path: made(protocol) for path, made in WHOLE.items()}
    tables, seen = of_pages.tables(protocol), []
    for path in PAGES:
        texts[path] = of_pages.remade(path, committed(path, root) or "", tables, seen)
    for name in tables:
        if seen.count(name) != 1:
            raise Bad(f"the table `{name}` stands {seen.count(name)} times in {', '.join(PAGES)}, and not once")
    for path in of_scripts.OF_FAMILIES:
        texts[path] = of_scripts.with_families(protocol, committed(path, root) or "")
    for record, place, text in protocol.prose:
        before = texts.get(record.name) or committed(record.name, root)
        if before is None:
            raise record.bad(f"there is no {record.name}")
        texts[record.name] = of_pages.resaid(record.name, before, protocol, record, place, text)
    return texts


def main(words):
    if words not in ([], ["--check"]):
        sys.exit(__doc__)
    try:
        texts = outputs()
    except (Bad, ValueError) as wrong:
        sys.exit(f"{wrong}")
    others = [path for path, text in texts.items() if committed(path) != text]
    for path in others:
        print(f"{path}: {'is not as the texts say' if words else 'written'}")
        if not words:
            with open(os.path.join(ROOT, path), "w", encoding="utf-8") as file:
                file.write(texts[path])
    print(f"{len(texts)} files, {len(others)} {'differ' if words else 'written'}")
    return 1 if words and others else 0


if __name__ == "__main__":
    sys.exit(main(sys.argv[1:]))
