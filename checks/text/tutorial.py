#!/usr/bin/env python3
"""checks/text/tutorial.py L4SH: the ten steps of docs/TUTORIAL.md, by their judge.

Each stored solution is right, and each script with its gap is not yet, with the gap's line and the hint. A gap that is filled in wrongly is told by the
first line that is another, the line that it should be by --answer alone, and the deadlock of the last step by what `l4sh state` says. Of a gap that is
still there, and of a line that l4sh does not take, --answer tells the line of the solution. Each step has its section in the page, and what the page quotes of
the program is what it prints.

Its last line is `N checked, M failed`; the status is 0 where M is 0.
"""

import glob
import os
import re
import subprocess
import sys
import tempfile

sys.path.insert(1, f"{sys.path[0]}/../lib")

from counting import Tally
from kit import ROOT
from page_text import blocks_of, text_of

STEPS = "examples/tutorial"
L4SH = os.path.abspath(sys.argv[1])
# What somebody may well fill in first, and what the judge then shows if it is asked for the answer.
WRONG = {
    "01": (["2"], "wanted: called 2 2.1 1.1"), "02": (["2"], "wanted: called 3 1.1 nil 3.1"), "03": (["2", "2"], "wanted: called 3 1.1 2.1 any"),
    "04": (["2s"], "wanted: called 1 1.1 nil any 0x7e8"), "05": (["4"], "wanted: began 2 1"), "06": (["5"], "wanted: began 4 3"),
    "07": (["1"], "wanted: called 5 2.1 1.2"), "08": (["send"], "wanted: exreg 3.1 1.1 0x2"), "09": (["2"], "0x1001 1.1"),
    "10": (["to=1 from=1"], "deadlock: 1.1 waits for 2.1 waits for 3.1 waits for 1.1"),
}
tally = Tally()
check = tally.check


def judged(*words):
    """The status of the judge, and what it says."""
    ran = subprocess.run([f"{ROOT}/{STEPS}/judge", *words], capture_output=True, text=True, env={**os.environ, "L4SH": L4SH}, stdin=subprocess.DEVNULL)
    return ran.returncode, ran.stdout + ran.stderr


def judged_text(number, script, *more):
    with tempfile.NamedTemporaryFile("w", suffix=".l4") as file:
        file.write(script)
        file.flush()
        return judged(number, file.name, *more)


def filled(script, words):
    for word in words:
        script = script.replace("...", word, 1)
    return script


def step(path):
    name = os.path.basename(path)[:-3]
    number, script, hint = name[:2], text_of(path), text_of(f"{path[:-3]}.hint").strip()
    line = next(place for place, line in enumerate(script.splitlines(), 1) if "..." in line)
    status, said = judged(number)
    check(f"{name} with its gap", status == 1 and f"line {line} still has its gap" in said and f"hint: {hint}\n" in said, said)
    check(f"{name} with its gap, without its answer", "wanted: " not in said, said)
    solved = text_of(f"{STEPS}/solutions/{name}.l4").splitlines()[line - 1]
    status, said = judged(number, "--answer")
    check(f"the answer of {name} with its gap", status == 1 and f"\n  wanted: {solved}\nhint: " in said, said)
    status, said = judged_text(number, filled(script, ["?"] * script.count("...")), "--answer")
    check(f"the answer of {name} with a line that l4sh does not take", status == 1 and f"\n  wanted: {solved}\nhint: " in said, said)
    status, said = judged(number, f"{ROOT}/{STEPS}/solutions/{name}.l4")
    check(f"the solution of {name}", status == 0 and said.startswith(f"{name}: right."), said)
    words, shown = WRONG[number]
    status, said = judged_text(number, filled(script, words))
    check(f"{name} filled in wrongly", status == 1 and "wanted: " not in said and f"hint: {hint}\n" in said, said)
    status, said = judged_text(number, filled(script, words), "--answer")
    check(f"the answer of {name}", status == 1 and shown in said and f"hint: {hint}\n" in said, said)
    gaps = [re.escape(part) for part in script.split("...")]
    check(f"the solution of {name} fills the gap alone", re.fullmatch(".+".join(gaps), text_of(f"{STEPS}/solutions/{name}.l4")), name)
    check(f"{name} has its section", f"\n## {int(number)}. " in text_of("docs/TUTORIAL.md") and f"{name}.l4`" in text_of("docs/TUTORIAL.md"))


def page():
    """What the page quotes of l4sh."""
    blocks = blocks_of("docs/TUTORIAL.md", "text")
    check("the page has two quotations", len(blocks) == 2, len(blocks))
    first, state = blocks
    typed, _, told = first.partition("\n")
    given = f"open 1\nopen 2\ncall 1 from=any\n{typed}\n"
    ran = subprocess.run([L4SH, "talk"], input=given, capture_output=True, text=True).stdout
    check("how to read what is printed", ran.endswith(told), ran)
    deadlock = filled(text_of(f"{STEPS}/10_deadlock.l4"), ["to=1 from=1"])
    ran = subprocess.run([L4SH, "talk"], input=deadlock, capture_output=True, text=True).stdout
    with tempfile.NamedTemporaryFile("w") as trace:
        trace.write("".join(line for line in ran.splitlines(keepends=True) if not line.startswith(("=", "!", ">", "?"))))
        trace.flush()
        there = subprocess.run([L4SH, "state", trace.name], capture_output=True, text=True).stdout
        check("the deadlock of the page", there == state, there)
        judged_trace = subprocess.run([L4SH, "check", trace.name], capture_output=True, text=True).stdout
        check("its trace", judged_trace == "yes\n", judged_trace)


def main():
    steps = sorted(glob.glob(f"{STEPS}/[0-9][0-9]_*.l4", root_dir=ROOT))
    check("there are ten steps", [os.path.basename(path)[:2] for path in steps] == sorted(WRONG), steps)
    for path in steps:
        step(path)
    page()
    for word in ("from=2", "from=any"):
        status, said = judged_text("10", filled(text_of(f"{STEPS}/10_deadlock.l4"), [word]))
        check(f"the deadlock ends by {word}, too", status == 0, said)
    for name, room in (("05_strings", "64"), ("06_overflow", "64,64")):
        status, said = judged_text(name[:2], filled(text_of(f"{STEPS}/{name}.l4"), [room]))
        check(f"more room than {name} needs", status == 0, said)
    status, said = judged("11")
    check("a step that is not there", status == 2 and "the steps are 01 to 10" in said, said)
    status, said = judged("01", f"{ROOT}/{STEPS}/none.l4")
    check("a script that is not there", status == 2 and "no such file" in said, said)
    status, said = judged_text("1", "walk\n")
    check("a line that is none", status == 1 and "l4sh does not take a line" in said, said)
    with tempfile.NamedTemporaryFile(suffix=".l4") as file:
        file.write(b"call 1 \xff\xfe\n")
        file.flush()
        status, said = judged("1", file.name)
    check("bytes that are no text", status == 1 and "l4sh does not take a line" in said and "\\xff\\xfe" in said, said)
    return tally.end()


if __name__ == "__main__":
    sys.exit(main())
