#!/usr/bin/env python3
"""checks/tree/wrong_bodies.py [--promised | --proved] [--strict] [CRATE[/EDIT] ..]: tries the wrong bodies of crates/CRATE/wrong, many in one check.

An edit stands in wrong/ in the format of must-fail/: a line `file: src/lib.rt`, then pairs of lines `old: TEXT` and `new: TEXT`. `rt ci` tries
those of must-fail/ one by one, each with all proofs of its crate. Those of wrong/ are tried here, before a landing that touches the crate. Those of
wrong/promised/ break what a public call promises: `./test` tries them behind the gate (--promised). Those of wrong/proved/ no contract refuses yet, as
docs/PROMISES.md says of each crate (--proved): one that is refused now goes to wrong/.

Each function is proved by the contracts of those that it calls. So edits of different functions do not touch each other, and one check tries one
edit of each function; it asks for the proofs of these functions alone. An edit of a definition says by lines `only: PATH` which proofs shall fall;
without one all proofs of its crate are asked for. An edit is refused where a goal of a contract is not proved of its function: what it ensures, an
invariant, or what one that it calls requires. Two others say little of the contract: `names`, where a proof file only names what the edit took away, or
a proof by hand no longer fits, and `safety`, where only a sum, an index or an end of a loop is not proved: change a value there and keep the names.
Where the function is only not proved because one that it calls is not, nothing is known, and it is tried again without that one. Where its proof wants
that of another function, which was not asked for, it is tried again with that one. A body that the toolchain cannot read yet shows nothing: the edit
has to be written another way. A crate whose name begins with tests_ is checked with its tests.

It needs the kit's command rt, whose modules it uses, and changes no source. The crates below are built first where they are not; with --promised the
libraries that the gate has just made are taken. It prints a line for each edit, with the path of its function and the goal that refused it, and a
line for how many were refused by names or for safety alone. Its last line is `N refused, M passed`; the status is 1 where one passed or could not be
tried, with --proved where one was refused, with --strict also where one of wrong/promised was refused so alone.
"""

import glob
import os
import re
import shutil
import sys
import tempfile

sys.path.insert(1, f"{sys.path[0]}/../lib")

from kit import ROOT, kit

HEAD = re.compile(r"^\s*(?:pub(?:\([a-z]+\))?\s+)?(?:const\s+)?fn ([a-z_0-9]+)")
OWNER = re.compile(r"^impl(?:<[^{]*?>)?\s+(?:(?:\w+::)*(\w+)(?:<[^{]*>)?\s+for\s+)?(?:\w+::)*(\w+)")
STATUS = re.compile(r"^(fn|struct|enum|const|impl) ")
UNASKED = re.compile(r"the borrow checker's part.*\ba call of `?([\w:+]+)`?, which has no proof")
UNCOVERED = "the borrow checker does not cover this function yet"
OF_TESTS = "tests_"
BLOCKED = re.compile(r"no proof: it calls .*which (is|are) not proved$")
# A proof of one function alone, which an edit changes with its body.
OF_FUNCTION = re.compile(r"proofs/\S+/")
NOT_PROVED = re.compile(r"no(t proved| proof)")
# A goal that no proof was found of, before the line of its function, and what is wrong in a proof file.
GOAL = re.compile(r"note: \S+: (it is not proved .*) \(`(\S+)`\)")
FAULT = re.compile(r"(?:note: )?(?:\./)?proofs/(\S+)/([A-Z]\w*)\.antt:\d+:\d+: (?:error: )?(?:`([^`]*)`: )?(.*)")
# What begins a line of the prover's: what does not goes on with the line before it.
BEGINS = re.compile(r"(?:note|help|warning): |(?:\./)?[\w/+-]+\.(?:rt|antt):\d+:\d+: |(?:fn|struct|enum|const|impl|crate|logic|statements) |[\w-]+=|\s*$")
# As rt must-fail tells a proof file that names what the edit took away, and what cites that proof.
NAMES = re.compile(r"has no field|is not in scope|has no `|was not admitted")
ALONE = ("names", "safety")
SAFETY = re.compile(r"(overflow|nonzero|bounds|slice_bounds|offset_bounds)[_-]|.*-smaller$")


class Edit:
    """A wrong body: its changes, the functions that they stand in, and the paths of the proofs that are asked for."""

    def __init__(self, crate, path):
        self.name = os.path.basename(path)[: -len(".edit")]
        self.is_promised = os.path.basename(os.path.dirname(path)) == "promised"
        with open(path) as it:
            lines = it.read().split("\n")
        self.changes = list(self.read(lines))
        self.paths = {line.partition(": ")[2].strip() for line in lines if line.startswith("only: ")}
        self.is_told = bool(self.paths)
        texts = {}
        self.functions = set()
        for file, old, new in self.changes:
            text = texts.setdefault(file, open(f"{crate.folder}/{file}").read())
            if text.count(old) != 1:
                sys.exit(f"wrong_bodies: {crate.name}/{self.name}: its text stands {text.count(old)} times in {file}")
            owner, name = self.function_at(text, text.index(old))
            if not OF_FUNCTION.match(file):
                self.functions.add((file, owner, name))
            if name and file.startswith("src/") and not self.is_told:
                self.paths.add("::".join(path_of(file, owner, name)))
            texts[file] = text.replace(old, new)

    @staticmethod
    def read(lines):
        file = old = ""
        for line in lines:
            word, _, text = line.partition(": ")
            if word == "file":
                file = text.strip()
            elif word == "old":
                old = text
            elif word.rstrip(":") == "new":
                yield file, old, text

    @staticmethod
    def function_at(text, at):
        """The type whose method stands there, where it is one, and the function's name. Of a trait's method the type's name goes before the trait's."""
        name = None
        for line in text.split("\n")[text[:at].count("\n") :: -1]:
            if name is None and HEAD.match(line):
                name = HEAD.match(line)[1]
                if not line.startswith(" "):
                    return None, name
            elif OWNER.match(line):
                trait, owner = OWNER.match(line).groups()
                return owner + (trait or ""), name
            elif line.startswith("}"):
                break
        return None, name

    def asks(self, path):
        """Has the proof of a function asked for, too; whether it was not before."""
        known = len(self.paths)
        self.paths.add(path.partition("::")[2])
        return len(self.paths) > known

    def stands_alone(self):
        return self.is_told or any(name is None or not file.startswith("src/") for file, _, name in self.functions)


def groups(edits):
    """The edits in groups of which none touches a function that another touches."""
    left = list(edits)
    while left:
        if left[0].stands_alone():
            yield [left.pop(0)]
            continue
        used, group = set(), []
        for edit in list(left):
            if not edit.stands_alone() and not edit.functions & used:
                used |= edit.functions
                group.append(edit)
                left.remove(edit)
        yield group


def module_of(file):
    path = file[len("src/") : -len(".rt")]
    return [] if path in ("lib", "main") else path.split("/")


def path_of(file, owner, name):
    """The end of a function's path, as the kit spells it: a method stands at its type, whatever file it is in."""
    return [*([owner] if owner else module_of(file)), name]


def whole_lines(output):
    """The lines of a check, each with those that go on with it."""
    whole = []
    for line in output.split("\n"):
        if whole and FAULT.match(whole[-1]) and not BEGINS.match(line):
            whole[-1] += f" {line.strip()}"
        else:
            whole.append(line)
    return whole


class Said:
    """What a check says: of each function a line, the goals that were not proved, and what is wrong in its proof files."""

    def __init__(self, output):
        self.words, self.goals, self.faults = {}, {}, {}
        self.is_read = False
        noted = []
        for line in whole_lines(output):
            self.is_read = self.is_read or bool(STATUS.match(line))
            if goal := GOAL.match(line):
                noted.append((goal[2], goal[1]))
            elif fault := FAULT.match(line):
                self.faults.setdefault(fault[1], []).append((fault[2], fault[3] or "", fault[4]))
            elif line.startswith("fn "):
                symbol, _, words = line[3:].partition(": ")
                self.words[symbol], self.goals[symbol], noted = words, noted, []

    def symbols_of(self, file, owner, name):
        """The paths of a function and of the closures in it; of all of that name where none has its path."""
        end, found = path_of(file, owner, name), []
        for symbol in self.words:
            path = symbol.split("::")[1:]
            inside = path.index("fn") if "fn" in path else len(path)
            within = path[inside + 1 :] if owner else path[:inside] + path[inside + 1 :]
            if path[inside:] and within[: len(end)] == end or not path[inside:] and (path[-len(end) :] if owner else path) == end:
                found.append(symbol)
        return found or [it for it in self.words if it.endswith(f"::{name}")]

    def kind_of(self, symbol):
        """Why a function is not proved: a kind of `verdict`, and what says so."""
        words = self.words[symbol]
        if not NOT_PROVED.match(words):
            return "passed", f"{symbol}: {words}"
        for kind, is_so in (("blocked", BLOCKED.search(words)), ("unread", UNCOVERED in words), ("unasked", UNASKED.search(words))):
            if is_so:
                return kind, f"{symbol}: {words}"
        folder = "/".join(symbol.split("::")[1:])
        faults = self.faults.get(folder) or [it for other, found in self.faults.items() if other.endswith(f"/{folder.split('/')[-1]}") for it in found]
        by_names = [(name, text) for file, name, text in faults if file == "Proof" or NAMES.search(text)]
        unmet = [(name, words) for name in re.findall(r"`([^`]+)`", words.partition("did not prove")[2])]
        goals = (self.goals[symbol] or unmet) + [it[1:] for it in faults if it[1:] not in by_names]
        for kind, found in (("refused", [it for it in goals if not SAFETY.match(it[0])]), ("names", by_names), ("safety", goals)):
            if found:
                return kind, f"{symbol}: `{found[0][0]}`: {found[0][1]}"
        return "names", f"{symbol}: {words}"


def verdict(edit, output, is_proved):
    """`refused`, `names`, `safety`, `passed`, `blocked`, `unasked` or `unread`, and what says so."""
    said = Said(output)
    if not said.is_read:
        return "unread", next((line for line in output.split("\n") if ": error" in line), output[:200])
    found = []
    for file, owner, name in edit.functions:
        if name is None or not file.startswith("src/"):
            fallen = [said.kind_of(symbol) for symbol, words in said.words.items() if NOT_PROVED.match(words) and not BLOCKED.search(words)]
            found += [("passed", "")] if is_proved else fallen or [("refused", "not proved")]
        else:
            found += [said.kind_of(it) for it in said.symbols_of(file, owner, name)] or [("passed", f"{name} is not listed")]
    for kind in ("unread", "refused", "unasked", "blocked", "names", "safety", "passed"):
        for known, words in found:
            if known == kind:
                return kind, words
    return "unread", "it changes no function"


def texts_of(crate, group):
    """The files that the edits of a group change, as they make them."""
    texts = {}
    for file, old, new in (change for edit in group for change in edit.changes):
        texts[file] = texts.get(file, open(f"{crate.folder}/{file}").read()).replace(old, new)
    return texts


def ran_with(rt, crate, group, kept):
    """What the check of a crate with a group of edits says. It proves what the edits touch alone, where all have paths, and else, or where a path fits nothing, all."""
    paths = sorted({path for edit in group for path in edit.paths})
    flags = ["--jobs", "1", *(["--test"] if crate.name.startswith(OF_TESTS) else [])]
    if all(edit.paths for edit in group):
        ran = rt.checked(crate, texts_of(crate, group), [*flags, *(word for path in paths for word in ("--only", path))], kept)
        if ran.returncode != 2:
            return ran
    return rt.checked(crate, texts_of(crate, group), flags, kept)


def try_crate(rt, crate, edits, is_strict):
    """Tries wrong bodies of one crate; answers how many a goal refused, names or safety alone, and neither, and a line of each. Where it is strict, so
    alone is not enough of what is promised."""
    kinds, lines = [], []
    waiting = list(groups(edits))
    with tempfile.TemporaryDirectory() as room:
        kept, own = f"{room}/kept", f"{crate.folder}/out/incremental"
        if os.path.isdir(own):
            shutil.copytree(own, kept)
        elif len(waiting) > 1:
            os.mkdir(kept)
        while waiting:
            group = waiting.pop(0)
            ran = ran_with(rt, crate, group, kept if os.path.isdir(kept) else None)
            for edit in group:
                kind, said = verdict(edit, ran.stdout, ran.returncode == 0)
                if kind == "unasked" and edit.asks(UNASKED.search(said)[1]):
                    waiting.append([edit])
                    continue
                if kind in ("blocked", "unread") and len(group) > 1:
                    waiting.append([edit])
                    continue
                kinds.append("passed" if kind in ALONE and edit.is_promised and is_strict else kind)
                lines.append(f"{kind.upper()} {crate.name}/{edit.name}: {said[:400]}")
    refused, alone = kinds.count("refused"), sum(it in ALONE for it in kinds)
    return refused, alone, len(edits) - refused - alone, lines


def is_of_gate(crate):
    """Whether the crate's library is the one that the gate leaves, which other commands of the kit do not take."""
    return os.path.exists(f"{crate.rlib}/format") and not os.path.exists(f"{os.path.dirname(crate.rlib)}/stamp")


def build_below(crate):
    for below in crate.below():
        if below.build_rlib(["--jobs", "1"], anew=False):
            sys.exit(f"wrong_bodies: {below.name} is not proved")


def main():
    os.chdir(ROOT)
    rt = kit("wrong_bodies")
    rt.rtlib.guarded()
    asked = [it.partition("/")[::2] for it in sys.argv[1:] if it not in ("--promised", "--proved", "--strict")]
    is_promised, is_proved, is_strict = (it in sys.argv[1:] for it in ("--promised", "--proved", "--strict"))
    crates = rt.rtlib.crates_below(os.getcwd())
    unknown = [it for it, _ in asked if it not in [crate.name for crate in crates]]
    if unknown:
        sys.exit(f"wrong_bodies: {unknown[0]} is no crate")
    tasks = {}
    for crate in crates:
        places = ["proved/"] if is_proved else ["promised/"] if is_promised else ["promised/", ""]
        paths = [path for place in places for path in glob.glob(f"{crate.folder}/wrong/{place}*.edit")]
        names = {name for it, name in asked if it == crate.name} if asked else {""}
        edits = [it for it in (Edit(crate, path) for path in sorted(paths) if names) if names & {"", it.name}]
        if not edits:
            continue
        if not (is_promised and all(map(is_of_gate, crate.below()))):
            build_below(crate)
        tasks[crate.name, "edits"] = ([], crate.count(rb"\n"), rt.need(crate), lambda given, jobs, crate=crate, edits=edits: told(try_crate(rt, crate, edits, is_strict)))
    counts = rt.in_lanes(tasks).values()
    refused, alone, passed = (sum(it[kind] for it in counts) for kind in range(3))
    if alone:
        print(f"{alone} refused by names or for safety alone")
    print(f"{refused} refused, {passed} passed")
    return 1 if (refused if is_proved else passed) or not tasks else 0


def told(result):
    print(*result[3], sep="\n", flush=True)
    return result


if __name__ == "__main__":
    sys.exit(main())
