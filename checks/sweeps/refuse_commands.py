#!/usr/bin/env python3
"""Runs l4sh, l4d and l4x with each growth of memory refused in turn, over all that reads a trace, words or options.

    checks/sweeps/refuse_commands.py L4SH L4D L4X [--every N]

The stored cases of checks/scripts are taken but for `run` and `wire`, which have checks of their own: traces for `check`, `chart`, `state`, `script`,
`count` and `follow`, lines for `talk`, words for `explain`, `tag` and `period`. The same traces are migrated, and drawn as text, as a picture and as a
page. Then come the options of each program: help, version, and words that are refused. With one growth refused a run may
- do the same, where the program can do without;
- do the same, but tell the first line alone of what it tells on standard error: there was no memory for the reason;
- refuse one command of `talk` with `! K4`: what it printed before is as otherwise;
- end with `no memory` on standard error, behind it the file that was read in a line of its own or not, and status 1, and what it printed is then a front of what it prints otherwise.
Anything else is told, and the status is then 1. With --every N it refuses each N-th growth, of each case others. It needs a C compiler (cc). The last line
is `N runs, M failed`."""

import collections
import glob
import os
import subprocess
import sys
import tempfile

sys.path.insert(1, f"{sys.path[0]}/../lib")

from arguments import number_of, programs_of
from kit import ROOT
from runs import OF_A_FILE, OF_A_WORD, stored
from shims import built_shim, count_in

SECONDS = 60
# What a program says that got no memory.
NO_MEMORY = {"l4sh": b"l4sh: no memory\n", "l4d": b"l4d: no memory\n", "l4x": b"l4x: no memory\n"}
DRAWN = (["chart"], ["chart", "--text"], ["chart", "--html"])
# The options of each program: what is printed, and what is refused.
SHELL_WORDS = ([], ["--help"], ["--version"], ["run", "--help"], ["chart", "--help"], ["no-command"], ["run", "--entries", "x"],
               ["check"], ["check", "--no-option", "trace"], ["chart", "--from", "2", "--to", "1", "trace"], ["talk", "--thread", "1024", "dir"])
SERVER_WORDS = ([], ["--help"], ["--version"], ["--dir", "d", "--spaces", "0"], ["--dir", "d", "--live", "many"], ["--no-option"],
                ["--dir", "d", "--keep-open", "--connections", "2"])
EXAMPLE_WORDS = ([], ["--help"], ["no-example"])


class Case:
    """A run of a program: its words, what it is given, and the name under which it is told."""

    def __init__(self, name, program, words, given=b""):
        self.name, self.program, self.words, self.given = name, program, words, given

    def run(self, room, shim, refused=0):
        env = dict(os.environ, LD_PRELOAD=shim, FAIL_AT=str(refused), COUNT_TO=f"{room}/count")
        ran = subprocess.run([self.program, *self.words], input=self.given, capture_output=True, env=env, cwd=room, timeout=SECONDS)
        return ran.returncode, ran.stdout, ran.stderr

    def what_is_wrong(self, room, shim, usual, refused):
        """The kind of the run, and what is wrong with it, if anything is."""
        there = self.run(room, shim, refused)
        if there == usual:
            return "same", None
        status, printed, told = there
        if (status, printed) == usual[:2] and told and usual[2].startswith(told) and told.count(b"\n") == 1 and told.endswith(b"\n"):
            return "without its reason", None
        before, refused_line, _ = printed.partition(b"! K4 ")
        if self.words[:1] == ["talk"] and (status, told) == (usual[0], usual[2]) and refused_line:
            return "refused", None if usual[1].startswith(before) and printed.count(refused_line) == 1 else "it is not as otherwise"
        no_memory = NO_MEMORY[os.path.basename(self.program)]
        if status == 1 and told in (no_memory, *(no_memory + os.fsencode(word) + b"\n" for word in self.words)):
            return "ended", None if usual[1].startswith(printed) else "what is printed is no front of the usual"
        return "wrong", f"it ends by {status} and tells {told[:200]!r}"


def files_of(room, traces):
    """The traces as files of the room, by the names of their cases."""
    paths = {}
    for number, (name, trace) in enumerate(sorted(traces.items())):
        paths[name] = f"{room}/trace{number}"
        with open(paths[name], "wb") as file:
            file.write(trace)
    return paths


def stored_cases(l4sh, room):
    """The stored cases, and their traces drawn and migrated."""
    bases = [path[: -len(".in")] for path in sorted(glob.glob(f"{ROOT}/checks/scripts/*/*.in"))]
    command_of = {base: os.path.basename(os.path.dirname(base)) for base in bases}
    paths = files_of(room, {base: stored(f"{base}.in") for base in bases if command_of[base] in OF_A_FILE})
    for base in bases:
        command, options, name = command_of[base], stored(f"{base}.args").decode().split(), os.path.relpath(base, f"{ROOT}/checks/scripts")
        if command in OF_A_FILE:
            yield Case(name, l4sh, [command, *options, paths[base]])
            if command == "chart":
                yield from (Case(f"{' '.join(words)} {name}", l4sh, [*words, paths[base]]) for words in DRAWN)
            if command == "check":
                yield Case(f"migrate {name}", l4sh, ["migrate", paths[base], f"{room}/migrated"])
        elif command in OF_A_WORD:
            word = stored(f"{base}.in").split(b"\n")[0]
            yield Case(name, l4sh, [command, *options, word])
        elif command == "talk":
            yield Case(name, l4sh, [command, *options], stored(f"{base}.in"))


def option_cases(l4sh, l4d, l4x):
    for program, words in ((l4sh, SHELL_WORDS), (l4d, SERVER_WORDS), (l4x, EXAMPLE_WORDS)):
        yield from (Case(f"{os.path.basename(program)} {' '.join(it)}", program, it) for it in words)


def main():
    words = sys.argv[1:]
    every = number_of(words, "--every")
    programs = programs_of(words, __doc__, 3)
    runs, failed, kinds = 0, 0, collections.Counter()
    with tempfile.TemporaryDirectory() as room:
        shim = built_shim(room, "refuse_memory")
        for number, case in enumerate([*stored_cases(programs[0], room), *option_cases(*programs)]):
            usual = case.run(room, shim)
            growths = count_in(f"{room}/count")
            for refused in range(1 + number % every, growths + 1, every):
                kind, fault = case.what_is_wrong(room, shim, usual, refused)
                kinds[kind] += 1
                runs += 1
                if fault:
                    failed += 1
                    print(f"{case.name}: growth {refused} of {growths}: {fault}")
    print(", ".join(f"{count} {kind}" for kind, count in sorted(kinds.items())))
    print(f"{runs} runs, {failed} failed")
    return 1 if failed or not runs else 0


if __name__ == "__main__":
    sys.exit(main())
