#!/usr/bin/env python3
"""Runs the built l4sh over scripts with each of its growths of memory refused in turn, and looks at what comes of it.

    checks/sweeps/refuse_memory.py [--every N] [SCRIPT..]

Without a script it takes those of checks/scripts/run and of examples/. With --every N it refuses each N-th growth, of each script others.
With one growth refused, a run may
- print the same, where the program can do without;
- end with `l4sh: no memory` and status 1, and what it printed is then a front of what it prints otherwise;
- refuse one command with `! K4`: it prints no entry for that command, and all else is as if the command were not in the script.
Anything else is told, and the status is then 1. It needs a C compiler (cc), and builds l4sh first."""
import glob
import os
import subprocess
import sys
import tempfile

sys.path.insert(1, f"{sys.path[0]}/../lib")

from arguments import number_of
from kit import ROOT, built, program
from runs import stored
from shims import built_shim, count_in

PROGRAM = program("l4sh")


def run(script, shim, refused=0, count_to="", word="run", times=1):
    env = dict(os.environ, LD_PRELOAD=shim, FAIL_AT=str(refused), FAIL_TIMES=str(times), COUNT_TO=count_to)
    ran = subprocess.run([PROGRAM, word], input=script, capture_output=True, env=env)
    return ran.returncode, ran.stdout, ran.stderr


def answers(output):
    """The lines of each command, its answer line last, and what is left."""
    whole, lines = [], []
    for line in output.decode().splitlines():
        lines.append(line)
        if line.startswith(("= ", "! ")):
            whole.append(lines)
            lines = []
    return whole, lines


def what_is_wrong(script, shim, usual, refused):
    """The kind of the run, and what is wrong with it, if anything is."""
    status, output, told = run(script, shim, refused)
    if (status, output, told) == usual:
        return "same", None
    if (status, told) == (1, b"l4sh: no memory\n"):
        return "ended", None if usual[1].startswith(output) else "what is printed is no front of the usual"
    given, rest = answers(output)
    hit = [place for place, lines in enumerate(given) if lines[-1] == "! K4"]
    if len(hit) != 1 or given[hit[0]] != ["! K4"] or rest:
        return "wrong", f"status {status}, {told.decode().strip()!r}"
    commands = [line for line in script.split(b"\n") if line]
    del commands[hit[0]]
    del given[hit[0]]
    without = run(b"\n".join(commands) + b"\n", shim)
    is_as_without = (status, answers(output)[0][: hit[0]] + answers(output)[0][hit[0] + 1 :]) == (without[0], answers(without[1])[0])
    return "refused", None if is_as_without else "it is not as without the command"


def scripts_of(word, words):
    """The scripts that are asked for, or all of the tree that end well and take no further words; and each how many growths is refused."""
    every = number_of(words, "--every")
    examples = sorted(glob.glob(f"{ROOT}/examples/*.l4")) if word == "run" else []
    found = examples + sorted(glob.glob(f"{ROOT}/checks/scripts/{word}/*.in"))
    good = [path for path in found if not any(os.path.exists(f"{path[:-3]}.{it}") for it in ("end", "args"))]
    return words or good, every


def growths_of(script, shim, room, word):
    """What a run does with no growth refused, and how many growths it has."""
    usual = run(script, shim, count_to=f"{room}/count", word=word)
    return usual, count_in(f"{room}/count")


def refuse_each(word, paths, every, kinds_of_runs, what_is_wrong):
    """Runs each script with each of its growths refused in turn, tells what came of it, and answers the status of the check."""
    built("l4sh")
    faults = runs = 0
    with tempfile.TemporaryDirectory() as room:
        shim = built_shim(room, "refuse_memory")
        for number, path in enumerate(paths):
            script = stored(path)
            usual, growths = growths_of(script, shim, room, word)
            kinds = dict.fromkeys(kinds_of_runs, 0)
            for refused in range(1 + number % every, growths + 1, every):
                kind, fault = what_is_wrong(script, shim, usual, refused)
                kinds[kind] += 1
                runs += 1
                if fault:
                    faults += 1
                    print(f"{path}: growth {refused}: {fault}")
            told = ", ".join(f"{count} {kind}" for kind, count in kinds.items())
            print(f"{os.path.relpath(path, ROOT)}: {growths} growths: {told}")
    print(f"{len(paths)} scripts, {runs} runs, {faults} wrong")
    return 1 if faults or not runs else 0


if __name__ == "__main__":
    sys.exit(refuse_each("run", *scripts_of("run", sys.argv[1:]), ("same", "ended", "refused", "wrong"), what_is_wrong))
