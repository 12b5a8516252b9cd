#!/usr/bin/env python3
"""Refuses each growth of memory in turn to a lock and to clients, and looks whether they go on.

It proves and builds checks/sweeps/growths.rt.txt in a folder of its own, beside a copy of the crates below it, or takes a program that
was built of it: checks/sweeps/growths.py [PROGRAM]. With one growth refused, a run may
- print the same, where the program can do without;
- print one line more, `refused NAME`: the step NAME was refused and made again, and all else is as otherwise;
- end with status 1 where the growth is one of the program's own, before the steps or between them.
Anything else is told, and the status is then 1. It needs a C compiler (cc). RT names another command than rt."""
import collections
import os
import subprocess
import sys
import tempfile

sys.path.insert(1, f"{sys.path[0]}/../lib")

from apart import counts_by_ledgers, made_apart, rt
from kit import ROOT
from shims import built_shim, count_in

NEEDS = "ipc_words ipc_base ipc_items ipc_history ipc_core ipc_frame ipc_connection ipc_client ipc_lock anyhow"
UNPREPARED = "unprepared"


def made(room):
    """The program, proved and built."""
    with open(f"{ROOT}/checks/sweeps/growths.rt.txt", encoding="utf-8") as program:
        folder = made_apart(room, "ipc_growths", NEEDS, program.read())
    counts_by_ledgers(folder, "steps")
    subprocess.run([*rt(), "run"], cwd=folder, check=True, stdout=subprocess.DEVNULL)
    return f"{folder}/out/ipc_growths"


def run(program, shim, refused=0, count_to=""):
    env = dict(os.environ, LD_PRELOAD=shim, FAIL_AT=str(refused), COUNT_TO=count_to)
    ran = subprocess.run([program], capture_output=True, env=env, text=True)
    return ran.returncode, ran.stdout.splitlines(), ran.stderr


def kind_of(ran, usual):
    """What became of a run with one growth refused; None where it is wrong."""
    status, lines, told = ran
    if status != 0:
        return UNPREPARED if status == 1 and UNPREPARED in told else None
    names = [line.removeprefix("refused ") for line in lines if line.startswith("refused ")]
    if [line for line in lines if not line.startswith("refused ")] != usual or len(names) > 1:
        return None
    return names[0] if names else "does without"


def main(paths):
    with tempfile.TemporaryDirectory() as room:
        program = paths[0] if paths else made(room)
        shim = built_shim(room, "refuse_memory")
        status, usual, told = run(program, shim, count_to=f"{room}/count")
        if status != 0:
            print(f"status {status} with no growth refused: {told}")
            return 1
        growths = count_in(f"{room}/count")
        kinds, faults = collections.Counter(), 0
        for refused in range(1, growths + 1):
            ran = run(program, shim, refused)
            kind = kind_of(ran, usual)
            if kind is None:
                faults += 1
                print(f"growth {refused}: status {ran[0]}, {ran[2].strip()!r}, {ran[1][:1]}")
            else:
                kinds[kind] += 1
    for kind, count in kinds.items():
        print(f"{count:4} {kind}")
    print(f"{growths} growths, {faults} faults")
    return 1 if faults or not growths else 0


if __name__ == "__main__":
    sys.exit(main(sys.argv[1:]))
