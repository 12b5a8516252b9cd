#!/usr/bin/env python3
"""Looks whether a crate above ipc_seats, as ipc_lock is, can make, copy, take apart or change what only its steps make.

Each row below is one line of a program that would do so to an Answered, a Taken, a CallSeat or a TakeSeat. The compiler has to
refuse each row for its reason, and no other line; and it has to accept the same program without the rows. It compiles only, and
proves nothing. RT names another command than rt. Exit 0 where all is so."""
import re
import subprocess
import sys
import tempfile

sys.path.insert(1, f"{sys.path[0]}/../lib")

from apart import made_apart, rt

HEAD = """//! Would make what only steps by seats make.
#![tactic(auto)]
use ipc_history::Outcome;
use ipc_core::Answer;
use ipc_seats::{Answered, CallSeat, TakeSeat, Taken};
use ipc_words::ThreadId;
use std::marker::PhantomData;
use std::sync::ledger::{Ledger, Share};
fn is_copy<X: Copy>(_: X) {}
fn is_clone<X: Clone>(_: X) {}
pub fn parts<C: Ledger, T: Ledger>(a: Answered<C, T>) -> (Answer, Option<CallSeat<C>>, Option<TakeSeat<T>>) { a.into_parts() }
pub fn threads<C: Ledger, T: Ledger>(a: &CallSeat<C>, b: &TakeSeat<T>, c: &Taken<T>) -> [ThreadId; 3] {
    [a.thread(), b.thread(), c.thread()]
}
pub fn outcome<T: Ledger>(taken: Taken<T>) -> Outcome { taken.into_outcome() }
pub fn counts<C: Ledger, T: Ledger>(a: Share<C>, b: Share<T>, mark: PhantomData<T>) { drop((a, b, mark)) }
fn main(rt: HostRuntime) { is_copy(1u8); is_clone(rt.alloc()) }
"""

TYPES = {"Answered": "<C, T>", "Taken": "<T>", "CallSeat": "<C>", "TakeSeat": "<T>"}
MAKING = {
    "Answered": "(answer: Answer) -> Answered<C, T> { Answered { answer, calls: None, takes: None, back: None } }",
    "Taken": "(thread: ThreadId, outcome: Outcome) -> Taken<T>"
    " { Taken { thread, amount: 1, outcome, marker: PhantomData } }",
    "CallSeat": "(thread: ThreadId, share: Share<C>) -> CallSeat<C> { CallSeat { thread, made: 0, share } }",
    "TakeSeat": "(thread: ThreadId, share: Share<T>) -> TakeSeat<T> { TakeSeat { thread, taken: 0, share } }",
}
FIELDS = {"Answered": "calls", "Taken": "outcome", "CallSeat": "share", "TakeSeat": "share"}
WRITES = {"Taken": "amount = 0", "CallSeat": "made = 0", "TakeSeat": "taken = 0"}


def rows(name):
    """What each line of a program would do to a type, its text after the type parameters, and why it is refused."""
    it = f"it: {name}{TYPES[name]}"
    yield f"makes {name}", MAKING[name], "private-field"
    yield f"copies {name}", f"({it}) {{ is_copy(it) }}", "unsatisfied-bound"
    yield f"clones {name}", f"({it}) {{ is_clone(it) }}", "unsatisfied-bound"
    yield f"takes {name} apart", f"({it}) {{ drop(it.{FIELDS[name]}) }}", "private-field"
    if name in WRITES:
        yield f"writes {name}", f"({it}) {{ let mut it = it; it.{WRITES[name]}; }}", "private-field"


def compiled(folder, text):
    """The exit status of a program, and the reasons for which the compiler refuses it, by line."""
    with open(f"{folder}/src/main.rt", "w", encoding="utf-8") as file:
        file.write(text)
    ran = subprocess.run([*rt(), "try"], cwd=folder, capture_output=True, text=True)
    said = ran.stdout + ran.stderr
    refused = {}
    for line, reason in re.findall(r"src/main\.rt:(\d+):\d+: error\[([\w-]+)\]", said):
        refused.setdefault(int(line), set()).add(reason)
    return ran.returncode, refused, said


def faults_of(folder, name):
    """How many rows of a type there are, and how many of them are not refused as they have to be."""
    wanted = list(rows(name))
    lines = [f"pub fn f{place}<C: Ledger, T: Ledger>{text}\n" for place, (_, text, _) in enumerate(wanted)]
    first = HEAD.count("\n") + 1
    status, refused, _ = compiled(folder, HEAD + "".join(lines))
    faults = 0 if status else 1
    for place, (what, _, reason) in enumerate(wanted):
        found = refused.pop(first + place, set())
        if found != {reason}:
            faults += 1
            print(f"{what}: refused for {sorted(found) or 'nothing'}, and {reason} is wanted")
    for line, found in refused.items():
        faults += 1
        print(f"{name}: line {line} is refused for {sorted(found)}")
    return len(wanted), faults


def main():
    with tempfile.TemporaryDirectory() as room:
        folder = made_apart(room, "ipc_forger", "ipc_words ipc_history ipc_core ipc_seats", HEAD, ("src", "specs"))
        status, _, said = compiled(folder, HEAD)
        if status != 0:
            print(f"the program without the rows is not accepted:\n{said}")
            return 1
        # the compiler tells some twenty reasons of a program, so each type has a program of its own
        counts = [faults_of(folder, name) for name in TYPES]
    all_rows, faults = (sum(column) for column in zip(*counts))
    print(f"{all_rows} rows, {faults} faults")
    return 1 if faults else 0


if __name__ == "__main__":
    sys.exit(main())
