#!/usr/bin/env python3
"""The C client: its tests, under sanitizers, and its examples against l4d.

checks/live/clients_c.py [L4D [L4SH [L4X]]]      default: ./l4d and ./l4sh of the tree; without L4X no program of it is tried

Builds clients/c with cc and -Wall -Wextra -Werror. Words and composed messages are looked at alone. Then a server in the same
process plays right and wrong answers to the library, each made wrong at each byte and cut at each byte, and frames made up at random;
what the library makes of each is worked out here, from docs/FORMATS.md. Then programs speak to l4d: each refusal and fault that it can
be brought to tell, random traffic, names, the examples. What each thread was told is compared with the trace of the server, of which
l4sh says that it is a legal history. Exit 0 where all is right; the last line has the counts.
"""

import os
import random
import shutil
import subprocess
import sys
import tempfile
import threading

sys.path.insert(1, f"{sys.path[0]}/../lib")

from c_client.building import build, check_headers, check_languages, check_library
from c_client.calls import check_errors, check_faults, check_refusals, check_traffic
from c_client.examples import L4xNames, check_examples, check_first_block, check_l4x, check_names, check_names_again, check_python, check_worst
from c_client.lives import check_long_life, check_roundtrip, check_threads, check_unix
from c_client.played import check_plays, check_vectors
from kit import ROOT
from name_server import NameServer


def main(arguments):
    seed = int(os.environ.get("SEED", "1"))
    random.seed(seed)
    l4d = os.path.abspath(arguments[0] if arguments else os.path.join(ROOT, "l4d"))
    l4sh = os.path.abspath(arguments[1] if len(arguments) > 1 else os.path.join(ROOT, "l4sh"))
    l4x = os.path.abspath(arguments[2]) if len(arguments) > 2 else None
    room = tempfile.mkdtemp(prefix="l4c")
    try:
        programs = build(room)
        names, languages = check_headers(room), check_languages(room)
        exported = check_library(programs, l4d, room)
        words = int(subprocess.run([programs["words"]], check=True, capture_output=True, text=True).stdout)
        print(f"headers: {names} names of PROFILE are there or not as it says; words: {words} checks; languages: {languages}; {exported} functions in the library", flush=True)
        # the many calls go on beside the rest
        lived = []
        living = threading.Thread(target=lambda: lived.append(check_long_life(programs, l4d, room)))
        living.start()
        vectors, plays = check_vectors(programs["play"], room), check_plays(programs["play"], room)
        print(f"played: {vectors} requests as FORMATS has them, {plays} answers (seed {seed})", flush=True)
        refusals, told = check_refusals(programs, l4d, l4sh, room)
        faults = check_faults(programs, l4d, room) + check_errors(programs, l4d, room)
        print(f"l4d: {refusals} refusals and errors, {told} outcomes as in the trace, {faults} faults and errors", flush=True)
        outcomes, received = check_traffic(programs, l4d, l4sh, room, 400)
        print(f"traffic: {outcomes} outcomes as in the trace, {received} of them messages", flush=True)
        asked = check_names(programs, l4d, l4sh, room, NameServer) + check_names_again(programs, l4d, room, NameServer)
        if l4x:
            asked += check_names(programs, l4d, l4sh, room, lambda path: L4xNames(l4x, path)) + check_l4x(programs, l4d, l4sh, l4x, room)
            asked += check_names_again(programs, l4d, room, lambda path: L4xNames(l4x, path)) + check_first_block(l4d, l4x, room)
        entries = [check_examples(programs, l4d, l4sh, room, plain) for plain in (True, False)]
        print(f"names: {asked} answers; examples: by name and by id, {sum(entries)} entries", flush=True)
        worst = check_worst(programs, l4d, room)
        print(f"worst clients: {worst} rows, of each server of each page", flush=True)
        pairs = check_python(programs, l4d, l4sh, room)
        print(f"python: {pairs} pairs with examples of clients/python" if pairs else "python: no clients/python, so nothing was tried", flush=True)
        passed = check_threads(programs, l4d, l4sh, room)
        print(f"threads: {passed} words between threads of one process", flush=True)
        rows = check_unix(programs, l4d, l4sh, room)
        print(f"unix: {rows} rows of fork, signals, ends of threads, calls that were left", flush=True)
        measured = check_roundtrip(programs, l4d, room)
        print(f"roundtrip: {measured} runs on one server", flush=True)
        living.join()
        assert lived, "the server did not live on"
        print(f"long life: {lived[0][0]} calls, {lived[0][1]} KiB more than after the first 50,000", flush=True)
    finally:
        shutil.rmtree(room)
    total = names + words + vectors + plays + refusals + told + faults + outcomes + asked + passed + pairs + worst + rows + measured
    print(f"clients_c: all right: {total} comparisons, {plays} of them answers that were played, {told + outcomes} outcomes as in a trace")


if __name__ == "__main__":
    main(sys.argv[1:])
