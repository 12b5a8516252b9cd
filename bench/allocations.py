#!/usr/bin/env python3
"""Counts, in the built program l4sh, which functions ask for memory in a round of messages, and what a megabyte costs in the kernel.

A round is a receive without lists, a send of one word to it, and the two outcomes. The counts are those of callgrind, which is
repeatable: the difference of 1,500 and 500 rounds, divided by 1,000. It needs valgrind, and builds l4sh first.
"""

import re
import subprocess
import sys
import tempfile

sys.path.insert(1, f"{sys.path[0]}/../checks/lib")

from kit import built, program
from protocol_tables import MAX_BLOCK_BYTES, MAX_STRING_BYTES

PROGRAM = program("l4sh")
ASKS = ("rattle_alloc", "rattle_realloc")
GROWS = "std_alloc::vec::Vec::grow_amortized"


def rounds(count):
    lines = ["open 1 1", "open 2 1"]
    for _ in range(count):
        lines += ["call 1.1 nil any 0x0 0x0 nil - - -", "call 2.1 1.1 nil 0x0 0x1 nil 0x7 - -", "take 1.1", "take 2.1"]
    return "\n".join(lines) + "\n"


def megabyte():
    lines = ["open 1 1", "open 2 1", f"call 1.1 nil any 0x0 0x0 nil - - {MAX_STRING_BYTES}@0x1000"]
    lines += ["call 2.1 1.1 nil 0x0 0x80 nil - x" + "000102030405060708090a0b0c0d0e0f" * (MAX_STRING_BYTES // 16) + " -"]
    return "\n".join(lines + ["advance"] * (MAX_STRING_BYTES // MAX_BLOCK_BYTES) + ["take 1.1"]) + "\n"


def profile(script, *words):
    """What callgrind_annotate prints of a run of the script."""
    with tempfile.TemporaryDirectory() as room:
        out = f"{room}/out"
        subprocess.run(
            ["valgrind", "--tool=callgrind", f"--callgrind-out-file={out}", PROGRAM, "run"],
            input=script.encode(), stdout=subprocess.DEVNULL, stderr=subprocess.DEVNULL, check=True,
        )
        told = ["callgrind_annotate", "--inclusive=yes", "--threshold=100", *words, out]
        return subprocess.run(told, capture_output=True, text=True, check=True).stdout


def asking(script):
    """How often each function asks for memory, by itself or to let a list grow."""
    counts = {}
    for block in profile(script, "--tree=caller").split("\n\n"):
        lines = block.split("\n")
        asked = next((line for line in lines if re.search(r"\)\s+\*\s", line)), "")
        if not any(re.search(rf":{name}\b", asked) for name in (*ASKS, GROWS)):
            continue
        for line in lines:
            caller = re.search(r"<\s+\S*?:([a-z_]\w*::\S+?)(?:::<#\w+>)? \(([\d,]+)x\)", line)
            if caller and caller[1] != GROWS:
                counts[caller[1]] = counts.get(caller[1], 0) + int(caller[2].replace(",", ""))
    return counts


def main():
    built("l4sh")
    few, many = asking(rounds(500)), asking(rounds(1500))
    print("growths of memory in a round, by the function that asks")
    for name in sorted(many, key=lambda name: few.get(name, 0) - many[name]):
        each = (many[name] - few.get(name, 0)) / 1000
        if each >= 0.05:
            print(f"{each:6.2f}  {name}")
    costs = profile(megabyte())
    whole = int(re.search(r"([\d,]+) \(100.0%\)\s+PROGRAM TOTALS", costs)[1].replace(",", ""))
    kernel = re.search(r"^\s*([\d,]+) .*:ipc_core::kernel::Kernel::obey\b", costs, re.M)
    inside = int(kernel[1].replace(",", ""))
    print(f"a call with {MAX_STRING_BYTES:,} bytes: {whole:,} instructions, {inside:,} of them in the kernel: {whole / (whole - inside):.2f} times the rest")


if __name__ == "__main__":
    main()
