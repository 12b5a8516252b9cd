"""A crate in a room of its own, beside copies of the crates below it, for the checks and benches that make one."""

import os
import shutil

from kit import ROOT


def lines_below(crates):
    """The crates of this repository that these stand on, they included, each with its line of crates.txt."""
    with open(f"{ROOT}/crates.txt", encoding="utf-8") as file:
        listed = {line.split(":")[0]: line for line in file if ":" in line and not line.startswith("#")}
    found, waiting = set(), [*crates]
    while waiting:
        crate = waiting.pop()
        if crate in listed and crate not in found:
            found.add(crate)
            waiting += listed[crate].split(":")[1].split()
    return {crate: line for crate, line in listed.items() if crate in found}


def made_apart(room, name, needs, program, parts=None):
    """Makes a crate of this text in the room, beside the crates that it needs, of which only these folders are copied; answers its folder."""
    below, folder = lines_below(needs.split()), f"{room}/crates/{name}"
    os.makedirs(f"{folder}/src")
    shutil.copy(f"{ROOT}/HANDLES", room)
    with open(f"{room}/crates.txt", "w", encoding="utf-8") as file:
        file.writelines([*below.values(), f"{name}: {needs}\n"])
    for crate in below:
        for part in parts or [""]:
            if os.path.isdir(f"{ROOT}/crates/{crate}/{part}"):
                shutil.copytree(f"{ROOT}/crates/{crate}/{part}", f"{room}/crates/{crate}/{part}")
    with open(f"{folder}/src/main.rt", "w", encoding="utf-8") as file:
        file.write(program)
    return folder


def counts_by_ledgers(folder, function):
    """Writes the proofs that give a function of this crate its ledgers, C, of calls, and T, of takes, and its log."""
    os.makedirs(f"{folder}/proofs/once")
    with open(f"{folder}/proofs/once/Invariants.antt", "w", encoding="utf-8") as file:
        file.write(f"use Rattle.{os.path.basename(folder)}.proofs.once.Given as goal\n")
        for ledger, blank in (("C", "calls"), ("T", "takes")):
            name = f"ghosts-{function}-{ledger}-Ledger"
            file.write(f"\nabbrev pub {name} : goal.{name}\n")
            file.write(f"{name} g a = record {{ name = a.{blank}.name; parts = a.{blank}.parts }}\n")
        file.write(f"\nabbrev pub ghosts-{function}-C-Naming : goal.ghosts-{function}-C-Naming\n")
        file.write(f"ghosts-{function}-C-Naming g a = record {{ table = a.log }}\n")


def rt():
    """The words of the kit's command: what RT says, or `rt`."""
    return os.environ.get("RT", "rt").split()
