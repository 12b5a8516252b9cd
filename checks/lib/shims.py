"""The libraries of checks/sweeps that are loaded before the C library, and refuse what a program asks for."""

import subprocess

from kit import ROOT


def built_shim(room, name):
    """The library of checks/sweeps/NAME.c, built in a room."""
    path = f"{room}/{name}.so"
    subprocess.run(["cc", "-shared", "-fPIC", "-O1", "-o", path, f"{ROOT}/checks/sweeps/{name}.c", "-ldl"], check=True)
    return path


def count_in(path):
    """How many calls there were, by the file that COUNT_TO named."""
    with open(path, encoding="ascii") as file:
        return int(file.read())
