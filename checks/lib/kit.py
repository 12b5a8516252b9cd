"""The programs and where they stand when they are built, and the Rattle kit's command rt as a module, for what has to call its parts one by one."""

import importlib.util
import os
import re
import shutil
import subprocess
import sys
import threading
from importlib.machinery import SourceFileLoader

ROOT = os.path.dirname(os.path.dirname(os.path.dirname(os.path.abspath(__file__))))
# Of each program its crate.
PROGRAMS = {"l4d": "ipc_server", "l4sh": "l4sh", "l4x": "l4x"}


def program(name):
    """Where the proved program stands."""
    return f"{ROOT}/out/{name}"


def built(name):
    """The same, once it is built where that is needed."""
    if subprocess.run([f"{ROOT}/packaging/is_current", name], check=False).returncode:
        subprocess.run([f"{ROOT}/build"], stdin=subprocess.DEVNULL, check=True)
    return program(name)


def unproved(name):
    """Where the program stands that was compiled without a proof."""
    return f"{ROOT}/out/unproved/{name}"


def lock_of(asks):
    """The file by whose lock one run waits for another; ends where this tree cannot be written."""
    try:
        os.makedirs(f"{ROOT}/out", exist_ok=True)
        return open(f"{ROOT}/out/{asks}.lock", "w")
    except OSError as error:
        sys.exit(f"{asks}: {error.filename}: {error.strerror}")


def keep(name, built, began):
    """Makes what a build that began then has proved the program of that name."""
    os.makedirs(f"{ROOT}/out", exist_ok=True)
    new = f"{program(name)}.new"
    if os.path.exists(new):
        os.remove(new)
    os.link(built, new)
    os.replace(new, program(name))
    stamp = f"{program(name)}.built"
    open(stamp, "w").close()
    os.utime(stamp, (began, began))


def proved_with():
    """The word of the logic that all is proved with, as `--version` tells it."""
    with open(f"{ROOT}/crates/l4sh_options/src/version.rt") as file:
        return re.search(r"\blogic ([0-9a-f]+)", file.read())[1]


def tell_other_logic(asks):
    """Says in a line where the kit has another logic than that; ends where there is no kit. What a proof holds for is the logic: a kit's letter is not looked at."""
    rt = shutil.which("rt") or sys.exit(f"{asks}: the Rattle kit is missing: its command rt is not on the PATH")
    told = subprocess.run([rt, "version"], stdin=subprocess.DEVNULL, capture_output=True, text=True, errors="replace").stdout.strip()
    if told.split()[-2:] != ["logic", proved_with()]:
        print(f"{asks}: this kit is `{told}`, and what is here was proved with logic {proved_with()}: proofs may fail, and --version tells the latter",
              file=sys.stderr, flush=True)


def kit(asks):
    """The module. Who asks is named where the kit is missing."""
    path = os.path.realpath(shutil.which("rt") or sys.exit(f"{asks}: the Rattle kit is missing: its command rt is not on the PATH"))
    if open(path, "rb").read(2) != b"#!":
        sys.exit(f"{asks}: {path} is not the script that this knows")
    sys.path.insert(0, os.path.dirname(path))
    loader = SourceFileLoader("rt_of_the_kit", path)
    module = importlib.util.module_from_spec(importlib.util.spec_from_loader(loader.name, loader))
    loader.exec_module(module)
    sum_once(module.rtlib.Crate)
    return module


def sum_once(crate_type):
    """Has the sum of a crate's sources ask once for that of each crate below. The kit asks once for each way down to it, which are thousands here; a kit
    of another letter may sum in another way, which is left as it is."""
    of_all, known = getattr(crate_type, "stamp", None), threading.local()
    if of_all is None:
        return

    def stamp(crate):
        sums = getattr(known, "sums", None)
        if sums is not None:
            if crate.folder not in sums:
                sums[crate.folder] = of_all(crate)
            return sums[crate.folder]
        known.sums = {}
        try:
            return of_all(crate)
        finally:
            known.sums = None

    crate_type.stamp = stamp
