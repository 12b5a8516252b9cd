"""What the system tells of a process, for the checks and benches."""

import os
from collections import namedtuple

Figures = namedtuple("Figures", "threads descriptors resident own space")


def figures(pid):
    """Its threads, its open descriptors, and KiB: resident, of these its own and no file's, and of address space. What has ended has no memory."""
    with open(f"/proc/{pid}/status", encoding="ascii", errors="replace") as file:
        status = dict(line.split(":", 1) for line in file)
    memory = (int(status.get(name, "0").split()[0]) for name in ("VmRSS", "RssAnon", "VmSize"))
    return Figures(int(status["Threads"]), len(os.listdir(f"/proc/{pid}/fd")), *memory)
