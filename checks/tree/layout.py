#!/usr/bin/env python3
"""Checks what the gate refuses of a text before it proves anything: a file that is not in the layout that `rt fmt` writes, one that no check
reads, and words in a contract that would stand for something else than the kit's.

`rt ci` looks at these as it comes to a crate, `./build` and `rt check` do not. This takes seconds and proves nothing.
"""

import inspect
import os
import sys
import tempfile

sys.path.insert(1, f"{sys.path[0]}/../lib")

from kit import ROOT, kit


def refused(rt, crate, every):
    """Whether the gate would refuse the crate's text; what it would say is printed."""
    looks = (
        lambda: rt.rtlib.stop_on_links(crate.folder),
        lambda: rt.rtlib.stop_on_unread(crate.folder, every),
        lambda: rt.rtlib.stop_on_text(crate, "verdict"),
        lambda: rt.stop_on_words(crate),
    )
    try:
        for look in looks:
            look()
    except SystemExit:
        return True
    with tempfile.TemporaryFile("a+") as said:
        status = rt.rtlib.fmt(crate.folder, "--check", said)
        said.seek(0)
        print(said.read(), end="", flush=True)
    if status:
        print(f"{crate.name}: run rt fmt in the crate's folder", flush=True)
    return status != 0


def crates_of(rt):
    """All crates. A kit of one letter looks at the whole tree for that; another one would set aside what was built, too, and is asked for the crates alone."""
    if len(inspect.signature(rt.crates_of).parameters) == 1:
        return rt.crates_of(ROOT)
    rt.rtlib.Crate = rt.Crate
    return rt.rtlib.crates_below(ROOT)


def main():
    os.chdir(ROOT)
    rt = kit("layout")
    rt.Crate.allowed = rt.handles_of(ROOT)
    every = crates_of(rt)
    failed = sum(refused(rt, crate, every) for crate in every)
    print(f"{len(every) - failed} crates are in the gate's layout, {failed} are not")
    return 1 if failed else 0


if __name__ == "__main__":
    sys.exit(main())
