"""Counts what a check looks at, and tells what fails, for the checks."""

import time
import traceback


class Tally:
    """How many things were looked at, and how many of them failed."""

    def __init__(self):
        self.checked = self.failed = 0

    def check(self, what, holds, text=""):
        """Counts a check, and tells one that fails."""
        self.checked += 1
        if not holds:
            self.failed += 1
            print(f"FAILED {what}: {text}", flush=True)

    def same(self, what, seen, wanted):
        """The same of two values that have to be equal."""
        self.check(what, seen == wanted, f"{seen!r} and not {wanted!r}")

    def end(self):
        """Prints the last line `N checked, M failed`; answers the exit status."""
        print(f"{self.checked} checked, {self.failed} failed")
        return 1 if self.failed or not self.checked else 0


def told_rows(rows, what="rows"):
    """Of names and what is wrong with each, if anything is, prints the wrong ones, and the last line `N rows, M failed`; answers the exit status."""
    count = failed = 0
    for name, wrong in rows:
        count += 1
        if wrong:
            failed += 1
            print(f"{name}: {wrong}"[:600], flush=True)
    print(f"{count} {what}, {failed} failed")
    return 1 if failed or not count else 0


def told_looks(check, looks):
    """Makes each look, prints by its name what it says or how it fails, and how long it took, and the last line `CHECK: N passed, M failed`; answers
    the exit status."""
    passed = failed = 0
    for name, look in looks:
        begin = time.monotonic()
        try:
            said = look()
            passed += 1
        except Exception:
            failed += 1
            said = "FAILED\n" + traceback.format_exc()
        print(f"{name}: {said} ({time.monotonic() - begin:.1f} s)", flush=True)
    print(f"{check}: {passed} passed, {failed} failed")
    return 1 if failed or not passed else 0
