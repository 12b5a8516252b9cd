#!/usr/bin/env python3
"""checks/text/command_lines.py L4D L4SH L4X: what words ask the programs for, and what is told of each mistake.

The rows stand in checks/text/command_lines.txt. A row begins with `$` and the words, as a shell reads them. Behind it stand

    < a line of standard input
    > a line that is printed
    ! a line of standard error
    = the exit status, where it is not 0

all of each, but for a last line `! ..`, behind which more may come. The rows are run in turn, in one folder, where `trace`, `here/trace` and `--at` are
traces, each another one. A row of l4d with lines

    @ PATHS MODE

is of a server that is served until SIGTERM comes. They say on which paths it listens, and their permissions; it ends well.

Then `-V` tells what `--version` tells, which is the same of all programs but for their names, and `l4sh help` prints what `l4sh --help` tells. A start without standard input and output lets no file take their
place, and a word that is not UTF-8 is told. Its last line is `N rows, M failed`; the status is 0 where M is 0.
"""

import os
import shlex
import signal
import stat
import subprocess
import sys
import tempfile

HERE = os.path.dirname(os.path.abspath(__file__))
SECONDS = 60
TRACES = {
    "trace": "opened 1.1 1\nopened 2.1 2\ncalled 1 1.1 nil any 0x0 0x0 nil - - -\nat 5\ncalled 2 2.1 1.1 nil 0x0 0x30001 nil 0x7 - -\nbegan 2 1\nended 2 1\n"
             "called 3 1.1 9.1 nil 0x0 0x0 nil - - -\nfailed 3 0x4\nbroke 2.1\n",
    "here/trace": "opened 1.1 1\nbroke 2.1\n",
    "--at": "opened 5.1 1\n",
}
MARKS = {"<": "given", ">": "printed", "!": "told", "@": "paths", "=": "status"}


class Row:
    """A row: its words, and its lines by their marks."""

    def __init__(self, words):
        self.words = shlex.split(words)
        self.given, self.printed, self.told, self.paths, self.status = [], [], [], [], []

    def is_met(self, ran):
        """Whether a run is as the row says: its status, what it printed, what it told, and the paths of a server."""
        status, printed, told, paths = ran
        is_open = self.told[-1:] == [".."]
        wanted = self.told[:-1] if is_open else self.told
        told = told[: len(wanted)] if is_open else told
        return (status, printed, told, paths) == (int((self.status or [0])[0]), self.printed, wanted, self.paths)


def rows_of(path):
    rows = []
    with open(path, encoding="utf-8") as file:
        for line in file.read().splitlines():
            mark, text = line[:1], line[2:]
            if mark == "$":
                rows.append(Row(text))
            elif mark in MARKS:
                getattr(rows[-1], MARKS[mark]).append(text)
    return rows


def lines(text):
    return text.split("\n")[:-1] if text.endswith("\n") else text.split("\n") if text else []


def ran(words, given=()):
    """Status, printed lines and told lines of a run that ends by itself."""
    run = subprocess.run(words, input="".join(f"{line}\n" for line in given), capture_output=True, text=True, timeout=SECONDS)
    return run.returncode, lines(run.stdout), lines(run.stderr)


def listened(folder):
    """The paths of spaces in a folder on which somebody listens, and their permissions, as `here/space1..64 600`."""
    modes = {}
    for place, _, names in os.walk(folder):
        for name in names:
            mode = os.stat(f"{place}/{name}").st_mode
            if stat.S_ISSOCK(mode) and name != "control":
                modes.setdefault((os.path.relpath(place, folder), stat.S_IMODE(mode)), []).append(int(name.removeprefix("space")))
    return [f"{place}/space{min(numbers)}..{max(numbers)} {mode:o}" for (place, mode), numbers in sorted(modes.items())
            if sorted(numbers) == list(range(min(numbers), max(numbers) + 1))]


def served(words):
    """The same of a server that is served until SIGTERM comes, and its paths."""
    block = lambda: signal.pthread_sigmask(signal.SIG_BLOCK, (signal.SIGTERM,))
    with subprocess.Popen(words, stdin=subprocess.DEVNULL, stdout=subprocess.PIPE, stderr=subprocess.PIPE, text=True, preexec_fn=block) as server:
        try:
            first = server.stdout.readline()
            paths = listened(".")
            server.send_signal(signal.SIGTERM)
            out, err = server.communicate(timeout=SECONDS)
        finally:
            server.kill()
        return server.returncode, lines(first + out), lines(err), paths


def begins_without(descriptors, words):
    """The status of a run that begins without these standard streams, and what it says on standard error."""
    run = subprocess.run(words, preexec_fn=lambda: [os.close(it) for it in descriptors], stderr=subprocess.PIPE, timeout=SECONDS)
    return run.returncode, run.stderr.decode()


def odd_starts(programs):
    """What is wrong with starts without standard streams, which no file may get in their place, and with words that are no text."""
    with open("torn", "w", encoding="utf-8") as file:
        file.write("l4trace 2\nopened 1.1 1\nbroke")
    ran([programs["l4sh"], "migrate", "torn", "whole"])
    status, told = begins_without((0, 1), [programs["l4sh"], "migrate", "torn", "alone"])
    if status != 1 or not told.startswith("l4sh: device failed\n") or open("alone").read() != open("whole").read():
        yield f"migrate without standard streams: {status} {told} {open('alone').read()}"
    status, told = begins_without((1,), [programs["l4sh"], "check", "trace"])
    if status != 1 or not told.startswith("l4sh: device failed\n"):
        yield f"check without standard output: {status} {told}"
    for name, words in (("l4sh", [b"check", b"t\xff"]), ("l4sh", [b"\xff"]), ("l4d", [b"--dir", b"d\xff", b"--spaces", b"1"])):
        run = subprocess.run([programs[name].encode(), *words], capture_output=True, timeout=SECONDS)
        if (run.returncode, run.stdout, run.stderr) != (2, b"", f"{name}: an argument is not UTF-8\n".encode()):
            yield f"{name} {words}: {run}"


def main(words):
    if len(words) != 3:
        sys.exit(__doc__)
    programs = dict(zip(("l4d", "l4sh", "l4x"), map(os.path.abspath, words)))
    rows = rows_of(f"{HERE}/command_lines.txt")
    failed = 0
    with tempfile.TemporaryDirectory() as room:
        os.chdir(room)
        os.mkdir("here")
        for name, text in TRACES.items():
            with open(name, "w", encoding="utf-8") as file:
                file.write(text)
        for row in rows:
            command = [programs[row.words[0]], *row.words[1:]]
            there = served(command) if row.paths else (*ran(command, row.given), [])
            if not row.is_met(there):
                failed += 1
                print(f"{shlex.join(row.words)}: it ends so: {there}"[:1500])
        for name, program in programs.items():
            status, printed, told = ran([programs["l4sh"], "--version"])
            wanted = (status, [printed[0].replace("l4sh", name, 1), *printed[1:]], told)
            for word in ("-V", "--version"):
                if ran([program, word]) != wanted:
                    failed += 1
                    print(f"{name} {word} is not as l4sh --version")
        help_as_a_command, help_as_an_option = ran([programs["l4sh"], "help"]), ran([programs["l4sh"], "--help"])
        if (help_as_a_command[0], help_as_a_command[1], help_as_a_command[2]) != (0, help_as_an_option[2], []):
            failed += 1
            print("l4sh help does not print what l4sh --help tells")
        for wrong in odd_starts(programs):
            failed += 1
            print(wrong[:1500])
        os.chdir(HERE)
    print(f"{len(rows) + 2 * len(programs) + 6} rows, {failed} failed")
    return 1 if failed or not rows else 0


if __name__ == "__main__":
    sys.exit(main(sys.argv[1:]))
