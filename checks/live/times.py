#!/usr/bin/env python3
"""times.py L4D L4SH: moments as times of day, compared with the clock.

A server writes a trace in several files; beside each stands a file that says when moment 0 was. A thread waits for another one from a known time on. Then `state`, `follow`,
`count` and `chart` with `--time` have to tell times between those at which this script did what the entries say, of one file, of several, and of the live
server; and behind each moment of a wait how long it is by now. What is told without `--time` tells the same moments. A file that says nothing of a time, one that is
not there, and a trace from standard input are told in one line, with status 2, and nothing is printed.

Its last line is `N checked, M failed`; the status is 0 where M is 0.
"""

import datetime
import json
import os
import re
import subprocess
import sys
import tempfile
import threading
import time

sys.path[1:1] = [f"{sys.path[0]}/../lib", f"{sys.path[0]}/../../clients/python/src"]

from arguments import programs_of
from counting import Tally
from l4ipc import L4Error, Message, Thread, ThreadId
from serving import Server

SECONDS = 60
ENTRIES = 40
TIME = re.compile(r"\d{4}-\d\d-\d\dT\d\d:\d\d:\d\d\.\d{6}Z")
BEGAN = re.compile(r"began (\d{4}-\d\d-\d\dT\d\d:\d\d:\d\d\.\d{6}Z)\n")
# A moment beside the names of a chart, its unit, and the names.
NAMES = re.compile(r" +([\d.]+) (µs|ms|s)  (.*)")
UNITS = {"µs": 1, "ms": 1_000, "s": 1_000_000}
MICRO = datetime.timedelta(microseconds=1)
# How much later than its moment a clock is read.
LATE = datetime.timedelta(milliseconds=200)

tally = Tally()
check = tally.check


def now():
    return datetime.datetime.now(datetime.timezone.utc)


def time_of(text):
    return datetime.datetime.fromisoformat(text.replace("Z", "+00:00"))


def tool(l4sh, *words, given=b""):
    ran = subprocess.run([l4sh, *words], input=given, capture_output=True, timeout=SECONDS)
    return ran.returncode, ran.stdout.decode(), ran.stderr.decode()


def timed(l4sh, *words):
    """What is printed with `--time`, where that went well."""
    status, printed, told = tool(l4sh, *words, "--time")
    check(f"{words[0]} --time ends well", (status, told) == (0, ""), (status, told))
    return printed


def units(text):
    """A length of time in words as microseconds."""
    count, unit = text.split(" ")
    return int(count) * {"µs": 1, "ms": 1_000, "s": 1_000_000, "min": 60_000_000, "h": 3_600_000_000}[unit]


def check_waits(what, state):
    """Behind each moment since which a thread waits stands how long that is by now."""
    moment = int(re.match(r"moment (\d+) µs\n", state)[1])
    waits = re.findall(r" since (\d+) \((\d+ \S+)\)", state)
    check(f"{what}: a wait is told", waits and len(waits) == state.count(" since "), state)
    for since, told in waits:
        wanted, unit = moment - int(since), units("1 " + told.split(" ")[1])
        check(f"{what}: how long it is", wanted - unit < units(told) <= wanted and (unit == 1 or units(told) >= 10 * unit), (state, told))


def check_state(what, plain, state, start):
    """A state with times of day tells the moments of the one without."""
    moments = re.findall(r"(?:moment|since|until) (\d+)", plain)
    times = [time_of(it) for it in TIME.findall(state)]
    tally.same(f"{what}: its times", times, [start + int(it) * MICRO for it in moments])
    tally.same(f"{what}: nothing else differs", TIME.sub("T", state), re.sub(r"(moment) \d+ µs|(since|until) \d+", lambda it: f"{it[1] or it[2]} T", plain))


def check_follow(l4sh, files, start):
    plain, told = tool(l4sh, "follow", *files)[1].splitlines(), timed(l4sh, "follow", *files).splitlines()
    tally.same("follow: as many lines", len(told), len(plain))
    for line, other in zip(told, plain):
        number, moment, words = other.split("  ", 2)
        tally.same("follow: an entry", line, f"{number}  {text_of(start + int(moment.split(' ')[0]) * MICRO)}  {words}")


def text_of(moment):
    return moment.strftime("%Y-%m-%dT%H:%M:%S.%fZ")


def moments_in(files):
    """The moments that the files of a trace tell."""
    return [int(line.split(" ")[1]) for path in files for line in open(path, encoding="ascii") if line.startswith("at ")]


def check_count(l4sh, files, start):
    last = text_of(start + max(moments_in(files)) * MICRO)
    head, rest = timed(l4sh, "count", *files).split("\n", 1)
    check("count: from when to when", re.fullmatch(rf"from {TIME.pattern} to {re.escape(last)}", head), head)
    tally.same("count: nothing else differs", rest, tool(l4sh, "count", *files)[1])
    object_ = json.loads(timed(l4sh, "count", "--json", *files))
    tally.same("count --json: the same", f"from {object_.pop('first')} to {object_.pop('last')}", head)
    tally.same("count --json: nothing else differs", object_, json.loads(tool(l4sh, "count", "--json", *files)[1]))


def with_times(plain, start):
    """The lines of a chart where each moment beside names stands above them as a time of day."""
    for line in plain:
        names = NAMES.fullmatch(line)
        if names:
            yield text_of(start + round(float(names[1]) * UNITS[names[2]]) * MICRO)
            yield " " * 21 + names[3]
        else:
            yield line


def check_chart(l4sh, files, start):
    text = timed(l4sh, "chart", "--text", *files).splitlines()
    plain = tool(l4sh, "chart", "--text", *files)[1].splitlines()
    check("chart: moments stand beside names", sum(bool(NAMES.fullmatch(line)) for line in plain) > 1, plain[:1])
    tally.same("chart: as text", text, list(with_times(plain, start)))
    picture, other = timed(l4sh, "chart", *files), tool(l4sh, "chart", *files)[1]
    moments = re.findall(r"entry \d+, at (\d+) µs", other)
    times = re.findall(rf"entry \d+, at ({TIME.pattern})", picture)
    tally.same("chart: a picture tells times where it is pointed at", times, [text_of(start + int(it) * MICRO) for it in moments])


def check_unknown(l4sh, room, trace):
    """What is told where no time is known, and nothing else."""
    path = f"{room}/other"
    with open(path, "wb") as file:
        file.write(trace)
    for content in (None, b"", b"began\n", b"began 2026-11-28\n", b"began 2026-11-28T19:00:00.000000Z", b"began 2026-13-28T19:00:00.000000Z\n", b"\xff\n", b"x" * 100_000):
        if content is not None:
            with open(f"{path}.began", "wb") as file:
                file.write(content)
        for command in ("state", "follow", "count", "chart"):
            status, printed, told = tool(l4sh, command, "--time", path)
            check(f"{command}: {content!r:.40} is no time", (status, printed) == (2, "") and told.count("\n") == 1 and path in told, (status, printed, told))
    status, printed, told = tool(l4sh, "follow", "--time", "-", given=trace)
    check("of standard input no time is known", (status, printed, told.count("\n")) == (2, "", 1), (status, printed, told))
    with open(f"{path}.began", "wb") as file:
        file.write(b"began 9999-12-30T00:00:00.000000Z\n")
    status, printed, told = tool(l4sh, "state", "--time", path)
    check("past the last date moments are told", status == 0 and "moment " in printed, (status, printed, told))


def waiting(path, number):
    """A thread that waits for one that does not answer."""
    thread = Thread(path, number)

    def wait():
        try:
            thread.call(ThreadId.of(1, 1), Message(0, [7]))
        except (L4Error, OSError):
            pass

    threading.Thread(target=wait, daemon=True).start()
    return thread


def check_server(l4d, l4sh):
    before = now()
    with Server(l4d, "--keep-open", "--trace-size", "300", "--trace-keep", "1000", trace=True) as server, tempfile.TemporaryDirectory() as room:
        listens = now()
        partner = Thread(server.folder, 1)
        for number in range(2, 2 + ENTRIES):
            with Thread(server.folder, number):
                pass
        called = now()
        held = waiting(server.folder, 200)
        while " sends to 1.1 " not in tool(l4sh, "state", server.folder)[1]:
            time.sleep(0.01)
        stands = now()
        time.sleep(0.3)
        files = [server.trace]
        while os.path.exists(f"{server.trace}.{len(files)}"):
            files.insert(0, f"{server.trace}.{len(files)}")
        check("the trace is in several files", len(files) > 2, files)
        lines = {open(f"{path}.began", encoding="ascii").read() for path in files}
        check("beside each stands the same", len(lines) == 1 and BEGAN.fullmatch(min(lines)), lines)
        start = time_of(BEGAN.fullmatch(min(lines))[1])
        check("it is when the server began", before <= start <= listens, (before, start, listens))
        tally.same("nobody else may read it", os.stat(f"{files[-1]}.began").st_mode & 0o777, 0o600)
        state = timed(l4sh, "state", *files)
        since = time_of(re.search(rf"200\.1  space 1  sends to 1\.1 since ({TIME.pattern})", state)[1])
        check("the time of a wait is that of the call", called <= since <= stands, (called, since, stands))
        plain = tool(l4sh, "state", *files)[1]
        check_state("of files", plain, state, start)
        check_waits("of files", plain)
        check_state("of the first file", tool(l4sh, "state", files[0])[1], timed(l4sh, "state", files[0]), start)
        check_follow(l4sh, files, start)
        check_count(l4sh, files, start)
        check_chart(l4sh, files, start)
        asked = now()
        live = timed(l4sh, "state", server.folder)
        moment = time_of(TIME.search(live)[0])
        check("a live server tells the time by its clock", asked - LATE <= moment <= now() + LATE, (asked, moment))
        since = time_of(re.search(rf"200\.1  space 1  sends to 1\.1 since ({TIME.pattern})", live)[1])
        check("and that of the call", called - LATE <= since <= stands + LATE, (called, since, stands))
        check_waits("of a live server", tool(l4sh, "state", server.folder)[1])
        status, printed, told = tool(l4sh, "count", "--time", server.folder)
        check("its counters have no moments", (status, printed) == (2, "") and "--time" in told, (status, printed, told))
        check_unknown(l4sh, room, open(files[0], "rb").read())
        del partner, held


def check_without(l4d, l4sh):
    """Where the file beside a trace cannot be written the trace is whole, and no time is known of it."""
    with Server(l4d, "--keep-open", trace=True, folder=tempfile.mkdtemp(prefix="l4d-")) as first:
        start = open(f"{first.trace}.began", encoding="ascii").read()
    folder = tempfile.mkdtemp(prefix="l4d-")
    os.mkdir(f"{folder}/trace.began")
    with Server(l4d, "--keep-open", trace=True, folder=folder) as server:
        with Thread(server.folder, 1):
            pass
        time.sleep(0.2)
        status, printed, told = tool(l4sh, "check", server.trace)
        check("a folder in its place stops no trace", (status, printed, told) == (0, "yes\n", ""), (status, printed, told))
        status, printed, told = tool(l4sh, "state", "--time", server.trace)
        check("and no time is known", (status, printed) == (2, "") and told.count("\n") == 1, (status, printed, told))
        moved = f"{folder}/moved"
        os.rename(server.trace, moved)
        told = tool(l4sh, "state", "--time", moved)[2]
        check("of a trace that is moved it is told which file is not", f"{moved}.began, which l4d writes beside its trace" in told, told)
        os.rmdir(f"{folder}/trace.began")
    check("a server says when it began", bool(BEGAN.fullmatch(start)), start)


def main(arguments):
    l4d, l4sh = programs_of(arguments, __doc__, 2)
    check_server(l4d, l4sh)
    check_without(l4d, l4sh)
    return tally.end()


if __name__ == "__main__":
    sys.exit(main(sys.argv[1:]))
