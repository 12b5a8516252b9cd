#!/usr/bin/env python3
"""checks/text/scripts.py [L4SH]: the worked scripts of the rules, of frames, of traces and of words.

Each stands in checks/scripts, below the command that reads it. `run`, `wire` and `talk` read it from standard input; `check`, `chart`, `state`, `script`,
`count` and `follow` are given it as a file, and then `-` and the same on standard input; `explain`, `tag` and `period` are asked each of its lines as a
word, and so are `threads` and `label`, which are options of `follow`. NAME.in is what is read, NAME.out what is printed, NAME.args further words, and NAME.end the exit status and all of standard error where they are not 0 and nothing. Each word that is asked ends with that status; what is told of
them stands there word by word, and once where it is the same for all.
They were worked out by hand from the rules. A long run of one byte stands as `{61*65537}`: its two digits, and how often. Those of the name
`mistake_..` are what people type first, and end with the reason.

What is read from standard input and is not long is read again with one byte in each read, and with eight: it makes no difference how the bytes are cut.

`migrate` is given NAME.in as a file, and then on standard input. NAME.new is what then stands in the new file; where there is none, no file was made. In `bad_lines`
each line of COMMAND.in is read alone, and ends as bad line 1, with that line of COMMAND.out as its reason; nothing is printed. Only a line of a trace has its newline.

In `live` NAME.in is typed into `l4sh talk DIR`, where a server listens that NAME.frames writes down: what it hears, to the byte, and what it says then, line by line.
Behind the last line it says nothing more, and hears nothing. What it says comes whole, and then byte by byte.

A chart of a part of each short trace of `chart` has the bars and life lines that the chart of the whole trace has in these rows: from each entry on, up to each entry, and of each thread.

Then each example of examples/ prints what is stored beside it. And the script that `l4sh script` makes of a trace gives the trace back when it is run:
of each example, and of each script in checks/scripts/run.

What is too long to be stored is made here: 1,022 threads that send to one, which receives from each in turn, or none before they are all due; a hundred messages with a
compaction behind each, where there is room for few; and messages that took each time up to some longest one, whose counts are told.

And what no script shows: that each code of the C client is explained, `--version`, a folder in place of a trace, why standard output and standard input fail, that `l4sh follow -` tells an entry before the next one comes, that of a line that is too long
no more is kept than has to be, and of a long trace neither, that `l4sh wire` has 65,535 connections and no more, and that a terminal is told how much of a trace is read that takes more than two seconds, and nothing of
others. The last line is `N passed, M failed`.

    checks/text/scripts.py [L4SH] --store

is for a change of what a line says: what the scripts and the examples print now is stored in place of what differs, and each file is told. It shows nothing
of right and wrong. Read each difference, and commit what you would have written by hand."""

import glob
import json
import os
import pty
import re
import select
import subprocess
import sys
import tempfile
import time

sys.path.insert(1, f"{sys.path[0]}/../lib")

from kit import ROOT
from protocol_tables import CODES, MAX_LINE_BYTES
from runs import OF_A_FILE, OF_A_WORD, ended, ended_in_pieces, stored, trace_of, version_line
from written import Written

HERE = f"{ROOT}/checks"
EXAMPLES = f"{ROOT}/examples"
OF_A_SERVER = ("state", "count", "follow")
OF_AN_OPTION = ("threads", "label")
OF_INPUT = ("run", "wire", "talk")
# What has more bytes is not read in small pieces.
SHORT = 4096
# So many connections does `l4sh wire` have.
CONNECTIONS = 65535
# A byte that stands a hundred times or more in a row, as two digits.
LONG_RUN = re.compile(rb"([0-9a-f]{2})\1{99,}")
# Of two lines that are too long, of so many bytes, and of two traces of so many messages, the longer one takes at most so much more memory.
LONG_LINES, MORE = (MAX_LINE_BYTES + (1 << 20), 24 << 20), 8 << 20
# A trace of at most so many lines is charted in parts. Of a chart as text: so many characters stand before its lanes, over which there are names.
CHARTED, BEFORE_LANES, NAME = 40, 21, re.compile(r"\d+\.\d+")
# How many bytes of what a run says are looked at.
SAID = 400
LONG_TRACES = (100, 100_000)
# The numbers of the threads that send to the first one.
SENDERS = range(2, 1024)
# Of so many messages, which took each time from 1 on, the median, the time that 99 of 100 do not pass, and the longest.
TIMES = {1: (1, 1, 1), 2: (1, 2, 2), 3: (2, 3, 3), 99: (50, 99, 99), 100: (50, 99, 100), 200: (100, 198, 200), 201: (101, 199, 201)}
VERSION = re.compile(rb"l4sh \d+\.\d+ \(logic [0-9a-f]{16}\)\n(commit .*\n)?")


def of_file(words, trace, options=()):
    with tempfile.NamedTemporaryFile() as file:
        file.write(trace)
        file.flush()
        return ended([*words, *options, file.name])


def of_words(words, asked):
    """What is printed for all of these words together, the status of each where that is one, and what they are told: once where all are told the same."""
    runs = [ended([*words, word]) for word in asked]
    statuses, told = {status for _, status, _ in runs}, [told for _, _, told in runs]
    printed = b"".join(printed for printed, _, _ in runs)
    return printed, statuses.pop() if len(statuses) == 1 else None, told[0] if len(set(told)) == 1 else b"".join(told)


def wanted(base):
    status, _, told = stored(f"{base}.end", b"0\n").partition(b"\n")
    return stored(f"{base}.out"), int(status), told


def found(l4sh, base):
    command = os.path.basename(os.path.dirname(base))
    options = stored(f"{base}.args").decode().split()
    given = stored(f"{base}.in")
    if command in OF_A_FILE:
        return of_file([l4sh, command], given, options)
    if command in OF_A_WORD:
        return of_words([l4sh, command, *options], given.removesuffix(b"\n").split(b"\n"))
    if command in OF_AN_OPTION:
        return of_words([l4sh, "follow", "-"], [f"--{command}=".encode() + word for word in given.removesuffix(b"\n").split(b"\n")])
    return ended([l4sh, command, *options], given)


def given_back(l4sh, trace):
    """Where the script of a trace does not give the trace back, what comes in its place."""
    script, status, told = of_file([l4sh, "script"], version_line(trace) + trace)
    if status:
        return told
    back = trace_of(ended([l4sh, "run"], script)[0])
    return None if back == trace else b"another trace: " + back


def faults_of_stored(l4sh, base):
    if found(l4sh, base) != wanted(base):
        yield f"{found(l4sh, base)} is not {wanted(base)}"
    command, given = os.path.basename(os.path.dirname(base)), stored(f"{base}.in")
    words = [l4sh, command, *stored(f"{base}.args").decode().split()]
    if command in OF_A_FILE:
        words.append("-")
        if ended(words, given) != wanted(base):
            yield f"of standard input: {ended(words, given)} is not {wanted(base)}"
    if command in OF_A_FILE + OF_INPUT and len(given) <= SHORT:
        for size in (1, 8):
            there = ended_in_pieces(words, given, size)
            if there != wanted(base):
                yield f"in pieces of {size}: {there} is not {wanted(base)}"


def bars_of(l4sh, trace, *options):
    """For which threads of a chart there is a bar or a life line at each row, and which: `:`, `H`, `|` or none, by entries and threads."""
    printed = ended([l4sh, "chart", "--text", "--unfolded", *options, "-"], trace)[0].decode()
    names, *rows = printed.partition("\n\n")[0].split("\n")
    lanes = [(name[0], name.start() + len(name[0]) // 2) for name in NAME.finditer(names, BEFORE_LANES)]
    return {int(row[:7]): {name: row[at] if row[at] in ":H|" else "" for name, at in lanes} for row in rows if row[:7].strip().isdigit()}


def faults_of_bars(l4sh, path):
    trace = stored(path)
    whole = bars_of(l4sh, trace)
    # of a trace that is not legal there is no whole chart
    parts = [(option, f"{number}") for option in ("--from", "--to") for number in range(1, trace.count(b"\n") + 1) if whole]
    parts += [("--threads", name) for name in sorted({name for bars in whole.values() for name in bars})]
    for part in parts:
        for number, bars in bars_of(l4sh, trace, *part).items():
            wanted = {name: whole[number][name] for name in bars}
            if bars != wanted:
                yield f"{part}: at entry {number} there are {bars} and not {wanted}"


def faults_of_migrated(l4sh, base):
    given = stored(f"{base}.in")
    new = stored(f"{base}.new", None)
    with tempfile.TemporaryDirectory() as room:
        with open(f"{room}/old", "wb") as file:
            file.write(given)
        for old in ("-", f"{room}/old"):
            there = ended([l4sh, "migrate", old, f"{room}/new"], given)
            made = stored(f"{room}/new", None)
            if (there, made) != (wanted(base), new):
                yield f"{there, made} is not {wanted(base), new}"
            if made is not None:
                os.remove(f"{room}/new")


def faults_of_bad_lines(l4sh, base):
    command = os.path.basename(base)
    words, newline = ([l4sh, command, "-"], b"\n") if command in OF_A_FILE else ([l4sh, command], b"")
    lines = stored(f"{base}.in").removesuffix(b"\n").split(b"\n")
    reasons = stored(f"{base}.out").removesuffix(b"\n").split(b"\n")
    if len(lines) != len(reasons):
        yield f"there are {len(lines)} lines, and {len(reasons)} reasons"
    for line, reason in zip(lines, reasons):
        there = ended(words, line + newline)
        if there != (b"", 2, b"l4sh: bad line 1\n" + reason + b"\n"):
            yield f"{line} ends so: {there}"


def faults_of_live(l4sh, base):
    lines = stored(f"{base}.frames").decode().splitlines()
    for size in (SHORT, 1):
        with tempfile.TemporaryDirectory() as folder:
            server = Written(folder, lines, size)
            there = ended([l4sh, "talk", folder, *stored(f"{base}.args").decode().split()], stored(f"{base}.in"))
            fault = server.end()
        if fault or there != wanted(base):
            yield f"in pieces of {size}: {fault or 'it says all'}; {there} is not {wanted(base)}"


def faults_of_connections(l4sh, _):
    lines = [b"connect 1\n"] * (CONNECTIONS + 1) + [b"end %d\n" % CONNECTIONS]
    answers = [b"= %d\n" % number for number in range(1, CONNECTIONS + 1)] + [b"! S4\n", b"ended %d\n" % CONNECTIONS]
    one_more = b"feed %d 00\n" % (CONNECTIONS + 1)
    told = b"l4sh: bad line %d\nfield 2, connection: no connection has come with this number\n" % (len(lines) + 1)
    there = ended([l4sh, "wire"], b"".join([*lines, one_more]))
    if there != (b"".join(answers), 2, told):
        yield f"it ends by {there[1:]}, behind {there[0][-100:]}"


def faults_of_example(l4sh, path):
    ran = ended([l4sh, "run"], stored(path))
    if ran != (stored(f"{path[:-3]}.out"), 0, b""):
        yield f"it prints {ran}"


def faults_of_script(l4sh, path):
    options = stored(f"{path[:-3]}.args").decode().split()
    there = given_back(l4sh, trace_of(ended([l4sh, "run", *options], stored(path))[0]))
    if there is not None:
        yield f"its trace is not given back: {there}"


def faults_of_version(l4sh, _):
    printed, status, told = ended([l4sh, "--version"])
    if status or told or not VERSION.fullmatch(printed):
        yield f"it ends so: {printed, status, told}"


def faults_of_codes(l4sh, _):
    # those of one letter, which the C client makes error codes of
    codes = [(letters, number) for letters, family in CODES.items() if len(letters) == 1 for number in family]
    for letter, number in codes:
        meaning, *end = ended([l4sh, "explain", f"{letter}{number}"])
        meaning, helps = meaning.split(b"\n", 1)
        if end != [0, b""] or not helps.startswith(b"what helps: "):
            yield f"{letter}{number} ends so: {end}, {helps}"
        # of a call that has a send phase, and of one that has none
        for word in (16 * (256 * ord(letter) + number), 16 * (256 * ord(letter) + number) + 1):
            told = ended([l4sh, "explain", f"{word:#x}"])[0].partition(b"\n")[0]
            if told != b"as an ErrorCode: of the C client, " + meaning:
                yield f"{word:#x} is told so: {told}"


def faults_of_folder(l4sh, path):
    """A folder is no trace, and no standard input. `state`, `count` and `follow` ask the server of a folder, and here there is none."""
    for command in OF_A_FILE:
        there = ended([l4sh, command, path])
        told = f"l4sh: device failed\n{path}: is a folder; of a live server l4sh state {path} tells what its threads do\n"
        if command in OF_A_SERVER:
            told = f"l4sh: {path}/control: No such file or directory (os error 2): no l4d serves there, or none that makes this path\n"
        if there != (b"", 1, told.encode()):
            yield f"{command} ends so: {there}"
    for words in (*((command,) for command in OF_INPUT), *((command, "-") for command in OF_A_FILE)):
        folder = os.open(path, os.O_RDONLY)
        ran = subprocess.run([l4sh, *words], stdin=folder, capture_output=True)
        os.close(folder)
        if (ran.returncode, ran.stdout, ran.stderr) != (1, b"", b"l4sh: device failed\nstandard input is a folder\n"):
            yield f"{words} of a folder as standard input ends so: {ran}"


def into(l4sh, words, given, device):
    """The status of a run whose standard output is this device, and what it tells: a full one, or a pipe that nobody reads."""
    if device == "full":
        output = os.open("/dev/full", os.O_WRONLY)
    else:
        ours, output = os.pipe()
        os.close(ours)
    ran = subprocess.run([l4sh, *words], input=given, stdout=output, stderr=subprocess.PIPE)
    os.close(output)
    return ran.returncode, ran.stderr


def faults_of_devices(l4sh, _):
    """Where standard output or standard input fails the second line names it, and the system's reason. A pipe that nobody reads any more is such a device."""
    reasons = {"full": b"No space left on device (os error 28)", "closed": b"Broken pipe (os error 32)"}
    with tempfile.NamedTemporaryFile() as trace:
        trace.write(b"opened 1.1 1\n")
        trace.flush()
        of_input = [((command,), given) for command, given in (("run", b"open 1 1\n"), ("wire", b"connect 1\n"), ("talk", b"open 1 1\n"))]
        of_words = [(words, b"") for words in (("explain", "K2"), ("tag", "words=1"), ("period", "5ms"), ("help",), ("--version",))]
        of_files = [((command, trace.name), b"") for command in OF_A_FILE]
        for device, reason in reasons.items():
            for words, given in (*of_input, *of_words, *of_files):
                told = into(l4sh, words, given, device)
                if told != (1, b"l4sh: device failed\nstandard output: " + reason + b"\n"):
                    yield f"{words} into a {device} device ends so: {told}"
    for words in (*((command,) for command in OF_INPUT), *((command, "-") for command in OF_A_FILE)):
        ran = subprocess.run([l4sh, *words], preexec_fn=lambda: os.close(0), capture_output=True)
        if (ran.returncode, ran.stderr) != (1, b"l4sh: device failed\nstandard input: Bad file descriptor (os error 9)\n"):
            yield f"{words} without standard input ends so: {ran}"


def faults_of_following(l4sh, _):
    with subprocess.Popen([l4sh, "follow", "-"], stdin=subprocess.PIPE, stdout=subprocess.PIPE, stderr=subprocess.STDOUT) as ran:
        for line, told in ((b"opened 1.1 1\n", "1  0 µs  1.1 is there, in space 1\n"), (b"at 5\nbroke 1.1\n", "3  5 µs  1.1 is gone\n")):
            ran.stdin.write(line)
            ran.stdin.flush()
            there = ran.stdout.readline()
            if there != told.encode():
                yield f"it tells {there}"
        rest = ran.communicate()[0]
        if rest or ran.returncode:
            yield f"it ends by {ran.returncode}: {rest}"


def told_at_terminal(words, pauses):
    """What is told at a terminal where the lines of a trace come with these pauses behind each, in seconds; its exit status comes first."""
    ours, theirs = pty.openpty()
    with subprocess.Popen(words, stdin=subprocess.PIPE, stdout=subprocess.DEVNULL, stderr=theirs) as run:
        os.close(theirs)
        for number, pause in enumerate(pauses):
            run.stdin.write(b"opened %d.1 1\n" % (number + 1))
            run.stdin.flush()
            time.sleep(pause)
        run.stdin.close()
        told = b""
        while select.select([ours], [], [], 0 if run.poll() is not None else 0.1)[0]:
            try:
                told += os.read(ours, 4096)
            except OSError:
                break
        status = run.wait(60)
    os.close(ours)
    return status, told


def faults_of_progress(l4sh, _):
    """A slow trace is told of at a terminal, in one line that goes; a quick one is not, nor one that is followed."""
    for command in ("check", "state", "count", "chart"):
        status, told = told_at_terminal([l4sh, command, "-"], (0.5, 1.8, 0.1))
        if status or not re.fullmatch(rb"(\rl4sh: [1-9]\d* bytes read)+\r +\r", told):
            yield f"{command}: {status}, {told}"
    for command, pauses in (("check", (0.1, 0.1)), ("follow", (0.5, 1.8, 0.1))):
        status, told = told_at_terminal([l4sh, command, "-"], pauses)
        if status or told:
            yield f"{command}: {status}, {told}"


def peak(words):
    """The status of a run, what it says first, and how many bytes of memory it has at most.

    It begins with the memory of the one that starts it: so no more is held here than is looked at."""
    with tempfile.TemporaryFile() as said:
        ran = subprocess.Popen(words, stdout=said, stderr=said)
        _, status, usage = os.wait4(ran.pid, 0)
        ran.returncode = os.waitstatus_to_exitcode(status)
        said.seek(0)
        return ran.returncode, said.read(SAID), usage.ru_maxrss * 1024


def faults_of_long_lines(l4sh, _):
    for command in ("check", "follow"):
        peaks = []
        for size in LONG_LINES:
            with tempfile.NamedTemporaryFile() as file:
                # in pieces: a program that is started begins with the memory of the one that starts it
                for _ in range(size >> 20):
                    file.write(b"x" * (1 << 20))
                file.write(b"\n")
                file.flush()
                status, said, memory = peak([l4sh, command, file.name])
            peaks.append(memory)
            if (status, said) != (2, b"l4sh: bad line 1\na line of more than %d bytes\n" % MAX_LINE_BYTES):
                yield f"{command} of {size} bytes ends so: {status} {said[:200]}"
        if peaks[1] - peaks[0] > MORE:
            yield f"{command} takes {peaks} bytes for lines of {LONG_LINES}"


def messages_of(count):
    """A trace of a pair of threads of which one sends the other so many messages."""
    yield b"opened 1.1 1\nopened 2.1 1\n"
    for number in range(1, 2 * count, 2):
        yield b"called %d 1.1 nil any 0x0 0x0 nil - - -\n" % number
        yield b"called %d 2.1 1.1 nil 0x0 0x1 nil 0x7 - -\nbegan %d %d\nended %d %d\n" % ((number + 1,) + (number + 1, number) * 2)


def looks_at(entries):
    """What looks at a trace of so many entries: a chart at its first, at some in the middle and at the last."""
    middle = entries // 2
    yield from ((command,) for command in ("check", "state", "count", "follow"))
    yield from (("chart", "--from", f"{first}", "--to", f"{last}") for first, last in ((1, 9), (middle, middle + 9), (entries - 9, entries)))


def faults_of_long_traces(l4sh, _):
    """What these hold of a trace does not grow with it."""
    peaks = []
    for count in LONG_TRACES:
        with tempfile.NamedTemporaryFile() as file:
            file.writelines(messages_of(count))
            file.flush()
            peaks.append([(words, *peak([l4sh, *words, file.name])) for words in looks_at(2 + 4 * count)])
    for short, long in zip(*peaks):
        yield from (f"{words} ends so: {status} {said[:200]}" for words, status, said, _ in (short, long) if status)
        if long[-1] - short[-1] > MORE:
            yield f"{long[0]} takes {long[-1]} bytes, and of a short trace {short[-1]}"


def crowd(timeouts):
    """A script of all threads, of which all but the first send it their numbers, and what is printed."""
    script = [f"open {number} 1" for number in (1, *SENDERS)]
    printed = [line for number in (1, *SENDERS) for line in (f"opened {number}.1 1", f"= {number}.1")]
    for call, number in enumerate(SENDERS, 1):
        fields = f"{number}.1 1.1 nil {timeouts} 0x1 nil {number:#x} - -"
        script.append(f"call {fields}")
        printed += [f"called {call} {fields}", f"= {call}"]
    return script, printed


def received_in_turn():
    script, printed = crowd("0x0")
    for call, number in enumerate(SENDERS, 1):
        own, fields = len(SENDERS) + call, "1.1 nil any 0x0 0x0 nil - - -"
        script += [f"call {fields}", "take 1.1"]
        printed += [f"called {own} {fields}", f"began {call} {own}", f"ended {call} {own}", f"= {own}", f"= {own} 0x1 {number}.1 nil 0x0 {number:#x} -"]
    return script, printed


def due_together():
    script, printed = crowd("0x50000")
    script += ["at 3", "at 4", "at 5", *(f"take {number}.1" for number in SENDERS)]
    calls = range(1, len(SENDERS) + 1)
    printed += ["= ok", "= ok", "at 5", *(f"failed {call} 0x2" for call in calls), "= ok", *(f"= {call} 0x8000 nil nil 0x2 - -" for call in calls)]
    return script, printed


def never_full():
    script, printed = ["open 1 1", "open 2 1"], ["opened 1.1 1", "= 1.1", "opened 2.1 1", "= 2.1"]
    for word in range(100):
        own, fields, sent = 2 * word + 1, "1.1 nil any 0x0 0x0 nil - - -", f"2.1 1.1 nil 0x0 0x1 nil {word:#x} - -"
        script += [f"call {fields}", f"call {sent}", "take 1.1", "take 2.1", "compact"]
        printed += [f"called {own} {fields}", f"= {own}", f"called {own + 1} {sent}", f"began {own + 1} {own}", f"ended {own + 1} {own}", f"= {own + 1}"]
        # the opens of the two threads are left
        printed += [f"= {own} 0x1 2.1 nil 0x0 {word:#x} -", f"= {own + 1} 0x0 nil nil 0x0 - -", "= 4 2"]
    return script, printed


# What is made, and the options of its run.
MADE = {"received in turn": (received_in_turn,), "due together": (due_together,), "never full": (never_full, "--entries", "64")}


def faults_of_made(l4sh, name):
    make, *options = MADE[name]
    script, printed = ("".join(f"{line}\n" for line in lines).encode() for lines in make())
    there = ended([l4sh, "run", *options], script)
    if there != (printed, 0, b""):
        yield f"it prints {there}"


def trace_of_times():
    """A trace of two threads for each number of messages. Each message has 7 bytes. Its send phase takes a time, and its receive phase twice that."""
    threads = [f"{number}.1" for number in range(1, 2 * len(TIMES) + 1)]
    yield from (f"opened {thread} 1" for thread in threads)
    call = moment = 0
    for sender, receiver, messages in zip(threads[::2], threads[1::2], TIMES):
        for time in range(messages, 0, -1):
            yield f"called {call + 1} {receiver} nil any 0x0 0x0 nil - - 7@0x0"
            yield f"at {moment + time}"
            yield f"called {call + 2} {sender} {receiver} nil 0x0 0x80 nil - x61626364656667 -"
            yield f"began {call + 2} {call + 1}"
            yield f"at {moment + 2 * time}"
            yield f"moved {call + 2} 7"
            yield f"ended {call + 2} {call + 1}"
            call, moment = call + 2, moment + 2 * time


def faults_of_times(l4sh, _):
    there = ended([l4sh, "count", "--json", "-"], "".join(f"{line}\n" for line in trace_of_times()).encode())
    if there[1:] != (0, b""):
        yield f"it ends so: {there}"
        return
    told = [pair for pair in json.loads(there[0])["pairs"] if pair["from"] != "any"]
    for place, (messages, times) in enumerate(TIMES.items()):
        names = ("median", "99_of_100", "longest")
        pair = {"from": f"{2 * place + 1}.1", "to": f"{2 * place + 2}.1", "calls": messages, "messages": messages, "bytes": 7 * messages, "failures": 0,
                "sends_took": dict(zip(names, times)), "receives_took": dict(zip(names, (2 * time for time in times)))}
        if told[place : place + 1] != [pair]:
            yield f"it counts {told[place : place + 1]} and not {pair}"
    if len(told) != len(TIMES):
        yield f"it counts {len(told)} pairs"


def solution_of(base):
    return f"{os.path.dirname(base)}/solutions/{os.path.basename(base)}.l4"


def of_example(l4sh, base):
    return ended([l4sh, "run"], stored(f"{base}.l4"))


def solved(l4sh, base):
    """What the solution of a step of the tutorial prints, typed: entries and answers, without the words beside them."""
    printed, status, told = ended([l4sh, "talk"], stored(solution_of(base)))
    return b"".join(line.partition(b"    ")[0].rstrip(b"\n") + b"\n" for line in printed.splitlines(keepends=True) if not line.startswith((b"? ", b"> "))), status, told


def packed(text):
    """A text with its long runs of one byte as they are stored."""
    return LONG_RUN.sub(lambda run: b"{%s*%d}" % (run[1], len(run[0]) // 2), text)


def store(l4sh, base):
    """Stores what a script prints now and how it ends, where that is something else; the files that were written."""
    printed, status, told = solved(l4sh, base) if os.path.exists(solution_of(base)) else of_example(l4sh, base) if os.path.exists(f"{base}.l4") else found(l4sh, base)
    for path, now, before in ((f"{base}.out", printed, stored(f"{base}.out")), (f"{base}.end", b"%d\n" % (status or 0) + told, stored(f"{base}.end", b"0\n"))):
        if now != before:
            with open(path, "wb") as file:
                file.write(packed(now))
            yield path


def store_all(l4sh):
    bases = [path[: -len(".in")] for path in sorted(glob.glob(f"{HERE}/scripts/*/*.in"))]
    bases = [base for base in bases if os.path.basename(os.path.dirname(base)) not in FAULTS_OF]
    examples = [path[: -len(".l4")] for path in sorted(glob.glob(f"{EXAMPLES}/*.l4") + glob.glob(f"{EXAMPLES}/tutorial/*.l4"))]
    written = [path for base in [*bases, *examples] for path in store(l4sh, base)]
    for path in written:
        print(f"{os.path.relpath(path, ROOT)}: stored anew")
    print(f"{len(written)} files stored anew: read each difference")
    return 0


FAULTS_OF = {"migrate": faults_of_migrated, "bad_lines": faults_of_bad_lines, "live": faults_of_live}


def main():
    words = [word for word in sys.argv[1:] if word != "--store"]
    l4sh = words[0] if words else f"{ROOT}/l4sh"
    if "--store" in sys.argv[1:]:
        return store_all(l4sh)
    examples = sorted(glob.glob(f"{EXAMPLES}/*.l4"))
    scripts = sorted(glob.glob(f"{HERE}/scripts/run/*.in"))
    looks = [(path[: -len(".in")], FAULTS_OF.get(os.path.basename(os.path.dirname(path)), faults_of_stored))
             for path in sorted(glob.glob(f"{HERE}/scripts/*/*.in"))]
    looks += [(path, faults_of_bars) for path in sorted(glob.glob(f"{HERE}/scripts/chart/*.in")) if stored(path).count(b"\n") <= CHARTED]
    looks += [(path, faults_of_example) for path in examples]
    looks += [(path, faults_of_script) for path in [*examples, *scripts]]
    looks += [(name, faults_of_made) for name in MADE] + [("times", faults_of_times)]
    looks += [("codes of the C client", faults_of_codes)]
    looks += [("--version", faults_of_version), (HERE, faults_of_folder), ("devices", faults_of_devices), ("follow -", faults_of_following), ("long lines", faults_of_long_lines), ("many connections", faults_of_connections), ("progress", faults_of_progress), ("long traces", faults_of_long_traces)]
    failed = 0
    for path, faults_of in looks:
        faults = list(faults_of(l4sh, path))
        failed += bool(faults)
        for fault in faults:
            print(f"{path.removeprefix(f'{HERE}/')}: {fault}"[:600])
    print(f"{len(looks) - failed} passed, {failed} failed")
    return 1 if failed or not (examples and scripts) else 0


if __name__ == "__main__":
    sys.exit(main())
