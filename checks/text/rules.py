"""The rules of a legal history, as docs/PROFILE.md tells them, over the whole list of entries at each step.

Nothing is kept from one entry to the next, and nothing is fast: this is a second reading of the rules, to hold the checker against.
Ids stay text, since each has one spelling. All lines are taken as well formed."""

from protocol_tables import MAX_BLOCK_BYTES, MAX_MOMENT, MAX_SPACE, MAX_THREAD_NUMBER

NEVER = None
FOREVER = MAX_MOMENT + 1


def worth(period):
    """What a period is worth in microseconds, or NEVER."""
    return NEVER if period == 0 else (period & 0x3FF) << (period >> 10)


def number_of(thread):
    """The number and the version of a global id, or None."""
    number, dot, version = thread.partition(".")
    return (int(number), int(version)) if dot else None


def next_version(version):
    following = version + 1
    return following if following % 64 else following + 1


class Call:
    """A call, from the fields of its line."""

    def __init__(self, place, fields):
        self.place = place
        self.thread, self.to, self.source = fields[1:4]
        timeouts, tag = int(fields[4], 16), int(fields[5], 16)
        self.receive_worth, self.send_worth = worth(timeouts & 0xFFFF), worth(timeouts >> 16)
        self.is_propagated = bool(tag & 0x1000)
        self.originator = fields[6]
        self.strings = [] if fields[8] == "-" else [(len(string) - 1) // 2 for string in fields[8].split(",")]
        self.buffers = [] if fields[9] in "-s" else [room_of(buffer) for buffer in fields[9].split(",")]
        self.sends, self.receives = self.to != "nil", self.source != "nil"

    def size(self):
        return sum(self.strings)


def room_of(buffer):
    return sum(int(part.split("@")[0]) for part in buffer.split("+"))


class Past:
    """What the entries so far say."""

    def __init__(self, lines):
        self.lines = lines
        self.entries = [line.split(" ") for line in lines]
        self.spaces, self.opens, self.broken, self.calls = {}, [], set(), {}
        self.began, self.ended, self.failed, self.turned, self.moves, self.moments = {}, {}, set(), {}, {}, []
        moment = 0
        for place, (kind, *fields) in enumerate(self.entries):
            self.moments.append(moment)
            if kind == "at":
                moment = int(fields[0])
            elif kind == "opened":
                self.spaces[fields[0]] = int(fields[1])
                self.opens.append(fields[0])
            elif kind == "broke":
                self.broken.add(fields[0])
            elif kind == "called":
                self.calls[int(fields[0])] = Call(place, fields)
            elif kind == "began":
                self.began[int(fields[0])] = int(fields[1])
            elif kind == "ended":
                self.ended[int(fields[0])] = (int(fields[1]), place)
            elif kind == "moved":
                self.moves[int(fields[0])] = self.moves.get(int(fields[0]), 0) + int(fields[1])
            elif kind == "turned":
                self.turned[int(fields[0])] = fields[1]
            elif kind == "failed":
                self.failed.add(int(fields[0]))
            elif kind in ("overflowed", "aborted"):
                self.failed.update((int(fields[0]), int(fields[1])))
        self.moment = moment
        self.senders = {m: n for n, m in self.began.items()}
        self.received = {m for m, _ in self.ended.values()}

    def is_live(self, thread):
        return thread in self.spaces and thread not in self.broken

    def is_over(self, n):
        call = self.calls[n]
        return (
            n in self.failed
            or call.thread in self.broken
            or n in self.received
            or (n in self.ended and not call.receives)
            or (not call.sends and not call.receives)
        )

    def is_sending(self, n):
        return self.calls[n].sends and n not in self.began and not self.is_over(n)

    def is_receiving(self, m):
        call = self.calls[m]
        begins = not call.sends or m in self.ended
        return call.receives and begins and m not in self.senders and not self.is_over(m)

    def is_passing(self, n):
        return n in self.began and n not in self.ended and not self.is_over(n) and not self.is_over(self.began[n])

    def open_call(self, thread):
        for n, call in self.calls.items():
            if call.thread == thread and not self.is_over(n):
                return n
        return None

    def shown(self, n):
        """Whom the receiver of a call sees: a live originator of the caller's space when the call was made, else the caller."""
        call = self.calls[n]
        before = self.entries[: call.place]
        was_live = ["broke", call.originator] not in before
        space = [fields[2] for fields in before if fields[:2] == ["opened", call.originator]]
        if call.is_propagated and was_live and space and int(space[0]) == self.spaces[call.thread]:
            return call.originator
        return call.thread

    def wants(self, m):
        return self.turned.get(m, self.calls[m].source)

    def accepts(self, m, sender):
        wanted = self.wants(m)
        if wanted == "any":
            return True
        if wanted == "local":
            return self.spaces[sender] == self.spaces[self.calls[m].thread]
        return wanted == sender

    def match(self, n):
        """The call that a waiting send meets, or None."""
        call = self.calls[n]
        if not self.is_sending(n) or call.to == call.thread:
            return None
        for m, other in self.calls.items():
            if other.thread == call.to and self.is_receiving(m) and self.accepts(m, self.shown(n)):
                return m
        return None

    def overflow(self, n, m):
        """The bytes of the strings before the first that does not fit, or None."""
        offset = 0
        strings, buffers = self.calls[n].strings, self.calls[m].buffers
        for k, string in enumerate(strings):
            if k >= len(buffers) or string > buffers[k]:
                return offset
            offset += string
        return None

    def orphan_code(self, n):
        """The code of a call that lost its partner, or None."""
        call = self.calls[n]
        if self.is_sending(n) and (not self.is_live(call.to) or call.to == call.thread):
            return 0x4
        wanted = self.wants(n)
        if self.is_receiving(n) and wanted not in ("any", "local") and not self.is_live(wanted):
            return 0x5
        if self.is_over(n):
            return None
        if n in self.began and n not in self.ended and self.calls[self.began[n]].thread in self.broken:
            return 0xE + 16 * self.moves.get(n, 0)
        sender = self.senders.get(n)
        if sender is not None and sender not in self.ended and self.calls[sender].thread in self.broken:
            return 0xF + 16 * self.moves.get(sender, 0)
        return None

    def due_code(self, n):
        """The code of a phase whose time is over, or None."""
        call = self.calls[n]
        if self.is_sending(n):
            begin, span, code = self.moments[call.place], call.send_worth, 0x2
        elif self.is_receiving(n):
            place = self.ended[n][1] if call.sends else call.place
            begin, span, code = self.moments[place], call.receive_worth, 0x3
        else:
            return None
        return code if span is not NEVER and begin + span <= self.moment else None

    def cancelled(self):
        """What follows an ExchangeRegisters, or None."""
        thread, target, control = self.entries[-1][1:]
        if not self.is_live(target) or self.spaces[target] != self.spaces[thread]:
            return None
        call = self.open_call(target)
        if call is None:
            return None
        receive, send = int(control, 16) & 2, int(control, 16) & 4
        if send and self.is_sending(call):
            return f"failed {call} 0x6"
        if receive and self.is_receiving(call):
            return f"failed {call} 0x7"
        for n in self.calls:
            if self.is_passing(n) and (send and call == n or receive and call == self.began[n]):
                return f"aborted {n} {self.began[n]} {self.moves.get(n, 0)}"
        return None

    def turning(self):
        """What follows the beginning of a propagated message, or None."""
        n = int(self.entries[-1][1])
        call, shown = self.calls[n], self.shown(n)
        waits = self.open_call(shown) if shown != call.thread else None
        if waits is not None and self.is_receiving(waits) and self.wants(waits) == call.thread:
            return f"turned {waits} {call.to}"
        return None

    def duty(self):
        """The output that has to come next: of the first rule that applies; or None."""
        last = self.entries[-1][0] if self.entries else ""
        told = self.cancelled() if last == "exreg" else self.turning() if last == "began" else None
        if told:
            return told
        calls = sorted(self.calls)
        for n in calls:
            if self.is_passing(n) and self.moves.get(n, 0) == self.calls[n].size():
                return f"ended {n} {self.began[n]}"
        for n in calls:
            code = self.orphan_code(n)
            if code is not None:
                return f"failed {n} {code:#x}"
        for n in calls:
            m = self.match(n)
            if m is not None:
                offset = self.overflow(n, m)
                return f"began {n} {m}" if offset is None else f"overflowed {n} {m} {offset}"
        for n in calls:
            code = self.due_code(n)
            if code is not None:
                return f"failed {n} {code:#x}"
        return None

    def admits(self, line):
        """Whether an input may come next, where no output has to."""
        kind, *fields = line.split(" ")
        if kind == "at":
            return self.moment < int(fields[0]) < FOREVER
        if kind == "opened":
            return self.admits_open(fields[0], int(fields[1]))
        if kind == "called":
            return int(fields[0]) == len(self.calls) + 1 and self.may_act(fields[1])
        if kind == "exreg":
            return self.may_act(fields[0])
        if kind == "broke":
            return self.is_live(fields[0])
        if kind == "moved":
            passing = [n for n in sorted(self.calls) if self.is_passing(n)]
            rest = self.calls[passing[0]].size() - self.moves.get(passing[0], 0) if passing else 0
            return bool(passing) and fields == [str(passing[0]), str(min(MAX_BLOCK_BYTES, rest))]
        return False

    def may_act(self, thread):
        return self.is_live(thread) and self.open_call(thread) is None

    def admits_open(self, thread, space):
        named = number_of(thread)
        if named is None or not 1 <= named[0] <= MAX_THREAD_NUMBER or not 1 <= space <= MAX_SPACE:
            return False
        of_number = [number_of(other)[1] for other in self.opens if number_of(other)[0] == named[0]]
        is_taken = any(self.is_live(other) and number_of(other)[0] == named[0] for other in self.opens)
        return not is_taken and named[1] == (next_version(of_number[-1]) if of_number else 1)


def verdict(lines, good=0):
    """The first line that does not follow those before it, from 1, and what was expected there; None where all follow. So many
    lines are known to be good."""
    for place in range(good, len(lines)):
        past = Past(lines[:place])
        duty = past.duty()
        if duty is not None and duty != lines[place]:
            return place + 1, duty
        if duty is None and not past.admits(lines[place]):
            return place + 1, "input"
    return None
