#!/usr/bin/env python3
"""restarts.py L4D L4X: Python programs over restarts of `l4d` and of the name server.

A server with a name and clients of it, all with reconnect=True. `l4d` is killed in midst of their calls and started again, several times, and so is the name
server alone, with the `l4d` that there is; later it is stopped for a while, and what it answers then is no request of a client. Each client makes numbered calls by the server's name. Each call either brings
its answer or fails, calls go on after each restart, no message comes twice, and the server has its name again in each case without a word of its program. So have the
servers of l4x.

Its last line is `N checked, M failed`; the status is 0 where M is 0.
"""

import signal
import subprocess
import sys
import tempfile
import threading
import time

sys.path[1:1] = [f"{sys.path[0]}/../lib", f"{sys.path[0]}/../../clients/python/src"]

from arguments import programs_of
from counting import Tally
from l4ipc import Closed, L4Error, Message, Thread, Timeout
from l4ipc.names import Names
from serving import Server, ended

RESTARTS = 3
CLIENTS = 3
SECONDS = 60
STOPPED_FOR = 7

tally = Tally()
check = tally.check


class Programs:
    """An l4d and a name server in a folder, which can be killed and started again."""

    def __init__(self, l4d, l4x, folder):
        self.l4d, self.l4x, self.folder = l4d, l4x, folder
        self.running = {}

    def start(self, name):
        if name == "l4d":
            self.running[name] = Server(self.l4d, "--replace", folder=self.folder).process
        else:
            self.running[name] = subprocess.Popen([self.l4x, self.folder, "names"], stdin=subprocess.DEVNULL, stdout=subprocess.PIPE, stderr=subprocess.STDOUT)
            self.running[name].stdout.readline()

    def kill(self, name):
        process = self.running.pop(name, None)
        if process:
            ended(process)


class Counting:
    """A server that adds 1 and writes down what came, and clients that ask it by its name until they are told to end."""

    def __init__(self, folder):
        self.folder, self.came, self.answered, self.told, self.failures = folder, [], [], [], []
        self.senders = set()
        self.is_over = False
        self.server = Thread(folder, 1, wait_for=SECONDS, reconnect=True)
        Names(self.server).wait_to_register("adds", SECONDS)
        self.workers = [threading.Thread(target=self.server.serve, args=(self.add, (), lambda *it: self.told.append(it)), daemon=True)]
        self.workers += [threading.Thread(target=self.ask, args=(place,), daemon=True) for place in range(CLIENTS)]
        for worker in self.workers:
            worker.start()

    def add(self, request):
        self.came.append(request.words[0])
        self.senders.add(request.sender.number)
        return Message(0, [request.words[0] + 1])

    def ask(self, place):
        number = place << 32
        with Thread(self.folder, 10 + place, wait_for=SECONDS, reconnect=True) as thread:
            while not self.is_over:
                number += 1
                try:
                    answer = thread.call("adds", Message(0, [number]), wait_for=SECONDS)
                    self.answered.append((number, answer.words[0]))
                except L4Error as error:
                    self.failures.append((number, error))

    def goes_on(self):
        """Whether each client gets an answer from now on."""
        before, limit = len(self.answered), time.monotonic() + SECONDS
        while time.monotonic() < limit:
            if len({number >> 32 for number, _ in self.answered[before:]}) == CLIENTS:
                return True
            time.sleep(0.02)
        return False


def main():
    l4d, l4x = programs_of(sys.argv[1:], __doc__, 2)
    for case in (l4x_serves_again, run):
        with tempfile.TemporaryDirectory() as folder:
            programs = Programs(l4d, l4x, folder)
            programs.start("l4d")
            programs.start("names")
            try:
                case(programs, folder)
            finally:
                for name in ("names", "l4d"):
                    programs.kill(name)
    return tally.end()


def late_answer(programs, counting, folder):
    """A name server that is stopped answers once it goes on, when its call has ended; the server then waits for any thread."""
    before, limit = len(counting.told), time.monotonic() + SECONDS
    programs.running["names"].send_signal(signal.SIGSTOP)
    while len(counting.told) == before and time.monotonic() < limit:
        time.sleep(0.02)
    check("a name server that is stopped is told", isinstance(counting.told[-1][0], Timeout), counting.told[-1])
    programs.running["names"].send_signal(signal.SIGCONT)
    with Thread(folder, 30) as thread:
        check("the name server goes on", Names(thread).wait_for("adds", SECONDS) == counting.server.id)
    time.sleep(1)
    check("what comes is of the clients alone", counting.senders == {10 + place for place in range(CLIENTS)}, counting.senders)


def l4x_serves_again(programs, folder):
    """keyvalue and gateway of l4x, too, are found by their names again, whose programs nobody started anew; and a gateway without a name server denies, and goes on."""
    serving = [subprocess.Popen([programs.l4x, folder, role, "--names"], stdin=subprocess.DEVNULL, stderr=subprocess.PIPE, text=True) for role in ("keyvalue", "gateway")]

    def run_of(*words):
        return subprocess.run([programs.l4x, folder, *words], stdin=subprocess.DEVNULL, capture_output=True, text=True, timeout=SECONDS)

    def asked(*words):
        ran = run_of(*words, "--names")
        return ran.returncode, ran.stdout

    def comes(wanted, *words):
        limit = time.monotonic() + SECONDS
        while (said := asked(*words)) != wanted and time.monotonic() < limit:
            time.sleep(0.2)
        return said

    tally.same("l4x put", comes((0, ""), "put", "7", "70", "gateway"), (0, ""))
    for turn in range(RESTARTS):
        programs.kill("names")
        # the gateway is asked by its number, and looks for the server by its name
        while ": K2: " in (told := run_of("get", "7", "gateway").stderr):
            time.sleep(0.01)
        check("a gateway without a name server denies", "the gateway found no server" in told, told)
        time.sleep(0 if turn else STOPPED_FOR)
        programs.start("names")
        began = time.monotonic()
        for words in (("get", "7"), ("get", "7", "gateway")):
            tally.same(f"l4x {' '.join(words)} after the name server was started again, turn {turn}", comes((0, "70\n"), *words), (0, "70\n"))
        check("it takes no long time", time.monotonic() - began < 2 * STOPPED_FOR, time.monotonic() - began)
    tally.same("both run on", [it.poll() for it in serving], [None, None])
    for process, role in zip(serving, ("keyvalue", "gateway")):
        process.kill()
        told = process.communicate()[1].splitlines(keepends=True)
        wanted = f"l4x: the name {role} could not be registered again, and is tried again: there is no name server: start l4x DIR names\n"
        tally.same(f"{role} tells it once", told[:1], [wanted])


def run(programs, folder):
    counting = Counting(folder)
    check("calls by a name", counting.goes_on(), counting.failures[-3:])
    for turn in range(RESTARTS):
        programs.kill("l4d")
        programs.kill("names")
        time.sleep(0.2 * turn)
        programs.start("l4d")
        time.sleep(0.5 * turn)
        programs.start("names")
        check(f"calls go on after l4d was started again, turn {turn}", counting.goes_on(), counting.failures[-3:])
    programs.kill("names")
    programs.start("names")
    with Thread(folder, 30) as thread:
        found = Names(thread).wait_for("adds", SECONDS)
        check("the name is there again", found == counting.server.id, found)
    check("calls go on", counting.goes_on(), counting.failures[-3:])
    programs.running["names"].send_signal(signal.SIGSTOP)
    time.sleep(STOPPED_FOR)
    check("calls go on while the name server is stopped", counting.goes_on(), counting.failures[-3:])
    programs.running["names"].send_signal(signal.SIGCONT)
    check("calls go on after that", counting.goes_on(), counting.failures[-3:])
    counting.is_over = True
    for worker in counting.workers[1:]:
        worker.join(SECONDS)
        check("a client ends", not worker.is_alive())
    late_answer(programs, counting, folder)
    check("no message comes twice", len(set(counting.came)) == len(counting.came), len(counting.came))
    check("each answer is right", all(answer == number + 1 for number, answer in counting.answered))
    check("what was answered had come", {number for number, _ in counting.answered} <= set(counting.came))
    kinds = {type(error).__name__ for _, error in counting.failures}
    check("calls fail by the end of the connection or of the partner", kinds <= {"Closed", "NoPartner", "NoNames"}, kinds)
    check("the server was told", sum(isinstance(error, Closed) for error, _ in counting.told) == RESTARTS, counting.told)
    print(f"{len(counting.answered)} calls were answered, {len(counting.failures)} failed")


if __name__ == "__main__":
    sys.exit(main())
