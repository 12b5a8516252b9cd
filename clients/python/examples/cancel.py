#!/usr/bin/env python3
"""A cancel from a third thread: a server that never answers, a caller that waits for it, and who ends that wait.

    cancel.py DIR silent     is thread 50: takes each message, and answers none
    cancel.py DIR call       is thread 51: calls the silent thread, and prints how that ended
    cancel.py DIR cancel     is thread 52: cancels the receive phase of thread 51
"""

import sys
import time

from l4ipc import Cancelled, L4Error, Message, Thread
from l4ipc.names import Names


def silent(directory):
    with Thread(directory, 50) as thread:
        Names(thread).register("silent")
        thread.serve(lambda request: None)


def call(directory):
    with Thread(directory, 51) as thread:
        names = Names(thread)
        server = names.wait_for("silent", 10)
        names.register("caller")
        try:
            thread.call(server, Message(0, [7]))
        except Cancelled as end:
            print(f"cancelled in the {end.phase} phase")


def cancel(directory):
    with Thread(directory, 52) as thread:
        caller = Names(thread).wait_for("caller", 10)
        # S is not set: a send phase is left alone. What the caller was doing comes back, and only a receive phase ends
        while True:
            was = thread.exchange_registers(caller, receive=True)
            if was is None:
                sys.exit("the caller has ended")
            if was.was_receiving:
                print(f"cancelled {was.thread}")
                return
            time.sleep(0.001)


if __name__ == "__main__":
    try:
        roles = {"silent": silent, "call": call, "cancel": cancel}
        if len(sys.argv) == 3 and sys.argv[2] in roles:
            roles[sys.argv[2]](sys.argv[1])
        else:
            raise ValueError(f"the words name no role\n\n{__doc__}")
    except KeyboardInterrupt:
        sys.exit(130)
    except ValueError as wrong:
        print(f"cancel: {wrong}", file=sys.stderr)
        sys.exit(2)
    except (L4Error, OSError) as end:
        sys.exit(f"cancel: {end}")
