#!/usr/bin/env python3
"""A gateway that propagates: it passes each message on in the name of who sent it, and the server answers that one itself.

    gateway.py DIR serve         is thread 40: passes messages on to the server of pingpong.py
    gateway.py DIR ask WORD      is thread 41: calls the gateway, and prints who answered, and what
"""

import sys

from l4ipc import L4Error, Message, Thread
from l4ipc.names import Names

NO_SERVER = 1


def serve(directory):
    with Thread(directory, 40) as thread:
        names = Names(thread, timeout=1)
        names.register("gateway")

        def pass_on(request):
            # a name server that is stopped, or a server that is busy, holds nobody up for more than a second
            server = names.lookup("pingpong")
            if server is None:
                return Message(NO_SERVER)
            # who asked waits for the gateway alone; as the transfer begins that wait is turned to the server
            thread.send(server, Message(request.label, request.words, originator=request.sender), 1)
            return None

        thread.serve(pass_on)


def ask(directory, word):
    with Thread(directory, 41) as thread:
        gateway = Names(thread).wait_for("gateway", 10)
        answer = thread.call(gateway, Message(0, [word]))
        print(f"asked {gateway}, and {answer.sender} answered {answer.words[0] if answer.words else 'nothing'}")


if __name__ == "__main__":
    try:
        if sys.argv[2:] == ["serve"]:
            serve(sys.argv[1])
        elif sys.argv[2:3] == ["ask"] and len(sys.argv) == 4:
            ask(sys.argv[1], int(sys.argv[3]))
        else:
            raise ValueError(f"the words name no role\n\n{__doc__}")
    except KeyboardInterrupt:
        sys.exit(130)
    except ValueError as wrong:
        print(f"gateway: {wrong}", file=sys.stderr)
        sys.exit(2)
    except (L4Error, OSError) as end:
        sys.exit(f"gateway: {end}")
