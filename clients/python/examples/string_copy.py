#!/usr/bin/env python3
"""A string copy: the bytes go from the sender's string into memory of the receiver.

    string_copy.py DIR serve          is thread 30: takes a string, and answers how many bytes came and their digest
    string_copy.py DIR send COUNT     is thread 31: sends so many bytes, up to 1,048,576, and looks whether they came
"""

import hashlib
import sys

from l4ipc import L4Error, Message, Thread
from l4ipc.names import Names

ROOM = 1_048_576


def serve(directory):
    memory = bytearray(ROOM)

    def digest(request):
        # the bytes stand in the memory now
        came = sum(len(string) for string in request.strings)
        return Message(0, [came], [hashlib.sha256(memoryview(memory)[:came]).digest()])

    with Thread(directory, 30) as thread:
        Names(thread).register("copy")
        thread.serve(digest, buffers=[memory])


def send(directory, count):
    if not 0 <= count <= ROOM:
        raise ValueError(f"COUNT is not from 0 to {ROOM}")
    text = (b"rendezvous " * (count // 11 + 1))[:count]
    with Thread(directory, 31) as thread:
        server = Names(thread).wait_for("copy", 10)
        answer = thread.call(server, Message(0, [], [text]), buffers=[32])
        same = answer.strings[0] == hashlib.sha256(text).digest()
        print(f"{answer.words[0]} bytes came, {'the same' if same else 'OTHERS'}")


if __name__ == "__main__":
    try:
        if sys.argv[2:] == ["serve"]:
            serve(sys.argv[1])
        elif sys.argv[2:3] == ["send"] and len(sys.argv) == 4:
            send(sys.argv[1], int(sys.argv[3]))
        else:
            raise ValueError(f"the words name no role\n\n{__doc__}")
    except KeyboardInterrupt:
        sys.exit(130)
    except ValueError as wrong:
        print(f"string_copy: {wrong}", file=sys.stderr)
        sys.exit(2)
    except (L4Error, OSError) as end:
        sys.exit(f"string_copy: {end}")
