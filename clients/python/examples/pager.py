#!/usr/bin/env python3
"""A pager-like server: what it answers depends on what came before.

A page fault is a message as the manual has it: a label of the access that failed, the fault address, and the instruction pointer. This
pager keeps a table of pages, gives a page the next frame at its first fault, and answers with the page and its frame.

    pager.py DIR serve             is thread 20
    pager.py DIR fault ADDRESS..   is thread 21: faults at each address (as 0x1000), and prints the frame of its page
"""

import sys

from l4ipc import L4Error, Message, Thread
from l4ipc.names import Names

PAGE_FAULT = -2 << 4 & 0xFFFF_FFFF_FFFF  # the manual's label: -2 in its upper bits, the access in its lowest three
READ = 4
PAGE = 4096
BAD_FAULT = 1


def answer(frames, request):
    """The answer to a request: the page and its frame, or the label of a bad one."""
    if request.label & ~7 != PAGE_FAULT or len(request.words) != 2:
        return Message(BAD_FAULT)
    page = request.words[0] // PAGE
    frame = frames.setdefault(page, len(frames))
    return Message(0, [page * PAGE, frame])


def serve(directory):
    frames = {}
    with Thread(directory, 20) as thread:
        Names(thread).register("pager")
        thread.serve(lambda request: answer(frames, request))


def fault(directory, addresses):
    with Thread(directory, 21) as thread:
        pager = Names(thread).wait_for("pager", 10)
        for address in addresses:
            reply = thread.call(pager, Message(PAGE_FAULT | READ, [address, 0x400000]))
            if reply.label:
                sys.exit(f"bad fault: {reply.label}")
            page, frame = reply.words
            print(f"{address:#x} is in page {page:#x}, frame {frame}")


if __name__ == "__main__":
    try:
        if sys.argv[2:] == ["serve"]:
            serve(sys.argv[1])
        elif sys.argv[2:3] == ["fault"] and len(sys.argv) > 3:
            fault(sys.argv[1], [int(word, 0) for word in sys.argv[3:]])
        else:
            raise ValueError(f"the words name no role\n\n{__doc__}")
    except KeyboardInterrupt:
        sys.exit(130)
    except ValueError as wrong:
        print(f"pager: {wrong}", file=sys.stderr)
        sys.exit(2)
    except (L4Error, OSError) as end:
        sys.exit(f"pager: {end}")
