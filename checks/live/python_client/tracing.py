"""What each thread was told, beside the trace of the server."""

import os
from collections import defaultdict

from python_client.seeing import check, seen, seen_exchanges
from serving import is_legal
from traces import entries_in


def read_trace(lines):
    """The calls of a trace by their threads: each call's number and fields, what came of it and when it was over; and the moments of the
    exchanges of registers by their threads."""
    calls, by_thread, exchanges, spaces, now = {}, defaultdict(list), defaultdict(list), {}, 0
    for kind, rest in entries_in(lines):
        if kind == "at":
            now = int(rest[0])
        elif kind == "exreg":
            exchanges[rest[0]].append(now)
        elif kind == "opened":
            spaces[rest[0]] = rest[1]
        elif kind == "broke":
            spaces.pop(rest[0], None)
        elif kind == "called":
            own, _, _, _, _, originator, *_ = fields = rest[1:]
            permitted = originator != "nil" and spaces.get(originator) == spaces[own]
            call = {"fields": fields, "shown": originator if permitted else own, "actual": own if permitted else None, "came": None}
            calls[rest[0]] = call
            call.update(number=int(rest[0]), over=now if fields[1] == fields[2] == "nil" else None)
            by_thread[own].append(call)
        elif kind == "failed":
            calls[rest[0]].update(came=("failed", int(rest[1], 16)), over=now)
        elif kind == "ended":
            calls[rest[1]].update(came=received_in(calls[rest[0]]), over=now)
            if calls[rest[0]]["fields"][2] == "nil":
                calls[rest[0]]["over"] = now
        elif kind in ("overflowed", "aborted"):
            code = (4 if kind == "overflowed" else 7) << 1 | int(rest[2]) << 4
            calls[rest[0]].update(came=("failed", code), over=now)
            calls[rest[1]].update(came=("failed", code | 1), over=now)
    return by_thread, exchanges


def received_in(call):
    _, _, _, _, tag, _, untyped, texts, _ = call["fields"]
    return (
        "received", call["shown"], call["actual"], int(tag, 16) >> 16, tuple(int(it, 16) for it in untyped.split(",")) if untyped != "-" else (),
        tuple(bytes.fromhex(it[1:]) for it in texts.split(",")) if texts != "-" else (),
    )


def trace(server, l4sh):
    """The trace is legal, and has each call that this process made, with what came of it."""
    by_thread, exchanges = read_trace(server.entries())
    check("l4sh check", *is_legal(l4sh, server.trace))
    size = os.path.getsize(server.trace)
    count = of_version_2 = 0
    for own, moments in seen_exchanges.items():
        check(f"the exchanges of {own}", len(moments) == len(exchanges[own]) and all(a in (None, b) for a, b in zip(moments, exchanges[own])),
              f"{moments[:9]} and not {exchanges[own][:9]}")
    for own, said in seen.items():
        # (version 1 tells neither number nor moment)
        wanted = [(" ".join(call["fields"]), call["came"], (call["number"], call["over"])) for call in by_thread[own]]
        wanted = [(line, came, times if one[2] else None) for (line, came, times), one in zip(wanted, said)] + wanted[len(said):]
        count += len(said)
        of_version_2 += sum(one[2] is not None for one in said)
        check(f"the calls of {own}", said == wanted, next((f"call {place}: {a} and not {b}" for place, (a, b) in enumerate(zip(said, wanted)) if a != b),
                                                            f"{len(said)} and not {len(wanted)} calls"))
    check("calls were compared", count > 1000 and of_version_2 > 100, f"{count}, {of_version_2} of version 2")
    print(f"trace: {size} bytes; {count} calls of {len(seen)} threads are in it as they were seen, {of_version_2} with their moments", flush=True)
