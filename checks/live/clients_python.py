#!/usr/bin/env python3
"""clients_python.py [L4D [L4SH [L4X]]]: runs the Python client against a live l4d, and compares what it saw with the server's trace.

It runs the client's own tests, installs the package into a folder, and then, with servers of its own: each example of
clients/python/examples, each refusal and fault that a client can meet, each error of each phase, strings, propagation, and names over the
restart of a server and of the name server. Each call of a thread in this process is written down with its outcome. At the end `l4sh check`
judges the trace, and each call and each outcome is looked for in it. Threads of odd numbers speak version 2 of the wire, the others version 1:
what version 2 tells of each call, its number and the moment at which it was over, is what the trace says.

Its last line is `N checked, M failed`; the status is 0 where M is 0. K3, K4, K6 and K8 are not reached: they need 2^32 connections, want of memory, a
thread that asks after its end, and 2^32 calls.
"""

import os
import sys

sys.path[1:1] = [f"{sys.path[0]}/../lib", f"{sys.path[0]}/../../clients/python/src"]

from python_client.calls import ended_threads, errors, faults, forked, long_life, propagation, refusals, spaces, strings, versions
from python_client.naming import answered_answers, bad_names, busy_names, chosen_names, full_names, name_server_restarts, names_over_restarts, propagated_names, server_restarts, stopped_names
from python_client.package import examples, first_program, installed, name_server, own_tests, types
from python_client.relayed import documented_frames
from python_client.seeing import Server, servers, tally
from python_client.tracing import trace


def run(l4d, l4sh, l4x):
    own_tests()
    types()
    installed()
    first_program(l4d)
    server = Server(l4d, spaces=2)
    process = name_server(server, l4x, 1)
    examples(server)
    refusals(server)
    spaces(server)
    ended_threads(server)
    forked(server)
    faults(server)
    versions(server)
    errors(server)
    strings(server)
    propagation(server)
    server_restarts(server)
    bad_names(server)
    propagated_names(server)
    busy_names(server)
    full_names(server)
    name_server_restarts(server, l4x, process)
    trace(server, l4sh)
    server.stop()
    stopped_names(l4d, l4x)
    answered_answers(l4d, l4x)
    chosen_names(l4d, l4x)
    names_over_restarts(l4d, l4x)
    documented_frames(l4d, l4x)
    long_life(l4d)


def main(l4d="./l4d", l4sh="./l4sh", l4x="./l4x"):
    l4d, l4sh, l4x = (os.path.abspath(it) for it in (l4d, l4sh, l4x))
    try:
        run(l4d, l4sh, l4x)
    finally:
        for server in list(servers):
            server.stop()
    return tally.end()


if __name__ == "__main__":
    if len(sys.argv) > 4 or sys.argv[1:2] in (["-h"], ["--help"]):
        sys.exit(__doc__)
    sys.exit(main(*sys.argv[1:]))
