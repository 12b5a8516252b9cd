#!/usr/bin/env python3
"""What a sysadmin meets who runs l4d: limits, strangers, paths, signals, a trace.

checks/live/operating.py PROGRAM         runs PROGRAM (l4d) in folders of its own

Each case says what it typed and what came. The last line is `operating: N passed, M failed`; the exit status is 1 where one failed.
"""

import sys

sys.path.insert(1, f"{sys.path[0]}/../lib")

from counting import told_looks
from server_cases.ending import limited_file, paths_of_others, signals, terminal, unread_pipe
from server_cases.rooms import closed_path, few_connections, few_tasks, full, kept_open, little_memory, no_descriptor, strangers, too_few_tasks
from server_cases.starting import denied, guarded, output, paths, probe, ready, starts, words
from server_cases.telling import log, slow_trace, stopped_log, traces

CASES = [words, output, paths, starts, denied, guarded, probe, traces, slow_trace, log, stopped_log, signals, paths_of_others, terminal, unread_pipe, limited_file, ready, full, few_connections, closed_path, kept_open, no_descriptor, too_few_tasks, few_tasks, little_memory, strangers]


def main():
    return told_looks("operating", ((case.__name__.replace("_", " "), case) for case in CASES))


if __name__ == "__main__":
    sys.exit(main())
