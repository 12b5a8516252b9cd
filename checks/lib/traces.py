"""The lines of a trace, one after the other, for the checks."""

from protocol_tables import ENTRIES

# CALL stands for nine fields.
COUNTS = {word: sum(9 if field == "CALL" else 1 for field in fields) for word, fields in ENTRIES.items()}


def entries_in(lines):
    """The entries of a trace: the word and the fields of each. A line that is neither an entry nor the first line of version 2 is an error."""
    for number, line in enumerate(lines, 1):
        word, *fields = line.rstrip("\n").split(" ")
        if (number, word, fields) == (1, "l4trace", ["2"]):
            continue
        if COUNTS.get(word) != len(fields):
            raise ValueError(f"line {number} of a trace is no entry: {line[:200]}")
        yield word, fields
