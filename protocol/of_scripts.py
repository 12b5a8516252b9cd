"""Stored scripts that the texts decide: what `l4sh explain` is asked, and says, of the codes of a family; and what has as many bytes as a limit lets it have, or more."""

import re

# The scripts that ask for all codes of a family.
FAMILIES = {"refusals": "K", "faults_of_frames": "F", "ends_of_sessions": "S", "faults_of_traces": "TR"}
FOLDER = "checks/scripts/explain"
# What is said of a word that is no code ends with the families.
OF_FAMILIES = [f"{FOLDER}/mistake_words_of_no_meaning.end"]


def whole():
    """The files that are made whole, each with a function that makes it."""
    files = {}
    for name, letters in FAMILIES.items():
        files[f"{FOLDER}/{name}.in"] = lambda protocol, letters=letters: lines(it.spelled for it in protocol.codes[letters])
        files[f"{FOLDER}/{name}.out"] = lambda protocol, letters=letters: lines(explained(it) for it in protocol.codes[letters])
    return {**files, **{f"checks/scripts/{name}": made for name, made in LONG.items()}}


def explained(code):
    """What is said of a code."""
    return f"{code.spelled}: {code.means}\nwhat helps: {code.helps}"


def overlapping(count, apart=0):
    """What `l4sh wire` is fed: a message of so many strings, of which each is the whole payload, and 16 have as many bytes as a message may have. The last
    bytes may come apart."""
    def script(protocol):
        frame, size = protocol.frames["IPC"], protocol.limits["string_bytes"].value // 16
        told = {"to": 1 << 32 | 1, "tag": 2 * count << 6}
        head = "".join(f"{told.get(it.name, 0):0{2 * it.width}x}" for it in frame.fields)
        items = f"{1024 * size:016x}{0:016x}" * count
        whole = f"{frame.body + 16 * count + size:08x}{frame.kind:02x}{head}{items}{{77*{size - apart}}}"
        return lines(["connect 1", "feed 1 00000003010002", f"feed 1 {whole}", *([f"feed 1 {'77' * apart}"] if apart else [])])
    return script


def longest(*texts):
    """Lines in which LONGEST stands for a string of as many bytes as a message may have."""
    return lambda protocol: lines(it.replace("LONGEST", f"x{{a5*{protocol.limits['string_bytes'].value}}}") for it in texts)


def too_long(times, end=""):
    """So many times the bytes of a line that is too long by one, and what stands behind them. A run repeats two digits, which are two bytes here."""
    return lambda protocol: f"{{61*{times * protocol.limits['whole_line_bytes'].value // 2}}}{end}"


# Each with a function that makes it.
LONG = {
    "wire/as_many_bytes_as_a_message_may_have.in": overlapping(16),
    "wire/more_bytes_than_a_message_may_have.in": overlapping(17, apart=1),
    "run/a_string_of_as_many_bytes_as_a_message_may_have.in": longest("open 1 1", "call 1.1 2.1 nil 0x0 0x80 nil - LONGEST -"),
    "run/a_string_of_as_many_bytes_as_a_message_may_have.out": longest(
        "opened 1.1 1", "= 1.1", "called 1 1.1 2.1 nil 0x0 0x80 nil - LONGEST -", "failed 1 0x4", "= 1"),
    "run/a_line_past_the_limit.in": too_long(1),
    "check/a_line_past_the_limit.in": too_long(2, "\n"),
    "check/a_long_line_without_its_newline_is_torn.in": too_long(2),
}


def lines(texts):
    return "".join(f"{it}\n" for it in texts)


def with_families(protocol, text):
    """A text in which each line of a family is as it should be."""
    for letters, family in protocol.codes.items():
        text = re.sub(rf"^  {letters}1 to {letters}\d+: .*$", f"  {letters}1 to {family[-1].spelled}: {protocol.about[letters]}", text, flags=re.M)
    return text
