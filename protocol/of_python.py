"""What Python programs have of the protocol: a module of the client, and one of the checks and benches."""

from of_c import kinds_of, upper

MADE = '"""{} Made by protocol/generate.py: not edited by hand."""'


def number(value):
    return f"{value:_}" if value < 1 << 48 else f"{value:#_x}"


def quoted(text):
    return '"' + text.replace("\\", "\\\\").replace('"', '\\"') + '"'


def table(name, rows, kind=""):
    """A dict, one row a line."""
    return "\n".join([f"{name}{f': {kind}' if kind else ''} = {{", *(f"    {key}: {value}," for key, value in rows), "}"])


def formats(protocol):
    """The fields of each frame as the module struct spells them."""
    return [f'{it.name}_FIELDS = "{it.format}"' for it in [*protocol.frames.values(), protocol.piece] if it.fields]


def kinds(protocol):
    return [f"{name} = {kind}" for name, kind in kinds_of(protocol)]


def of_other_versions(protocol):
    """Of each version the kinds of answers that it does not have."""
    answers = [it for it in protocol.frames.values() if it.to == "client"]
    replaced = {it.base.name for it in answers if it.base}
    for version in protocol.versions:
        newest = {}
        for it in answers:
            base = it.base.name if it.base else it.name
            if it.version <= version and (base in replaced or it.base):
                newest[base] = it.name
        kept = set(newest.values())
        others = [it.name for it in answers if (it.base or it.name in replaced) and it.name not in kept]
        yield version, f"({', '.join(others)}{',' if len(others) == 1 else ''})"


def told(protocol):
    """What later versions tell of an Ipc: a class with a number for each."""
    rows = [f"    {it.name}: Optional[int] = None" for it in protocol.forms("IPCR")[-1].told]
    return "\n".join(["class Told(NamedTuple):", '    """What a later version tells of an Ipc, as docs/FORMATS.md has it; ``None`` is what was not told."""', "", *rows, "", "",
                      "NOTHING_TOLD = Told()"])


def client(protocol):
    """clients/python/src/l4ipc/protocol.py."""
    answers = [it for it in protocol.frames.values() if it.to == "client"]
    versions = ", ".join(map(str, protocol.versions))
    limits = [f"MAX_{it.name.upper()} = {number(it.value)}" for it in protocol.limits.values() if it.is_for_clients]
    short = [(it.number, quoted(it.texts["short"])) for it in protocol.codes["N"] if "short" in it.texts]
    return "\n".join([
        MADE.format("The numbers of the protocol, as docs/FORMATS.md has them."), "",
        "from typing import Dict, NamedTuple, Optional, Tuple", "",
        *limits, "",
        f"VERSIONS = ({versions})", "",
        *kinds(protocol), "",
        "# The body length of a request, of IPC the least one.",
        *(f"{it.name}_BODY = {it.body}" for it in protocol.frames.values() if it.to == "server"), "",
        "# The fields behind the kind, as struct spells them; all numbers have the most significant byte first.",
        *formats(protocol), "",
        "# Of each kind of an outcome its fields: what its version tells, and the tag, the sender, the ActualSender and the ErrorCode.",
        table("OUTCOMES", {it.name: f"{it.name}_FIELDS" for it in protocol.forms("IPCR")}.items(), "Dict[int, str]"), "", "",
        told(protocol), "",
        "# The body length of an answer; of one that can grow the least one.",
        table("LENGTHS", [(it.name, it.body) for it in answers if not it.has_tail], "Dict[int, int]"),
        table("LEAST_LENGTHS", [(it.name, it.body) for it in answers if it.has_tail], "Dict[int, int]"), "",
        "# Of each version the kinds that only another one has.",
        table("OF_ANOTHER_VERSION", of_other_versions(protocol), "Dict[int, Tuple[int, ...]]"), "",
        "# The classes of codes that a FAULT tells.",
        f"CLASSES = ({', '.join(f'{byte:#04x}' for byte, _ in protocol.classes.values())})", "",
        *(f"{letters}_{upper(it.name)} = {it.number}" for letters in "KF" for it in protocol.codes[letters]), "",
        "# What each code means.",
        table("REFUSALS", [(it.number, quoted(it.client)) for it in protocol.codes["K"]], "Dict[int, str]"),
        table("FAULTS", [(it.number, quoted(it.client)) for it in protocol.codes["F"]], "Dict[int, str]"),
        table("SESSION_ENDS", [(it.number, quoted(it.client)) for it in protocol.codes["S"]], "Dict[int, str]"),
        table("NAME_ERRORS", short, "Dict[int, str]"), "",
        "# What went wrong in a phase: e of an ErrorCode.",
        *(f"E_{upper(it.name)} = {it.number}" for it in protocol.errors),
        table("ERRORS", [(it.number, quoted(it.means)) for it in protocol.errors], "Dict[int, str]"), ""])


def checks(protocol):
    """checks/lib/protocol_tables.py."""
    frames = [(quoted(it.name), f"Frame({it.kind:#04x}, \"{it.to}\", {it.version}, \"{it.format}\", "
               f"({', '.join(quoted(field.name) for field in it.fields)}{',' if len(it.fields) == 1 else ''}), {it.body}, {it.has_tail})")
              for it in protocol.frames.values()]
    entries = [(quoted(it.word), f"({', '.join(quoted(text) for text, *_ in it.fields)},)") for it in protocol.entries]
    codes = [(quoted(letters), "{" + ", ".join(f"{it.number}: {quoted(it.name)}" for it in family) + "}") for letters, family in protocol.codes.items()]
    meanings = [(quoted(it.spelled), quoted(it.client)) for letters in "KFSCN" for it in protocol.codes[letters]]
    return "\n".join([
        MADE.format("The numbers of the protocol, for the checks and benches."), "",
        "from collections import namedtuple", "",
        "# A kind of frame: its byte, who reads it, its version, its fields as struct spells them and by name, its body length, of one with a tail the least.",
        'Frame = namedtuple("Frame", "kind to version format names body has_tail")', "",
        table("FRAMES", frames), "",
        *kinds(protocol), f'PIECE_FIELDS = "{protocol.piece.format}"', f"VERSIONS = ({', '.join(map(str, protocol.versions))},)", "",
        "# The limits.",
        *(f"MAX_{it.name.upper()} = {number(it.value)}" for it in protocol.limits.values()), "",
        "# The codes by the letters of their family, and what the clients say of each.",
        *(f"{letters}_{upper(it.name)} = {it.number}" for letters in "KFSCN" for it in protocol.codes[letters] if it.name),
        table("CODES", codes), table("MEANINGS", meanings), "",
        "# What went wrong in a phase: e of an ErrorCode.",
        table("ERRORS", [(it.number, quoted(it.means)) for it in protocol.errors]), "",
        "# The entries of a trace by their words, with the fields behind them.",
        table("ENTRIES", entries), ""])
