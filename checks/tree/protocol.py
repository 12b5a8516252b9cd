#!/usr/bin/env python3
"""Looks whether the protocol is one: whether what is made from protocol/ is committed, and whether Rattle's sources say the same.

    checks/tree/protocol.py [ROOT]         of this tree, or of another one

- Each file and each table that protocol/generate.py makes is as it would make it now.
- Limits, kinds and fields of frames, numbers and names of codes, and the words and fields of entry lines are those of
  protocol/. Sources (.rt) and definitions (.antt) are read as text. Where a number or a text is no longer found in the
  form that this check knows, that is a fault, too.
- No source, definition or proof spells the number of such a limit as that of the bytes of strings: each has its name.
- No check and no bench in Python spells the kind of a frame that goes to a client: they have it from protocol_tables.py.

It prints what differs, and the status is 1 where something does. The last line is `N compared, M differ`.
"""

import glob
import os
import re
import sys

ROOT = os.path.abspath(sys.argv[1] if len(sys.argv) > 1 else os.path.join(os.path.dirname(os.path.abspath(__file__)), "../.."))
sys.path.insert(0, f"{ROOT}/protocol")

import generate
from model import load
from rattle_sources import Lost, Source, items
from reader import Bad

# Of some fields the name in ipc_frame.
IN_RATTLE = {"from_specifier": "from", "actual_sender": "actual", "thread": "id", "letter": "class"}
# Of item faults the name in ipc_items is another one.
OF_ITEMS = {"TooManyBytes": "TooLong"}
# The texts of limits in sources that no proof ties to them: the file, what stands there with (N) for the number, and the limit.
TOLD = [
    ("crates/ipc_items/src/item_fault.rt", "more than (N) string bytes", "string_bytes"),
    ("crates/ipc_items/specs/FaultText.antt", "more than (N) string bytes", "string_bytes"),
    ("crates/ipc_base/src/fault.rt", '"(N) interrupted turns in a row"', "interrupted_turns"),
    ("crates/ipc_base/specs/Faults.antt", '"(N) interrupted turns in a row"', "interrupted_turns"),
    ("crates/l4sh_options/src/run.rt", "The most entries that the history may hold, 0 to (N)", "entries"),
    ("crates/l4sh_options/src/run.rt", "The most calls that may be made, 0 to (N)", "calls"),
    ("crates/l4sh_options/src/talk.rt", "The space of that thread, 1 to (N)", "space"),
    ("crates/l4sh_options/src/server.rt", "How many spaces, 1 to (N)", "space"),
    ("crates/l4sh_options/src/server.rt", "How many connections each path takes, 1 to (N)", "connections"),
    ("crates/l4sh_options/src/server.rt", "How many connections there may be at one time, 1 to (N)", "connections"),
    ("crates/l4sh_options/src/default_texts.rt", 'MAX_ENTRIES_TEXT: &str = "(N)"', "entries"),
    ("crates/l4sh_options/src/default_texts.rt", 'MAX_CALLS_TEXT: &str = "(N)"', "calls"),
    ("crates/l4sh_options/src/default_texts.rt", 'MAX_CHART_ENTRY_TEXT: &str = "(N)"', "chart_entry"),
    ("crates/l4sh_options/src/default_texts.rt", 'MAX_CONNECTIONS_TEXT: &str = "(N)"', "connections"),
    ("crates/l4sh_explain/src/fields.rt", "const LABEL_BITS: u32 = (N);", "label_bits"),
    ("crates/l4sh_explain/src/fields.rt", "HEX of at most (N) bits", "label_bits"),
    ("crates/l4sh_explain/src/fields.rt", "a number of words from 0 to (N)", "message_words"),
    ("crates/l4sh_explain/src/fields.rt", "a number of strings from 0 to (N)", "strings"),
    ("crates/l4sh_explain/src/text.rt", '"at most (N) words"', "message_words"),
    ("crates/l4sh_explain/src/text.rt", '"at most (N) strings"', "strings"),
    ("crates/l4sh_explain/src/text.rt", "strings of at most (N) bytes together", "string_bytes"),
    ("crates/l4sh_explain/src/text.rt", "at most (N) substrings, of all buffers together", "substrings"),
    ("crates/ipc_host/src/obstacle.rt", "const MOST_BYTES: usize = (N);", "path_bytes"),
    ("crates/ipc_host/src/obstacle.rt", "a socket's path has at most (N) bytes", "path_bytes"),
    ("crates/ipc_host/src/address.rt", "const MOST_PATH: usize = (N);", "path_bytes"),
    ("crates/l4sh_options/specs/Command.antt", 'max_entries_text = codes "(N)"', "entries"),
    ("crates/l4sh_options/specs/Command.antt", 'max_calls_text = codes "(N)"', "calls"),
    ("crates/l4sh_options/specs/Command.antt", 'max_chart_entry_text = codes "(N)"', "chart_entry"),
    ("crates/l4sh_options/specs/Command.antt", 'max_connections_text = codes "(N)"', "connections"),
    ("crates/l4x/src/table.rt", "pub const MAX_NAMES: usize = (N);", "names"),
    ("crates/l4x/src/table.rt", "pub const MAX_NAME_BYTES: usize = (N);", "name_bytes"),
    ("crates/l4x/src/mistake.rt", "1 to (N) bytes of printable ASCII", "name_bytes"),
]
# The limits whose numbers stand nowhere else by chance: crates name them.
NAMED = ("string_bytes", "too_many_bytes", "entries", "too_many_entries", "line_bytes", "whole_line_bytes", "body_bytes", "too_long_body", "outputs",
         "command_entries")
# What has a size of its own, which may be the number of a limit.
OF_ITS_OWN = ["const STACK: usize = (N);", "const MIB: u64 = 1 << (N);", "const MOST_BYTES: usize = (N);", "length lines.items + given ≤ (N) }"]


class Book:
    """What was compared, and what differs."""

    def __init__(self, protocol):
        self.protocol, self.compared, self.faults = protocol, 0, []

    def source(self, path):
        return Source(ROOT, path)

    def same(self, where, what, seen, wanted):
        self.compared += 1
        if seen != wanted:
            if isinstance(seen, dict) and isinstance(wanted, dict):
                keys = [it for it in {**wanted, **seen} if seen.get(it) != wanted.get(it)]
                seen, wanted = {it: seen.get(it) for it in keys}, {it: wanted.get(it) for it in keys}
            self.faults.append(f"{where}: {what} is {seen}, and in protocol/ {wanted}")


def made(book):
    """What the generator makes is committed."""
    for path, text in generate.outputs(ROOT).items():
        book.compared += 1
        if generate.committed(path, ROOT) != text:
            book.faults.append(f"{path}: it is not as protocol/generate.py makes it; run that, and commit what it writes")


def limits(book):
    source, spec = book.source("crates/ipc_words/src/limits.rt"), book.source("crates/ipc_words/specs/Limits.antt")
    of_words = [it for it in book.protocol.limits.values() if it.rattle]
    book.same(source.path, "its limits", source.constants(), {it.rattle[0]: it.value for it in of_words})
    defined = {name: spec.numbers(name)[""] for name in spec.all(r"^abbrev pub (\w+) : ℕ$", "a limit")}
    book.same(spec.path, "its limits", defined, {it.rattle[1]: it.value for it in of_words})
    by_name = {it.name: it.value for it in book.protocol.limits.values()}
    book.same("protocol/limits.txt", "a line with its newline", by_name["whole_line_bytes"], by_name["line_bytes"] + 1)
    for more, what, most in (("too_long_body", "a body that is too long", "body_bytes"), ("too_many_bytes", "strings that are too long", "string_bytes"),
                             ("too_many_entries", "too many entries", "entries")):
        book.same("protocol/limits.txt", what, by_name[more], by_name[most] + 1)
    # a version has 32 bits, of which the low six are not all zero
    book.same("protocol/limits.txt", "the versions of a number", by_name["versions"], 2**32 - 2**26)
    for path, text, name in TOLD:
        book.same(path, text, book.source(path).number(told_pattern(text), text), by_name[name])


def told_pattern(text):
    return re.escape(text).replace(r"\(N\)", r"([\d_,]+\d|\d)")


def numbers_in(text):
    """Each number of a text, in digits or as a power of two."""
    found = re.findall(r"(?<!\w)(?<!\d\.)(?:(2) ?\^ ?|(1) << ?|)(\d[\d_,]*\d|\d)(?!\w)", text)
    return [1 << int(digits) if two or one else int(re.sub("[_,]", "", digits)) for two, one, digits in found if digits.isdigit() or not (two or one)]


def named(book):
    """No source, no definition, no proof and no edit of a crate spells the number of such a limit, but where it is defined, where `limits` compares it, and in
    what the generator makes."""
    by_name = {it.name: it.value for it in book.protocol.limits.values()}
    numbers = {by_name[it] for it in NAMED}
    for path in sorted(os.path.relpath(it, ROOT) for kind in ("rt", "antt", "edit") for it in glob.glob(f"{ROOT}/crates/*/*/**/*.{kind}", recursive=True)):
        if "/out/" in path or path in ("crates/ipc_words/src/limits.rt", "crates/ipc_words/specs/Limits.antt") or path in generate.WHOLE:
            continue
        text = book.source(path).text
        for told in [*OF_ITS_OWN, *(it for place, it, _ in TOLD if place == path)]:
            text = re.sub(told_pattern(told), "", text)
        book.same(path, "what it spells of limits that have a name in ipc_words", sorted(numbers & set(numbers_in(text))), [])


def fields_named(frame):
    return [IN_RATTLE.get(it.name, it.name) for it in frame.fields]


def of_outcomes(book):
    """The names of the versions in ipc_frame, each with the frame that it has for an outcome."""
    return dict(zip(book.protocol.versions.values(), book.protocol.forms("IPCR")))


def others(book):
    """The frames that are no outcomes, by their names in ipc_frame."""
    return {it.rattle: it for it in book.protocol.frames.values() if it not in of_outcomes(book).values()}


def outcome_definitions(book):
    """What the versions of an outcome tell, in the definitions of ipc_frame and in its code."""
    spec, source = book.source("crates/ipc_frame/specs/Versions.antt"), book.source("crates/ipc_frame/src/version.rt")
    outcomes, numbers = of_outcomes(book), {name: it for it, name in book.protocol.versions.items()}
    book.same(spec.path, "versions", spec.lists("versions")[""], list(numbers))
    for name, wanted in (("version_number", numbers), ("ipcr_byte", {name: it.kind for name, it in outcomes.items()}),
                         ("end_count", {name: len(it.told) for name, it in outcomes.items()})):
        book.same(spec.path, name, spec.numbers(name), wanted)
        book.same(source.path, name, source.numbered({"version_number": "number"}.get(name, name)), wanted)
    told = {tuple(re.findall(r"\bend\.(\w+)", value)) for _, value in spec.equations("end_words")}
    book.same(spec.path, "end_words", told, {(), tuple(field.name for field in book.protocol.forms("IPCR")[-1].told)})
    named = {name: int(number) for number, name in re.findall(r"(\d+) => Some\(WireVersion::(\w+)\)", source.body("named"))}
    book.same(source.path, "named", named, {name: it for name, it in numbers.items() if it > 1})
    for it in outcomes.values():
        book.same("protocol/frames.txt", f"the name of {it.name} in ipc_frame", it.rattle, f"Ipcr {book.protocol.versions[it.version]}")
    first, frames = book.protocol.frames["IPCR"], book.source("crates/ipc_frame/specs/Frames.antt")
    book.same(frames.path, "outcome_widths", frames.lists("outcome_widths")[""], [str(field.width) for field in first.fields])
    kind = book.source("crates/ipc_frame/src/kind.rt")
    for path, what, seen, wanted in (
        (frames.path, "the kind byte of an IPCR", dict(frames.equations("kind_byte"))["(Ipcr version)"], "ipcr_byte version"),
        (frames.path, "its widths", dict(frames.equations("widths"))["(Ipcr version)"], "end_widths version ++ outcome_widths"),
        (kind.path, "byte", kind.arms("byte")["Ipcr"], "version.ipcr_byte()"),
        (kind.path, "is_wrong_size", kind.arms("is_wrong_size")["Ipcr"], f"size < {first.body} + 8 * version.end_count()"),
        (kind.path, "head", kind.arms("head")["Ipcr"], f"{first.size} + 8 * version.end_count()"),
    ):
        book.same(path, what, seen, wanted)
    read = {name: int(byte, 16) for byte, name in re.findall(r"(0x[0-9a-f]+) => Some\(FrameKind::Ipcr\(WireVersion::(\w+)\)\)", kind.body("from_byte"))}
    book.same(kind.path, "the outcomes of from_byte", read, {name: it.kind for name, it in outcomes.items()})


def frame_definitions(book):
    """Kinds, sides, fields and lengths in the definitions of ipc_frame."""
    spec, reading = book.source("crates/ipc_frame/specs/Frames.antt"), book.source("crates/ipc_frame/specs/Reading.antt")
    frames, first = others(book), book.protocol.frames["IPCR"]
    of_frames = lambda value: {name: value(it) for name, it in frames.items()}
    told = lambda name: {kind: value for kind, value in spec.equations(name) if kind != "(Ipcr version)"}
    book.same(spec.path, "kind_byte", {kind: int(value, 16) for kind, value in told("kind_byte").items()}, of_frames(lambda it: it.kind))
    book.same(spec.path, "side_of", told("side_of"), of_frames(lambda it: it.to.capitalize()))
    book.same(spec.path, "widths", {kind: items(value) for kind, value in told("widths").items()}, of_frames(lambda it: [str(field.width) for field in it.fields]))
    for side, kinds in spec.lists("kinds").items():
        wanted = {it.kind for it in frames.values() if it.to == side.lower()}
        book.same(spec.path, f"the kinds that a {side} reads", {frames[it].kind for it in kinds if it in frames}, wanted)
        book.same(spec.path, f"whether a {side} reads outcomes", kinds[-1] == "map Ipcr versions", first.to == side.lower())
    by_length = {(it.kind, it.body) for it in frames.values() if it.base and it.base.kind == it.kind}
    kind, length, other = reading.one(r"^kind_with (\w+) size = \(if size == (\d+) then (\w+) else \1\)$", "kind_with")
    book.same(reading.path, "the kind that a length decides", {(frames[other].kind, int(length))}, by_length)
    least = dict(reading.equations("least_size"))
    book.same(reading.path, "least_size of an IPCR", least.pop("(Ipcr version)"), f"{first.body} + 8 * end_count version")
    book.same(reading.path, "least_size", {kind: int(value) for kind, value in least.items()}, of_frames(lambda it: it.body))
    longer = {name for name, value in reading.equations("is_longer") if value == "true"}
    book.same(reading.path, "is_longer", longer, {"(Ipcr version)", *(name for name, it in frames.items() if it.has_tail)})
    tags = dict(reading.all(r"^has_too_many_words (\w+|\(.*?\)) fields =\s+nat_lt max_message_words \(words_of \(slice_index fields (\d+|\(.*?\))\)\)", "tags"))
    place = lambda it, name: [field.name for field in it.fields].index(name)
    behind = {name: str(place(it, "tag")) for name, it in frames.items() if it.has_tail}
    book.same(reading.path, "the places of tags", tags, {**behind, "(Ipcr version)": "(end_count version)"})
    book.same("protocol/frames.txt", "the place of the tag of an IPCR", place(first, "tag"), 0)
    book.same(reading.path, "the place of b", reading.number(r"nat_lt max_buffer_words \(slice_index fields (\d+)\)", "b"), place(frames["Ipc"], "buffer_words"))
    parts = book.source("crates/ipc_frame/specs/Parts.antt")
    piece = parts.one(r"^piece_text piece = number_text (\d+) piece\.(\w+) \+\+ number_text (\d+) \((\w+) piece\.bytes\)", "piece_text")
    book.same(parts.path, "a piece", piece, tuple(str(it) for field in book.protocol.piece.fields for it in (field.width, field.name)))
    for name, least in (("ipc_size ipc", frames["Ipc"].body), ("ipcr_size ipcr", first.body)):
        book.same(parts.path, name, parts.number(rf"^{name} = (\d+) \+", name), least)


def field_names(book):
    """The fields of each frame by name and order; what a later version tells stands in a function of its own."""
    spec = book.source("crates/ipc_frame/specs/Frames.antt")
    frames = others(book)
    told = {arguments.strip("()").split()[0].removeprefix("frame."): value for arguments, value in spec.equations("fields_of")}
    before = {name: dict(spec.equations(name)) for name in ("version_fields", "moment_fields")}
    plain = lambda value: [re.sub(r"^\(*(?:length )?(?:\w+\.)?(\w+)\)*$", r"\1", it.strip("() ")) for it in value.split("∷") if it.strip("() ") != "[]"]
    for name in ("Ipc", "Exreg", "Bye", "Welcome", "Refused", "Fault"):
        book.same(spec.path, f"the fields of {name}", plain(told[name]), fields_named(frames[name]))
    own = plain(told["Ipcr"].removeprefix("end_words ipcr.end ++ "))
    book.same(spec.path, "the fields of an outcome", own, fields_named(book.protocol.frames["IPCR"]))
    own = plain(re.sub(r"^moment_fields moment ", "", told["Exregr"]))
    book.same(spec.path, "the fields of Exregr", own, fields_named(frames["Exregr"]))
    book.same(spec.path, "the fields of ExregrTwo", plain(before["moment_fields"]["(Some moment) fields"])[:1] + own, fields_named(frames["ExregrTwo"]))
    book.same(spec.path, "the fields of Hello", plain(told["Hello"])[:1], fields_named(frames["Hello"]))
    version = re.search(r"then (\w+)_number version", before["version_fields"]["version"])[1]
    book.same(spec.path, "the fields of HelloTwo", plain(told["Hello"])[:1] + [version], fields_named(frames["HelloTwo"]))


def frame_sources(book):
    """The same in the code of ipc_frame and ipc_connection."""
    source = book.source("crates/ipc_frame/src/kind.rt")
    frames = others(book)
    of_frames = lambda value: {name: value(it) for name, it in frames.items()}
    book.same(source.path, "byte", source.numbered("byte"), of_frames(lambda it: it.kind))
    book.same(source.path, "is_wrong_size", source.numbered("is_wrong_size"), of_frames(lambda it: it.body))
    book.same(source.path, "head", source.numbered("head"), of_frames(lambda it: it.size))
    read = {name: int(byte, 16) for byte, name in re.findall(r"(0x[0-9a-f]+) => Some\(FrameKind::(\w+)\),", source.body("from_byte"))}
    book.same(source.path, "from_byte", read, {name: it.kind for name, it in frames.items() if not (it.base and it.base.kind == it.kind)})
    judging = book.source("crates/ipc_frame/src/judging.rt")
    offset = lambda name: sum(it.width for it in frames["Ipc"].fields[: [it.name for it in frames["Ipc"].fields].index(name)])
    book.same(judging.path, "where the tag of an IPC stands", judging.number(r"read_u64\(&head\[(\d+)\.\.\]\)", "the tag"), offset("tag"))
    book.same(judging.path, "where b of an IPC stands", judging.number(r"head\[(\d+)\] as usize", "b"), offset("buffer_words"))
    book.same(judging.path, "how far the tag of an IPCR stands before its words", judging.number(r"kind\.head\(\) - (\d+)\.\.", "the tag"), book.protocol.frames["IPCR"].size)
    classes = book.source("crates/ipc_connection/src/fault.rt")
    of_faults = book.source("crates/ipc_connection/specs/Faults.antt")
    for letter, (byte, (constant, definition)) in book.protocol.classes.items():
        book.same(classes.path, constant, classes.one(rf"^pub const {constant}: u8 = b'(\w)';$", constant), letter)
        book.same(of_faults.path, definition, of_faults.numbers(definition)[""], byte)
    book.same(classes.path, "S1", classes.number(r"^pub const OUT_OF_PLACE: u8 = (\d+);$", "S1"), 1)
    book.same(of_faults.path, "S1", of_faults.numbers("out_of_place")[""], 1)


def codes(book):
    """Numbers and names of codes, in the crates that have them."""
    family = lambda letters: {it.name: it.number for it in book.protocol.codes[letters] if it.name}
    for letters, crate, spec, function, name in (("K", "ipc_core", "RefusalNumbers", "refusal_number", "refusal"), ("F", "ipc_frame", "FaultNumber", "fault_number", "fault")):
        definition, source = book.source(f"crates/{crate}/specs/{spec}.antt"), book.source(f"crates/{crate}/src/{name}.rt")
        book.same(definition.path, function, definition.numbers(function), family(letters))
        book.same(source.path, "number", source.numbered("number"), family(letters))
        book.same(source.path, "its comments", {variant: it for it, variant in source.documented(letters).items()}, family(letters))
    last = len(book.protocol.codes["K"])
    refusal = book.source("crates/ipc_core/src/refusal.rt")
    book.same(refusal.path, "LAST_REFUSAL", refusal.number(r"^pub const LAST_REFUSAL: u8 = (\d+);$", "LAST_REFUSAL"), last)
    items = book.source("crates/ipc_items/specs/FaultNumber.antt")
    of_items = items.numbers("number_of")
    faults = {OF_ITEMS.get(name, name): it for name, it in family("F").items()}
    book.same(items.path, "number_of", of_items, {name: faults.get(name) for name in of_items})
    traces = book.source("crates/ipc_trace/specs/Faults.antt")
    for function, prefix in (("put_number", "put."), ("end_number", "end.")):
        told = {re.sub(rf"^\(?{re.escape(prefix)}(\w+).*$", r"\1", name): value for name, value in traces.equations(function) if value != "None"}
        seen = {name: int(value.removeprefix("Some ")) for name, value in told.items()}
        book.same(traces.path, function, seen, {name: family("TR").get(name) for name in seen})
    ending = book.source("crates/ipc_session/src/ending.rt")
    seen = {int(it): name for it, name in re.findall(r"/// S(\d+): [^\n]*\n +(\w+),", ending.text.split("pub enum WriteEnding")[0])}
    book.same(ending.path, "its comments", seen, {it.number: it.name for it in book.protocol.codes["S"] if it.name})
    errors = book.source("crates/ipc_words/specs/IpcError.antt")
    book.same(errors.path, "code_of_kind", errors.numbers("code_of_kind"), {it.name: it.number for it in book.protocol.errors})


def lines(book):
    """The words of entries and their fields."""
    entries = {it.name: it for it in book.protocol.entries}
    words = {it.name: it.word for it in entries.values()}
    names, source = book.source("crates/ipc_lines/specs/Names.antt"), book.source("crates/ipc_lines/src/reading/names.rt")
    book.same(names.path, "entry_name", names.texts("entry_name"), words)
    in_code = lambda it: {name: value[2:-1] for name, value in it.arms("text_of").items()}
    book.same(source.path, "text_of", in_code(source), words)
    nine = 9
    source = book.source("crates/ipc_lines/src/reading.rt")
    book.same(source.path, "MAX_FIELDS", source.number(r"^const MAX_FIELDS: usize = (\d+);$", "MAX_FIELDS"), nine + len(entries["Called"].fields))
    spec = book.source("crates/ipc_lines/specs/Lines.antt")
    spelled = {}
    for arguments, value in spec.equations("entry_fields"):
        word, *fields = [it.strip() for it in re.sub(r"∷ \[\]$", "", value).split("∷")]
        kinds = [re.sub(r"_(?:text|fields)$", "", it.split()[0]) for it in fields if it]
        spelled[re.search(r"\((\w+) [^()]*\)\)$", arguments)[1]] = (word.removeprefix("codes ").strip('"'), kinds)
    book.same(spec.path, "entry_fields", spelled, {name: (it.word, [field[1] for field in it.fields]) for name, it in entries.items()})
    inputs = {name: arguments.startswith("(Given") for arguments, _ in spec.equations("entry_fields") for name in entries if f"({name} " in arguments}
    book.same(spec.path, "which entries are inputs", inputs, {name: it.is_input for name, it in entries.items()})
    reasons, grammars = book.source("crates/l4sh_explain/src/grammars.rt"), book.source("crates/l4sh_explain/specs/Grammars.antt")
    for told, path in ((in_code(reasons), reasons.path), (grammars.texts("name_text"), grammars.path)):
        book.same(path, "the words of entries", {name: told.get(name) for name in words}, words)
    of_lines = {arguments.split()[1]: value for arguments, value in grammars.equations("fields_of")}
    own = {name: re.sub(r"control_field grammar", "field.MaskedControl", of_lines.get(name, "")) for name in entries}
    seen = {name: re.findall(r"field\.(\w+)|(call_fields)", value) for name, value in own.items()}
    seen = {name: [one or other for one, other in it] for name, it in seen.items()}
    wanted = {name: [field[2] if len(field) == 3 else "call_fields" for field in it.fields] for name, it in entries.items()}
    book.same(grammars.path, "fields_of", seen, wanted)
    book.same(grammars.path, "the fields of CALL", len(grammars.lists("call_fields")[""]), nine)


def kinds_by_hand(book):
    """No check and no bench in Python spells the kind of an answer."""
    kinds = "|".join(sorted({f"{it.kind:x}" for it in book.protocol.frames.values() if it.to == "client"}))
    by_hand = re.compile(rf"(?i)\b0x(?:{kinds})\b|\\x(?:{kinds})")
    files = [it for it in glob.glob(f"{ROOT}/checks/**/*.py", recursive=True) + glob.glob(f"{ROOT}/bench/*") if os.path.isfile(it)]
    for path in sorted(os.path.relpath(it, ROOT) for it in files):
        text = book.source(path).text
        if path != "checks/lib/protocol_tables.py" and (path.endswith(".py") or text.startswith("#!/usr/bin/env python3")):
            book.same(path, "the kinds of frames that it spells by hand", by_hand.findall(text), [])


def main():
    book = Book(None)
    try:
        book.protocol = load()
    except Bad as wrong:
        sys.exit(f"{wrong}\n0 compared, 1 differ")
    for look in (made, limits, named, outcome_definitions, frame_definitions, field_names, frame_sources, codes, lines, kinds_by_hand):
        try:
            look(book)
        except (Lost, Bad, ValueError, KeyError, AttributeError, TypeError, IndexError) as wrong:
            book.faults.append(f"{look.__name__}: {type(wrong).__name__}: {wrong}")
    for fault in book.faults:
        print(fault)
    print(f"{book.compared} compared, {len(book.faults)} differ")
    return 1 if book.faults or not book.compared else 0


if __name__ == "__main__":
    sys.exit(main())
