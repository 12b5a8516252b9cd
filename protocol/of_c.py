"""What the C client has of the protocol: two headers beside its sources."""

import re

MADE = "/* Made by protocol/generate.py from the texts beside it: not edited by hand. */"
TYPES = {1: ("uint8_t", "byte"), 2: ("uint16_t", "two"), 4: ("uint32_t", "half"), 8: ("L4_Word_t", "word")}
WIDEST = 1 << 31


def upper(name):
    """BadNumber as BAD_NUMBER."""
    return re.sub(r"(?<=[a-z0-9])(?=[A-Z])", "_", name).upper()


def enum(what, rows, name=""):
    """An enum with a comment above it."""
    lines = [f"/* {what} */", f"enum {name} {{" if name else "enum {"]
    return "\n".join([*lines, *(f"\t{key} = {value}," for key, value in rows), "};"])


def kinds_of(protocol):
    """The kinds, each once: HELLO has one in both versions."""
    kinds = {}
    for frame in protocol.frames.values():
        kinds.setdefault((frame.kind, frame.to), frame.name)
    return [(name, f"{kind:#04x}") for (kind, _), name in kinds.items()]


def members(frame):
    lines = [f"\t{TYPES[it.width][0]} {it.name};" for it in frame.own]
    return lines + ([f"\tstruct {frame.then.name.lower()}_fields {frame.then.name.lower()};"] if frame.then else [])


def getter(frame):
    """A function that reads the fields of a frame; it answers the byte behind them."""
    name = frame.name.lower()
    lines = [f"static inline const unsigned char *get_{name}(const unsigned char *at, struct {name}_fields *fields)", "{"]
    for it in frame.own:
        lines += [f"\tfields->{it.name} = get_{TYPES[it.width][1]}(at);", f"\tat += {it.width};"]
    inner = frame.then.name.lower() if frame.then else ""
    return [*lines, f"\treturn get_{inner}(at, &fields->{inner});" if inner else "\treturn at;", "}"]


def putter(frame):
    """A function that writes the fields of a frame; it answers the byte behind them."""
    name = frame.name.lower()
    lines = [f"static inline unsigned char *put_{name}(unsigned char *at, const struct {name}_fields *fields)", "{"]
    lines += [f"\tat = put_{TYPES[it.width][1]}(at, fields->{it.name});" for it in frame.own]
    return [*lines, "\treturn at;", "}"]


def fields_of(frame):
    """A struct with the fields of a frame, and the function that moves them."""
    body = [f"struct {frame.name.lower()}_fields {{", *members(frame), "};", ""]
    return "\n".join(body + (putter(frame) if frame.to == "server" else getter(frame)))


def forms(protocol):
    """What tells the frame that a version has for an outcome."""
    rows = [f"{{ {it.name}, {it.name}_BODY, {it.name}_FIELDS, {len(it.told)} }}" for it in protocol.forms("IPCR")]
    cases = [f"\tcase {version}:\n\t\treturn (struct outcome_form) {row};" for version, row in enumerate(rows[1:], min(protocol.versions) + 1)]
    return "\n".join([
        "/* The frame of an outcome in a version: its kind, its least body, and how many bytes its fields take, and words of them what only later",
        " * versions tell. */",
        "struct outcome_form {", "\tenum kind kind;", "\tsize_t body;", "\tsize_t fields;", "\tsize_t told;", "};", "",
        "static inline struct outcome_form outcome_form(unsigned version)", "{", "\tswitch (version) {", *cases,
        f"\tdefault:\n\t\treturn (struct outcome_form) {rows[0]};", "\t}", "}"])


def told(protocol):
    """clients/c/include/l4/told.h."""
    rows = [f"\tl4_told_{it.name}," for it in protocol.forms("IPCR")[-1].told]
    return "\n".join([
        MADE, "/* The numbers that later versions of the wire tell of an Ipc, as docs/FORMATS.md has them. */",
        "#ifndef L4_TOLD_H", "#define L4_TOLD_H", "", "typedef enum {", *rows, "} l4_told_t;", "", "#endif", ""])


def header(protocol):
    """clients/c/src/protocol.h."""
    frames = [it for it in protocol.frames.values()]
    limits = [(f"MAX_{it.name.upper()}", it.value) for it in protocol.limits.values() if it.is_for_clients and it.value < WIDEST]
    codes = [enum(f"{letters}: {protocol.about[letters]}.", [(f"{letters}_{upper(it.name)}", it.number) for it in protocol.codes[letters] if it.name])
             for letters in ("K", "F", "S", "C", "N")]
    return "\n\n".join([
        f"{MADE}\n/* The numbers of the protocol, as docs/FORMATS.md has them. */",
        '#ifndef L4_PROTOCOL_H\n#define L4_PROTOCOL_H\n\n#include "bytes.h"\n\n#include <stddef.h>',
        enum("The limits that concern a client.", limits),
        enum("The versions of the frames.", [("FIRST_WIRE_VERSION", min(protocol.versions)), ("LAST_WIRE_VERSION", max(protocol.versions))]),
        enum("The kinds of frames.", kinds_of(protocol), "kind"),
        enum("The body length of each; of one whose tail can grow the least one.", [(f"{it.name}_BODY", it.body) for it in frames]),
        enum("How many bytes the fields take that stand behind the kind.", [(f"{it.name}_FIELDS", it.size) for it in [*frames, protocol.piece]]),
        f"/* How many numbers the last version tells of an Ipc besides. */\nenum {{\n\tTOLD_NUMBERS = {len(protocol.forms('IPCR')[-1].told)},\n}};",
        enum("The classes of codes that a FAULT tells.", [(f"CLASS_{name}", f"{byte:#04x}") for name, (byte, _) in protocol.classes.items()]),
        *codes,
        enum("What went wrong in a phase: e of an ErrorCode.", [(f"E_{upper(it.name)}", it.number) for it in protocol.errors]),
        "/* The fields of frames: what puts or gets them answers the byte behind them. */",
        *(fields_of(it) for it in [*frames, protocol.piece] if it.fields and not (it.told and it.tail)),
        forms(protocol),
        "#endif\n",
    ])


def text_of(text):
    """A text as C spells it."""
    return '"' + text.replace("\\", "\\\\").replace('"', '\\"') + '"'


def meanings(protocol):
    """clients/c/src/meanings.h: rows of the table of failure.c."""
    rows = [f"\t{{ '{it.letters}', {it.letters}_{upper(it.name)}, {it.texts['errno']}, {text_of(it.client)} }},"
            for letters in ("K", "F", "S", "C", "N") for it in protocol.codes[letters] if "errno" in it.texts]
    words = {it.number: it.means for it in protocol.errors}
    errors = [f"\t[{e}] = {text_of(words.get(e, 'no error' if e == 0 else 'an error without a name'))}," for e in range(8)]
    return "\n".join([
        MADE, "/* Of each code its errno, and what it means. */", '#include "internal.h"', "", "#include <errno.h>", "",
        "struct meaning {", "\tchar class;", "\tuint8_t number;", "\tint saved_errno;", "\tconst char *text;", "};", "",
        "static const struct meaning meanings[] = {", *rows, "};", "",
        "/* What went wrong in a phase, by e. */", "static const char *const errors[8] = {", *errors, "};", ""])
