"""What the texts of this folder say, as objects: frames, codes, limits, lines. What does not hang together is told with its file and its line."""

import os
import re
from dataclasses import dataclass, field

from reader import MANY, MAYBE, ONE, read

HERE = os.path.dirname(os.path.abspath(__file__))
LETTERS = {1: "B", 2: "H", 4: "I", 8: "Q"}
SIDES = ("server", "client")
FRAMES = {
    "version": {"rattle": ONE},
    "frame": {"title": MAYBE, "kind": ONE, "to": ONE, "rattle": ONE, "version": MAYBE, "field": MANY, "note": MAYBE, "then": MAYBE, "tail": MAYBE,
              "least": MAYBE, "grows": MAYBE},
    "piece": {"field": MANY},
    "class": {"byte": ONE, "rattle": ONE},
}
CODES = {
    "family": {"about": ONE},
    "code": {"means": ONE, "when": MAYBE, "client": MAYBE, "helps": ONE, "told": MAYBE, "gets": MAYBE, "stays": MAYBE, "errno": MAYBE,
             "short": MAYBE},
    "error": {"means": ONE, "when": ONE, "counts": MAYBE, "python": ONE},
}
LIMITS = {"limit": {"is": ONE, "rattle": MAYBE, "for": MAYBE}, "row": {"says": ONE}}
LINES = {"entry": {"is": ONE, "word": ONE, "field": MANY, "says": ONE}}
PROSE = {"page": {"says": MANY}}
# What a family's codes have to say, beside what they mean and what helps.
OF_FAMILY = {"K": ("errno",), "F": ("told", "errno"), "S": ("gets",), "TR": ("stays",), "C": ("errno",), "N": ("errno",)}


@dataclass(frozen=True)
class Field:
    """A number of a frame: its name, its width in bytes, and what the pages call it."""

    name: str
    width: int
    text: str


@dataclass
class Frame:
    """A kind of frame; `fields` are all numbers behind the kind, `own` those that stand in its own record."""

    name: str
    title: str
    kind: int
    to: str
    rattle: str
    own: list
    note: str = ""
    then: "Frame" = None
    tail: str = ""
    least: int = 0
    grows: str = ""
    version: int = 1
    base: "Frame" = None

    @property
    def fields(self):
        return self.own + (self.then.fields if self.then else [])

    @property
    def size(self):
        """How many bytes its fields take."""
        return sum(it.width for it in self.fields)

    @property
    def body(self):
        """Its body length; with a tail that can grow the least one."""
        return 1 + self.size + self.least

    @property
    def format(self):
        """The fields as the module struct spells them."""
        return "".join(LETTERS[it.width] for it in self.fields)

    @property
    def told(self):
        """What its version tells before what all versions tell."""
        return self.own if self.then else []

    @property
    def has_tail(self):
        return bool(self.tail)


@dataclass
class Code:
    """A code: its family's letters, its number, its name, and what is said of it."""

    letters: str
    number: int
    name: str
    texts: dict

    @property
    def spelled(self):
        return f"{self.letters}{self.number}"

    @property
    def means(self):
        return self.texts["means"]

    @property
    def helps(self):
        """What helps, as a terminal shows it."""
        return self.texts["helps"].replace("`", "")

    @property
    def when(self):
        """What the pages say."""
        return self.texts.get("when", self.means)

    @property
    def client(self):
        """What the clients say."""
        return self.texts.get("client", self.means)


@dataclass
class Protocol:
    """All of it."""

    versions: dict = field(default_factory=dict)
    frames: dict = field(default_factory=dict)
    piece: Frame = None
    classes: dict = field(default_factory=dict)
    limits: dict = field(default_factory=dict)
    rows: list = field(default_factory=list)
    about: dict = field(default_factory=dict)
    codes: dict = field(default_factory=dict)
    errors: list = field(default_factory=list)
    entries: list = field(default_factory=list)
    prose: list = field(default_factory=list)

    def forms(self, name):
        """Of each version the frame that it has for an answer: its own one, or that of the version before."""
        of_version = {it.version: it for it in self.frames.values() if it.name == name or (it.base and it.base.name == name)}
        return [of_version[max(it for it in of_version if it <= version)] for version in self.versions]

    def said(self, text, bad):
        """A text with its limits as numbers: {entries} with commas, {entries.plain} in digits alone, {entries.code} with underscores, and
        {entries.frame} as the four bytes of a length, in hex."""
        def number(name):
            base, _, form = name[1].partition(".")
            spellings = {"": ",", "plain": "", "code": "_", "frame": "08x"}
            if base not in self.limits or form not in spellings:
                raise bad(f"{{{name[1]}}} is no limit of protocol/limits.txt")
            return format(self.limits[base].value, spellings[form])
        return re.sub(r"\{([^{}]*)\}", number, text)


@dataclass(frozen=True)
class Limit:
    """A limit, its two names in ipc_words where it has some, and whether clients want it."""

    name: str
    value: int
    rattle: tuple
    is_for_clients: bool


@dataclass(frozen=True)
class Entry:
    """An entry's line: its name, whether it is an input, its word, its fields as (text, kind, name in the reasons of bad lines), and what it says."""

    name: str
    is_input: bool
    word: str
    fields: tuple
    says: str


def fields_of(record):
    """The fields of a frame: lines `NAME WIDTH: TEXT`."""
    fields = []
    for place, text in enumerate(record.all("field")):
        parts = re.fullmatch(r"([a-z_]+) (\d+): (.+)", text)
        if not parts or int(parts[2]) not in LETTERS:
            raise record.bad(f"field: wanted is a name, a width of 1, 2, 4 or 8, a colon and a text; not {text}", record.line_of("field", place))
        fields.append(Field(parts[1], int(parts[2]), parts[3]))
    return fields


def frame_of(record, protocol):
    """The frame of a record; the frames that it names stand before it."""
    def named(key, text):
        if text not in protocol.frames:
            raise record.bad(f"{key}: no frame {text} stands before this one", record.line_of(key))
        return protocol.frames[text]

    if record.one("to") not in SIDES:
        raise record.bad(f"to: wanted is server or client; not {record.one('to')}", record.line_of("to"))
    frame = Frame(record.name, record.maybe("title", record.name), record.number("kind"), record.one("to"), record.one("rattle"), fields_of(record),
                  record.maybe("note", ""))
    if "then" in record.values:
        frame.then = named("then", record.one("then"))
    for key, value in (("tail", ""), ("grows", "")):
        setattr(frame, key, record.maybe(key, getattr(frame.then, key) if frame.then else value))
    frame.least = record.number("least") if "least" in record.values else frame.then.least if frame.then else 0
    if "version" in record.values:
        parts = re.fullmatch(r"(\d+) of (\w+)", record.one("version"))
        if not parts or int(parts[1]) not in protocol.versions:
            raise record.bad("version: wanted is N of FRAME, of a version that stands above", record.line_of("version"))
        frame.version, frame.base = int(parts[1]), named("version", parts[2])
    names = [it.name for it in frame.fields]
    if len(set(names)) < len(names):
        raise record.bad(f"frame {frame.name}: two fields of one name")
    for other in protocol.frames.values():
        # (a HELLO of version 2 is told from one of version 1 by its length)
        is_told = frame.base is other and frame.body != other.body
        if (other.kind, other.to) == (frame.kind, frame.to) and not is_told:
            raise record.bad(f"frame {frame.name}: {other.name} has this kind, too", record.line_of("kind"))
        if other.rattle == frame.rattle:
            raise record.bad(f"frame {frame.name}: {other.name} has this name in ipc_frame, too", record.line_of("rattle"))
    return frame


def look_at_outcomes(protocol, records):
    """What a version of IPCR tells of a call are words: first those of the version before, then its own."""
    before = []
    for frame in protocol.forms("IPCR"):
        if frame.told[: len(before)] != before or any(it.width != 8 for it in frame.told):
            raise records[frame.name].bad(f"frame {frame.name}: its own fields are words, and begin with {', '.join(it.name for it in before)}")
        before = frame.told


def load_frames(protocol):
    records = {}
    for record in read(HERE, "frames.txt", FRAMES):
        if record.word == "version":
            if record.name != str(len(protocol.versions) + 1):
                raise record.bad("version: they are counted from 1")
            protocol.versions[len(protocol.versions) + 1] = record.one("rattle")
        elif record.word == "frame":
            records[record.name], protocol.frames[record.name] = record, frame_of(record, protocol)
        elif record.word == "piece":
            protocol.piece = Frame(record.name, record.name, 0, "client", "", fields_of(record))
        else:
            protocol.classes[record.name] = record.number("byte"), tuple(record.one("rattle").split())
            if protocol.classes[record.name][0] != ord(record.name):
                raise record.bad(f"class {record.name}: its byte is that of another letter", record.line_of("byte"))
    look_at_outcomes(protocol, records)


def load_limits(protocol):
    for record in read(HERE, "limits.txt", LIMITS):
        if record.word == "row":
            protocol.rows.append((record.name, protocol.said(record.one("says"), record.bad)))
            continue
        rattle = tuple(record.maybe("rattle", "").split())
        if len(rattle) not in (0, 2):
            raise record.bad("rattle: wanted are two names: of limits.rt, of Limits.antt", record.line_of("rattle"))
        if record.maybe("for", "clients") != "clients":
            raise record.bad(f"for: wanted is clients; not {record.one('for')}", record.line_of("for"))
        protocol.limits[record.name] = Limit(record.name, record.number("is"), rattle, "for" in record.values)


def code_of(record, protocol):
    """The code of a record, which is the next one of its family."""
    parts = re.fullmatch(r"([A-Z]+)(\d+)(?: (\w+))?", record.name)
    if not parts or parts[1] not in protocol.codes:
        raise record.bad(f"code: wanted are the letters of a family above, a number, and a name; not {record.name}")
    family = protocol.codes[parts[1]]
    if int(parts[2]) != len(family) + 1:
        raise record.bad(f"code {record.name}: the next of its family is {parts[1]}{len(family) + 1}")
    texts = {key: protocol.said(record.one(key), record.bad) for key in record.values}
    for key in OF_FAMILY[parts[1]]:
        if key not in texts and not (parts[1] == "S" and key == "errno"):
            raise record.bad(f"code {record.name} lacks a line {key}")
    return Code(parts[1], int(parts[2]), parts[3] or "", texts)


def load_codes(protocol):
    for record in read(HERE, "codes.txt", CODES):
        if record.word == "family":
            if record.name not in OF_FAMILY:
                raise record.bad(f"family: wanted is {', '.join(OF_FAMILY)}; not {record.name}")
            protocol.about[record.name] = record.one("about")
            protocol.codes[record.name] = []
        elif record.word == "code":
            code = code_of(record, protocol)
            protocol.codes[code.letters].append(code)
        else:
            texts = {key: protocol.said(record.one(key), record.bad) for key in record.values}
            number, _, name = record.name.partition(" ")
            if not number.isdigit() or not 0 < int(number) < 8 or not name:
                raise record.bad(f"error: wanted are an e of 1 to 7 and a name; not {record.name}")
            protocol.errors.append(Code("e", int(number), name, texts))


def load_lines(protocol):
    for record in read(HERE, "lines.txt", LINES):
        fields = [tuple(it.split()) for it in record.all("field")]
        for place, parts in enumerate(fields):
            if not (len(parts) == 3 and parts[1] in ("decimal", "id", "hex") or len(parts) == 2 and parts[1] == "call"):
                raise record.bad("field: wanted are a text, its kind (decimal, id, hex) and its name in l4sh_explain, or a text and call",
                                 record.line_of("field", place))
        if record.one("is") not in ("input", "output"):
            raise record.bad(f"is: wanted is input or output; not {record.one('is')}", record.line_of("is"))
        protocol.entries.append(Entry(record.name, record.one("is") == "input", record.one("word"), tuple(fields), record.one("says")))


def load():
    """All texts of the folder."""
    protocol = Protocol()
    load_limits(protocol)
    load_frames(protocol)
    load_codes(protocol)
    load_lines(protocol)
    for record in read(HERE, "prose.txt", PROSE):
        protocol.prose += [(record, place, text) for place, text in enumerate(record.all("says"))]
    return protocol
