"""The tables of the pages, which stand between two marks, and the numbers of limits in their sentences."""

import re

BEGIN = "<!-- made by protocol/generate.py: {} -->"
END = "<!-- end -->"
MARKED = re.compile(r"<!-- made by protocol/generate\.py: ([a-z ]+) -->\n.*?<!-- end -->", re.S)


def rows(head, lines):
    """A table: its head, and rows of cells."""
    spelled = [head, *lines]
    text = ["| " + " | ".join(cells) + " |" for cells in spelled]
    text.insert(1, "|" + "---|" * len(head))
    return "\n".join(re.sub(r"\|  \|", "|  |", line) for line in text)


def fields_text(frame):
    """What comes behind the kind of a frame, in words."""
    if frame.then:
        own = ", ".join(f"{it.text} ({it.width})" for it in frame.own)
        return f"{own}, then as {frame.then.title}"
    parts = [f"{it.text} ({it.width})" for it in frame.own] + ([frame.tail] if frame.tail else [])
    return (", ".join(parts) or "nothing") + frame.note


def fault_text(protocol):
    """What stands behind the kind of a FAULT: its class has a byte each."""
    classes = ", ".join(f"`{byte:#04x}` {name}" for name, (byte, _) in protocol.classes.items())
    return f"class (1): {classes}; number (1)"


def length_text(frame):
    return f"{frame.body - frame.least}" if not frame.grows else f"{frame.body} + {frame.grows}"


def frames(protocol, side):
    def cells(frame):
        behind = fault_text(protocol) if frame.name == "FAULT" else fields_text(frame)
        return [f"`{frame.kind:#04x}`", frame.title, behind, length_text(frame)]
    of_side = [it for it in protocol.frames.values() if it.to == side]
    return rows(["Kind", "Name", "After the kind", "Body length"], [cells(it) for it in of_side])


def named(code):
    return f"`{code.name}`" if code.name else ""


def client_codes(protocol):
    """Those of the C client; of the name server's the errors are in a page of their own."""
    lines = [[it.spelled, it.when, it.texts["helps"]] for it in protocol.codes["C"]]
    of_server = [it for it in protocol.codes["N"] if "short" in it.texts]
    short = ", ".join(it.texts["short"] for it in of_server)
    lines.append([f"{of_server[0].spelled} to {of_server[-1].spelled}", f"a name server's errors: {short}", "[NAMES.md](NAMES.md)"])
    return rows(["Code", "When", "What helps"], lines + [[it.spelled, it.when, it.texts["helps"]] for it in protocol.codes["N"] if "short" not in it.texts])


def error_codes(protocol):
    def word(number, error):
        return f"`{number:#x}`" + (" + 16 * offset" if "counts" in error.texts else "")
    lines = [[str(it.number), it.when, word(2 * it.number, it), word(2 * it.number + 1, it), it.texts.get("counts", "0"), f"`{it.texts['python']}`"]
             for it in protocol.errors]
    return rows(["e", "What happened", "Send phase", "Receive phase", "The offset counts", "In Python"], lines)


def entries(protocol, what, are_inputs):
    lines = [[it.name, f"`{' '.join([it.word, *(text for text, *_ in it.fields)])}`", it.says] for it in protocol.entries if it.is_input == are_inputs]
    return rows([what, "Line", "It says"], lines)


def of_family(protocol, letters, head, *cells):
    return rows(head, [[it.spelled, *(cell(it) for cell in cells)] for it in protocol.codes[letters]])


def tables(protocol):
    """Each table by the name in its mark."""
    when, text = (lambda it: it.when), (lambda key: lambda it: it.texts[key])
    return {
        "frames to the server": frames(protocol, "server"),
        "frames to the client": frames(protocol, "client"),
        "inputs": entries(protocol, "Input", True),
        "outputs": entries(protocol, "Output", False),
        "refusals": of_family(protocol, "K", ["Code", "Name", "When", "What helps"], named, when, text("helps")),
        "faults": of_family(protocol, "F", ["Fault", "Name", "What", "Told as soon as"], named, when, text("told")),
        "ends of a session": of_family(protocol, "S", ["Code", "Name", "When", "The client gets"], named, when, text("gets")),
        "faults of a trace": of_family(protocol, "TR", ["Code", "When", "What stays", "What helps"], when, text("stays"), text("helps")),
        "codes of clients": client_codes(protocol),
        "error codes": error_codes(protocol),
        "limits": rows(["What", "Limit"], [list(it) for it in protocol.rows]),
    }


def remade(path, text, made, seen):
    """A page with its tables made anew; `seen` gets the names of those that stand in it."""
    def anew(mark):
        if mark[1] not in made:
            raise ValueError(f"{path}: there is no table {mark[1]}; wanted is {', '.join(made)}")
        seen.append(mark[1])
        return f"{BEGIN.format(mark[1])}\n\n{made[mark[1]]}\n\n{END}"
    if text.count("<!-- made by") != len(MARKED.findall(text)) or text.count(END) != len(MARKED.findall(text)):
        raise ValueError(f"{path}: a mark `{BEGIN.format('NAME')}` without its `{END}`, or the other way round")
    return MARKED.sub(anew, text)


def resaid(path, text, protocol, record, place, wanted):
    """A page in which a sentence tells the numbers as they are. Wherever it breaks its lines it stays broken."""
    def pattern(piece):
        words = r"\s+".join(map(re.escape, piece.split()))
        return (r"\s+" if piece[:1] == " " else "") + words + (r"\s+" if piece[-1:] == " " and words else "")
    pieces = re.split(r"\{[^{}]*\}", wanted)
    numbers = re.findall(r"\{[^{}]*\}", wanted)
    spelled = [r"([0-9a-f]{8})" if it.endswith(".frame}") else r"(\d[\d,_]*)" for it in numbers]
    whole = re.compile("".join(f"({pattern(it)}){number}" for it, number in zip(pieces, [*spelled, ""])))
    if len(whole.findall(text)) != 1:
        raise record.bad(f"{path} says this {len(whole.findall(text))} times and not once: {wanted}", record.line_of("says", place))
    said = [protocol.said(it, record.bad) for it in numbers]

    def anew(found):
        parts = list(found.groups())
        parts[1::2] = said
        return "".join(parts)
    return whole.sub(anew, text)
