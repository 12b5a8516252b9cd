"""Answers that are played to the C client, and what it has to make of each, worked out from docs/FORMATS.md."""

import contextlib
import random
import re
import subprocess
import tempfile
import threading
import zlib

from c_client.building import INPUT, code_of
from c_client.saying import SECONDS
from frames import ANY, CROSSED, FAILED, HEAD_BYTES, LENGTH_BYTES, NIL, PIECE_BYTES, PROPAGATED, REDIRECTED, exregr, fault, fields_in, frame, ipc
from frames import ipcr, piece_in, refused, size_of, thread_id, welcome, words_bytes, words_in
from page_text import text_of
from protocol_tables import C_NOT_AN_ANSWER, C_NOT_CONNECTED, EXREGR, EXREGR_2, FAULT, FRAMES, IPCR, IPCR_2, MAX_BODY_BYTES, MAX_MESSAGE_WORDS
from protocol_tables import REFUSED, WELCOME

# the area of play, and how much of it is summed for a call without big buffers
AREA, AREA_BYTES, FRONT_BYTES = 0x1000_0000, 1 << 18, 1 << 12
BUFFERS = {
    "take": [[(0x10, 3)], [(0x100, 2), (0x200, 3)]],
    "big": [[(0x1000, 70000), (0x18000, 70000)]],
}
RECEIVING = ("wait", "take", "big", "propagate")
PRISTINE = b"\xaa" * AREA_BYTES


# what version 2 tells of a played call
CALL, MOMENT = 0x1_0000_0007, 0x12_3456_789A


def in_version_2(call, data):
    """A right answer as it is in version 2, and the name of the call in that version."""
    kind, rest = data[LENGTH_BYTES], data[HEAD_BYTES:]
    if kind == IPCR:
        return call + "2", frame(IPCR_2, words_bytes((CALL, MOMENT)) + rest)
    if kind == EXREGR:
        return call + "2", frame(EXREGR_2, words_bytes((MOMENT,)) + rest)
    return call + "2", data


class Verdict(Exception):
    """What the library has to make of an answer, where it is not a message or an outcome."""

    def __init__(self, kind, number, lost=True):
        self.code, self.lost = code_of(kind, number), lost


class Stream:
    """The bytes of an answer, taken from the front. Where they end the connection has ended."""

    def __init__(self, data):
        self.data, self.at = data, 0

    def take(self, count):
        if self.at + count > len(self.data):
            raise Verdict("F", 9)
        self.at += count
        return self.data[self.at - count : self.at]

    def fields(self, name):
        """The fields of a frame."""
        return fields_in(name, self.take(size_of(name)))


def refusal_in(stream, kind, body):
    if kind == REFUSED:
        if body != FRAMES["REFUSED"].body:
            raise Verdict("F", 3)
        raise Verdict("K", stream.fields("REFUSED").number, lost=False)
    if kind == FAULT:
        if body != FRAMES["FAULT"].body:
            raise Verdict("F", 3)
        told = stream.fields("FAULT")
        raise Verdict(*((chr(told.letter), told.number) if told.letter in b"KFS" else ("C", C_NOT_AN_ANSWER)))
    raise Verdict(*(("C", C_NOT_AN_ANSWER) if kind in (WELCOME, IPCR, EXREGR, IPCR_2, EXREGR_2) else ("F", 2)))


def pieces_of(call, items):
    """Where the bytes of strings belong that these item words tell of."""
    buffers, pieces = BUFFERS.get(call, []), []
    if len(items) % 2 or len(items) // 2 > len(buffers):
        raise Verdict("C", C_NOT_AN_ANSWER)
    for k in range(len(items) // 2):
        length, pointer = items[2 * k] >> 10, items[2 * k + 1]
        if items[2 * k] & 0x3FF or pointer != AREA + buffers[k][0][0] or length > sum(room for _, room in buffers[k]):
            raise Verdict("C", C_NOT_AN_ANSWER)
        for at, room in buffers[k]:
            if min(room, length) > 0:
                pieces.append((at, min(room, length)))
            length -= min(room, length)
    return pieces


def outcome_in(call, stream, body, version):
    """Tag, ErrorCode, sender, ActualSender, words, the area and what is told of the call after an IPCR frame."""
    name = "IPCR" if version == 1 else "IPCR_2"
    if body < FRAMES[name].body:
        raise Verdict("F", 3)
    *told, tag, sender, actual, error = stream.fields(name)
    untyped, typed = tag & 63, tag >> 6 & 63
    if untyped + typed > MAX_MESSAGE_WORDS:
        raise Verdict("F", 4)
    rest = body - FRAMES[name].body - 8 * (untyped + typed)
    if rest < 0:
        raise Verdict("F", 3)
    words = words_in(stream.take(8 * (untyped + typed)))
    count = stream.take(1)[0]
    if tag & FAILED:
        good = tag == FAILED and error >> 1 & 7 and sender == NIL
    else:
        good = error == 0 and not tag & (REDIRECTED | CROSSED) and (call in RECEIVING or (tag == 0 and sender == NIL))
    if not good:
        raise Verdict("C", C_NOT_AN_ANSWER)
    pieces = pieces_of(call, words[untyped:])
    if count != len(pieces):
        raise Verdict("C", C_NOT_AN_ANSWER)
    if rest != sum(PIECE_BYTES + length for _, length in pieces):
        raise Verdict("F", 3)
    area = bytearray(PRISTINE)
    for at, length in pieces:
        if piece_in(stream.take(PIECE_BYTES)) != (AREA + at, length):
            raise Verdict("C", C_NOT_AN_ANSWER)
        area[at : at + length] = stream.take(length)
    return tag, error, sender, actual, words, bytes(area), tuple(told) or None


def read_answer(call, data, first):
    """What an answer tells the call, of which `first` bytes come at once: tag, ErrorCode, from, ActualSender, words, area, what
    version 2 tells beside it."""
    version = 2 if call.endswith("2") else 1
    call = call.removesuffix("2")
    stream = Stream(data)
    body = int.from_bytes(stream.take(LENGTH_BYTES), "big")
    if body == 0 or body > MAX_BODY_BYTES:
        raise Verdict("F", 1 if body else 3)
    kind = stream.take(1)[0]
    if min(first, INPUT) > LENGTH_BYTES + body:
        raise Verdict("C", C_NOT_AN_ANSWER)
    wanted = {"connect": (WELCOME, WELCOME), "exreg": (EXREGR, EXREGR_2)}.get(call, (IPCR, IPCR_2))[version - 1]
    if kind != wanted:
        refusal_in(stream, kind, body)
    if kind in (IPCR, IPCR_2):
        return outcome_in(call, stream, body, version)
    name = {WELCOME: "WELCOME", EXREGR: "EXREGR", EXREGR_2: "EXREGR_2"}[kind]
    if body != FRAMES[name].body:
        raise Verdict("F", 3)
    if kind == WELCOME:
        thread = stream.fields("WELCOME").thread
        if thread >> 32 != 2 or not thread & 63:
            raise Verdict("C", C_NOT_AN_ANSWER)
        return 0, 0, thread, 0, (), PRISTINE, None
    *moment, result, control, code = stream.fields(name)
    told = (0, *moment) if moment else None
    if control & ~6 or (result == NIL) != (code != 0) or (code == 0 and result != thread_id(2)):
        raise Verdict("C", C_NOT_AN_ANSWER)
    return control, code, result, 0, (), PRISTINE, told


def right_answers():
    """Answers that are right for their calls: call, bytes."""
    two, sender = "ab", thread_id(2)
    small = BUFFERS["take"]
    first, second, third = AREA + small[0][0][0], AREA + small[1][0][0], AREA + small[1][1][0]
    big = bytes(random.randrange(256) for _ in range(100_000))
    begin, rest = AREA + 0x1000, AREA + 0x18000
    return [
        ("connect", welcome(thread_id(2, 65))),
        ("connect", refused(2)),
        ("connect", fault("F", 1)),
        ("send", ipcr(0)),
        ("send", ipcr(FAILED, error=0x4)),
        ("send", refused(5)),
        ("send", fault("K", 7)),
        ("strings", ipcr(0)),
        ("strings", ipcr(FAILED, error=0x38)),
        ("wait", ipcr(0x1, sender, words=(7,))),
        ("wait", ipcr(0x3003F, sender, words=range(100, 163))),
        ("wait", ipcr(FAILED, error=0x3)),
        ("wait", ipcr(0x51001, thread_id(3), sender, words=(1,))),
        ("take", ipcr(0x30101, sender, words=(9, 3 << 10, first, 5 << 10, second),
                      pieces=((first, b"abc"), (second, b"he"), (third, b"llo")))),
        ("take", ipcr(0x80, sender, words=(2 << 10, first), pieces=((first, two.encode()),))),
        ("take", ipcr(0x100, sender, words=(0, first, 1 << 10, second), pieces=((second, b"x"),))),
        ("take", ipcr(FAILED, error=0x39)),
        ("propagate", ipcr(0x1, thread_id(1), words=(8,))),
        ("exreg", exregr(thread_id(2), 0x4)),
        ("exreg", exregr(0, 0, 2)),
        ("exreg", refused(4)),
        ("big", ipcr(0x80, sender, words=(len(big) << 10, begin), pieces=((begin, big[:70000]), (rest, big[70000:])))),
    ]


def wrong_bytes(data):
    """The answer with one byte made wrong, in ten ways; of a long one the front, the end, and places between."""
    places = range(len(data)) if len(data) < 1000 else [*range(120), *random.sample(range(120, len(data)), 60), len(data) - 1]
    for place in places:
        for byte in {data[place] ^ 1 << k for k in range(8)} | {0, 0xFF} - {data[place]}:
            yield data[:place] + bytes([byte]) + data[place + 1 :]


def made_up(count):
    """Answers that have the form of IPCR frames, with words, items and pieces that may or may not fit the call's buffers."""
    pointers = [AREA + at for buffer in BUFFERS["take"] for at, _ in buffer] + [AREA, AREA + 0x11, AREA + AREA_BYTES, 0, ANY]
    for _ in range(count):
        call = random.choice(["wait", "take", "take", "take", "send", "exreg"])
        strings = random.randrange(4)
        items = [word for _ in range(strings) for word in (random.randrange(8) << 10 | random.choice([0, 0, 0, 1, 8, 512]), random.choice(pointers))]
        if random.random() < 0.6:
            items = items[:4]
            items[1::2] = [AREA + buffer[0][0] for buffer in BUFFERS["take"]][: len(items) // 2]
        pieces = [(random.choice(pointers), random.randbytes(random.randrange(1, 7))) for _ in range(random.randrange(4))]
        if random.random() < 0.7:
            with contextlib.suppress(Verdict):
                pieces = [(AREA + at, random.randbytes(length)) for at, length in pieces_of(call, items)]
        if pieces and random.random() < 0.3:
            k = random.randrange(len(pieces))
            pointer, data = pieces[k]
            pieces[k] = random.choice([(pointer ^ 1, data), (pointer, data + b"!"), (random.choice(pointers), data), (pointer, data[1:])])
        words = [random.getrandbits(64) for _ in range(random.randrange(3))]
        tag = random.getrandbits(48) << 16 | len(items) << 6 | len(words) | random.choice([0, 0, 0, 0, PROPAGATED, FAILED, CROSSED])
        yield call, ipcr(tag, random.choice([0, thread_id(2)]), 0, random.choice([0, 0, 0, 3]), (*words, *items), pieces)


def all_cases():
    """Cases: call, bytes of the answer, where the server pauses (0: nowhere)."""
    cases = []
    answers = right_answers()
    answers += [in_version_2(call, data) for call, data in answers]
    # an answer of the other version is none
    cases += [(call, in_version_2(call, data)[1], 0) for call, data in answers if not call.endswith("2")]
    cases += [(call + "2", data, 0) for call, data in answers if not call.endswith("2")]
    for call, data in answers:
        cases += [(call, data, 0), (call, data + b"\0", 0)]
        # a second answer is seen where it comes with the first; else it would be taken for that of the next call
        cases += [(call, data + data, 0)] if 2 * len(data) < INPUT else []
        cases += [(call, wrong, 0) for wrong in wrong_bytes(data)]
        cuts = range(len(data)) if len(data) < 1000 else [*range(100), *random.sample(range(100, len(data)), 60)]
        cases += [(call, data[:cut], 0) for cut in cuts]
        cases += [(call, data, cut) for cut in cuts if cut > 0]
    for call in ("send", "wait", "exreg", "connect", "send2", "exreg2", "connect2"):
        cases += [(call, refused(number), 0) for number in range(10)]
        cases += [(call, fault(kind, number), 0) for kind in "KFS" for number in range(17)]
        cases += [(call, frame(kind, b""), 0) for kind in range(256)]
    return cases + [(call, data, 0) for call, data in made_up(3000)] + [(*in_version_2(call, data), 0) for call, data in made_up(1000)]


def check_played(call, data, cut, line):
    """One line of play, against what the answer tells."""
    # what the call says may have such a sign, too; what the next one says has none
    head, again = line.rsplit("; ", 1)
    fields = head.split(" ", 12)
    connected, _, tag, code, came_from, actual, words, times, area, outside, myself, errno, text = fields
    try:
        heard = read_answer(call, data, cut or len(data))
        verdict = None
    except Verdict as told:
        heard, verdict = None, told
    case = f"{call} {data.hex()[:400]} cut at {cut}: {line}"
    call = call.removesuffix("2")
    alone = call in ("wait", "take", "big")
    count = AREA_BYTES if call == "big" else FRONT_BYTES
    assert int(outside, 16) == zlib.adler32(PRISTINE[:count]), "a byte outside of the buffers was written: " + case
    assert int(connected) == (-1 if verdict and call == "connect" else 0), case
    lost = verdict is not None and (verdict.lost or call == "connect")
    assert (int(myself, 16) == 0) == lost, case
    assert int(again.split()[0], 16) == (code_of("C", C_NOT_CONNECTED) | 1 if lost else code_of("F", 9) | 1), case
    told = heard[6] if heard else None
    assert times == (f"{told[0]:x},{told[1]:x}" if told else "-"), (told, case)
    if verdict:
        wanted = verdict.code | (1 if alone else 0)
        assert int(code, 16) == wanted and int(tag, 16) == (0 if call in ("connect", "exreg") else FAILED), (hex(wanted), case)
        assert int(came_from, 16) == 0 and int(errno) != 0, case
        assert f"{chr(verdict.code >> 12)}{verdict.code >> 4 & 0xFF}:" in text, case
        return
    wanted_tag, wanted_code, wanted_from, wanted_actual, wanted_words, wanted_area, _ = heard
    assert int(tag, 16) == wanted_tag and int(code, 16) == wanted_code, case
    assert call == "connect" or int(came_from, 16) == wanted_from, case
    assert int(myself, 16) == (wanted_from if call == "connect" else thread_id(2)), case
    if call in RECEIVING and not wanted_tag & FAILED:
        assert int(actual, 16) == wanted_actual, case
        assert words == (",".join(f"{word:x}" for word in wanted_words) or "-"), case
    assert int(area, 16) == zlib.adler32(wanted_area[:count]), case


def check_vectors(program, room):
    """What the library writes is what docs/FORMATS.md has in its table of frames."""
    text = text_of("docs/FORMATS.md").split("### Frames in bytes")[1].split("\n## ")[0]
    rows = dict(re.findall(r"^\| (.*?) \| `([0-9a-f ]+)` \|$", text, re.M))
    rows = {name: data.replace(" ", "") for name, data in rows.items()}
    vector = lambda begin: next(data for name, data in rows.items() if name.startswith(begin))
    answers = [("connect", vector("WELCOME 2.1")), ("send", vector("IPCR: failed")), ("exreg", vector("EXREGR: 2.1")),
               ("propagate", "-"), ("strings", "-"), ("take", "-"), ("connect2", vector("WELCOME 2.1")),
               ("send2", vector("IPCR of version 2: failed")), ("exreg2", vector("EXREGR of version 2: 2.1"))]
    lines = play(program, room, [f"{call} {data}" for call, data in answers])
    requests = [line.split()[1] for line in lines]
    assert requests[0] == vector("HELLO 2") and requests[1] == vector("IPC: to 1.1") and requests[2] == vector("EXREG: dest 2.1")
    assert lines[1].split()[3] == "4" and lines[2].split()[4] == f"{thread_id(2):x}"
    one, three = thread_id(1), thread_id(3, 65)
    items = (3 << 10, 0, 3 << 10 | 0x200, 3, 2 << 10, 6, 1 << 10 | 2 << 4, 8, 9, 10)
    wanted = [
        ipc(one, one, (7,), (5 << 16) | 0x700 | 0, three, tag=0x1001),
        ipc(one, NIL, (9, *items), tag=3 << 16 | 10 << 6 | 1, payload=b"abchelloxyz"),
    ]
    # 200,000 microseconds: halved eight times
    wanted[0] = ipc(one, one, (7,), 5 << 16 | 8 << 10 | 782, three, tag=0x1001)
    assert requests[3] == wanted[0].hex(), requests[3]
    assert requests[4] == wanted[1].hex(), requests[4]
    buffers = (3 << 10 | 1, AREA + 0x10, 2 << 10 | 0x200, AREA + 0x100, 3 << 10, AREA + 0x200)
    assert requests[5] == ipc(NIL, ANY, buffers=buffers).hex(), requests[5]
    assert requests[6] == vector("HELLO of version 2: 2") and requests[7:9] == requests[1:3], requests[6:9]
    assert lines[7].split()[7] == "1,0" and lines[8].split()[7] == "0,0", lines[7:9]
    return len(requests)


def play(program, room, lines):
    folder = tempfile.mkdtemp(dir=room)
    ran = subprocess.run([program, folder], input="\n".join(lines) + "\n", capture_output=True, text=True, timeout=4 * SECONDS)
    assert ran.returncode == 0, ran.stderr[-3000:]
    return ran.stdout.splitlines()


def check_plays(program, room):
    cases = all_cases()
    shares = [cases[k::4] for k in range(4)]
    got = [None] * 4

    def run(k):
        texts = [f"{call} {(data[:cut].hex() + '/' + data[cut:].hex() if cut else data.hex()) or '-'}" for call, data, cut in shares[k]]
        got[k] = play(program, room, texts)

    workers = [threading.Thread(target=run, args=(k,)) for k in range(4)]
    for worker in workers:
        worker.start()
    for worker in workers:
        worker.join()
    for share, lines in zip(shares, got):
        assert lines is not None and len(lines) == len(share), "play ended early"
        for (call, data, cut), line in zip(share, lines):
            check_played(call, data, cut, line)
    return len(cases)
