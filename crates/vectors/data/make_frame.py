#!/usr/bin/env python3
"""Writes frame.txt: python3 make_frame.py > frame.txt

The answers come from a model of frames and of the receiver in Python, by the rules of document 01 ("Frames and the receiver", "Refusals by operation",
"Display slot and the lister") and, where it says nothing, of docs/DECISIONS.md; nothing here follows the library's code. Messages are read by make_messages.py."""
import random

from make_desc import DIRTY, WIDE, Refused, fail, memory
from make_messages import MEANT, Payload, lay, line, of, some_message, write
from make_varint import TOP, leb, refused, title, words

HEADER = 9
MAX = 67108864
EDGES_32 = [0, 1, 255, 256, 65535, 65536, 2**24, 2**31, WIDE - 1]
NO_STOP, BAD_RECEIVER = (0, 0, 0), (17, 0, 0)


# Frames.

def framed(kind, stream, payload, declared=None):
    """A frame; its header declares another length where one is given."""
    length = len(payload) if declared is None else declared
    return bytes([kind]) + stream.to_bytes(4, "little") + length.to_bytes(4, "little") + payload


def header_of(s):
    """(kind, stream, length)"""
    if len(s) < HEADER:
        fail(1)
    length = int.from_bytes(s[5:9], "little")
    if length > MAX:
        fail(12, length, MAX)
    return s[0], int.from_bytes(s[1:5], "little"), length


def frame_of(s):
    header = header_of(s)
    if header[2] > len(s) - HEADER:
        fail(5, header[2], len(s) - HEADER)
    return header


def told(answer):
    """The words of an answer, or of its refusal."""
    try:
        return answer()
    except Refused as e:
        return e.args[0]


def encode_frame(kind, stream, payload, room):
    x, out = framed(kind, stream, payload), b"\xa5" * room
    answer = words(refused(16, 5, len(x)), "out", out) if room < len(x) else words("wrote", len(x), "out", x.ljust(room, b"\0"))
    line(words("encode_frame", kind, stream, payload, out), answer)


def decode_both(s):
    line(words("decode_header", s), told(lambda: words("header", *header_of(s))))
    line(words("decode_frame", s), told(lambda: words("frame", *frame_of(s), HEADER + frame_of(s)[2])))


def put_slot(start, size, text, slot):
    shown = text[start:start + size][:len(slot)].ljust(len(slot), b" ")
    answer = words(refused(19, 1), "out", slot) if start + size > len(text) else words("shown", "out", shown)
    line(words("put_slot", start, size, text, slot), answer)


# The receiver: its table, the bytes of its run that are held, the hold's length, and its stop. A run's bytes that are held are those of which no frame came.

class Receiver:
    def __init__(self, table, room):
        self.table, self.room, self.stop = table, room, (0, 0, 0)
        self.held = b""
        self.hold = bytes(room)

    def words(self):
        header = self.held[:HEADER]
        return words("receiver", self.table.rstrip(b"\0"), header.ljust(HEADER, b"\0"), len(header), len(self.held) - len(header), self.room, *self.stop)


class Lent:
    """Text, rows and nodes of so many elements, dirty before."""

    def __init__(self, text, rows, nodes):
        self.sizes = text, rows, nodes
        self.parts = [b"\xa5" * text, [DIRTY] * rows, [DIRTY] * nodes]

    def decode(self, entry, payload):
        fields, *parts = lay(entry, of(entry)[0](Payload(payload)))
        for i, x in enumerate(parts):
            if self.sizes[i] < len(x):
                fail(16, i + 1, len(x))
        text, rows, nodes = parts
        t, r, n = self.sizes
        self.parts = [text.ljust(t, b"\0"), rows + [0] * (r - len(rows)), nodes + [0] * (n - len(nodes))]
        return words("accepted", *fields)


def first_of(s, room):
    """What stands first in a run: the header of a whole frame, none yet, or the refusal that stops it."""
    if len(s) < HEADER:
        return None
    header = header_of(s)
    if header[2] > room:
        fail(16, 4, header[2])
    return header if len(s) >= HEADER + header[2] else None


def offer(r, piece, lent):
    """(bytes used, what is told)"""
    if r.stop[0]:
        return 0, words("refused", *r.stop)
    before, s = len(r.held), r.held + piece
    try:
        header = first_of(s, r.room)
    except Refused as e:
        r.stop = tuple(map(int, e.args[0].split()[1:]))
        r.held, r.hold = s[:HEADER], bytes(r.room)
        return HEADER - before, words("stopped", *r.stop)
    if header is None:
        r.held = s
        payload = s[HEADER:]
        r.hold = payload + r.hold[len(payload):]
        return len(piece), "more"
    kind, _, length = header
    end = HEADER + length
    answer = told(lambda: lent.decode(r.table[kind], s[HEADER:end]))
    r.held, r.hold = b"", bytes(r.room)
    return end - before, words("frame", *header, answer)


def offered(r, lent, pieces):
    """The pieces as they are offered, what is left of one after a frame again; and the whole answer."""
    offers, outcomes = [], []
    for piece in pieces:
        while True:
            used, outcome = offer(r, piece, lent)
            offers.append(piece)
            outcomes.append(words("used", used, outcome))
            piece = piece[used:]
            if not outcome.startswith("frame") or not piece:
                break
    return offers, words(*outcomes, r.words(), "hold", r.hold, memory(*lent.parts))


PLAIN = bytes(range(13))


def run(pieces, hold=64, sizes=(24, 3, 8), table=PLAIN):
    """Pieces offered to a fresh receiver over memory of these sizes."""
    full = table.ljust(256, b"\0")
    offers, answer = offered(Receiver(full, hold), Lent(*sizes), pieces)
    line(words("offer", table.rstrip(b"\0"), hold, *sizes, len(offers), *offers), answer)


def possible(header, got, have, room):
    if got != HEADER:
        return got < HEADER and have == 0
    length = int.from_bytes(header[5:], "little")
    return length <= MAX and length <= room and have < length


def run_from(header, counts, pieces, hold=None, stop=NO_STOP, sizes=(6, 1, 2)):
    """Pieces offered to a receiver that is given: its header, the counts of header and payload held and of the hold's length, and its stop."""
    got, have, room = counts
    hold = bytes(range(0xe0, 0xe0 + room)) if hold is None else hold
    given, lent = words(PLAIN, header, *counts, *stop), Lent(*sizes)
    refusal = BAD_RECEIVER if room != len(hold) else stop if stop[0] else None if possible(header, got, have, room) else BAD_RECEIVER
    if refusal:
        offers, answer = pieces, words(*(words("used", 0, "refused", *refusal) for _ in pieces), "receiver", given, "hold", hold, memory(*lent.parts))
    else:
        r = Receiver(PLAIN.ljust(256, b"\0"), room)
        r.held, r.hold = header[:got] + hold[:have], hold
        offers, answer = offered(r, lent, pieces)
    line(words("offer_to", given, hold, *sizes, len(offers), *offers), answer)


def open_receiver(header, counts, stop, table, room):
    given = words(PLAIN, header, *counts, *stop)
    if len(table) == 256:
        answer = words("accepted", Receiver(table, room).words(), "hold", bytes(room))
    else:
        answer = words("refused", 18, len(table), 0, "receiver", given, "hold", b"\xa5" * room)
    line(words("open", given, table, room), answer)


# What is tried.

def frames():
    title("A frame of each kind of number in its header; out just fits, is longer, or short by one.")
    for kind in (0, 1, 83, 127, 128, 255):
        encode_frame(kind, 1, b"ab", 11)
    for stream in EDGES_32:
        encode_frame(83, stream, b"ab", 12)
    for payload in (b"", b"a", b"\xff" * 12, bytes(range(256)), b"n" * 300):
        size = HEADER + len(payload)
        for room in (0, 1, HEADER - 1, HEADER, size - 1, size, size + 1, size + 9):
            encode_frame(0x53, 0x04030201, payload, room)
    title("Headers and frames: each cut, bytes after, and lengths to the maximum and over it.")
    s = framed(0x53, 0x04030201, b"abcde")
    for n in range(len(s) + 1):
        decode_both(s[:n])
    decode_both(s + s)
    for kind in (0, 255):
        for stream in EDGES_32:
            decode_both(framed(kind, stream, b"x"))
    for length in (*EDGES_32, MAX - 1, MAX, MAX + 1):
        for size in (0, 1, 300):
            decode_both(framed(0x44, 7, b"p" * size, length))


def slots():
    title("The display slot: \"Insulin\" over \"Morphine sulfate\", in slots of other lengths, and of no bytes.")
    drugs, long = b"Morphine sulfateInsulin", b"Morphine sulfate"
    for slot in (long, b"", b"M", long[:6], long[:7], long[:8], long + b"\xff" * 8):
        put_slot(16, 7, drugs, slot)
        put_slot(0, 16, drugs, slot)
    title("Texts at the end, past it, and of no bytes; sums that pass 64 bits; bytes that are not UTF-8, and a character that is cut.")
    for start in (0, 1, 4, 5, 6, 7, TOP):
        for size in (0, 1, 4, 5, 6, 7, TOP):
            put_slot(start, size, b"ab\xc3\xa9\xff", b"slot")
    put_slot(0, 0, b"", b"slot")
    put_slot(0, 0, b"", b"")
    put_slot(0, 1, b"", b"")


def openings():
    title("Openings: tables of other lengths leave a receiver and its hold as they were; one of 256 bytes opens it whatever it was.")
    table = bytes((i * 7 + 3) % 256 for i in range(512))
    for header, counts, stop in ((bytes(9), (0, 0, 0), NO_STOP), (b"\1\2\3" + bytes(6), (3, 0, 4), NO_STOP), (framed(2, 9, b"", 7), (9, 5, 12), NO_STOP),
                                 (framed(2, 9, b"", MAX + 1), (9, 0, 4), (12, MAX + 1, MAX)), (b"\xff" * 9, (TOP, TOP, TOP), (TOP, TOP, TOP))):
        for size in (0, 1, 255, 256, 257, 512):
            open_receiver(header, counts, stop, table[:size], 5)
    for room in (0, 1, 40):
        for size in (255, 256):
            open_receiver(bytes(9), (0, 0, 0), NO_STOP, table[:size], room)


def needed(entry, payload):
    """The lengths of text, rows and nodes that a message needs."""
    return [len(x) for x in lay(entry, of(entry)[0](Payload(payload)))[1:]]


def messages():
    title("Each message, and an opaque payload: memory that just fits, is longer, or short by one; a payload that is cut, and one with a byte more.")
    for entry, message in MEANT:
        s = write(entry, message)
        needs = needed(entry, s)
        run([framed(entry, 5, s)], len(s), needs)
        run([framed(entry, 5, s)], len(s) + 3, [n + 2 for n in needs])
        for i, n in enumerate(needs):
            if n:
                run([framed(entry, 5, s)], len(s), needs[:i] + [n - 1] + needs[i + 1:])
        run([framed(entry, 5, s[:-1])], len(s), needs)
        run([framed(entry, 5, s + b"\0")], len(s) + 1, needs)
        run([framed(entry, 5, s)], len(s) - 1, needs)
        run([framed(entry, 5, b"")], len(s), (1, 1, 1))
    title("Kinds and entries: any entry but 1 to 12 is opaque, and a kind is one of 256.")
    table = bytes((255 - i) % 16 for i in range(256))
    for kind in (0, 1, 3, 11, 127, 128, 254, 255):
        run([framed(kind, 1, b"\5\6")], 4, (2, 2, 1), table)
    for entry in (0, 13, 127, 128, 255):
        run([framed(0, 1, b"\xff\xc0")], 4, (4, 1, 1), bytes([entry]))


ALL = [framed(entry, 100 + i, write(entry, message)) for i, (entry, message) in enumerate(MEANT)]
LARGE = dict(hold=64, sizes=(32, 12, 91))


def whole_runs():
    title("A run of every message: up to each frame's end, in pieces of one length, and each frame by itself.")
    for n in range(1, len(ALL)):
        run([b"".join(ALL[:n])], **LARGE)
    joined = b"".join(ALL)
    for size in (1, 2, 3, 7, 8, 9, 10, 16, 50, len(joined)):
        run(cut(joined, size), **LARGE)
    run(ALL, **LARGE)
    title("The same run with every message refused but the last: none of them stops it, and memory is kept.")
    spoilt = [framed(entry, 100 + i, write(entry, message)[:-1]) for i, (entry, message) in enumerate(MEANT) if entry not in (0, 3, 10)]
    run([b"".join(spoilt)], **LARGE)
    run([ALL[1] + b"".join(spoilt)], **LARGE)
    run(cut(b"".join(spoilt) + ALL[3], 5), **LARGE)


def cut(s, size):
    return [s[i:i + size] for i in range(0, len(s), size)]


def cuts():
    short = framed(2, 1, b"\2\3\4") + framed(0, 2, b"") + framed(3, 3, b"\1\2ab") + framed(4, 4, b"\5")
    title("Every cut of a short run in two: an accepted message, an empty opaque one, another, a refused one, and a frame that is not whole.")
    for n in range(len(short) + 15):
        run([(short + framed(5, 6, b"\1\7\7\7\7", 9))[:n], (short + framed(5, 6, b"\1\7\7\7\7", 9))[n:]], 9, (3, 1, 1))
    title("Every cut of a run that stops, in two, and then a piece more.")
    for stop in (framed(9, 8, b"xyz", MAX + 1), framed(9, 8, b"xyz", 10)):
        s = framed(4, 4, b"\5\6") + stop
        for n in range(len(s) + 1):
            run([s[:n], s[n:], b"again"], 9, (3, 1, 1))
    title("Pieces of no bytes, between all others.")
    s = framed(4, 4, b"\5\6") + framed(0, 2, b"")
    run([b""])
    run([b"", b"", s, b"", b""], 2)
    run([x for n in range(len(s)) for x in (b"", s[n:n + 1])], 2)


def ends():
    title("Runs that end at each place of a header and of a payload.")
    s = framed(0, 9, b"payload", 20)
    for n in range(len(s) + 1):
        run([s[:n]], 20, (3, 1, 1))
    run([], 20, (3, 1, 1))
    title("A length against the hold and the maximum: 12 comes before 16(4), whatever the hold.")
    for hold in (0, 1, 7, 8):
        for length in (0, 1, 7, 8, 9, 255, 256, MAX, MAX + 1, WIDE - 1):
            run([framed(0, 9, b"payload8", length)[:HEADER + min(8, length)], b"more", b""], hold, (8, 1, 1))
    title("\"Insulin\" after \"Morphine sulfate\": no letter of the longer name is left.")
    long, name = b"Morphine sulfate", b"Insulin"
    for entry, text in ((0, lambda x: x), (3, lambda x: b"\1" + leb(len(x)) + x), (8, lambda x: b"\1" + leb(len(x)) + x)):
        s = framed(entry, 1, text(long)) + framed(entry, 2, text(name))
        for size in (1, 20, len(s)):
            run(cut(s, size), 20, (20, 2, 2))


def given():
    s = framed(4, 3, b"\5\6")
    title("A hold of another length than at the opening: 17, before a stop and before impossible counts.")
    for room in (0, 1, 7, 9, TOP):
        for counts, stop in (((0, 0), NO_STOP), ((9, 0), (12, MAX + 1, MAX)), ((10, 0), NO_STOP)):
            run_from(bytes(9), (*counts, room), [s, b""], bytes(8), stop)
    title("A stop is told again and again, before impossible counts.")
    for stop in ((12, MAX + 1, MAX), (16, 4, 300), (1, 0, 0), (TOP, TOP, TOP)):
        for counts in ((9, 0, 8), (0, 0, 8), (10, 3, 8)):
            run_from(framed(4, 3, b"", 300), counts, [s, b"", s], stop=stop)
    title("Impossible counts: 17.")
    for counts in ((10, 0, 8), (10, 1, 8), (TOP, 0, 8), (TOP, TOP, 8), (0, 1, 8), (8, 1, 8), (8, TOP, 8), (3, 8, 8)):
        run_from(framed(4, 3, b"", 5), counts, [s, b""])
    for length in (0, 1, 7, 8, 9, 256, MAX, MAX + 1, WIDE - 1):
        for have in (0, 1, 6, 7, 8, 9, TOP):
            run_from(framed(0, 3, b"", length), (9, have, 8), [b"new"])
    run_from(framed(0, 3, b"", 1), (9, 0, 0), [b"new"])
    title("Bytes of the header and of the hold past their counts count as absent.")
    for got in range(9):
        run_from(b"\xff" * got + bytes(range(0xf0, 0xf9 - got)), (got, 0, 8), [b"\1"])
        run_from(s[:got] + b"\xff" * (9 - got), (got, 0, 8), [s[got:] + b"rest"])
        run_from(s[:got] + b"\xff" * (9 - got), (got, 0, 8), [b"", s[got:9], s[9:10], s[10:]])
    for have in range(7):
        run_from(framed(0, 3, b"", 7), (9, have, 8), [b"new"])
        run_from(framed(0, 3, b"", 7), (9, have, 8), [b"", b"a", b"bcdefgh"])


def drawn():
    title("Runs drawn at random from a fixed seed, cut in pieces drawn too.")
    r = random.Random(20261117)
    for _ in range(80):
        frames = []
        for _ in range(r.randrange(1, 6)):
            entry = r.choice([0, *range(1, 13)])
            s = bytes(r.randrange(256) for _ in range(r.randrange(12))) if entry == 0 else write(entry, some_message(r, entry))
            change = r.randrange(8)
            if change == 0:
                s = s[:r.randrange(len(s) + 1)]
            if change == 1 and s:
                s = bytearray(s)
                s[r.randrange(len(s))] = r.randrange(256)
                s = bytes(s)
            frames.append(framed(entry, r.choice(EDGES_32), s, r.choice([None] * 15 + [200, MAX + 1])))
        s, pieces = b"".join(frames), []
        while s:
            n = r.choice([0, 1, 2, 5, 9, 20, 60, len(s)])
            pieces.append(s[:n])
            s = s[n:]
        run(pieces, r.choice([40, 80, 150]), (r.choice([0, 10, 40]), r.choice([0, 3, 15]), r.choice([0, 7, 70])))


if __name__ == "__main__":
    print("# Made by make_frame.py: each request of the crate `frame`, and its answer.")
    frames()
    slots()
    openings()
    messages()
    whole_runs()
    cuts()
    ends()
    given()
    drawn()
