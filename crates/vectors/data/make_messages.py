#!/usr/bin/env python3
"""Writes messages.txt: python3 make_messages.py > messages.txt

The answers come from a reader and a writer of the session messages in Python, by the rules of document 01 ("The lent memory", "Refusals by
operation", "Messages") and, where it says nothing, of docs/DECISIONS.md; nothing here follows the library's code."""
import random

from make_desc import DIRTY, WIDE, Refused, fail, flat, gather, lay_out, memory, named, number, read_desc, some_tree, write_desc
from make_varint import TOP, leb, title, valid, words

MAX_FETCH = 4096
PREDICATES, SEQUENCES = 2**24, 2**40
EDGES = [0, 127, 128, WIDE - 1, WIDE, 2**63, TOP]


# Reading. A message is a tuple of its fields; rows are tuples too, and what is absent is None.

class Payload:
    def __init__(self, s):
        self.s, self.at = s, 0

    def left(self):
        return len(self.s) - self.at

    def take(self, n):
        self.at += n
        return self.s[self.at - n:self.at]

    def number(self):
        value, self.at = number(self.s, self.at)
        return value

    def text(self):
        n = self.number()
        if n > self.left():
            fail(5, n, self.left())
        return checked(self.take(n))

    def byte(self, *missing):
        if not self.left():
            fail(*missing)
        return self.take(1)[0]

    def known(self, which, codes):
        b = self.byte(9, which)
        if b not in codes:
            fail(9, which)
        return b

    def little(self, width):
        if self.left() < width:
            fail(1)
        return int.from_bytes(self.take(width), "little")

    def desc(self):
        tree, self.at = read_desc(self.s, self.at)
        return tree

    def times(self, count, thing):
        return [thing() for _ in range(count)]

    def end(self, message):
        if self.left():
            fail(10, self.left())
        return message


def checked(x):
    if not valid(x):
        fail(4)
    return x


def versioned(message):
    if message[0] >= WIDE:
        fail(9, 2)
    return message


def read_startup(p):
    claim = lambda: (p.text(), p.number())
    return versioned(p.end((p.number(), p.text(), p.known(1, range(2)), p.number(), p.times(p.number(), claim))))


def read_ready(p):
    return versioned(p.end((p.number(), p.number(), p.number())))


def read_error(p):
    return p.known(3, range(1, 12)), p.text()


def read_complete(p):
    return p.end((p.number(), p.number()))


def read_ids(p):
    return (p.times(p.number(), p.number),)


def read_types(p):
    def one():
        i = p.number()
        if i >= WIDE:
            fail(11, WIDE - 1)
        return i, p.text(), p.number() != 0, p.desc(), p.desc() if p.number() != 0 else None
    return (p.times(p.number(), one),)


def read_control(p):
    return p.end((p.known(4, range(1, 4)), p.text(), p.byte(9, 5) != 0, p.text()))


def read_reply(p):
    op = p.known(4, range(1, 4))
    fields = {1: lambda: (p.text(),), 2: lambda: (p.number(), p.number(), p.number(), p.byte(9, 6) != 0), 3: lambda: ()}
    return p.end((op, *fields[op]()))


def read_profile(p):
    count = p.number()
    if count > len(p.s):
        fail(5, count, len(p.s))
    return p.end((p.times(count, lambda: (p.text(), p.number(), p.byte(9, 7) != 0)),))


def read_page(p):
    limit, size = p.little(8), p.little(4)
    if p.left() < size:
        fail(1)
    return limit, p.take(size), checked(p.take(p.left()))


def read_fetch(p):
    flag = p.byte(1)
    if flag > 1:
        fail(13, flag)
    digest = p.number() if flag else None
    count = p.number()
    if count > MAX_FETCH:
        fail(12, count, MAX_FETCH)

    def pair():
        predicate, sequence = p.number(), p.number()
        if predicate >= WIDE:
            fail(11, WIDE - 1)
        if predicate >= PREDICATES or sequence >= SEQUENCES:
            fail(8, predicate * SEQUENCES % 2**64 | sequence)
        return predicate * SEQUENCES + sequence
    return p.end((digest, p.times(count, pair)))


def read_listing(p):
    predicate = p.number()
    if predicate >= WIDE:
        fail(14, predicate)
    return p.end((predicate, p.number()))


def read_opaque(p):
    return (p.take(p.left()),)


# Writing.

def spelled(x):
    return leb(len(x)) + x


def listed(things, write):
    return leb(len(things)) + b"".join(write(*t) for t in things)


def write_startup(version, database, mode, fingerprint, claims):
    return leb(version) + spelled(database) + bytes([mode]) + leb(fingerprint) + listed(claims, lambda n, f: spelled(n) + leb(f))


def write_type(i, name, virtual, key, value):
    return leb(i) + spelled(name) + leb(virtual) + write_desc(key) + (leb(0) if value is None else leb(1) + write_desc(value))


def write_reply(op, *fields):
    return bytes([op]) + {1: spelled, 2: lambda a, b, c, d: leb(a) + leb(b) + leb(c) + bytes([d]), 3: lambda: b""}[op](*fields)


def write_fetch(digest, ids):
    flag = b"\0" if digest is None else b"\1" + leb(digest)
    return flag + listed([divmod(i, SEQUENCES) for i in ids], lambda p, s: leb(p) + leb(s))


# Laying out: the fields as numbers, and the rest in lent memory.

class Lent:
    def __init__(self):
        self.text, self.rows, self.nodes = b"", [], []

    def put(self, x):
        self.text += x
        return len(self.text) - len(x), len(x)

    def tree(self, tree):
        self.text, self.nodes = lay_out(tree, self.text, self.nodes)


def lay_startup(l, version, database, mode, fingerprint, claims):
    span = l.put(database)
    for name, f in claims:
        l.rows += [*l.put(name), f]
    return version, *span, mode, fingerprint, len(claims)


def lay_ids(l, ids):
    l.rows += ids
    return (len(ids),)


def lay_types(l, types):
    for i, name, virtual, key, value in types:
        l.rows += [i, *l.put(name), int(virtual), int(value is not None), len(l.nodes)]
        l.tree(key)
        if value is not None:
            l.tree(value)
    return (len(types),)


def lay_profile(l, steps):
    for label, examined, full in steps:
        l.rows += [*l.put(label), examined, int(full)]
    return (len(steps),)


def lay_reply(l, op, *fields):
    return (op, *(l.put(*fields) if op == 1 else map(int, fields)))


def lay_fetch(l, digest, ids):
    return int(digest is not None), digest or 0, *lay_ids(l, ids)


# And back: the message in lent memory, its faults in the order of document 01.

class Held:
    def __init__(self, text, rows, nodes):
        self.text, self.rows, self.nodes = text, rows, nodes

    def split(self, count, width):
        if count * width > len(self.rows):
            fail(19, 2)
        return [self.rows[i * width:(i + 1) * width] for i in range(count)]

    def raw(self, start, size):
        if start + size > len(self.text):
            fail(19, 1)
        return self.text[start:start + size]

    def string(self, start, size):
        return checked(self.raw(start, size))


def hold_startup(h, version, start, size, mode, fingerprint, count):
    rows = h.split(count, 3)
    return version, h.string(start, size), mode, fingerprint, [(h.string(a, n), f) for a, n, f in rows]


def hold_types(h, count):
    rows, trees, at = h.split(count, 6), [], 0
    if any(i >= WIDE or virtual > 1 or has > 1 for i, _, _, virtual, has, _ in rows):
        fail(19, 4)
    for *_, has, key in rows:
        if key != at:
            fail(19, 3)
        pair = []
        for _ in range(1 + has):
            tree, at = gather(h.text, h.nodes, at)
            pair.append(tree)
        trees.append(pair)
    types = []
    for (i, start, size, virtual, *_), pair in zip(rows, trees):
        name = h.string(start, size)
        pair = [named(h.text, tree) for tree in pair]
        types.append((i, name, virtual, pair[0], pair[1] if len(pair) > 1 else None))
    return (types,)


def hold_profile(h, count):
    rows = h.split(count, 4)
    if any(full > 1 for *_, full in rows):
        fail(19, 4)
    return ([(h.string(a, n), examined, full) for a, n, examined, full in rows],)


def hold_fetch(h, flag, digest, count):
    rows = h.split(count, 1)
    if count > MAX_FETCH:
        fail(12, count, MAX_FETCH)
    return digest if flag else None, [i for i, in rows]


# The messages by their numbers, 0 an opaque one: reader, writer, layout, and back with so many fields.

MESSAGES = {
    0: (read_opaque, lambda x: x, lambda l, x: l.put(x), lambda h, a, n: (h.raw(a, n),), 2),
    1: (read_startup, write_startup, lay_startup, hold_startup, 6),
    2: (read_ready, lambda *m: b"".join(map(leb, m)), lambda l, *m: m, lambda h, *m: m, 3),
    3: (read_error, lambda c, x: bytes([c]) + spelled(x), lambda l, c, x: (c, *l.put(x)), lambda h, c, a, n: (c, h.string(a, n)), 3),
    4: (read_complete, lambda *m: b"".join(map(leb, m)), lambda l, *m: m, lambda h, *m: m, 2),
    5: (read_ids, lambda ids: listed([(i,) for i in ids], leb), lay_ids, lambda h, n: ([i for i, in h.split(n, 1)],), 1),
    6: (read_types, lambda types: listed(types, write_type), lay_types, hold_types, 1),
    7: (read_control, lambda o, d, f, s: bytes([o]) + spelled(d) + bytes([f]) + spelled(s), lambda l, o, d, f, s: (o, *l.put(d), int(f), *l.put(s)),
        lambda h, o, a, n, f, b, m: (o, h.string(a, n), f, h.string(b, m)), 6),
    8: (read_reply, write_reply, lay_reply, lambda h, op, *m: (op, *{1: lambda a, n, *_: (h.string(a, n),), 2: lambda a, b, c, d: (a, b, c, d), 3: lambda *_: ()}[op](*m)), 5),
    9: (read_profile, lambda steps: listed(steps, lambda x, n, f: spelled(x) + leb(n) + bytes([f])), lay_profile, hold_profile, 1),
    10: (read_page, lambda n, c, q: n.to_bytes(8, "little") + len(c).to_bytes(4, "little") + c + q, lambda l, n, c, q: (n, *l.put(c), *l.put(q)),
         lambda h, n, a, k, b, m: (n, h.raw(a, k), h.string(b, m)), 5),
    11: (read_fetch, write_fetch, lay_fetch, hold_fetch, 3),
    12: (read_listing, lambda *m: b"".join(map(leb, m)), lambda l, *m: m, lambda h, *m: m, 2),
}


def of(entry):
    return MESSAGES.get(entry, MESSAGES[0])


def write(entry, message):
    return of(entry)[1](*message)


def lay(entry, message):
    """The seven numbers, text, rows, nodes."""
    l = Lent()
    fields = of(entry)[2](l, *message)
    return [entry if entry in MESSAGES else 0, *fields, *[0] * (6 - len(fields))], l.text, l.rows, flat(l.nodes)


# The lines, each of them once.

SEEN = set()


def line(request, answer):
    if request not in SEEN:
        SEEN.add(request)
        print(request, "=", answer)


def decode(entry, s, t=None, r=None, n=None):
    """Buffers of t bytes, r and n numbers; one more than the message needs where not said, and 1 where it is none."""
    lent = lambda needs: [needs[i] if x is None else x for i, x in enumerate((t, r, n))]
    room = lent((1, 1, 1))
    try:
        fields, *parts = lay(entry, of(entry)[0](Payload(s)))
        room = lent([len(x) + 1 for x in parts])
        for i, x in enumerate(parts):
            if room[i] < len(x):
                fail(16, i + 1, len(x))
        text, rows, nodes = parts
        filled = memory(text.ljust(room[0], b"\0"), rows + [0] * (room[1] - len(rows)), nodes + [0] * (room[2] - len(nodes)))
        answer = words("accepted", *fields, filled)
    except Refused as e:
        answer = words(e.args[0], memory(b"\xa5" * room[0], [DIRTY] * room[1], [DIRTY] * room[2]))
    line(words("decode", entry, s, *room), answer)


def encode(numbers, text=b"", rows=(), nodes=(), room=None):
    """Out of so many bytes; one more than the message needs where not said, and 1 where it is none."""
    rows, nodes = list(rows), list(nodes)
    numbers = [*numbers, *[0] * (7 - len(numbers))]
    entry, *fields = numbers
    _, writer, _, hold, count = MESSAGES[entry]
    try:
        x = writer(*hold(Held(text, rows, nodes), *fields[:count]))
        room = len(x) + 1 if room is None else room
        if room < len(x):
            fail(16, 5, len(x))
        answer = words("wrote", len(x), "out", x.ljust(room, b"\0"))
    except Refused as e:
        room = 1 if room is None else room
        answer = words(e.args[0], "out", b"\xa5" * room)
    line(words("encode", *numbers, text, room, len(rows), *rows, *nodes), answer)


def hexed(entry, *texts):
    for text in texts:
        decode(entry, bytes.fromhex(text))


def both(entry, *message):
    decode(entry, write(entry, message))
    encode(*lay(entry, message))


def after(entry, head, *tails):
    """Each tail in hexadecimal behind the same bytes."""
    for tail in tails:
        decode(entry, head + bytes.fromhex(tail))


# What is tried.

INT, TEXT, BYTES = (0, 0, []), (1, 0, []), (5, 0, [])
PAIR = (3, 0, [(b"a", 0, (2, 7, [])), (b"", 0, TEXT)])
EITHER = (4, 0, [("é".encode(), 3, BYTES), (b"n", WIDE - 1, PAIR)])
STRINGS = [b"", b"a", "größe".encode(), "名前".encode(), "\U0001f489".encode(), b"n" * 130]
BAD_STRINGS = ["ff", "c3", "c080", "eda080", "f4908080", "61ff", "e28261"]

SAMPLES = {
    0: (b"\xff\x00a",),
    1: (2, "dé".encode(), 1, 300, [(b"p", 5), (b"", TOP)]),
    2: (2, 300, 7),
    3: (8, "nö".encode()),
    4: (200, 3),
    5: ([1, 300, TOP],),
    6: ([(9, b"k", True, PAIR, None), (300, b"", False, INT, EITHER)],),
    7: (1, b"db", False, "schéma".encode()),
    8: (2, 300, 1, 2, True),
    9: ([(b"s1", 300, False), (b"", 1, True)],),
    10: (258, b"\xff\x01", "né".encode()),
    11: (300, [5, 2**40 + 1, TOP]),
    12: (300, 200),
}
REPLIES = [(1, "ín".encode()), (3,)]
MEANT = [*SAMPLES.items(), *((8, reply) for reply in REPLIES)]
# Fields that are a code, and fields of 32 bits, each by its message and place.
CODES = {(1, 2), (3, 0), (7, 0), (8, 0)}
NARROW = {(1, 0), (2, 0), (12, 0)}


def starred():
    title('Document 01, "Bytes to try".')
    hexed(2, "808080801000" + "0000")
    hexed(7, "0201610700")
    hexed(12, "ffffffff0f00", "808080801000")
    hexed(11, "008120", "008020")


def accepted():
    title("Each message as it is meant, and each number of it at a bound of its own.")
    for entry, message in SAMPLES.items():
        both(entry, *message)
        for i, field in enumerate(message):
            edges = STRINGS if isinstance(field, bytes) else EDGES if type(field) is int and (entry, i) not in CODES else []
            for edge in edges:
                if (entry, i) not in NARROW or edge < WIDE:
                    both(entry, *message[:i], edge, *message[i + 1:])
    title("Each mode, code, op and flag; control replies.")
    for mode in range(2):
        both(1, 1, b"d", mode, 0, [])
    for code in range(1, 12):
        both(3, code, b"m")
    for op in range(1, 4):
        for flag in (False, True):
            both(7, op, b"d", flag, b"s")
    for reply in REPLIES:
        both(8, *reply)
    for x in STRINGS:
        both(8, 1, x)
        both(1, 1, b"", 0, 0, [(x, 1), (b"b", 2), (x, 3)])
        both(6, [(1, x, False, (3, 0, [(x, 0, INT)]), None)])
        both(9, [(x, 1, False), (b"b", 2, True)])
    title("No rows, many rows, rows with bounds.")
    for entry, rest in ((1, (1, b"", 0, 0)), (5, ()), (6, ()), (9, ()), (11, (None,)), (11, (0,))):
        both(entry, *rest, [])
    both(1, 1, b"d", 0, 0, [(b"c%d" % i, i * 77) for i in range(130)])
    both(5, list(range(200)))
    both(5, EDGES)
    both(6, [(i, b"t%d" % i, i % 2 == 0, INT, TEXT if i % 3 else None) for i in range(40)])
    both(6, [(i, b"", False, INT, None) for i in EDGES if i < WIDE])
    both(9, [(b"s%d" % i, i * 300, i % 2 == 0) for i in range(130)])
    both(9, [(b"", i, True) for i in EDGES])
    both(11, TOP, [i * SEQUENCES + i for i in range(130)])
    both(11, 0, EDGES)
    title("Descriptors in types: nested, each as key and as value.")
    deep = INT
    for _ in range(63):
        deep = (3, 0, [(b"", 0, deep)])
    for tree in (INT, TEXT, BYTES, (2, 0, []), (2, WIDE - 1, []), (3, 0, []), (4, 0, []), PAIR, EITHER, (3, 0, [(b"x", 0, EITHER), (b"y", 0, PAIR)]), deep):
        both(6, [(1, b"k", False, tree, None), (2, b"v", True, INT, tree), (3, b"", False, TEXT, None)])


def spoilt():
    title("Each cut of a payload of each message.")
    for entry, message in MEANT:
        s = write(entry, message)
        for n in range(len(s)):
            decode(entry, s[:n])
    title("Bytes after a payload: refused by 10 with their count, ignored, or read on.")
    for entry, message in MEANT:
        for tail in (b"\0", b"\xff\xff", b"a" * 130):
            decode(entry, write(entry, message) + tail)
    title("A byte changed in each place of a payload of each message.")
    for entry, message in MEANT:
        s = write(entry, message)
        for i, b in enumerate(s):
            for new in sorted({b ^ 1, b ^ 128, 0, 255} - {b}):
                decode(entry, s[:i] + bytes([new]) + s[i + 1:])


# The refusals of a varint, a text and a descriptor, where one is read.
NUMBERS = ["", "80", "8000", "ff" * 9 + "02", "ff" * 10, "80" * 9]
TEXTS = [*NUMBERS, "01", "0561", "ff" * 9 + "01", "05c3"]
DESCS = [*NUMBERS, "06", "ff" * 9 + "01", "028080808010", "02", "03", "0309", "030105", "030101ff", "0401008080808010", "04010006", "030100" * 64]
TEXTS += ["%02x" % (len(x) // 2) + x for x in BAD_STRINGS]


def refusals():
    for entry, heads in {
        1: ([], [leb(2)], [leb(2), b"\1d", b"\0"], [leb(2), b"\1d", b"\0", b"\5"], [leb(2), b"\1d", b"\0", b"\5", b"\2", b"\1p"]),
        2: ([], [leb(2)], [leb(2), b"\5"]),
        4: ([], [b"\5"]),
        5: ([], [b"\1"], [b"\2", b"\5"]),
        6: ([], [b"\1"], [b"\1\5\1n"], [b"\1\5\1n\0\0"]),
        8: ([b"\2"], [b"\2\5"], [b"\2\5\6"]),
        9: ([], [b"\1\1s"]),
        11: ([], [b"\1"], [b"\0"], [b"\1\5"], [b"\0\1"], [b"\0\1\5"], [b"\0\2\5\6"]),
        12: ([], [b"\5"]),
    }.items():
        title("Message %d: the refusals of each varint in it." % entry)
        for head in heads:
            after(entry, b"".join(head), *NUMBERS)
    for entry, heads in {1: (b"\2", b"\2\1d\0\5\2", b"\2\1d\0\5\2\1p\7"), 3: (b"\1",), 6: (b"\1\5",), 7: (b"\1", b"\1\2db\0"), 8: (b"\1",), 9: (b"\1", b"\2\1s\5\0")}.items():
        title("Message %d: the refusals of each text in it, 5 before 4." % entry)
        for head in heads:
            after(entry, head, *TEXTS)
    title("Types: the refusals of the key and of the value, and counts held against the bytes from the descriptor's own tag.")
    for head in (b"\1\5\1n\0", b"\1\5\1n\0\0\1"):
        after(6, head, *DESCS)
    hexed(6, "01000000" + "0304000000", "01000000" + "030200000000", "0100000000" + "01030400", "010000000001" + "0303000000", "010000000001" + "0302000000" + "00")
    title("Modes, codes, ops and flags: missing, unknown, and any but 0 as yes.")
    after(1, b"\2\1d", "", "02050000", "0205", "ff", "80", "01", "0005" + "00")
    hexed(3, "", "00", "0000", "0c", "0c00", "ff0161", "0b00", "0100")
    hexed(7, "", "00", "04", "ff", "0000", "04ff", "010164", "01016480" + "00", "010164ff00", "01016402" + "0161", "01ff", "01016400")
    hexed(8, "", "00", "04", "04ff", "ff", "02010203", "0201020300", "02010203ff", "0201020380", "0201020302", "03", "0300", "01", "0100")
    after(9, b"\1\1s\5", "", "00", "01", "80", "ff", "0000")
    after(6, b"\1\5\1n", "8001" + "0000", "8000", "", "ff" * 9 + "01" + "0000", "07" + "0000", "00" + "00" + "8001" + "00", "00" + "00" + "8000", "0000", "0000" + "05" + "01")
    title("Startup and ready: bytes left over come before a wide version, and that comes last.")
    for wide in (WIDE, TOP):
        after(1, leb(wide), "0164000500", "016400050000", "0164000501", "01640205", "01ff")
        after(2, leb(wide), "0000", "000000", "00", "0080", "008000")
    title("Profile: the count is held against the whole payload's length.")
    hexed(9, "00", "01", "02", "0300" + "00", "030000", "0400" + "0000", "0500000000", "ff01", "ff" * 9 + "01", "0201000000" + "00", "0200000000" + "0000", "0000")
    title("Page: 1 for what is short, 4 for the query and not for the cursor.")
    hexed(10, "", "00" * 7, "00" * 8, "00" * 11, "00" * 12, "00" * 8 + "01000000", "00" * 8 + "01000000ff", "00" * 8 + "02000000ff", "ff" * 12, "00" * 8 + "000000016161")
    for bad in BAD_STRINGS:
        hexed(10, "01" + "00" * 7 + "00000000" + bad, "01" + "00" * 7 + "%02x000000" % (len(bad) // 2) + bad, "00" * 8 + "0100000061" + bad)
    hexed(10, "00" * 8 + "01000000c3a9", "00" * 8 + "02000000c3a9", "ff" * 8 + "01000000c3" + "a9", "00" * 8 + "01000000" + "c3c3a9")
    title("Fetch: 13 for another flag, 12 for the count before any pair, 11 after both halves and before 8, 8 with the OR.")
    hexed(11, "", "02", "ff", "80", "0200", "00", "01", "0105", "010500", "0000", "000000", "01ffffffffffffffffff0100")
    for count in (MAX_FETCH, MAX_FETCH + 1, WIDE, TOP):
        decode(11, b"\0" + leb(count))
        decode(11, b"\1\5" + leb(count) + b"\5")
    for predicate in (0, 1, PREDICATES - 1, PREDICATES, PREDICATES + 1, 2**31, WIDE - 1, WIDE, TOP):
        decode(11, b"\0\1" + leb(predicate))
        decode(11, b"\0\1" + leb(predicate) + b"\x80\0")
        for sequence in (0, 1, SEQUENCES - 1, SEQUENCES, SEQUENCES + 5, 2**63, TOP):
            decode(11, b"\0\1" + leb(predicate) + leb(sequence))
            decode(11, b"\0\2\1\2" + leb(predicate) + leb(sequence) + b"\0")
    title("Types: a wide id comes before its name. Listing digest: a wide predicate before the digest.")
    for wide in (WIDE - 1, WIDE, WIDE + 1, 2**63, TOP):
        after(6, b"\1" + leb(wide), "", "01ff", "00000000")
        after(12, leb(wide), "", "80", "8000", "00", "0000")
    title("Counts that the bytes cannot have.")
    for count in (1, 3, 127, 128, WIDE, TOP):
        after(1, b"\2\1d\0\5" + leb(count), "", "0000", "00000000")
        after(5, leb(count), "", "00", "0000")
        after(6, leb(count), "", "00000000" + "00")


def buffers():
    title("Buffers that just fit, are longer, or short by one: text, rows, nodes in that order, and last of all.")
    for entry, message in MEANT:
        s = write(entry, message)
        _, *parts = lay(entry, message)
        needs = [len(x) for x in parts]
        decode(entry, s, *needs)
        decode(entry, s, *(n + 3 for n in needs))
        decode(entry, s, 0, 0, 0)
        for i, n in enumerate(needs):
            if n > 0:
                decode(entry, s, *needs[:i], n - 1, *needs[i + 1:])
                decode(entry, s, *needs[:i], n - 1, *(0 for _ in needs[i + 1:]))
                decode(entry, s, *needs[:i], 0, *needs[i + 1:])
        decode(entry, s[:-1], 0, 0, 0)
        decode(entry, s + b"\0", 0, 0, 0)
    decode(1, leb(WIDE) + b"\1d\0\0\1\1p\0", 0, 0, 0)
    decode(2, leb(WIDE) + b"\0\0", 0, 0, 0)


def opaque():
    title("Entries that name no message: the payload is the one text, whatever it is.")
    for entry in (0, 13, 14, 127, 128, 255):
        for s in (b"", b"a", b"\xff\xc0\x80", bytes(range(256))):
            decode(entry, s)
        decode(entry, b"\xffab", 3, 0, 0)
        decode(entry, b"\xffab", 2, 1, 1)
        decode(entry, b"\xffab", 0, 0, 0)
        decode(entry, b"\xffab", 6, 2, 8)
        decode(entry, b"", 0, 0, 0)


def some_text(r):
    return r.choice([*STRINGS[:5], b"n" * r.randrange(20)])


def some_number(r):
    return r.choice([*EDGES, r.randrange(1000), r.randrange(2**64)])


def some_message(r, entry):
    rows = lambda make: [make() for _ in range(r.choice([0, 1, 1, 2, 3, 5]))]
    narrow = lambda: some_number(r) % WIDE
    return {
        1: lambda: (narrow(), some_text(r), r.randrange(2), some_number(r), rows(lambda: (some_text(r), some_number(r)))),
        2: lambda: (narrow(), some_number(r), some_number(r)),
        3: lambda: (r.randrange(1, 12), some_text(r)),
        4: lambda: (some_number(r), some_number(r)),
        5: lambda: (rows(lambda: some_number(r)),),
        6: lambda: (rows(lambda: (narrow(), some_text(r), r.random() < 0.5, some_tree(r, 3), some_tree(r, 2) if r.random() < 0.5 else None)),),
        7: lambda: (r.randrange(1, 4), some_text(r), r.random() < 0.5, some_text(r)),
        8: lambda: r.choice([(1, some_text(r)), (2, some_number(r), some_number(r), some_number(r), r.random() < 0.5), (3,)]),
        9: lambda: (rows(lambda: (some_text(r), some_number(r), r.random() < 0.5)),),
        10: lambda: (some_number(r), bytes(r.randrange(256) for _ in range(r.randrange(9))), some_text(r)),
        11: lambda: (r.choice([None, some_number(r)]), rows(lambda: some_number(r))),
        12: lambda: (narrow(), some_number(r)),
    }[entry]()


def drawn():
    title("Messages drawn at random from a fixed seed: whole, both ways, cut, with a byte changed, and in buffers drawn too.")
    r = random.Random(20261116)
    for _ in range(12):
        for entry in range(1, 13):
            message = some_message(r, entry)
            s, (numbers, text, rows, nodes) = write(entry, message), lay(entry, message)
            decode(entry, s)
            encode(numbers, text + b"z" * r.randrange(3), rows + [TOP] * r.randrange(3), nodes + [6] * r.randrange(9), len(s) + r.randrange(-1, 2))
            decode(entry, s[:r.randrange(len(s))])
            changed = bytearray(s)
            changed[r.randrange(len(s))] = r.randrange(256)
            decode(entry, bytes(changed))
            if len(rows) + len(nodes) < 40:
                decode(entry, s, *(max(0, len(x) + r.choice([-1, 0, 0, 0, 2])) for x in (text, rows, nodes)))


# The other way.

def places():
    title("Texts that overlap, stand in another order, lie past the end, or are not UTF-8, in reading order.")
    text = "abcé".encode() + b"\xff"
    spans = [(0, 0), (0, 1), (1, 2), (0, 3), (3, 2), (0, 5), (6, 0), (7, 0), (6, 1), (0, 7), (3, 1), (4, 1), (5, 1), (0, 6), (TOP, 1), (1, TOP), (TOP, TOP), (TOP, 0), (0, TOP)]
    for a in spans:
        encode([0, *a], text)
        encode([1, 2, *a, 1, 3, 1], text, [0, 3, 9])
        encode([1, 2, 0, 3, 1, 3, 2], text, [1, 2, 9, *a, 9])
        encode([3, 1, *a], text)
        encode([7, 1, *a, 1, 0, 2], text)
        encode([7, 1, 1, 2, 0, *a], text)
        encode([8, 1, *a], text)
        encode([9, 2], text, [*a, 7, 0, 0, 3, 8, 1])
        encode([9, 2], text, [0, 3, 7, 1, *a, 8, 0])
        encode([10, 7, *a, 0, 3], text)
        encode([10, 7, 2, 1, *a], text)
        encode([6, 1], text, [1, *a, 0, 0, 0], [0, 0, 0, 0, 0, 0, 1])
        encode([6, 1], text, [1, 0, 1, 0, 0, 0], [3, 0, 0, 0, 0, 1, 2, 0, *a, 0, 0, 0, 2])
        encode([6, 1], text, [1, 0, 1, 1, 1, 0], [1, 0, 0, 0, 0, 0, 1, 4, 0, 0, 0, 0, 1, 3, 0, *a, 5, 0, 0, 3])
    title("Two bad texts: the first in reading order is told.")
    for a, b in (((7, 0), (5, 1)), ((5, 1), (7, 0))):
        encode([1, 2, *a, 0, 0, 1], text, [*b, 0])
        encode([1, 2, 0, 0, 0, 0, 2], text, [*a, 0, *b, 0])
        encode([7, 1, *a, 0, *b], text)
        encode([9, 2], text, [*a, 0, 0, *b, 0, 0])
        encode([10, 0, *a, *b], text)
        encode([6, 1], text, [1, *a, 0, 0, 0], [3, 0, 0, 0, 0, 1, 2, 0, *b, 0, 0, 0, 2])
        encode([6, 2], text, [1, 0, 0, 0, 0, 0, 2, *b, 0, 0, 2], [3, 0, 0, 0, 0, 1, 2, 0, *a, 0, 0, 0, 2, 0, 0, 0, 0, 0, 0, 3])
        encode([6, 1], text, [1, 0, 0, 0, 1, 0], [3, 0, 0, 0, 0, 1, 2, 0, *a, 0, 0, 0, 2, 3, 0, 0, 0, 0, 1, 4, 0, *b, 0, 0, 0, 4])


def rooms():
    title("Out just fits, is longer, or short; rows and nodes past the message's own are not read.")
    for entry, message in MEANT:
        size, (numbers, text, rows, nodes) = len(write(entry, message)), lay(entry, message)
        for room in (0, size - 1, size, size + 5):
            encode(numbers, text, rows, nodes, room)
        encode(numbers, text + b"\xff", rows + [TOP, 2, TOP, 2, 2, TOP, 9], nodes + [9] * 8, size)


def rows_wrong():
    title("19(2): too few rows, by one number, by a row, by the most; the product is taken in full.")
    for entry, width in ((1, 3), (5, 1), (6, 6), (9, 4), (11, 1)):
        numbers, text, rows, nodes = lay(entry, SAMPLES[entry])
        at = {1: 6, 11: 3}.get(entry, 1)
        for n in range(len(rows)):
            encode(numbers, text, rows[:n], nodes)
        for count in (len(rows) // width + 1, 2**61, 2**62, 2**63, 2**64 // width, 2**64 // width + 1, TOP):
            encode(numbers[:at] + [min(count, TOP)] + numbers[at + 1:], text, rows, nodes)
    title("19(4): a flag over 1 or an id over 32 bits in any row.")
    for entry, columns in ((6, (0, 3, 4)), (9, (3,))):
        width = {6: 6, 9: 4}[entry]
        numbers, text, rows, nodes = lay(entry, SAMPLES[entry])
        for row in range(2):
            for column in columns:
                for n in (0, 1, 2, 255, 256, WIDE - 1, WIDE, TOP):
                    i = row * width + column
                    encode(numbers, text, rows[:i] + [n] + rows[i + 1:], nodes)
    title("Fetches of 4,096 ids and of one more; ids of any number.")
    for count in (MAX_FETCH, MAX_FETCH + 1):
        encode([11, 0, 0, count], rows=[0] * count, room=3)
    encode([11, 1, 5, MAX_FETCH + 1], rows=[0] * MAX_FETCH)
    encode([11, 0, 0, len(EDGES)], rows=EDGES)


def nodes_wrong():
    title("19(3): each number of each node changed, each key's node, each cut.")
    numbers, text, rows, nodes = lay(6, ([(9, b"k", True, (3, 0, [(b"a", 0, (2, 7, [])), (b"b", 0, TEXT)]), None), (8, b"", False, BYTES, (4, 0, [(b"c", 3, INT)]))],))
    encode(numbers, text, rows, nodes)
    for i, old in enumerate(nodes):
        for n in sorted({0, old + 1, max(0, old - 1), 6, WIDE - 1, WIDE, TOP} - {old}):
            encode(numbers, text, rows, nodes[:i] + [n] + nodes[i + 1:])
    for i in (5, 11):
        for n in (0, 1, 2, 3, 4, 6, WIDE, TOP):
            encode(numbers, text, rows[:i] + [n] + rows[i + 1:], nodes)
    for i in range(len(nodes)):
        encode(numbers, text, rows, nodes[:i])
    title("Keys and values out of order or with a gap, and a value that is not there.")
    leaf = lambda end: [0, 0, 0, 0, 0, 0, end]
    for has, keys in (((0, 0), (0, 1)), ((0, 0), (1, 0)), ((0, 0), (0, 0)), ((0, 0), (0, 2)), ((1, 0), (0, 1)), ((1, 0), (0, 2)), ((0, 1), (0, 1)), ((1, 1), (0, 2))):
        encode([6, 2], b"", [x for h, k in zip(has, keys) for x in (1, 0, 0, 0, h, k)], leaf(1) + leaf(2) + leaf(3))
    title("Depth in a type's key and value: 64 levels are written, 65 are not.")
    for levels in (62, 63, 64):
        tree = INT
        for _ in range(levels):
            tree = (3, 0, [(b"", 0, tree)])
        encode(*lay(6, ([(1, b"", False, tree, None)],)))
        encode(*lay(6, ([(1, b"", False, INT, tree)],)))


def orders():
    title("Several faults at once: 19(2), 19(4), 19(3), then the texts, then the room.")
    bad, good = [6, 0, 0, 0, 0, 0, 1], [0, 0, 0, 0, 0, 0, 1]
    for count in (1, 2):
        for flag in (0, 2):
            for nodes in (good, bad):
                for span in ((0, 1), (1, 1), (3, 0)):
                    for room in (0, 9):
                        encode([6, count], b"a\xff", [1, *span, flag, 0, 0], nodes, room)
    for count in (1, 2):
        for flag in (0, 2):
            for span in ((0, 1), (1, 1), (3, 0)):
                encode([9, count], b"a\xff", [*span, 5, flag], room=0)
                encode([1, 1, *span, 0, 0, count], b"a\xff", [*span, 5], room=0)
    encode([6, 2], b"", [1, 0, 0, 0, 0, 5, WIDE, 0, 0, 0, 0, 1], good + good)
    encode([6, 2], b"\xff", [1, 0, 1, 0, 0, 0, 1, 0, 0, 0, 0, 5], good + good)
    encode([9, 2], b"\xff", [0, 1, 0, 0, 0, 0, 0, 2])
    encode([11, 0, 0, MAX_FETCH + 1], rows=[7])


if __name__ == "__main__":
    print("# Made by make_messages.py: each request of the crates `protocol` and `protocol_write`, and its answer.")
    starred()
    accepted()
    spoilt()
    refusals()
    buffers()
    opaque()
    drawn()
    places()
    rooms()
    rows_wrong()
    nodes_wrong()
    orders()
