#!/usr/bin/env python3
"""Writes desc.txt: python3 make_desc.py > desc.txt

The answers come from a reader and a writer of descriptors in Python, by the rules of document 01 ("The lent memory", "Refusals by operation",
"Descriptors"); nothing here follows the library's code."""
import random

from make_varint import TOP, leb, read, refused, title, valid, words

WIDE = 2**32
DIRTY = 0xA5A5A5A5A5A5A5A5
MAX_DEPTH = 64


class Refused(Exception):
    pass


def fail(*code):
    raise Refused(refused(*code))


# A tree is (tag, predicate, children); a child (name, discriminant, tree).

def number(s, at):
    r = read(s, at)
    if isinstance(r, str):
        raise Refused(r)
    return r


def read_desc(s, at, depth=MAX_DEPTH):
    if depth == 0:
        fail(15, MAX_DEPTH)
    begin = at
    tag, at = number(s, at)
    if tag in (0, 1, 5):
        return (tag, 0, []), at
    if tag == 2:
        predicate, at = number(s, at)
        if predicate >= WIDE:
            fail(11, WIDE - 1)
        return (2, predicate, []), at
    if tag not in (3, 4):
        fail(6, tag)
    count, at = number(s, at)
    if count > len(s) - begin:
        fail(5, count, len(s) - begin)
    children = []
    for _ in range(count):
        size, at = number(s, at)
        if size > len(s) - at:
            fail(5, size, len(s) - at)
        name, at = s[at:at + size], at + size
        if not valid(name):
            fail(4)
        discriminant = 0
        if tag == 4:
            discriminant, at = number(s, at)
            if discriminant >= WIDE:
                fail(7, discriminant)
        child, at = read_desc(s, at, depth - 1)
        children.append((name, discriminant, child))
    return (tag, 0, children), at


def write_desc(tree):
    tag, predicate, children = tree
    x = leb(tag)
    if tag == 2:
        x += leb(predicate)
    if tag in (3, 4):
        x += leb(len(children))
    for name, discriminant, child in children:
        x += leb(len(name)) + name + (leb(discriminant) if tag == 4 else b"") + write_desc(child)
    return x


def lay_out(tree, text=b"", nodes=None, name=(0, 0), discriminant=0):
    """(text, nodes): the texts joined in reading order, and seven numbers a node, parent first."""
    nodes = [] if nodes is None else nodes
    tag, predicate, children = tree
    mine = len(nodes)
    nodes.append(None)
    for bytes_of, d, child in children:
        start, text = len(text), text + bytes_of
        text, nodes = lay_out(child, text, nodes, (start, len(bytes_of)), d)
    nodes[mine] = [tag, *name, discriminant, predicate, len(children), len(nodes)]
    return text, nodes


def flat(nodes):
    return [n for node in nodes for n in node]


def memory(text, rows, nodes):
    return words("text", text, "rows", *rows, "nodes", *nodes)


def decode(s, t=None, r=1, n=None):
    """Buffers of t bytes, r and n numbers; as many as the descriptor needs where not said."""
    try:
        tree, used = read_desc(s, 0)
        text, nodes = lay_out(tree)
        nodes = flat(nodes)
        t = len(text) if t is None else t
        n = len(nodes) if n is None else n
        if t < len(text):
            fail(16, 1, len(text))
        if n < len(nodes):
            fail(16, 3, len(nodes))
        answer = words("used", used, memory(text.ljust(t, b"\0"), [0] * r, nodes + [0] * (n - len(nodes))))
    except Refused as e:
        t, n = 2 if t is None else t, 1 if n is None else n
        answer = words(e.args[0], memory(b"\xa5" * t, [DIRTY] * r, [DIRTY] * n))
    print(words("decode_desc", s, t, r, n), "=", answer)


def hexed(*texts):
    for text in texts:
        decode(bytes.fromhex(text))


def nested(levels, last):
    """`last` in so many records, each of one field without a name."""
    return bytes.fromhex("030100") * levels + last


def leaves():
    title('Document 01, "Bytes to try".')
    hexed("0300", "030500", "030300", "0301" + "ff" * 9 + "01")
    title("Types without parts, with bytes after them, and tags that are none.")
    hexed("", "00", "01", "05", "00ff", "0500", "02", "0200", "027f", "02ffffffff0f", "028080808010", "028000", "02" + "ff" * 9 + "02")
    hexed("06", "07", "7f", "8001", "8000", "80", "ff" * 9 + "01", "ff" * 9 + "02")


def branches():
    title("Counts: none, missing, held against all bytes from the tag on.")
    hexed("03", "04", "0400", "0301", "0302", "0303", "030200", "030400", "0404", "0403", "0380", "038000", "03" + "ff" * 9 + "01")
    hexed("0302000000", "03020000", "0303000000", "03030000000000", "030400000000", "03050000000000")
    title("Names: empty, of more than one byte, too long, not UTF-8; the length's own refusals.")
    hexed("03010000", "0301016100", "030102c3a900", "030102c3a9", "03010261", "030101ff00", "03010180", "030180", "03018000", "0301" + "ff" * 9 + "02", "030103eda08000")
    title("Discriminants: of 32 bits, of 33, missing; a field has none.")
    hexed("040101610900", "0401016100" + "00", "04010161ffffffff0f05", "0401016180808080" + "1005", "04010161", "0401016180", "0401016180" + "00", "04020001" + "00" + "00" + "0205")
    title("Depth: the top at depth 1; 64 levels are read, the 65th is refused before its tag and after its name.")
    for levels in (1, 2, 62, 63):
        decode(nested(levels, b"\0"))
    for last in (b"\0", b"", b"\x06", b"\x03\x00"):
        decode(nested(64, last))
    decode(nested(63, b"\x03\x01\x01\xff"))
    decode(nested(63, b"\x03\x01\x05"))
    decode(nested(63, b"\x04\x01\x00\x80\x80\x80\x80\x10"))
    decode(nested(63, b"\x04\x01\x00\x00"))
    decode(nested(63, b"\x03\x00"))
    decode(nested(63, b"\x02\x07"))


def buffers():
    title("Buffers that just fit, are longer, and are short by one: text before nodes.")
    tree = (3, 0, [(b"name", 0, (2, 7, [])), (b"hello", 0, (4, 0, [(b"a", 1, (5, 0, [])), (b"b", 2, (0, 0, []))]))])
    s, (text, nodes) = write_desc(tree), lay_out(tree)
    t, n = len(text), len(flat(nodes))
    for a in (0, t - 1, t, t + 5):
        for b in (0, n - 7, n - 1, n, n + 3):
            for r in (0, 2):
                decode(s, a, r, b)
    decode(b"\x06", 0, 0, 0)
    decode(b"\x00", 0, 0, 6)
    decode(b"\x00", 0, 3, 7)


def some_tree(r, depth):
    kind = r.choice([0, 1, 2, 5, 3, 3, 4, 4]) if depth else r.choice([0, 1, 2, 5])
    if kind == 2:
        return kind, r.choice([0, 1, 127, 128, 16384, WIDE - 1, r.randrange(WIDE)]), []
    if kind in (0, 1, 5):
        return kind, 0, []
    names = [b"", b"a", b"name", "größe".encode(), "名前".encode(), "\U0001f489".encode(), b"n" * r.randrange(40)]
    return kind, 0, [(r.choice(names), r.choice([0, 1, 300, WIDE - 1]) if kind == 4 else 0, some_tree(r, depth - 1)) for _ in range(r.randrange(4))]


def trees():
    title("Trees drawn at random from a fixed seed: whole, cut, and with a byte changed.")
    r = random.Random(20261115)
    for _ in range(60):
        s = write_desc(some_tree(r, 4))
        decode(s + bytes(r.randrange(3)))
        decode(s[:r.randrange(len(s))])
        changed = bytearray(s)
        changed[r.randrange(len(s))] = r.randrange(256)
        decode(bytes(changed))


# The other way.

def gather(text, nodes, at=0, parent=0, depth=MAX_DEPTH):
    """(the tree with its names as places, the node after it); raises where the table is not laid out as one."""
    if depth == 0 or at >= len(nodes) // 7:
        fail(19, 3)
    tag, start, size, discriminant, predicate, count, end = nodes[at * 7:at * 7 + 7]
    if tag > 5 or (parent == 0 and (start, size) != (0, 0)):
        fail(19, 3)
    if discriminant >= WIDE if parent == 4 else discriminant != 0:
        fail(19, 3)
    if predicate >= WIDE if tag == 2 else predicate != 0:
        fail(19, 3)
    if tag not in (3, 4):
        if count != 0 or end != at + 1:
            fail(19, 3)
        return (tag, predicate, []), at + 1
    children, m = [], at + 1
    for _ in range(count):
        child, after = gather(text, nodes, m, tag, depth - 1)
        children.append((nodes[m * 7 + 1:m * 7 + 3], nodes[m * 7 + 3], child))
        m = after
    if end != m:
        fail(19, 3)
    return (tag, predicate, children), m


def named(text, tree):
    tag, predicate, children = tree
    found = []
    for (start, size), discriminant, child in children:
        if start + size > len(text):
            fail(19, 1)
        if not valid(text[start:start + size]):
            fail(4)
        found.append((text[start:start + size], discriminant, named(text, child)))
    return tag, predicate, found


def encode(text, nodes, room=None):
    try:
        x = write_desc(named(text, gather(text, nodes)[0]))
        room = len(x) if room is None else room
        if room < len(x):
            fail(16, 5, len(x))
        answer = words("wrote", len(x), "out", x.ljust(room, b"\0"))
    except Refused as e:
        room = 3 if room is None else room
        answer = words(e.args[0], "out", b"\xa5" * room)
    print(words("encode_desc", text, room, *nodes), "=", answer)


def tables():
    title("Tables as decoding leaves them; out just fits, is longer, or short by one.")
    r = random.Random(7)
    for _ in range(40):
        tree = some_tree(r, 4)
        text, nodes = lay_out(tree)
        encode(text, flat(nodes))
        encode(text + b"zz", flat(nodes) + [9] * r.randrange(9), len(write_desc(tree)) + r.randrange(4))
        encode(text, flat(nodes), len(write_desc(tree)) - 1)
    title("Texts that overlap, stand in another order, and lie past the end or are not UTF-8.")
    two = lambda a, b: [3, 0, 0, 0, 0, 2, 3, 0, *a, 0, 0, 0, 2, 1, *b, 0, 0, 0, 3]
    text = b"abc\xc3\xa9"
    for a in ((0, 1), (1, 2), (0, 3), (3, 2), (0, 5), (5, 0), (6, 0), (5, 1), (0, 6), (3, 1), (4, 1), (TOP, 1), (1, TOP), (TOP, TOP)):
        encode(text, two(a, (0, 1)))
        encode(text, two((0, 3), a))
    encode(text, two((6, 0), (4, 1)))
    encode(text, two((4, 1), (6, 0)))
    encode(b"", two((0, 0), (0, 0)))
    title("Tables that are not laid out so: each number of each node changed, and each cut.")
    good = [4, 0, 0, 0, 0, 2, 4, 3, 0, 1, 7, 0, 1, 3, 2, 1, 1, 0, 9, 0, 3, 5, 2, 1, 8, 0, 0, 4]
    encode(b"xyz", good)
    for i in range(len(good)):
        for n in (good[i] + 1, 6, WIDE - 1, WIDE, TOP):
            encode(b"xyz", good[:i] + [n] + good[i + 1:])
    for i in range(0, len(good)):
        encode(b"xyz", good[:i])
    title("Depth in a table, and a fault of the layout behind a bad text.")
    for levels in (1, 62, 63, 64):
        tree = (0, 0, [])
        for _ in range(levels):
            tree = (3, 0, [(b"", 0, tree)])
        text, nodes = lay_out(tree)
        encode(text, flat(nodes))
    encode(b"\xff", two((0, 1), (0, 1))[:-1] + [4])
    encode(b"\xff", two((0, 1), (0, 1)))


if __name__ == "__main__":
    print("# Made by make_desc.py: each request of the crate `desc`, and its answer.")
    leaves()
    branches()
    buffers()
    trees()
    tables()
