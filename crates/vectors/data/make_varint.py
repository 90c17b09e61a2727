#!/usr/bin/env python3
"""Writes varint.txt: python3 make_varint.py > varint.txt

The answers come from Python's own integers, slices and strict UTF-8 decoder, by the rules of document 01 ("Varints and texts");
nothing here follows the library's code. What is taken from elsewhere is named where it stands."""

TOP = 2**64 - 1


def words(*parts):
    """Numbers in decimal, bytes in hexadecimal, `-` for no bytes."""
    return " ".join((p.hex() or "-") if isinstance(p, bytes) else str(p) for p in parts)


def line(*request, answer):
    print(words(*request), "=", answer)


def title(text):
    print("\n# " + text)


def refused(number, a=0, b=0):
    return words("refused", number, a, b)


# Varints.

def leb(n):
    """The binary digits of n in groups of seven, the least first, each but the last with the top bit."""
    digits = format(n, "b")
    digits = digits.zfill(-(-len(digits) // 7) * 7)
    groups = [int(digits[i:i + 7], 2) for i in range(0, len(digits), 7)][::-1]
    return bytes(g | 128 for g in groups[:-1]) + bytes(groups[-1:])


def read(s, at):
    """(value, next), or the refusal."""
    part = s[at:at + 10]
    last = next((i for i, b in enumerate(part) if b < 128), None)
    if last is None:
        return refused(2 if len(part) == 10 else 1)
    value = sum(b % 128 << 7 * i for i, b in enumerate(part[:last + 1]))
    if value > TOP:
        return refused(2)
    if last > 0 and part[last] == 0:
        return refused(3)
    return value, at + last + 1


def zig(v):
    return 2 * v if v >= 0 else -2 * v - 1


def unzig(u):
    return u // 2 if u % 2 == 0 else -(u // 2) - 1


def value_next(r):
    return r if isinstance(r, str) else words("value", r[0], "next", r[1])


def get_u64(s, at=0):
    line("get_u64", at, s, answer=value_next(read(s, at)))


def get_i64(s, at=0):
    r = read(s, at)
    line("get_i64", at, s, answer=value_next(r if isinstance(r, str) else (unzig(r[0]), r[1])))


def stored(out, at, x):
    """x over out from place `at` on, as far as out goes."""
    end = min(at + len(x), len(out))
    return out if at > len(out) else out[:at] + x[:end - at] + out[end:]


def untouched(n):
    return b"\xa5" * n


def encode_u64(n, room):
    x = leb(n)
    if room < len(x):
        line("encode_u64", n, room, answer=words(refused(16, 5, len(x)), "out", untouched(room)))
    else:
        line("encode_u64", n, room, answer=words("wrote", len(x), "out", x.ljust(room, b"\0")))


def put(name, x, at, n, room):
    line(name, at, n, room, answer=words("length", len(x), "out", stored(untouched(room), at, x)))


def varints():
    title('Document 01, "Bytes to try".')
    for text in ["00", "8001", "8000", "ff" * 9 + "01", "ff" * 9 + "02", "80" * 9]:
        get_u64(bytes.fromhex(text))
    title("LEB128's public worked examples: the DWARF standard's table, and 624485 of Wikipedia's account.")
    for n, text in [(2, "02"), (127, "7f"), (128, "8001"), (129, "8101"), (130, "8201"), (12857, "b964"), (624485, "e58e26")]:
        x = bytes.fromhex(text)
        assert leb(n) == x
        get_u64(x)
        encode_u64(n, len(x))
        put("put_u64", x, 0, n, len(x))
        line("len_u64", n, answer=len(x))
    title("The powers of 2, and what comes before each.")
    for n in sorted({2**k for k in range(64)} | {2**k - 1 for k in range(65)}):
        get_u64(leb(n))
        encode_u64(n, len(leb(n)) + 1)
    title("Each length's first and last value: its length, and buffers that are short by one or just fit.")
    for n in [0] + [2**(7 * k) - d for k in range(1, 10) for d in (1, 0)] + [TOP]:
        line("len_u64", n, answer=len(leb(n)))
        encode_u64(n, len(leb(n)) - 1)
        encode_u64(n, len(leb(n)))
    title("Each cut of the longest varint, and each form of 0 and of 127 that is too long.")
    for k in range(10):
        get_u64(leb(TOP)[:k])
    for k in range(1, 9):
        get_u64(b"\x80" * k + b"\0")
        get_u64(b"\xff" + b"\x80" * (k - 1) + b"\0")
    title("The tenth byte, with and without one after it.")
    for nine in (b"\x80" * 9, b"\xff" * 9):
        for tenth in (0, 1, 2, 3, 0x7e, 0x7f, 0x80, 0x81, 0x82, 0xff):
            get_u64(nine + bytes([tenth]))
            get_u64(nine + bytes([tenth, 0]))
    title("Places: inside, at the end, past it.")
    s = bytes.fromhex("ff8001e58e2605")
    for at in (*range(9), 2**32, TOP):
        get_u64(s, at)
    title("Writers at a place: inside, cut by the end, at the end, past it.")
    for n in (5, 128, 624485, TOP):
        for at in (0, 2, 11, 12, 13, TOP):
            put("put_u64", leb(n), at, n, 12)
    put("put_u64", leb(5), 0, 5, 0)


def signed():
    title("The examples in varint.rs's own account of zigzag.")
    for v, text in [(0, "00"), (1, "02"), (-1, "01"), (300, "d804"), (-2**63, "ff" * 9 + "01")]:
        s = bytes.fromhex(text)
        assert leb(zig(v)) == s
        line("zigzag", v, answer=zig(v))
        get_i64(s)
        put("put_i64", s, 1, v, 11)
    for v, u in [(0, 0), (-1, 1), (1, 2), (-2, 3)]:
        line("zigzag", v, answer=u)
        line("unzigzag", u, answer=v)
    title("The powers of 2 with either sign, and what stands beside the greatest.")
    signs = sorted({s * 2**k for k in range(63) for s in (1, -1)} | {-2**63, -2**63 + 1, 2**63 - 1, 2**63 - 2})
    for v in signs:
        line("zigzag", v, answer=zig(v))
    for u in sorted({2**k for k in range(64)} | {2**k - 1 for k in range(65)}):
        line("unzigzag", u, answer=unzig(u))
    for v in signs[::6]:
        get_i64(b"\xff" + leb(zig(v)), 1)
        put("put_i64", leb(zig(v)), 0, v, 10)
    for text in ["", "80", "8000", "ff" * 9 + "02"]:
        get_i64(bytes.fromhex(text))


# Fields of 4 and 8 bytes.

def fixed():
    s = bytes(range(0xf0, 0x100)) + b"\x78\x56\x34\x12"
    for width, name in ((4, "u32_le"), (8, "u64_le")):
        title("Little-endian fields of %d bytes." % width)
        for n in (0, 1, 0x12345678, 2**31, 2**(8 * width - 1), 2**(8 * width) - 1):
            x = n.to_bytes(width, "little")
            line("get_" + name, 1, b"\xff" + x, answer=words("value", n, "next", width + 1))
            for at in (0, 2, 9, 10, TOP):
                line("put_" + name, at, n, 10, answer=words("out", stored(untouched(10), at, x)))
        for at in (0, 7, 12, *range(13, 22), TOP - 3, TOP):
            x = s[at:at + width]
            r = (int.from_bytes(x, "little"), at + width) if len(x) == width else refused(1)
            line("get_" + name, at, s, answer=value_next(r))
        for n in range(width):
            line("get_" + name, 0, s[:n], answer=refused(1))


# UTF-8 and texts.

def valid(x):
    try:
        x.decode("utf-8", "strict")
        return True
    except UnicodeDecodeError:
        return False


def is_utf8(s, at=0, n=None):
    n = len(s) if n is None else n
    yes = at + n <= len(s) and valid(s[at:at + n])
    line("is_utf8", at, n, s, answer="yes" if yes else "no")


def text_of(name, s, at=0):
    r = read(s, at)
    if not isinstance(r, str):
        n, start = r
        left = len(s) - start
        if left < n:
            r = refused(5, n, left)
        elif valid(s[start:start + n]):
            r = words("text", start, n, "next", start + n)
        else:
            r = refused(4)
    line(name, at, s, answer=r)


RFC_3629 = ["41e289a2ce912e", "ed959ceab5adec96b4", "e697a5e69cace8aa9e", "efbbbff0a38eb4"]


def utf8():
    title("RFC 3629, section 7.")
    for text in RFC_3629:
        is_utf8(bytes.fromhex(text))
    title("ASCII, and each byte above it alone.")
    is_utf8(b"")
    is_utf8(bytes(range(128)))
    for lead in range(128, 256):
        is_utf8(bytes([lead]))
    title("First bytes with the bounds of the second's ranges, and as many tails as the first byte asks for.")
    for lead in [0x41, 0x80, 0xbf, *range(0xc0, 0x100)]:
        tails = 2 if lead >= 0xf0 else 1 if lead >= 0xe0 else 0
        for second in (0x7f, 0x80, 0x8f, 0x90, 0x9f, 0xa0, 0xbf, 0xc0):
            is_utf8(bytes([lead, second]) + b"\x80" * tails)
    title("The bounds of the third and fourth bytes.")
    for head in ("e0a0", "e180", "ecbf", "ed9f", "ee80", "efbf", "f090", "f180", "f3bf", "f48f"):
        for tail in (0x7f, 0x80, 0xbf, 0xc0):
            s = bytes.fromhex(head) + bytes([tail])
            if head < "f0":
                is_utf8(s)
            else:
                is_utf8(s + b"\xbf")
                is_utf8(s[:2] + b"\xbf" + s[2:])
    title("The first and the last character of each length and about the surrogates, and each cut of them.")
    for code in (0x7f, 0x80, 0x7ff, 0x800, 0xd7ff, 0xe000, 0xffff, 0x10000, 0x10ffff):
        s = chr(code).encode()
        for n in range(1, len(s) + 1):
            is_utf8(s[:n])
        is_utf8(s + b"a" + s)
        is_utf8(s[:-1] + b"a")
    title("Places and lengths: inside, to the end, past it.")
    s = bytes.fromhex("41c3a942")
    for at, n in [(0, 4), (1, 2), (1, 3), (2, 1), (1, 1), (4, 0), (3, 1), (3, 2), (4, 1), (5, 0), (0, 5),
                  (TOP, 0), (TOP, 2), (1, TOP), (0, TOP), (2, TOP - 1), (TOP, TOP)]:
        is_utf8(s, at, n)
    blocks()


def blocks():
    title("A byte or a character within ASCII, about the ends of blocks of 32 bytes.")
    for size in (31, 32, 33, 63, 64, 65):
        is_utf8(b"a" * size)
        for at in sorted({0, 30, 31, 32, size - 1} & set(range(size))):
            for bad in (0x80, 0xff):
                s = bytearray(b"a" * size)
                s[at] = bad
                is_utf8(bytes(s))
        for c in ("\u00e9", "\u20ac", "\U0001f600"):
            s = c.encode()
            is_utf8(b"a" * (size - 1) + s)
            is_utf8(b"a" * (size - 1) + s[:-1])
            is_utf8(b"a" * (size - len(s)) + s)
            is_utf8(b"a" * (size - len(s)) + s + b"a" * 32)
    s = b"a" * 40
    is_utf8(b"\xff" + s + b"\xff", 1, 40)
    is_utf8(b"\xff" + s + b"\xff", 1, 41)
    is_utf8(b"\xff" + s + b"\xff", 0, 41)


def texts():
    title("Texts and names: a length and its bytes; the length's refusals, then 5, then 4.")
    cases = [leb(len(s)) + s for s in map(bytes.fromhex, RFC_3629)]
    cases += [leb(200) + b"a" * 200, leb(127) + b"b" * 127]
    cases += map(bytes.fromhex, ["", "00", "0041", "026869", "02686921", "0368ff", "0268ff", "01ff", "0141ff",
                                 "80", "8000", "800041", "03e282ac", "02e282ac", "01c3a9", "04f09f98", "8101",
                                 "ff" * 9 + "0141", "ff" * 9 + "02", "ff" * 8 + "7fff", "80" * 9 + "01"])
    for s in cases:
        text_of("get_str", s)
        text_of("take_name", s)
    s = bytes.fromhex("ff026869c3a903ff")
    for at in (*range(10), TOP):
        text_of("get_str", s, at)
        text_of("take_name", s, at)


# Stores.

def stores():
    title("Stores: inside, cut by an end, past it.")
    out = bytes.fromhex("0102030405")
    for at in (0, 4, 5, TOP):
        line("store_byte", at, 255, out, answer=words("out", stored(out, at, b"\xff")))
        line("store_number", at, TOP, answer=words("numbers", *(TOP if i == at else 165 for i in range(4))))
    line("store_byte", 0, 1, b"", answer="out -")
    for at in (*range(7), TOP):
        line("clear_bytes", at, out, answer=words("out", out[:at].ljust(5, b"\0")))
        line("clear_numbers", at, answer=words("numbers", *(165 if i < at else 0 for i in range(4))))
    src = bytes.fromhex("a1a2a3a4")
    for start in (0, 1, 4, 5, TOP):
        for n in (0, 2, TOP):
            for at in (0, 3, 5, TOP):
                line("copy_bytes", start, n, at, src, out, answer=words("out", stored(out, at, src[start:start + n])))


if __name__ == "__main__":
    print("# Made by make_varint.py: each request of the crate `varint`, and its answer.")
    varints()
    signed()
    fixed()
    utf8()
    texts()
    stores()
