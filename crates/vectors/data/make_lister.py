#!/usr/bin/env python3
"""Writes lister.txt: python3 make_lister.py > lister.txt

The lines come from the reading of a whole run by the model of make_frame.py, whatever the pieces; document 01, "Display slot and the lister", says what a
line has. A newline is shown as `/`. The last run is that of examples/session.bin."""
import pathlib
import random

from make_desc import Refused
from make_frame import HEADER, MAX, Lent, first_of, framed, told
from make_messages import line, some_message, write
from make_varint import title, words

ROOM = 65536
TABLE = bytes(range(13)) + bytes(243)


def lines_of(given):
    """What the lister prints of its input."""
    if len(given) < 256:
        return ["stopped 18"]
    table, s, lines = given[:256], given[256:], []
    lent = Lent(ROOM, 8192, 8192)
    while True:
        try:
            header = first_of(s, ROOM)
        except Refused as e:
            return [*lines, "stopped " + e.args[0].split()[1]]
        if header is None:
            return [*lines, "held %d" % len(s)]
        kind, stream, length = header
        answer = told(lambda: lent.decode(table[kind], s[HEADER:HEADER + length])).split()
        lines.append("%d %d %d %s" % (*header, answer[1] if answer[0] == "refused" else 0))
        s = s[HEADER + length:]


def listed(given, *sizes):
    answer = " ".join(x + "/" for x in lines_of(given))
    for size in sizes or (len(given), 7, 1):
        line(words("list", size, given), answer)


def run(*frames, rest=b""):
    return TABLE + b"".join(framed(*f) for f in frames) + rest


def tables():
    title("Too short a table, and no run after it.")
    for n in (0, 1, 255):
        listed(bytes(n), 1, 300)
    listed(TABLE)
    title("Document 01's example.")
    listed(bytes(5) + b"\2" + bytes(250) + bytes.fromhex("050100000003000000012a00"))


def messages():
    r = random.Random(20261117)
    title("Each message, opaque payloads, and messages that are refused.")
    for entry in range(1, 13):
        payload = write(entry, some_message(r, entry))
        listed(run((entry, entry, payload)))
        listed(run((entry, 1, payload[:-1]), (entry, 2, payload)))
        listed(run((entry, 3, b"\xff" * 3)))
    listed(run((13, 1, b"\xff\xfe"), (0, 2, b""), (255, 2**32 - 1, b"a" * 300)))
    listed(run(*((k, k, write(k, some_message(r, k))) for k in range(1, 13))))


def ends():
    r = random.Random(20261118)
    payload = write(3, some_message(r, 3)) + b"tail"
    whole = framed(3, 9, payload)
    title("A frame cut off after each of its bytes, alone and after another.")
    for n in range(len(whole)):
        listed(run(rest=whole[:n]), 256 + n, 3)
        listed(run((2, 1, b""), rest=whole[:n]), 300)
    title("Empty frames.")
    listed(run((0, 0, b""), (1, 0, b""), (5, 0, b"")))
    title("Payloads that are too long for the hold, or for a frame, alone and after a frame, with bytes after them.")
    for declared in (ROOM + 1, MAX, MAX + 1, 2**32 - 1):
        for rest in (b"", b"more"):
            listed(run(rest=framed(4, 5, b"", declared) + rest))
            listed(run((4, 1, b"\1\2"), rest=framed(4, 5, b"", declared) + rest), 400, 1)
    listed(run(rest=framed(4, 5, b"abc", ROOM)))


def session():
    title("The sample session.")
    given = (pathlib.Path(__file__).parents[3] / "examples/session.bin").read_bytes()
    listed(given, len(given), 100, 1)


if __name__ == "__main__":
    print("# Made by make_lister.py: the input of the lister in pieces of a length, and what it prints.")
    tables()
    messages()
    ends()
    session()
