#!/usr/bin/env python3
"""Writes session.bin: a kind table and a ward's morning as frames; python3 make_session.py

The payloads are written by the reader and writer of messages that make the recorded bytes (crates/vectors/data/make_messages.py)."""
import pathlib
import sys

HERE = pathlib.Path(__file__).parent
sys.path.insert(0, str(HERE.parent / "crates/vectors/data"))
from make_messages import write  # noqa: E402

# Both directions of a session in one table. `G` is what a client sends, a query by pages; a server's `G` opens a copy and would be opaque.
KINDS = {"S": 1, "R": 2, "E": 3, "C": 4, "i": 5, "y": 6, "L": 7, "M": 8, "p": 9, "G": 10, "F": 11, "l": 12}

INT, STRING = (0, 0, []), (1, 0, [])
DOSE = (3, 0, [(b"drug", 0, (2, 7, [])), (b"amount", 0, INT), (b"unit", 0, STRING)])
ROUTE = (4, 0, [(b"oral", 0, (5, 0, [])), (b"line", 1, INT)])
DRUG, ORDER = 7 << 40, 9 << 40

MORNING = [
    ("S", 0, write(1, (4, b"ward-7", 1, 0x9E3779B97F4A7C15, [(b"pharmacy.Drug", 11), (b"ward.Order", 12)]))),
    ("R", 0, write(2, (4, 0x9E3779B97F4A7C15, 3))),
    ("Y", 1, b""),
    ("y", 1, write(6, ([(7, b"pharmacy.Drug", 0, STRING, None), (9, b"ward.Order", 0, DOSE, ROUTE), (12, b"fjord.db.List", 1, STRING, INT)],))),
    ("G", 2, write(10, (50, b"", b"O where O = ward.Order { drug: pharmacy.Drug \"Morphine sulfate\" }"))),
    ("l", 2, write(12, (12, 0xC0FFEE))),
    ("D", 2, b"\x10Morphine sulfate"),
    ("C", 2, write(4, (1, 50))),
    ("F", 3, write(11, (0xC0FFEE, [DRUG + 1, DRUG + 2, ORDER + 40]))),
    ("D", 3, b"\x07Insulin"),
    ("i", 4, write(5, ([DRUG + 3, ORDER + 41],))),
    ("p", 5, write(9, ([(b"scan ward.Order", 1200, 1), (b"lookup pharmacy.Drug", 3, 0)],))),
    ("L", 6, write(7, (2, b"ward-7-night", 1, b""))),
    ("M", 6, write(8, (2, 77, 1200, 65536, 0))),
    ("E", 7, write(3, (9, b"The database \"ward-7\" is in use."))),
    ("R", 8, b"\x04\x00"),
    ("C", 5, write(4, (2, 0))),
]


def framed(kind, stream, payload):
    return kind.encode() + stream.to_bytes(4, "little") + len(payload).to_bytes(4, "little") + payload


def session():
    table = bytearray(256)
    for kind, message in KINDS.items():
        table[ord(kind)] = message
    cut_off = framed("E", 9, write(3, (8, b"The connection ends here.")))[:20]
    return bytes(table) + b"".join(framed(*frame) for frame in MORNING) + cut_off


if __name__ == "__main__":
    (HERE / "session.bin").write_bytes(session())
