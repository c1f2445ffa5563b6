#!/usr/bin/env python3
"""Records, sound and damaged, and what a reader must answer to each, by tools/records.py, which is written from the documents alone.

usage: tools/make/record_vectors.py make | check

The files are crates/test_record/stdin (each record with two bytes for its length in front) and crates/test_record/stdout,
which tests/records.c is held to as well; tests/own.txt, the records of a new station with own data, for tests/calls.c; and
tests/station.in with tests/station.out, what the station of examples/ is run on and must print; tests/refused.in with
tests/refused.out, the same where tests/refusing.c has calls refused.
"""
import struct
import sys
from pathlib import Path

sys.path.insert(0, str(Path(__file__).resolve().parents[1]))

import tool
from records import NEW, event_code, make, read

HEADER, NODE, LENGTH = NEW.header.size, NEW.node.size, NEW.length_at
TOP = 2**64 - 1
# the far neighbour of the station in examples/, which has the lower half of its other one, 7
FAR = 2**32 + 7


def line(b):
    found = read(b)
    words = []
    if found is None:
        words.append("malformed")
    else:
        words.append("record")
        words += [str(x) for x in found[0]]
        for ident, present, data in found[1]:
            words += ["node", str(ident), str(present), str(len(data))] + [str(x) for x in data]
    return " ".join(words + ["code", str(event_code(b))]) + "\n"


def sound():
    """One record of each kind and message, and the shapes of nodes."""
    three = [(5, b"abc"), (6, None), (TOP, b"")]
    yield make(0, 0, peer=7, nodes=[(0, None)])
    yield make(0, 0, peer=7, nodes=[(0, b"")])
    yield make(0, 1, peer=8, ttl=6, nodes=[(9, b"xy")])
    yield make(0, 2, peer=TOP, second=11, ttl=65535, nodes=three)
    yield make(0, 2, peer=2**32 - 1, second=TOP, nodes=[(2**32 + 5, b"h"), (5, b"l")])
    yield make(0, 2, peer=0, second=0, ttl=0)
    yield make(0, 3, peer=12, nodes=three[:2])
    yield make(0, 3, peer=12)
    yield make(0, 4, flags=1, peer=13, nodes=[(0, b"q")])
    yield make(0, 4, flags=0, peer=13, nodes=[(0, None)])
    for flags in range(4):
        yield make(0, 5, flags=flags, peer=14)
    for kind in (1, 2):
        yield make(kind)
        yield make(kind, second=750)
    yield make(1, second=2**32)
    for kind in (3, 4):
        yield make(kind, peer=15, number=TOP)
        yield make(kind, peer=15, number=1, second=10000)
    for kind in (5, 6, 9, 10, 12, 13):
        yield make(kind, peer=2**32 + 16)
    yield make(8)
    yield make(7, nodes=[(0, b"")])
    yield make(7, nodes=[(0, bytes(range(240, 256)))])
    yield make(11, peer=17, nodes=[(0, b"data")])


# the places and widths of the fields of a header and of a node
FIELDS = [(0, 1), (1, 1), (2, 1), (3, 1), (4, 8), (12, 8), (20, 2), (22, 2), (24, 8)]
NODE_FIELDS = [(0, 8), (8, 2), (10, 1), (11, 1)]


def off(b, at, width, by):
    """The number of that width at that place, one off."""
    value = (int.from_bytes(b[at:at + width], "little") + by) % 256 ** width
    return b[:at] + value.to_bytes(width, "little") + b[at + width:]


def damaged(b):
    places = list(FIELDS)
    for i in range((min(len(b), HEADER + NODE * b[3]) - HEADER) // NODE):
        places += [(HEADER + NODE * i + at, width) for at, width in NODE_FIELDS]
    for at, width in places:
        # a number of 64 bits in its upper half alone too
        for by in (1, -1, 2**32)[: 3 if width == 8 else 2]:
            yield off(b, at, width, by)
    yield b[:-1]
    yield b + b"\0"
    yield off(b[:-1], LENGTH, 2, -1)
    yield off(b + b"\0", LENGTH, 2, 1)


def special():
    full = [(i, bytes([i]) * 16) for i in range(32)]
    yield make(0, 2, peer=1, second=2, ttl=3, nodes=full)
    yield make(0, 3, peer=1, nodes=full + [(32, None)])
    yield make(0, 3, peer=1, nodes=[(i, None) for i in range(32)])
    yield make(0, 2, peer=1, nodes=[(i, None) for i in range(33)])
    yield make(0, 3, peer=1, nodes=[(1, b"s" * 17)])
    yield make(0, 1, peer=1, nodes=[(1, b"s" * 16)])
    yield make(7, nodes=[(0, b"s" * 17)])
    yield make(7, nodes=[(0, None)])
    yield make(11, peer=3, nodes=[(0, None)])
    yield make(11, peer=3, nodes=[(1, b"a")])
    # the places of the first and the second node's offset, and of the data of two nodes
    offset, second, data = HEADER + 8, HEADER + NODE + 8, HEADER + 2 * NODE
    two = make(0, 3, peer=1, nodes=[(1, b"ab"), (2, b"cd")])
    gap = off(off(two, second, 2, 1), LENGTH, 2, 1)
    yield gap[: data + 2] + b"\0" + gap[data + 2 :]
    first = off(off(off(two, offset, 2, 1), second, 2, 1), LENGTH, 2, 1)
    yield first[:data] + b"\0" + first[data:]
    yield two[:offset] + two[second : second + 2] + two[offset + 2 : second] + two[offset : offset + 2] + two[second + 2 :]
    empty = make(0, 3, peer=1, nodes=[(1, b""), (2, b"cd")])
    yield empty
    yield empty[:offset] + b"\0\0" + empty[offset + 2 :]
    for present in (2, 0):
        yield empty[: offset + 3] + bytes([present]) + empty[offset + 4 :]
    for kind in range(14, 256):
        yield make(kind)
    for count in (32, 33, 255):
        for kind in (0, 5, 13, 255):
            yield make(kind)[:3] + bytes([count]) + make(kind)[4:]
    for length in range(HEADER):
        yield make(8)[:length]
        yield (make(8)[:3] + b"\x21" + make(8)[4:])[:length]


def delay(interval, draw):
    """A shuffle's delay."""
    return interval * (3 * 2 ** 31 + draw) // 2 ** 33


def own_rows():
    """New stations: whether own data is present, its bytes, the code of `new`, and what RequestJoin 7 brings about."""
    for present, own in [(0, b""), (0, b"a" * 17)] + [(1, bytes(range(200, 200 + n))) for n in (*range(18), 56)] + [(255, b"\0\0")]:
        fits = present == 0 or len(own) <= 16
        join = make(0, 0, peer=7, nodes=[(0, own if present else None)]) if fits else b""
        timers = make(4, peer=7, second=10000) + make(1, second=delay(1000, 0)) + make(2, second=5000)
        yield f"{present} x{own.hex()} {0 if fits else 1} x{(join + timers).hex() if fits else ''}\n"


def drawn(n):
    """The n-th random number of the station in examples/, from 1 on."""
    last = 1
    for _ in range(n):
        last = (last * 1664525 + 1013904223) % 2**32
    return last


def station():
    """The events of the station in examples/, each with the lines that it prints; self is 1, the settings the usual ones."""
    full = [(100 + i, bytes([i]) * 16) for i in range(32)]
    yield make(6, peer=7), 0, [
        f"send message 0 to 7: {HEADER + NODE} bytes",
        "start timer 4 for 7, number 0, in 10000 ms",
        f"start timer 1 for 0, number 0, in {delay(1000, drawn(1))} ms",
        "start timer 2 for 0, number 0, in 5000 ms",
    ]
    yield make(0, 4, flags=1, peer=7, nodes=[(0, b"at 7")]), 0, [
        "tell kind 11 of 7",
        "tell kind 9 of 7",
        f"send message 4 to 7: {HEADER + NODE} bytes",
        "start timer 3 for 7, number 0, in 3000 ms",
    ]
    yield make(0, 4, flags=1, peer=FAR, nodes=[(0, None)]), 0, [
        f"tell kind 9 of {FAR}",
        f"send message 4 to {FAR}: {HEADER + NODE} bytes",
        f"start timer 3 for {FAR}, number 1, in 3000 ms",
    ]
    # the longest record goes on to the one neighbor that is neither its sender nor its origin
    yield make(0, 2, peer=7, second=9, ttl=3, nodes=full), 0, [f"send message 2 to {FAR}: {HEADER + 32 * (NODE + 16)} bytes"]
    yield make(5, peer=7), 0, ["tell kind 10 of 7"]
    yield make(9, peer=7), 3, []
    yield make(8)[: HEADER - 1], 3, []


def refused():
    """Events of which calls are refused as tests/refusing.c says: the first for want of draws, of which 512 are drawn anew; a shuffle timer
    for want of output, which is brought again; and that three times for want of draws."""
    shuffle, again = make(1), "start timer 1 for 0, number 0, in 1000 ms"
    yield make(6, peer=7), 0, [
        f"send message 0 to 7: {HEADER + NODE} bytes",
        "start timer 4 for 7, number 0, in 10000 ms",
        f"start timer 1 for 0, number 0, in {delay(1000, drawn(513))} ms",
        "start timer 2 for 0, number 0, in 5000 ms",
    ]
    yield shuffle, 9, [again]
    yield shuffle, 0, [f"start timer 1 for 0, number 0, in {delay(2000, drawn(1025))} ms"]
    yield shuffle, 5, [again]
    # by the first of the third 512 drawn anew
    yield shuffle, 0, [f"start timer 1 for 0, number 0, in {delay(4000, drawn(1026 + 2 * 512 + 1))} ms"]


def station_files(name, events, neighbours):
    """What a station is run on, and what it must print."""
    lines = []
    for event, answered, told in events:
        lines += [f"event of {len(event)} bytes: code {answered}", *told]
    lines.append(f"{neighbours} neighbours, 0 spare addresses")
    given = b"".join(event for event, _, _ in events)
    return {f"tests/{name}.in": given, f"tests/{name}.out": "".join(one + "\n" for one in lines).encode()}


def files():
    records = []
    for b in sound():
        records.append(b)
        records += damaged(b)
    records += special()
    stored = b"".join(struct.pack("<H", len(b)) + b for b in records)
    assert len(stored) <= 65536, len(stored)
    return {
        "crates/test_record/stdin": stored,
        "crates/test_record/stdout": "".join(line(b) for b in records).encode(),
        "tests/own.txt": "".join(own_rows()).encode(),
        **station_files("station", list(station()), 1),
        **station_files("refused", list(refused()), 0),
    }


def main():
    if sys.argv[1:] not in (["make"], ["check"]):
        tool.usage(__doc__)
    tool.made(files(), sys.argv[1])


tool.main(main)
