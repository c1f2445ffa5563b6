#!/usr/bin/env python3
"""When the k-th shuffle is due (document 02, S-11), calculated in exact integers from document 01's delay rule alone.

usage: tools/make/shuffle_times.py make      writes crates/run_shuffles/stdin and stdout: questions, and both ends of each; and the
                                        README's picture of the first five, docs/shuffles.svg
       tools/make/shuffle_times.py check     fails where they are not what make would write
       tools/make/shuffle_times.py oracle    holds run_shuffles (`rt run` in its crate) against the Rust, run as a station (oracle/README.md)
"""
import itertools
import random
import struct
import sys
from pathlib import Path

sys.path.insert(0, str(Path(__file__).resolve().parents[1]))

import records
import timeline
import tool

PROGRAM = tool.program("run_shuffles")

# The settings in their order, with their defaults and ranges (document 01, "Settings and station rules").
DEFAULTS = (5, 30, 6, 3, 6, 3, 4, 60000, 3000)
RANGES = ((1, 8), (1, 32), (0, 65535), (0, 65535), (0, 65535), (0, 8), (0, 23), (1, 3600000), (1, 3600000))
INTERVAL = 7
FIRST_INTERVAL, MOST_SHUFFLES, LATEST_START = 1000, 1000, 2**63
LOWEST_DRAW, HIGHEST_DRAW = 0, 2**32 - 1
# A draw that no choice passes over (document 02, S-6), and whose delays are those of the highest of all.
KEPT_DRAW = 2**32 - 33
INTERVALS = (1, 2, 3, 4, 5, 999, 1000, 1001, 1999, 2000, 2001, 3600000)


def delay(interval, draw):
    return interval * (3 * 2**31 + draw) // 2**33


def due(start, top, k, draw):
    """The k-th due time where every draw is the same."""
    interval = min(FIRST_INTERVAL, top)
    for _ in range(k):
        start += delay(interval, draw)
        interval = min(2 * interval, top)
    return start


def ends(earliest, latest, settings, k):
    sound = all(low <= value <= high for value, (low, high) in zip(settings, RANGES))
    if earliest > latest or latest > LATEST_START or not 1 <= k <= MOST_SHUFFLES or not sound:
        return 0, 0
    top = settings[INTERVAL]
    return due(earliest, top, k, LOWEST_DRAW), due(latest, top, k, HIGHEST_DRAW)


def with_setting(place, value):
    return DEFAULTS[:place] + (value,) + DEFAULTS[place + 1 :]


def questions():
    """Earliest start, latest start, settings, k."""
    ks = (0, 1, 2, 3, 999, 1000, 1001)
    top = LATEST_START
    starts = ((0, 0), (7, 5000), (0, top), (top, top), (top + 1, top + 1), (1, 0))
    for interval, (earliest, latest), k in itertools.product(INTERVALS, starts, ks):
        yield earliest, latest, with_setting(INTERVAL, interval), k
    for earliest, latest in starts + ((top - 1, top), (top, top + 1), (0, top + 1), (top, top - 1), (top + 1, top), (0, 2**64 - 1), (2**64 - 1, 0), (2**64 - 1, 2**64 - 1)):
        for k in ks + (4, 8, 2**32 - 1):
            yield earliest, latest, DEFAULTS, k
    for place, (low, high) in enumerate(RANGES):
        for value in sorted({max(low - 1, 0), low, high, high + 1, 2**32 - 1}):
            yield 0, 5000, with_setting(place, value), 3


def packed(question):
    earliest, latest, settings, k = question
    return struct.pack("<QQ10I", earliest, latest, *settings, k)


def line(question):
    return "{} {}\n".format(*ends(*question))


# The README's: from when to when the first event comes, and how many shuffles are shown.
SHOWN_START, SHOWN = (0, 5000), 5


def files():
    asked = list(questions())
    shown = [ends(*SHOWN_START, DEFAULTS, k) for k in range(1, SHOWN + 1)]
    return {
        "docs/shuffles.svg": timeline.drawn(SHOWN_START, shown).encode("ascii"),
        "crates/run_shuffles/stdin": b"".join(map(packed, asked)),
        "crates/run_shuffles/stdout": "".join(map(line, asked)).encode("ascii"),
    }


def event(kind, message=0, flags=0, peer=0, nodes=()):
    return records.make(kind, message, flags, peer, nodes=[(node, None) for node in nodes])


# Histories by name: the first event, what goes before each shuffle timer, how many shuffles, how many draws, and a draw of the longest
# delays. The second has three neighbours and passive peers, so that it also chooses by draws, and other events between the timers.
JOIN, SHUFFLE, MAINTENANCE, QUIT = event(6, peer=7), event(1), event(2), event(8)
NEIGHBOURS = [event(0, 4, flags=1, peer=peer, nodes=(0,)) for peer in (7, 8, 9)]
REPLY = event(0, 3, peer=8, nodes=(20, 21, 22, 23))
HISTORIES = {
    "alone": ([QUIT], [], 1000, 1000, HIGHEST_DRAW),
    "with neighbours": ([JOIN, *NEIGHBOURS, REPLY], [MAINTENANCE, REPLY], 150, 6000, KEPT_DRAW),
}


def delays_of(interval, events, draws):
    """The delays of the shuffle timers that the Rust asks for."""
    given = records.whole(1, with_setting(INTERVAL, interval), events, draws)
    found = []
    for text in tool.oracle("station", input=given).decode().splitlines():
        words = text.split(" ")
        if words[0] == "=" and words[1] != "0":
            tool.fail(f"the Rust refused an event with code {words[1]}")
        if words[0] != "=" and words[1] == "1":
            found.append(int(words[4]))
    return found


def oracle():
    rng, met, runs = random.Random(11), 0, 0
    for interval, (name, (first, between, count, drawn, highest)) in itertools.product(INTERVALS + (DEFAULTS[INTERVAL],), HISTORIES.items()):
        events = first + [one for _ in range(count - 1) for one in between + [SHUFFLE]]
        asked = b"".join(packed((0, 0, with_setting(INTERVAL, interval), k)) for k in range(1, count + 1))
        both = [tuple(map(int, text.split(" "))) for text in tool.run([PROGRAM], input=asked).decode().splitlines()]
        lists = {"lowest": [LOWEST_DRAW] * drawn, "highest": [highest] * drawn}
        lists.update({f"random {i}": [rng.getrandbits(32) for _ in range(drawn)] for i in range(3)})
        for kind, draws in lists.items():
            times = list(itertools.accumulate(delays_of(interval, events, draws)))
            if len(times) != count:
                tool.fail(f"interval {interval}, {name}: {len(times)} shuffle timers, not {count}")
            for k, (time, (low, high)) in enumerate(zip(times, both), 1):
                wanted = {"lowest": time == low, "highest": time == high}.get(kind, low <= time <= high)
                if not wanted:
                    tool.fail(f"interval {interval}, {name}, draws {kind}: shuffle {k} is due at {time}, the ends are {low} and {high}")
                met += 1
            runs += 1
    print(f"{met} due times of {runs} histories of the Rust: all within the ends, and the ends met by the lowest and the highest draws")


def main():
    if sys.argv[1:] in (["make"], ["check"]):
        tool.made(files(), sys.argv[1])
    elif sys.argv[1:] == ["oracle"]:
        oracle()
    else:
        tool.usage(__doc__)


tool.main(main)
