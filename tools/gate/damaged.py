#!/usr/bin/env python3
"""Damaged states: which of them break a station rule of document 01, or those of 02's S-5 and S-14?

usage: tools/gate/damaged.py make FOLDER                 writes FOLDER/stdin and FOLDER/stdout
       tools/gate/damaged.py check FOLDER                fails where they are not what make would write
       tools/gate/damaged.py show FOLDER LINE COLUMN     the case behind a character of stdout, both from 1
       tools/gate/damaged.py states                      chooses oracle/sample/words.txt anew (tools/study/differential builds the oracle)

The station rules stand below as one function each, written from document 01, "Settings and station rules", and from 02,
S-5 and S-14, over the 559 words of a state. The states of oracle/sample/words.txt are the oracle's. From each of them `make` builds states that
break one rule alone or just not, held to that by all the functions together, and damages words one by one and at random;
the functions say which answer is due.

tests/damaged.c runs them over the exported functions. Its standard input is a row of items, numbers little-endian. An item is two numbers of 2 bytes, `lent` and `count`, and `count`
patches of 10 bytes, a place (2) and a value (8), places rising. There are two kinds of items.

  lent = 65535   a base: from here on the base is 568 zeroes with these patches. The program ends the line, if one is begun.
  else           a case: a copy of the base with these patches, of which the first `lent` words (559, or at most 568) are
                 lent to `handle` three times, with 512 draws of 0 and 8,192 bytes that are not zero before each call:
                 first an event of no bytes, then DoMaintenance (32 bytes: 2 at place 0, 32 at place 22, else 0), then
                 the event of no bytes again. The program writes one character:
                   2   all three calls answer 2 and leave every word, and the queries say no
                   3   the first call answers 3 and leaves every word, the queries say what the words say, the second call
                       does not answer 2, and leaves every word unless it answers 0, the third answers 3 and leaves what
                       the second left
                   !   anything else; so too where a refusal changes the tally, uses draws, or leaves a byte of the output
                       other than 0, or a call or a query changes a word that was not lent to it to be changed

After the last item the program ends the line. Standard output has thus a line for each base, and in it a character for each
of its cases. Every valid state meets the event of no bytes with 3, for 2 comes first in 01's order.
"""
import struct
import sys
from collections import Counter
from pathlib import Path

sys.path.insert(0, str(Path(__file__).resolve().parents[1]))

import tool

STORED = tool.ROOT / "oracle" / "sample" / "words.txt"

# The layout: single words, then sections of columns with a count after them.
# The places, by tools/make/layout.py
WORDS = 559
ME = 0
OWN_PRESENT = 1
OWN_LEN = 2
ACTIVE_VIEW_CAPACITY = 3
PASSIVE_VIEW_CAPACITY = 4
ACTIVE_RANDOM_WALK_LENGTH = 5
PASSIVE_RANDOM_WALK_LENGTH = 6
SHUFFLE_RANDOM_WALK_LENGTH = 7
SHUFFLE_ACTIVE_VIEW_COUNT = 8
SHUFFLE_PASSIVE_VIEW_COUNT = 9
SHUFFLE_INTERVAL = 10
NEIGHBOR_REQUEST_TIMEOUT = 11
TIMERS_SCHEDULED = 12
NEXT_SHUFFLE_INTERVAL = 13
PASSES_ALONE = 14
PASSES_SHORT = 15
REFILL_KIND = 16
REFILL_REQUESTS = 17
NEXT_NEIGHBOR_REQUEST = 18
NEXT_JOIN = 19
OWN_LOW = 20
OWN_HIGH = 21
# The first word, the places and the columns of each section.
SECTIONS = {
    "active": (22, 8, 1),
    "passive": (31, 32, 1),
    "alive": (64, 32, 1),
    "refused": (97, 32, 1),
    "requests": (130, 32, 2),
    "bootstrap": (195, 8, 1),
    "recent": (204, 8, 1),
    "joins": (213, 8, 2),
    "data": (230, 80, 4),
    "pins": (551, 7, 1),
}
# end
ROOM = WORDS + 9
SETTINGS = ACTIVE_CAPACITY = ACTIVE_VIEW_CAPACITY
PASSIVE_CAPACITY = PASSIVE_VIEW_CAPACITY
SETTING_RANGES = [(1, 8), (1, 32), (0, 65535), (0, 65535), (0, 65535), (0, 8), (0, 23), (1, 3600000), (1, 3600000)]
# The limits on refills.
AUTOMATIC, REQUESTS, RECOVERY = 0, 1, 2
MOST_DATA = 16
TOP32, TOP64 = 2**32 - 1, 2**64 - 1
BASE = 65535
# How far a count passes its places: by one, and by what a narrower number would not hold.
OVER = (1, 256, 2**32, 2**63)


def count_place(name):
    first, places, columns = SECTIONS[name]
    return first + places * columns


def rows(w, name):
    """The entries of a section; where its count is too large, those of all its places."""
    first, places, columns = SECTIONS[name]
    used = min(w[count_place(name)], places)
    return [tuple(w[first + places * c + i] for c in range(columns)) for i in range(used)]


def peers(w, name):
    first, places, _ = SECTIONS[name]
    return w[first : first + min(w[count_place(name)], places)]


def data_bytes(low, high):
    return (low + (high << 64)).to_bytes(MOST_DATA, "little")


# --- the station rules -----------------------------------------------------------------------------------------------


def settings_in_range(w):
    return all(low <= w[SETTINGS + i] <= high for i, (low, high) in enumerate(SETTING_RANGES))


def lists_free_of_repeats(w):
    return all(len(set(peers(w, name))) == len(peers(w, name)) for name in SECTIONS)


def maps_and_sets_in_rising_order(w):
    return all(peers(w, name) == sorted(peers(w, name)) for name in ("alive", "refused", "requests", "joins", "data", "pins"))


def active_within_capacity(w):
    return w[count_place("active")] <= min(w[ACTIVE_CAPACITY], 8)


def passive_within_capacity(w):
    return w[count_place("passive")] <= min(w[PASSIVE_CAPACITY], 32)


def views_disjoint(w):
    return not set(peers(w, "active")) & set(peers(w, "passive"))


def views_without_self(w):
    return w[ME] not in peers(w, "active") and w[ME] not in peers(w, "passive")


def alive_marks_passive(w):
    return set(peers(w, "alive")) <= set(peers(w, "passive"))


def at_most_32_alive_marks(w):
    """Follows in 01 from marks being passive and free of repeats; a count can be wrong alone."""
    return w[count_place("alive")] <= 32


def at_most_8_bootstrap_peers(w):
    return w[count_place("bootstrap")] <= 8


def at_most_8_recent_peers(w):
    return w[count_place("recent")] <= 8


def pending_joins_bootstrap(w):
    return set(peers(w, "joins")) <= set(peers(w, "bootstrap"))


def pending_joins_not_active(w):
    return not set(peers(w, "joins")) & set(peers(w, "active"))


def pending_joins_not_self(w):
    return w[ME] not in peers(w, "joins")


def at_most_8_pending_joins(w):
    """Follows in 01 from joins being bootstrap peers and free of repeats; a count can be wrong alone."""
    return w[count_place("joins")] <= 8


def open_numbers_below_counters(w):
    return all(number < w[NEXT_NEIGHBOR_REQUEST] for _, number in rows(w, "requests")) and all(
        number < w[NEXT_JOIN] for _, number in rows(w, "joins")
    )


def no_data_under_self(w):
    return w[ME] not in peers(w, "data")


def data_of_known_peers(w):
    """02, S-5: of peers in a view or with an open request. A count that is too large is another rule's."""
    return w[count_place("data")] > 80 or set(peers(w, "data")) <= set(may_be_held(w))


def may_be_held(w):
    return [peer for name in ("active", "passive", "requests") for peer in peers(w, name)]


def pins_active(w):
    """02, S-14."""
    return set(peers(w, "pins")) <= set(peers(w, "active"))


def fewer_pins_than_active_capacity(w):
    """02, S-14. A capacity of 0 is another rule's."""
    return w[count_place("pins")] <= most_pins(w)


def most_pins(w):
    return min(max(w[ACTIVE_CAPACITY], 1) - 1, 7)


def at_most_32_open_requests(w):
    return w[count_place("requests")] <= 32


def at_most_32_refused_peers(w):
    return w[count_place("refused")] <= 32


def at_most_80_data_entries(w):
    return w[count_place("data")] <= 80


def held_data_at_most_16_bytes(w):
    """The station's own data too: "data is absent or 0 to 16 bytes"."""
    return w[OWN_LEN] <= MOST_DATA and all(row[1] <= MOST_DATA for row in rows(w, "data"))


def requests_at_most_3(w):
    return w[REFILL_KIND] != REQUESTS or w[REFILL_REQUESTS] <= 3


def next_interval_in_range(w):
    return 1 <= w[NEXT_SHUFFLE_INTERVAL] <= w[SHUFFLE_INTERVAL]


def pass_counts_have_32_bits(w):
    return w[PASSES_ALONE] <= TOP32 and w[PASSES_SHORT] <= TOP32


def flags_name_a_case(w):
    """Own data is absent or present, timers are scheduled or not, and a limit on refills is one of three."""
    return w[OWN_PRESENT] <= 1 and w[TIMERS_SCHEDULED] <= 1 and w[REFILL_KIND] <= RECOVERY


def unused_places_zero(w):
    """Places past a count, bytes past a length, what absent data and a limit without a number leave."""
    for name, (first, places, columns) in SECTIONS.items():
        used = min(w[count_place(name)], places)
        if any(any(w[first + places * c + used : first + places * (c + 1)]) for c in range(columns)):
            return False
    held = [row[1:] for row in rows(w, "data")] + [(w[OWN_LEN], w[OWN_LOW], w[OWN_HIGH])]
    if any(any(data_bytes(low, high)[min(size, MOST_DATA) :]) for size, low, high in held):
        return False
    return (w[OWN_PRESENT] != 0 or w[OWN_LEN] == 0) and (w[REFILL_KIND] == REQUESTS or w[REFILL_REQUESTS] == 0)


RULES = [
    settings_in_range,
    lists_free_of_repeats,
    maps_and_sets_in_rising_order,
    active_within_capacity,
    passive_within_capacity,
    views_disjoint,
    views_without_self,
    alive_marks_passive,
    at_most_32_alive_marks,
    at_most_8_bootstrap_peers,
    at_most_8_recent_peers,
    pending_joins_bootstrap,
    pending_joins_not_active,
    pending_joins_not_self,
    at_most_8_pending_joins,
    open_numbers_below_counters,
    no_data_under_self,
    data_of_known_peers,
    pins_active,
    fewer_pins_than_active_capacity,
    at_most_32_open_requests,
    at_most_32_refused_peers,
    at_most_80_data_entries,
    held_data_at_most_16_bytes,
    requests_at_most_3,
    next_interval_in_range,
    pass_counts_have_32_bits,
    flags_name_a_case,
    unused_places_zero,
]


def broken(w):
    return [rule for rule in RULES if not rule(w)]


# --- states that break one rule alone, or just not ---------------------------------------------------------------------


class State:
    """A state's words, to be changed list by list."""

    def __init__(self, words):
        self.words = list(words)

    def but(self, **lists):
        """A copy with other lists; a list longer than its places fills them and has its length as count."""
        copy = State(self.words)
        for name, entries in lists.items():
            first, places, columns = SECTIONS[name]
            entries = [entry if isinstance(entry, tuple) else (entry,) for entry in entries]
            for c in range(columns):
                column = [entry[c] for entry in entries][:places]
                copy.words[first + places * c : first + places * (c + 1)] = column + [0] * (places - len(column))
            copy.words[count_place(name)] = len(entries)
        return copy

    def put(self, *pairs):
        """A copy with other values at some places: place, value, place, value, and so on."""
        copy = State(self.words)
        for place, value in zip(pairs[::2], pairs[1::2]):
            copy.words[place] = value
        return copy

    def at(self, place):
        return self.words[place]

    def rows(self, name):
        return rows(self.words, name)

    def peers(self, name):
        return peers(self.words, name)

    def known(self):
        """All peers of the state, self first."""
        return list(dict.fromkeys([self.at(ME)] + [peer for name in SECTIONS for peer in self.peers(name)]))

    def fresh(self, n):
        """n small numbers that no list has, rising."""
        known, found, number = set(self.known()), [], 1000
        while len(found) < n:
            if number not in known:
                found.append(number)
            number += 1
        return found


def with_entry(state, name, peer):
    """The entries of a map or a set with one more, in its place; its number or data is 0 or empty."""
    columns = SECTIONS[name][2]
    return sorted(state.rows(name) + [(peer,) + (0,) * (columns - 1)])


def with_last(state, name, peer):
    """The entries of a map or a set with this peer in place of the last, in its place."""
    entries = state.rows(name)
    return sorted(entries[:-1] + [(peer,) + entries[-1][1:]])


def replaced(entries, old, new):
    return [new if entry == old else entry for entry in entries]


def asking(s, *asked):
    """A copy in which these peers have an open request, in place of others where there is no room."""
    kept = [row for row in s.rows("requests") if row[0] not in asked]
    rows = sorted(kept[: 32 - len(asked)] + [(peer, 0) for peer in asked])
    return s.put(NEXT_NEIGHBOR_REQUEST, max(1, s.at(NEXT_NEIGHBOR_REQUEST))).but(requests=rows)


def forgetting(s):
    """A copy without the data of peers that are in no view and have no open request."""
    known = may_be_held(s.words)
    return s.but(data=[row for row in s.rows("data") if row[0] in known])


def keeps_pins(w):
    return pins_active(w) and fewer_pins_than_active_capacity(w)


def unpinning(s):
    """A copy without the pins of peers that are not active, and with no more than there may be."""
    kept = [peer for peer in s.peers("pins") if peer in s.peers("active")]
    return s.but(pins=kept[: most_pins(s.words)])


def near_settings(s):
    for i, (low, high) in enumerate(SETTING_RANGES):
        place = SETTINGS + i
        yield settings_in_range, s.put(place, high + 1)
        yield settings_in_range, s.put(place, 2**63 + s.at(place))
        yield None, s.put(place, high)
        used = {ACTIVE_CAPACITY: len(s.peers("active")), PASSIVE_CAPACITY: len(s.peers("passive"))}.get(place, 0)
        if place == SHUFFLE_INTERVAL:
            # An interval of 0 breaks two rules, for the next one is then out of range too.
            used = s.at(NEXT_SHUFFLE_INTERVAL)
        yield None, s.put(place, max(low, used))
        if low > 0 and used == 0:
            yield settings_in_range, s.put(place, 0)


def near_widths(s):
    """Any number of 64 bits is a peer (02, S-8)."""
    spare = {name: [peer for peer in s.peers(name) if peer not in s.peers(other)]
             for name, other in (("passive", "alive"), ("bootstrap", "joins"))}
    known = s.known()
    for value in (TOP32, TOP32 + 1, 2**63, TOP64):
        if value in known:
            continue
        yield None, s.put(ME, value)
        for name in ("active", "recent"):
            for peer in s.peers(name)[-1:]:
                yield None, s.but(**{name: replaced(s.peers(name), peer, value)})
        for name, few in spare.items():
            for peer in few[-1:]:
                yield None, s.but(**{name: replaced(s.peers(name), peer, value)})
        for name in ("refused", "requests"):
            for last in s.rows(name)[-1:]:
                yield None, s.but(**{name: with_last(s, name, value)})
        for last in s.rows("data")[-1:]:
            yield None, asking(s, value).but(data=with_last(s, "data", value))
        for name, other in (("alive", "passive"), ("joins", "bootstrap")):
            if s.rows(name):
                last = s.rows(name)[-1]
                yield None, s.but(**{name: with_last(s, name, value), other: replaced(s.peers(other), last[0], value)})


def near_halves(s):
    """Numbers that agree in their lower half, or whose lower halves stand in another order than they."""
    low, next_ = s.fresh(2)
    far, farther = low + 2**32, low + 2**63
    if {far, farther} & set(s.known()):
        return
    for name in ("refused", "requests"):
        rows = lambda *few: [(peer, 0)[: SECTIONS[name][2]] for peer in few]
        base = s.put(NEXT_NEIGHBOR_REQUEST, max(1, s.at(NEXT_NEIGHBOR_REQUEST)))
        yield None, base.but(**{name: rows(low, far, farther)})
        yield None, base.but(**{name: rows(next_, far)})
        yield maps_and_sets_in_rising_order, base.but(**{name: rows(far, next_)})
        yield maps_and_sets_in_rising_order, base.but(**{name: rows(low, farther, far)})
        yield lists_free_of_repeats, base.but(**{name: rows(low, far, far)})
    two = s.put(ACTIVE_CAPACITY, 8, PASSIVE_CAPACITY, 32).but(active=[low, far], passive=[farther, next_], alive=[], joins=[])
    yield None, two
    yield None, two.put(ME, low + 2**40)
    yield views_without_self, two.put(ME, farther)
    yield views_disjoint, two.but(passive=[farther, far])
    yield lists_free_of_repeats, two.but(active=[far, far])
    yield None, two.but(alive=[farther])
    yield alive_marks_passive, two.but(alive=[low + 2**62])
    joining = two.put(NEXT_JOIN, max(1, s.at(NEXT_JOIN))).but(bootstrap=[next_, farther])
    yield None, joining.but(joins=[(farther, 0)])
    yield pending_joins_bootstrap, joining.but(joins=[(low + 2**62, 0)])
    yield None, two.but(requests=[], data=[(low, 0, 0, 0), (far, 0, 0, 0)])
    yield data_of_known_peers, two.but(requests=[], data=[(low, 0, 0, 0), (low + 2**62, 0, 0, 0)])


def near_repeats(s):
    for name, other in (("active", None), ("recent", None), ("passive", "alive"), ("bootstrap", "joins")):
        listed = s.peers(name)
        free = [peer for peer in listed if other is None or peer not in s.peers(other)]
        for peer in free[-1:]:
            if len(listed) > 1:
                twin = next(known for known in listed if known != peer)
                yield lists_free_of_repeats, s.but(**{name: replaced(listed, peer, twin)})
            yield None, s.but(**{name: replaced(listed, peer, s.fresh(1)[0])})
    for name in ("alive", "refused", "requests", "joins", "data", "pins"):
        entries = s.rows(name)
        for i in range(1, len(entries)):
            yield lists_free_of_repeats, s.but(**{name: entries[:i] + [entries[i - 1]] + entries[i + 1 :]})


def near_strides(s):
    """Full views of peers that agree in their low bits, which a search by marks must still tell apart."""
    known = set(s.known())
    for bits in (3, 5, 6, 7, 8, 10, 16, 20, 26, 32, 40, 57):
        spread = [peer for peer in (5 + (i << bits) for i in range(60)) if peer not in known][:40]
        active, passive = spread[:8], spread[8:]
        full = s.put(ACTIVE_CAPACITY, 8, PASSIVE_CAPACITY, 32).but(active=active, passive=passive, alive=[])
        yield None, full
        yield views_without_self, full.but(passive=passive[:-1] + [s.at(ME)])
        for i, j in ((0, 31), (30, 31)):
            yield lists_free_of_repeats, full.but(passive=passive[:j] + [passive[i]] + passive[j + 1 :])
        yield lists_free_of_repeats, full.but(active=active[:7] + active[:1])
        yield views_disjoint, full.but(passive=passive[:-1] + active[:1])
        yield views_disjoint, full.but(active=active[:-1] + passive[-1:])


def near_order(s):
    for name in SECTIONS:
        rule = None if name in ("active", "passive", "bootstrap", "recent") else maps_and_sets_in_rising_order
        entries = s.rows(name)
        for i in range(1, len(entries)):
            if i in (1, len(entries) - 1):
                yield rule, s.but(**{name: entries[: i - 1] + [entries[i], entries[i - 1]] + entries[i + 1 :]})
        if len(entries) > 2:
            yield rule, s.but(**{name: entries[-1:] + entries[1:-1] + entries[:1]})
    if s.peers("refused") and s.peers("refused")[-1] < TOP64:
        yield None, s.but(refused=s.peers("refused")[:-1] + [TOP64])


def near_capacities(s):
    for name, place, rule in (
        ("active", ACTIVE_CAPACITY, active_within_capacity),
        ("passive", PASSIVE_CAPACITY, passive_within_capacity),
    ):
        listed, most = s.peers(name), s.at(place)
        full = listed + s.fresh(most + 1 - len(listed))
        yield None, s.but(**{name: full[:most]})
        yield rule, s.but(**{name: full})
        yield None, s.put(place, max(1, len(listed)))
        if len(listed) > 1:
            yield rule, s.put(place, len(listed) - 1)
        largest = SECTIONS[name][1]
        full = listed + s.fresh(largest - len(listed))
        filled = s.but(**{name: full}).put(place, largest)
        yield None, filled
        yield from ((rule, filled.put(count_place(name), largest + more)) for more in OVER)


def near_views(s):
    active, passive = s.peers("active"), s.peers("passive")
    free = [peer for peer in passive if peer not in s.peers("alive")]
    me, other = s.at(ME), s.fresh(1)[0]
    for old in free[:1] + free[-1:]:
        yield views_without_self, s.but(passive=replaced(passive, old, me))
        for peer in active[:1] + active[-1:]:
            yield views_disjoint, s.but(passive=replaced(passive, old, peer))
    if active and len(passive) < s.at(PASSIVE_CAPACITY):
        yield views_disjoint, s.but(passive=passive + active[:1])
        yield None, s.but(passive=passive + [other])
    for old in active[:1] + active[-1:]:
        yield views_without_self, s.but(active=replaced(active, old, me))
        for peer in [peer for peer in passive if peer not in s.peers("joins")][-2:]:
            yield views_disjoint, s.but(active=replaced(active, old, peer))
    yield None, s.put(ME, other)
    for peer in active + passive:
        if peer not in s.peers("data") and peer not in s.peers("joins"):
            yield views_without_self, s.put(ME, peer)
            break


def near_alive(s):
    passive, alive = s.peers("passive"), s.peers("alive")
    if len(alive) < 32:
        for peer in s.fresh(1) + s.peers("active")[:1] + [s.at(ME)]:
            yield alive_marks_passive, s.but(alive=with_entry(s, "alive", peer))
        for peer in [peer for peer in passive if peer not in alive][:1]:
            yield None, s.but(alive=with_entry(s, "alive", peer))
    for peer in alive[:1]:
        yield alive_marks_passive, s.but(passive=replaced(passive, peer, s.fresh(1)[0]))
        yield None, s.but(alive=alive[1:])
    full = passive + s.fresh(32 - len(passive))
    marked = s.put(PASSIVE_CAPACITY, 32).but(passive=full, alive=sorted(full))
    yield None, marked
    yield from ((at_most_32_alive_marks, marked.put(count_place("alive"), 32 + more)) for more in OVER)


def near_sizes(s):
    """Full lists and lists with one more, those of views and alive marks aside."""
    for name, rule in (
        ("bootstrap", at_most_8_bootstrap_peers),
        ("recent", at_most_8_recent_peers),
        ("requests", at_most_32_open_requests),
        ("refused", at_most_32_refused_peers),
    ):
        _, places, columns = SECTIONS[name]
        entries = s.rows(name)
        full = entries + [(peer,) + (0,) * (columns - 1) for peer in s.fresh(places - len(entries))]
        if name not in ("bootstrap", "recent"):
            full.sort()
        filled = s.but(**{name: full})
        if name == "requests":
            filled = filled.put(NEXT_NEIGHBOR_REQUEST, max(1, s.at(NEXT_NEIGHBOR_REQUEST)))
        yield None, filled
        yield from ((rule, filled.put(count_place(name), places + more)) for more in OVER)
    # 80 entries are more than views and requests can name, so they are too many only by their count.
    filled = s.but(data=[(peer, 0, 0, 0) for peer in s.fresh(80)])
    yield data_of_known_peers, filled
    yield from ((at_most_80_data_entries, filled.put(count_place("data"), 80 + more)) for more in OVER)


def near_joins(s):
    me, active, bootstrap = s.at(ME), s.peers("active"), s.peers("bootstrap")
    counted = s.put(NEXT_JOIN, max(1, s.at(NEXT_JOIN)))
    if len(s.rows("joins")) < 8:
        yield pending_joins_bootstrap, counted.but(joins=with_entry(s, "joins", s.fresh(1)[0]))
        for peer in [peer for peer in bootstrap if peer not in active + s.peers("joins") + [me]][:1]:
            yield None, counted.but(joins=with_entry(s, "joins", peer))
        free = [peer for peer in bootstrap if peer not in s.peers("joins") and peer != me]
        for peer, rule in [(peer, pending_joins_not_active) for peer in active[:2]] + [(me, pending_joins_not_self)]:
            if peer in bootstrap:
                listed = bootstrap
            elif len(bootstrap) < 8:
                listed = bootstrap + [peer]
            elif free:
                listed = replaced(bootstrap, free[0], peer)
            else:
                continue
            yield None, s.but(bootstrap=listed)
            yield rule, counted.but(bootstrap=listed, joins=with_entry(s, "joins", peer))
    for peer in s.peers("joins")[:1]:
        yield pending_joins_bootstrap, s.but(bootstrap=replaced(bootstrap, peer, s.fresh(1)[0]))
        if active:
            if peer not in s.peers("passive"):
                yield pending_joins_not_active, s.but(active=[peer] + active[1:])
        if peer not in s.peers("passive") + s.peers("data"):
            yield pending_joins_not_self, s.put(ME, peer)
    full = s.fresh(8)
    joined = counted.but(bootstrap=full, joins=[(peer, 0) for peer in full])
    yield None, joined
    yield from ((at_most_8_pending_joins, joined.put(count_place("joins"), 8 + more)) for more in OVER)


def near_numbers(s):
    for name, place in (("requests", NEXT_NEIGHBOR_REQUEST), ("joins", NEXT_JOIN)):
        yield None, s.put(place, TOP64)
        entries, rule = s.rows(name), open_numbers_below_counters
        if not entries:
            continue
        largest = max(number for _, number in entries)
        yield rule, s.put(place, largest)
        yield None, s.put(place, largest + 1)
        for i in (0, len(entries) - 1):
            for counter in (s.at(place), TOP64):
                numbered = s.put(place, counter)
                for number, broke in ((counter - 1, None), (counter, rule), (TOP64, rule)):
                    changed = entries[:i] + [(entries[i][0], number)] + entries[i + 1 :]
                    yield broke, numbered.but(**{name: changed})


def near_data(s):
    entries, me = s.rows("data"), s.at(ME)
    yield no_data_under_self, asking(s, me).but(data=with_entry(s, "data", me))
    views = s.peers("active") + s.peers("passive") + s.peers("joins")
    for peer in [peer for peer in s.peers("data") if peer not in views][:1]:
        yield no_data_under_self, s.put(ME, peer)
    for i in {0, len(entries) - 1} if entries else ():
        peer, _, low, high = entries[i]
        for size in (MOST_DATA, MOST_DATA + 1, 255, 256, 2**32, TOP64):
            rule = held_data_at_most_16_bytes if size > MOST_DATA else None
            yield rule, s.but(data=entries[:i] + [(peer, size, low, high)] + entries[i + 1 :])
        for size in range(MOST_DATA + 1):
            for at, rule in ((size - 1, None), (size, unused_places_zero)):
                if 0 <= at < MOST_DATA:
                    bits = 0x80 << 8 * at
                    held = (peer, size, bits & TOP64, bits >> 64)
                    yield rule, s.but(data=entries[:i] + [held] + entries[i + 1 :])


def near_known(s):
    """Data of peers in one of the views or asked, and of peers that are elsewhere or nowhere."""
    held, known = s.peers("data"), may_be_held(s.words)
    for peer in known:
        if peer not in held and peer != s.at(ME):
            yield None, s.but(data=with_entry(s, "data", peer))
    elsewhere = [peer for name in ("refused", "bootstrap", "recent", "joins") for peer in s.peers(name)[:2]]
    for peer in elsewhere + s.fresh(1):
        if peer not in known and peer != s.at(ME):
            yield data_of_known_peers, s.but(data=with_entry(s, "data", peer))
            yield None, asking(s, peer).but(data=with_entry(s, "data", peer))
    for name in ("active", "passive", "requests"):
        for row in s.rows(name):
            if row[0] in held and known.count(row[0]) == 1 and row[0] not in s.peers("alive"):
                yield data_of_known_peers, s.but(**{name: [other for other in s.rows(name) if other != row]})


def near_pins(s):
    """All neighbours but one may have a pin; a pin of another, one too many, one twice, in another order, past the count."""
    active, capacity, pins = s.peers("active"), s.at(ACTIVE_CAPACITY), s.peers("pins")
    yield None, s.but(pins=[])
    for most in {capacity, 8}:
        full = s.put(ACTIVE_CAPACITY, most).but(active=active + s.fresh(most - len(active)))
        listed = sorted(full.peers("active"))
        filled = full.but(pins=listed[: most - 1])
        yield None, filled
        yield None, full.but(pins=listed[1:])
        yield from ((fewer_pins_than_active_capacity, filled.put(count_place("pins"), 7 + more)) for more in OVER if most == 8)
        if most < 8:
            yield fewer_pins_than_active_capacity, full.but(pins=listed)
        if most > 1:
            for peer in s.fresh(1) + s.peers("passive")[:1] + s.peers("recent")[:1] + [s.at(ME), TOP64]:
                if peer not in listed:
                    yield pins_active, full.but(pins=sorted(listed[: most - 2] + [peer]))
        if most > 2:
            yield lists_free_of_repeats, full.but(pins=listed[: most - 2] + listed[most - 3 : most - 2])
            yield lists_free_of_repeats, full.but(pins=listed[:1] * 2)
            yield maps_and_sets_in_rising_order, full.but(pins=listed[1:2] + listed[:1])
            yield maps_and_sets_in_rising_order, full.but(pins=listed[most - 1 : 0 : -1])
    roomy = s.put(ACTIVE_CAPACITY, 8)
    for peer in active[:1] + active[-1:]:
        yield None, roomy.but(pins=[peer])
        yield unused_places_zero, roomy.but(pins=[peer]).put(count_place("pins"), 0) if peer else roomy.but(pins=[]).put(count_place("pins") - 1, 1)
        yield pins_active, roomy.but(active=replaced(active, peer, s.fresh(1)[0]), pins=[peer])
    # A count raised over a place of 0 pins peer 0.
    yield None if 0 in active else pins_active, roomy.but(pins=[]).put(count_place("pins"), 1)
    low, next_ = s.fresh(2)
    far = low + 2**32
    if far not in s.known():
        two = roomy.but(active=[far, low, next_])
        yield None, two.but(pins=[low, far])
        yield None, two.but(pins=[next_, far])
        yield maps_and_sets_in_rising_order, two.but(pins=[far, next_])
        yield pins_active, two.but(pins=[low, low + 2**62])


def near_own_data(s):
    for size in (0, 1, 8, 9, MOST_DATA, MOST_DATA + 1, 256, TOP64):
        bits = (1 << 8 * min(size, MOST_DATA)) - 1
        own = s.put(OWN_PRESENT, 1, OWN_LEN, size, OWN_LOW, bits & TOP64, OWN_HIGH, bits >> 64)
        yield held_data_at_most_16_bytes if size > MOST_DATA else None, own
        if size < MOST_DATA:
            more = bits + (1 << 8 * size)
            yield unused_places_zero, own.put(OWN_LOW, more & TOP64, OWN_HIGH, more >> 64)
    absent = s.put(OWN_PRESENT, 0, OWN_LEN, 0, OWN_LOW, 0, OWN_HIGH, 0)
    yield None, absent
    for place in (OWN_LEN, OWN_LOW, OWN_HIGH):
        yield unused_places_zero, absent.put(place, 1)


def near_flags(s):
    for value, rule in ((0, None), (1, None), (2, flags_name_a_case), (256, flags_name_a_case), (TOP64, flags_name_a_case)):
        yield rule, s.put(TIMERS_SCHEDULED, value)
    for value in (2, 257, TOP64):
        yield flags_name_a_case, s.put(OWN_PRESENT, value)
    for kind in (AUTOMATIC, RECOVERY):
        yield None, s.put(REFILL_KIND, kind, REFILL_REQUESTS, 0)
        yield unused_places_zero, s.put(REFILL_KIND, kind, REFILL_REQUESTS, 1)
    for left in (0, 3):
        yield None, s.put(REFILL_KIND, REQUESTS, REFILL_REQUESTS, left)
    for left in (4, 256, TOP64):
        yield requests_at_most_3, s.put(REFILL_KIND, REQUESTS, REFILL_REQUESTS, left)
    for kind in (RECOVERY + 1, 257, TOP64):
        yield flags_name_a_case, s.put(REFILL_KIND, kind, REFILL_REQUESTS, 0)


def near_counters(s):
    interval, following = s.at(SHUFFLE_INTERVAL), s.at(NEXT_SHUFFLE_INTERVAL)
    for value in (1, interval):
        yield None, s.put(NEXT_SHUFFLE_INTERVAL, value)
    for value in (0, interval + 1, TOP64):
        yield next_interval_in_range, s.put(NEXT_SHUFFLE_INTERVAL, value)
    yield None, s.put(SHUFFLE_INTERVAL, following)
    if following > 1:
        yield next_interval_in_range, s.put(SHUFFLE_INTERVAL, following - 1)
    for place in (PASSES_ALONE, PASSES_SHORT):
        yield None, s.put(place, TOP32)
        for value in (TOP32 + 1, 2**63, TOP64):
            yield pass_counts_have_32_bits, s.put(place, value)


def near_unused(s):
    for name, (first, places, columns) in SECTIONS.items():
        used = len(s.rows(name))
        for column in range(columns):
            for i in {used, places - 1} if used < places else ():
                yield unused_places_zero, s.put(first + places * column + i, 1)
                yield unused_places_zero, s.put(first + places * column + i, 2**63)
    # A count raised over a place of 0 brings in peer 0, which the list may have once.
    for name in ("bootstrap", "recent"):
        if len(s.peers(name)) < 8:
            rule = lists_free_of_repeats if 0 in s.peers(name) else None
            yield rule, s.put(count_place(name), len(s.peers(name)) + 1)
    # A count lowered leaves an unused place, whose zero is no fault.
    if s.peers("recent"):
        rule = unused_places_zero if s.peers("recent")[-1] else None
        yield rule, s.put(count_place("recent"), len(s.peers("recent")) - 1)


NEAR = [
    near_settings,
    near_widths,
    near_halves,
    near_repeats,
    near_order,
    near_capacities,
    near_views,
    near_alive,
    near_sizes,
    near_joins,
    near_numbers,
    near_data,
    near_known,
    near_pins,
    near_own_data,
    near_flags,
    near_counters,
    near_unused,
]


def boundary(state, nears):
    """The states of some near_ functions, each held to breaking the named rule alone, or none."""
    for near in nears:
        for rule, changed in near(state):
            if rule is not data_of_known_peers and not data_of_known_peers(changed.words):
                changed = forgetting(changed)
            if rule not in (pins_active, fewer_pins_than_active_capacity) and not keeps_pins(changed.words):
                changed = unpinning(changed)
            found = broken(changed.words)
            if found != ([rule] if rule else []):
                named = rule.__name__ if rule else "no rule"
                tool.fail(f"{near.__name__}: meant {named}, breaks {[one.__name__ for one in found]}")
            yield rule, changed.words


# --- damage without a plan ---------------------------------------------------------------------------------------------


class Source:
    """SplitMix64: the same numbers on every machine."""

    def __init__(self, seed):
        self.state = seed

    def next(self):
        self.state = (self.state + 0x9E3779B97F4A7C15) & TOP64
        z = self.state
        z = ((z ^ (z >> 30)) * 0xBF58476D1CE4E5B9) & TOP64
        z = ((z ^ (z >> 27)) * 0x94D049BB133111EB) & TOP64
        return z ^ (z >> 31)

    def below(self, n):
        return self.next() % n

    def one_of(self, items):
        return items[self.below(len(items))]


def damages(w, place, source):
    """Other values for one word: one more, one less, 0, its top bits turned, and a peer's number."""
    old = w[place]
    others = [(old + 1) & TOP64, (old - 1) & TOP64, 0, old ^ 2**63, old ^ 2**32, source.one_of(State(w).known())]
    return [value for value in dict.fromkeys(others) if value != old]


def random_word(w, source):
    kinds = [
        lambda: source.next(),
        lambda: source.below(4),
        lambda: source.below(40),
        lambda: source.below(2**32),
        lambda: source.one_of(State(w).known()),
        lambda: w[source.below(WORDS)],
    ]
    return source.one_of(kinds)()


def at_random(w, source):
    """A few words changed or exchanged, most of them used places."""
    words = list(w)
    used = [place for place in range(WORDS) if w[place]]
    place = lambda: source.one_of(used) if source.below(4) else source.below(WORDS)
    for _ in range(1 + source.below(3)):
        if source.below(2):
            words[place()] = random_word(w, source)
        else:
            name = source.one_of(list(SECTIONS))
            first, places, columns = SECTIONS[name]
            size = max(1, len(rows(w, name)))
            i, j = first + source.below(size), first + source.below(size)
            for c in range(columns if source.below(2) else 1):
                a, b = i + places * c, j + places * c
                words[a], words[b] = words[b], words[a]
    return words


# --- the files ---------------------------------------------------------------------------------------------------------

# Of so many stored states, the first and fullest, every word is damaged; of the others SOME words.
EVERY, SOME = 4, 40
RANDOM_CASES = 120
NOISE = 6
SEED = 20261115


def item(lent, patches):
    return struct.pack("<HH", lent, len(patches)) + b"".join(struct.pack("<HQ", *patch) for patch in patches)


def patches(base, words):
    return [(place, value) for place, (old, value) in enumerate(zip(base, words)) if old != value]


def answer(lent, words):
    return "2" if lent != WORDS or broken(words) else "3"


def cases(i, w, source):
    """The cases of the i-th stored state: how many words are lent, and the words."""
    for rule, words in boundary(State(w), NEAR + [near_strides] * (i < EVERY)):
        yield rule, WORDS, words
    places = range(WORDS) if i < EVERY else sorted({source.below(WORDS) for _ in range(SOME)})
    for place in places:
        for value in damages(w, place, source):
            yield None, WORDS, w[:place] + [value] + w[place + 1 :]
    for _ in range(RANDOM_CASES):
        yield None, WORDS, at_random(w, source)
    for lent in (0, 1, WORDS - 1, WORDS, WORDS + 1, ROOM):
        yield None, lent, w


def noise(source):
    """States without any order: all zeroes, which a refused `new` hands back, words of 64, 32 and 2 bits."""
    yield [0] * WORDS
    for below in (2**64, 2**32, 4):
        for _ in range(NOISE):
            yield [source.below(below) for _ in range(WORDS)]


def stored():
    """The stored states: a line each, the history and the place in it, then place:value of each word that is not 0."""
    for line in STORED.read_text().splitlines():
        words = [0] * WORDS
        try:
            for pair in line.split(" ")[-1].split(","):
                place, value = pair.split(":")
                words[int(place)] = int(value)
        except (ValueError, IndexError):
            tool.fail(f"{STORED.name}: no state: {tool.shown(line)}")
        yield words


def made():
    """Standard input, the answers to it, and how many cases break each rule alone."""
    source = Source(SEED)
    given, answers, alone = [], [], Counter()
    empty = [0] * WORDS
    for i, w in enumerate(stored()):
        given.append(item(BASE, patches(empty, w)))
        line = ""
        for rule, lent, words in cases(i, w, source):
            given.append(item(lent, patches(w, words)))
            line += answer(lent, words)
            alone[rule] += rule is not None
        answers.append(line)
    for w in noise(source):
        given += [item(BASE, patches(empty, w)), item(WORDS, [])]
        answers.append(answer(WORDS, w))
    missing = [rule.__name__ for rule in RULES if not alone[rule]]
    if missing:
        tool.fail(f"no case breaks alone: {' '.join(missing)}")
    return b"".join(given), "".join(line + "\n" for line in answers), alone


def read(given):
    """The items of standard input: (lent, patches)."""
    at = 0
    while at < len(given):
        try:
            lent, count = struct.unpack_from("<HH", given, at)
            changes = [struct.unpack_from("<HQ", given, at + 4 + 10 * i) for i in range(count)]
        except struct.error:
            tool.fail(f"stdin ends within the item at byte {at}")
        if any(place >= ROOM for place, _ in changes):
            tool.fail(f"stdin has no item at byte {at}: a place is not below {ROOM}")
        yield lent, changes
        at += 4 + 10 * count


SINGLE = """me,own data present,own data length,active capacity,passive capacity,active walk,passive walk,shuffle walk,
shuffle active,shuffle passive,shuffle interval,request timeout,timers scheduled,next shuffle interval,passes alone,
passes short,refill kind,refill requests,next neighbor request,next join,own low,own high""".replace("\n", "").split(",")


def place_name(place):
    if place < len(SINGLE):
        return SINGLE[place]
    for name, (first, places, columns) in SECTIONS.items():
        at = place - first
        if at < places * columns:
            return f"{name}, column {at // places}, place {at % places}"
        if at == places * columns:
            return f"{name}, count"
    return "past the state"


def show(folder, line, column):
    number, cases_seen, base = 0, 0, [0] * ROOM
    for lent, changes in read((folder / "stdin").read_bytes()):
        if lent == BASE:
            number, cases_seen = number + 1, 0
            base = State([0] * ROOM).put(*[part for patch in changes for part in patch]).words
            continue
        cases_seen += 1
        if (number, cases_seen) == (line, column):
            words = State(base).put(*[part for patch in changes for part in patch]).words
            print(f"{lent} words; breaks: {' '.join(rule.__name__ for rule in broken(words[:WORDS])) or 'no rule'}")
            for place, value in changes:
                print(f"{place_name(place)} ({place}): {base[place]} -> {value}")
            return
    tool.fail(f"no case {column} in line {line}")


# --- choosing the states -----------------------------------------------------------------------------------------------

CHOSEN_SEEDS, CHOSEN_EVENTS = 6, 200


def oracle_states():
    """The oracle's states over generated histories, without and with pins, with the name of the history and the place in it."""
    asked = ("--histories", CHOSEN_SEEDS, "--events", CHOSEN_EVENTS)
    text = "".join(tool.oracle("words", "--machine", machine, *asked).decode() for machine in ("hyparview", "pins"))
    name, index = "", 0
    for line in text.splitlines():
        if line.startswith("history "):
            name, index = line.removeprefix("history "), 0
            continue
        yield f"{name} {index}", [int(word) for word in line.split(" ")]
        index += 1


def fullness(w):
    """How many lists have peers, and how many words are not 0."""
    return sum(1 for name in SECTIONS if peers(w, name)), sum(1 for word in w if word)


def features(w):
    """What a state has that another may not: how full its lists are, which edges of ranges it touches."""
    capacities = {"active": w[ACTIVE_CAPACITY], "passive": w[PASSIVE_CAPACITY], "pins": w[ACTIVE_CAPACITY] - 1}
    for name, (_, places, _) in SECTIONS.items():
        listed = peers(w, name)
        full = len(listed) == capacities.get(name, places)
        yield name, "full" if full else min(len(listed), 3)
        yield name, "no place left", len(listed) == places
        yield from ((name, "peer", peer) for peer in (0, TOP32, TOP32 + 1, TOP64) if peer in listed)
    yield from (("setting", i, w[SETTINGS + i]) for i, ends in enumerate(SETTING_RANGES) if w[SETTINGS + i] in ends)
    yield "lists with peers", fullness(w)[0]
    yield "refill", w[REFILL_KIND], w[REFILL_REQUESTS]
    yield "own", w[OWN_PRESENT], min(w[OWN_LEN], 1), w[OWN_LEN] == MOST_DATA
    yield "timers", w[TIMERS_SCHEDULED]
    yield "interval", w[NEXT_SHUFFLE_INTERVAL] == w[SHUFFLE_INTERVAL]
    yield from (("top", place) for place in (NEXT_NEIGHBOR_REQUEST, NEXT_JOIN) if w[place] == TOP64)
    yield from (("top", place) for place in (PASSES_ALONE, PASSES_SHORT) if w[place] == TOP32)
    yield "self", w[ME] in (0, TOP64), w[ME] in peers(w, "requests"), w[ME] in peers(w, "bootstrap")


def choose():
    """Few states that together have every feature, the ones with most of the missing ones first."""
    states = {}
    for name, w in oracle_states():
        found = [rule.__name__ for rule in broken(w)]
        if len(w) != WORDS or found:
            tool.fail(f"{name}: a state of the oracle breaks {' '.join(found)}")
        states[name] = (w, set(features(w)))
    needed = set().union(*(has for _, has in states.values()))
    total, chosen = len(needed), []
    while needed:
        best = max(states, key=lambda name: (len(states[name][1] & needed), len(states[name][1])))
        chosen.append(best)
        needed -= states[best][1]
    text = ""
    for name in sorted(chosen, key=lambda name: [-n for n in fullness(states[name][0])]):
        pairs = patches([0] * WORDS, states[name][0])
        text += f"{name} {','.join(f'{place}:{value}' for place, value in pairs)}\n"
    STORED.write_text(text)
    print(f"{len(states)} states of the oracle break no rule; {len(chosen)} with {total} features chosen")


def main():
    mode, rest = sys.argv[1:2], sys.argv[2:]
    if mode == ["states"] and not rest:
        choose()
    elif mode == ["make"] and len(rest) == 1:
        if not Path(rest[0]).is_dir():
            tool.fail(f"{rest[0]}: no such folder")
        given, answers, alone = made()
        (Path(rest[0]) / "stdin").write_bytes(given)
        (Path(rest[0]) / "stdout").write_text(answers)
        for rule in RULES:
            print(f"{alone[rule]:5} cases break {rule.__name__} alone")
        refused, kept = answers.count("2"), answers.count("3")
        print(f"{refused + kept} cases, {refused} answered 2, {kept} not; {len(given)} bytes, {len(answers.splitlines())} bases")
    elif mode == ["check"] and len(rest) == 1:
        given, answers, _ = made()
        if [(Path(rest[0]) / name).read_bytes() for name in ("stdin", "stdout")] != [given, answers.encode()]:
            tool.fail(f"{rest[0]}: not what make would write")
    elif mode == ["show"] and len(rest) == 3 and all(map(tool.is_number, rest[1:])):
        show(Path(rest[0]), int(rest[1]), int(rest[2]))
    else:
        tool.usage(__doc__)


tool.main(main)
