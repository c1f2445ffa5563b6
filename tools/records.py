"""Records and inputs of the run program by document 01 and 02's S-2, S-8 and S-14, in the form of S-8 and in the old one: their bytes, a reader, and
the conversion of S-8 between the two. Written from the documents alone, beside the code that is proved."""
import struct

MOST_NODES, MOST_DATA = 32, 16
# the kinds that are timers; the events are those up to Quit, and a pin, which has no old form (02, S-14)
TIMERS, QUIT, EVICTED, PIN = (1, 2, 3, 4), 8, 12, 13
MALFORMED, NODE_COUNT, NO_ROOM, NO_OLD_FORM = 3, 4, 9, 19
MOST_INPUT = 65536


class Form:
    """Header: kind, message, flags, node count, peer, second, ttl, whole length, number; node: id, offset, length, present. Little-endian, without gaps.
    An input's head: self in so many numbers of 4 bytes, the nine settings, event count, event offset, draw count, draw offset."""

    def __init__(self, header, node, bits, last_kind):
        self.header, self.node, self.bits, self.last_kind = struct.Struct(header), struct.Struct(node), bits, last_kind
        self.halves = bits // 32
        self.head = struct.Struct(f"<{self.halves + 13}I")
        # where the whole length stands: it and the number are the header's last 2 + 8 bytes
        self.length_at = self.header.size - 10

    def length(self, record):
        """The whole length that a record's header tells."""
        return int.from_bytes(record[self.length_at : self.length_at + 2], "little")


OLD = Form("<4BIIHHQ", "<IHBB", 32, EVICTED)
NEW = Form("<4BQQHHQ", "<QHBB", 64, PIN)


def make(kind, message=0, flags=0, peer=0, second=0, ttl=0, number=0, nodes=(), form=NEW):
    """The bytes of a record; a node is (id, None or its data)."""
    at = form.header.size + form.node.size * len(nodes)
    entries, data = b"", b""
    for ident, own in nodes:
        if own is None:
            entries += form.node.pack(ident, 0, 0, 0)
        else:
            entries += form.node.pack(ident, at + len(data), len(own), 1)
            data += own
    return form.header.pack(kind, message, flags, len(nodes), peer, second, ttl, at + len(data), number) + entries + data


def named(kind, message):
    """The fields that may be nonzero: peer, second, ttl, number, and the node count's least and largest."""
    peer = kind not in (1, 2, 7, 8)
    second = kind in TIMERS or (kind == 0 and message == 2)
    ttl = kind == 0 and message in (1, 2)
    number = kind in (3, 4)
    if kind in (7, 11) or (kind == 0 and message in (0, 1, 4)):
        count = (1, 1)
    elif kind == 0 and message in (2, 3):
        count = (0, MOST_NODES)
    else:
        count = (0, 0)
    return peer, second, ttl, number, count


def read(b, form=NEW):
    """The header and the nodes (id, present, data) of a record, or None where the bytes are malformed."""
    if len(b) < form.header.size:
        return None
    kind, message, flags, count, peer, second, ttl, size, number = form.header.unpack_from(b)
    if kind > form.last_kind or message > (5 if kind == 0 else 0):
        return None
    if flags > ({4: 1, 5: 3}.get(message, 0) if kind == 0 else 0):
        return None
    has_peer, has_second, has_ttl, has_number, (least, largest) = named(kind, message)
    if not least <= count <= largest:
        return None
    for has, value in ((has_peer, peer), (has_second, second), (has_ttl, ttl), (has_number, number)):
        if value and not has:
            return None
    reached, nodes = form.header.size + form.node.size * count, []
    if size != len(b) or reached > size:
        return None
    for i in range(count):
        ident, offset, length, present = form.node.unpack_from(b, form.header.size + form.node.size * i)
        if present > 1 or length > MOST_DATA:
            return None
        if present == 0 and (offset or length):
            return None
        if present == 1 and offset != reached:
            return None
        if ident and (kind in (7, 11) or (kind == 0 and message in (0, 4))):
            return None
        if present == 0 and kind in (7, 11):
            return None
        nodes.append((ident, present, b[offset : offset + length]))
        reached += length
    if reached != size:
        return None
    return (kind, message, flags, count, peer, second, ttl, size, number), nodes


def reader_code(b, form=NEW):
    """The code of the reader for all kinds, 0 where the record is well-formed."""
    if len(b) < form.header.size:
        return MALFORMED
    if b[3] > MOST_NODES:
        return NODE_COUNT
    return 0 if read(b, form) else MALFORMED


def event_code(b, form=NEW):
    """The code of the event's refusal by its reader, 0 where it is accepted."""
    code = reader_code(b, form)
    if code == 0 and (QUIT < b[0] < PIN or (b[0] in TIMERS and read(b, form)[0][5])):
        return MALFORMED
    return code


def converted(b, source, target, room=MOST_INPUT):
    """A record of one form in the other (02, S-8): the code, and the record where that is 0."""
    code = reader_code(b, source)
    if code:
        return code, b""
    (kind, message, flags, _, peer, second, ttl, _, number), nodes = read(b, source)
    size = target.header.size + sum(target.node.size + len(data) for _, _, data in nodes)
    if kind > target.last_kind or max([peer, second, *(ident for ident, _, _ in nodes)]) >> target.bits or size >> 16:
        return NO_OLD_FORM, b""
    if size > room:
        return NO_ROOM, b""
    held = [(ident, data if present else None) for ident, present, data in nodes]
    return 0, make(kind, message, flags, peer, second, ttl, number, held, target)


def whole(me, settings, events, draws, form=NEW):
    """The run program's input."""
    halves = [me >> 32 * i & 2**32 - 1 for i in range(form.halves)]
    body, size = b"".join(events), form.head.size
    head = form.head.pack(*halves, *settings, len(events), size, len(draws), size + len(body))
    return head + body + struct.pack(f"<{len(draws)}I", *draws)


def cut(b, place, count, form=NEW):
    """So many events from a place on, each by its whole length, and the place after them; None where they do not stand there."""
    events = []
    for _ in range(count):
        size = form.length(b[place : place + form.header.size])
        if size < form.header.size or place + size > len(b):
            return None
        events.append(b[place : place + size])
        place += size
    return events, place


def parts(b, form=NEW):
    """Self, settings, events and draws of an input, or None where the run program answers it by `= 3 0` alone."""
    if not form.head.size <= len(b) <= MOST_INPUT:
        return None
    numbers = form.head.unpack_from(b)
    me = sum(half << 32 * i for i, half in enumerate(numbers[: form.halves]))
    count, start, drawn, end = numbers[-4:]
    found = cut(b, start, count, form) if start == form.head.size else None
    if found is None or found[1] != end or end + 4 * drawn != len(b):
        return None
    return me, numbers[form.halves : -4], found[0], struct.unpack_from(f"<{drawn}I", b, end)
