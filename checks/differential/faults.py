"""Faults of one end, planted into a log of a correct one: each kind changes a segment that went, or puts some in after it."""

import struct

from end import ACK, FIN, HALF, PSH, RST, SPACE, SYN
from places import Cut, Place, body_of, furthest, without


def instead(change, applies=lambda place: True):
    """A kind that changes the segment."""
    return lambda place: [change(place)] if applies(place) else None


def after(make, applies=lambda place: True):
    """A kind that puts a segment in behind it."""
    return lambda place: [place.segment, make(place)] if applies(place) else None


def behind(make, applies):
    """A kind that puts several lines in behind it."""
    return lambda place: [place.segment, *make(place)] if applies(place) else None


def options_with(place, more):
    """The segment with these options before its own, padded by no-operations."""
    area = more + bytes([1]) * (-len(more) % 4) + place.segment.options
    return place.segment.changed(options=area)


def has_room(place):
    return len(place.segment.options) <= 32


def flipped(text, at=0):
    """The text with another byte there."""
    return text[:at] + bytes([text[at] ^ 0x20]) + text[at + 1 :]


def is_syn(place):
    return place.segment.has(SYN)


def is_answer(place):
    """Whether it is a SYN,ACK to a SYN without a window scale, and has room for one."""
    return place.segment.has(SYN | ACK) and has_room(place) and 3 not in offered(place)


def offered(place):
    """The kinds of the options of the SYN that came."""
    area = next(line.options for line in place.before if line.word == "came" and line.has(SYN))
    kinds, at = set(), 0
    while at < len(area) and area[at]:
        kinds.add(area[at])
        at += 1 if area[at] == 1 else area[at + 1]
    return kinds


def byte_at(place, at, value):
    data = place.segment.data
    return place.segment.with_data(data[:at] + bytes([value]) + data[at + 1 :])


def own_times(place):
    """The timestamps of the segment, as an option."""
    body = body_of(place.segment.options, 8)
    return bytes([1, 1, 8, 10]) + body if body and len(body) == 8 else b""


def told_again(place, ack):
    """An empty acknowledgement of this number."""
    return place.segment.changed(ack=ack, flags=ACK, options=own_times(place), text=b"")


def is_told(place):
    return place.is_plain() and place.told is not None


def held_end(place):
    """Behind the last text that came beyond what is acknowledged, with a gap before it, or None."""
    ends = [
        (line.seq + line.numbers() - place.segment.ack) % SPACE
        for line in place.before
        if line.word == "came" and line.text and 0 < (line.seq - place.segment.ack) % SPACE < HALF
    ]
    return place.segment.ack + max(ends) if ends else None


def reported(place, left, right):
    """An empty acknowledgement with a block of these numbers (RFC 2018, 3)."""
    option = bytes([1, 1, 5, 10]) + struct.pack(">II", left % SPACE, right % SPACE)
    return place.segment.changed(flags=ACK, options=own_times(place) + option, text=b"")


def may_report(place):
    return is_told(place) and place.peer is not None and 4 in offered(place)


def may_not_report(place):
    return is_told(place) and place.peer is not None and 4 not in offered(place)


def held_block(place):
    """The edges of a block that it reports beyond what it acknowledges, or None."""
    area, ack = place.segment.options, place.segment.ack
    at = area.find(bytes([5])) if may_report(place) else -1
    if at < 0 or area[at + 1] not in (10, 18, 26, 34):
        return None
    edges = struct.iter_unpack(">II", area[at + 2 : at + area[at + 1]])
    return next(((left, right) for left, right in edges if 0 < (left - ack) % SPACE < HALF), None)


def resent(place, text=None, seq=0, flags=ACK):
    """The last text again, with another one, or at another number."""
    line = place.again()
    fields = {"ack": place.segment.ack, "window": place.segment.window, "options": own_times(place)}
    return line.changed(seq=line.seq + seq, flags=flags, text=line.text if text is None else text, **fields)


def has_gone(place):
    return place.again() is not None


def can_resend(place):
    """Whether the last text isn't acknowledged."""
    return has_gone(place) and (place.acked is None or (place.again().seq - place.acked) % SPACE < HALF)


def changes_when_moved(place):
    """Whether the last text says something else a number on."""
    text = place.again().text if can_resend(place) else b""
    return text[1:] != text[:-1]


FORM = {
    "the checksum is wrong": instead(lambda p: p.segment.with_data(flipped(p.segment.data, 17), False)),
    "it is cut to 19 bytes": instead(lambda p: Cut(p.segment, p.segment.data[:19])),
    "the data offset is 4 words": instead(lambda p: byte_at(p, 12, 0x40)),
    "the data offset passes the end": instead(lambda p: byte_at(p, 12, 0xF0), lambda p: len(p.segment.data) < 60),
    "an option has length 0": instead(lambda p: options_with(p, bytes([8, 0])), has_room),
    "an option has length 1": instead(lambda p: options_with(p, bytes([254, 1])), has_room),
    "an option passes the header": instead(lambda p: p.segment.changed(options=p.segment.options + bytes([8, 10, 0, 0])), has_room),
    "the padding isn't zero": instead(lambda p: p.segment.changed(options=p.segment.options + bytes([0, 0, 7, 0])), has_room),
    "a maximum segment size without SYN": instead(lambda p: options_with(p, bytes([2, 4, 2, 0])), lambda p: p.is_plain() and has_room(p)),
    "a window scale without SYN": instead(lambda p: options_with(p, bytes([3, 3, 1])), lambda p: p.is_plain() and has_room(p)),
    "SACK-permitted without SYN": instead(lambda p: options_with(p, bytes([4, 2])), lambda p: p.is_plain() and has_room(p)),
    "a shift of 15": instead(lambda p: options_with(p, bytes([3, 3, 15])), lambda p: is_syn(p) and has_room(p)),
    "a shift of 255": instead(lambda p: options_with(p, bytes([3, 3, 255])), lambda p: is_syn(p) and has_room(p)),
    "text without ACK": instead(lambda p: p.segment.changed(flags=PSH), lambda p: p.is_plain() and p.segment.text),
    "no flag at all": instead(lambda p: p.segment.changed(flags=0), Place.is_plain),
    "FIN without ACK": instead(lambda p: p.segment.changed(flags=FIN), lambda p: p.is_plain() and p.segment.has(FIN)),
    "a window scale that wasn't offered": instead(lambda p: options_with(p, bytes([3, 3, 0])), is_answer),
}
POSITIONS = {
    "a SYN again, its number one higher": after(lambda p: p.segment.changed(seq=p.segment.seq + 1), is_syn),
    "a SYN again, its number far off": after(lambda p: p.segment.changed(seq=p.segment.seq + HALF), is_syn),
    "a resend with another first byte": after(lambda p: resent(p, flipped(p.again().text)), can_resend),
    "a resend with another last byte": after(lambda p: resent(p, flipped(p.again().text, len(p.again().text) - 1)), can_resend),
    "a resend one number on": after(lambda p: resent(p, p.again().text[:-1], 1), changes_when_moved),
    "a resend one number back": after(lambda p: resent(p, seq=-1), lambda p: changes_when_moved(p) and (p.again().seq - p.syn) % SPACE > 1),
    "a keep-alive with another byte": after(lambda p: resent(p, flipped(p.again().text)[:1]), can_resend),
    "text behind the FIN": after(
        lambda p: p.segment.changed(seq=p.fin + 1, flags=ACK, options=own_times(p), text=b"x"), lambda p: p.is_plain() and p.fin is not None),
    "text across the FIN": after(lambda p: p.segment.changed(seq=p.fin, flags=ACK, text=b"xy"), lambda p: p.is_plain() and p.fin is not None),
    "a second FIN one number on": after(
        lambda p: p.segment.changed(seq=p.fin + 1, flags=ACK | FIN, text=b""), lambda p: p.is_plain() and p.fin is not None),
    "a resend of acknowledged text with another byte": after(
        lambda p: resent(p, flipped(p.again().text)), lambda p: has_gone(p) and not can_resend(p)),
    "a FIN before the end of the text": after(lambda p: resent(p, p.again().text[:-1], flags=ACK | FIN), lambda p: has_gone(p) and p.fin is None),
}
ACKNOWLEDGEMENTS = {
    "one number more than came": instead(lambda p: p.segment.changed(ack=p.segment.ack + 1), is_told),
    "one number less than was told": after(lambda p: told_again(p, p.segment.ack - 1), is_told),
    "half the numbers ahead": instead(lambda p: p.segment.changed(ack=p.segment.ack + HALF), is_told),
    "text behind a gap": instead(lambda p: p.segment.changed(ack=held_end(p)), lambda p: is_told(p) and held_end(p) is not None),
    "the SYN's own number": instead(lambda p: p.segment.changed(ack=p.peer), lambda p: p.segment.has(ACK) and p.told is None and p.peer is not None),
    "the end's own number": instead(lambda p: p.segment.changed(ack=p.segment.seq), lambda p: is_told(p) and p.segment.seq != p.segment.ack),
    "a SYN,ACK where no SYN came": instead(lambda p: p.segment.changed(flags=SYN | ACK, ack=77), lambda p: is_syn(p) and p.peer is None),
    "a FIN that didn't come": instead(
        lambda p: p.segment.changed(ack=p.segment.ack + 1),
        lambda p: is_told(p) and not any(line.has(FIN) for line in p.before if line.word == "came") and not p.segment.text,
    ),
}
BLOCKS = {
    "a block where none is permitted": after(lambda p: reported(p, p.peer, p.peer + 1), may_not_report),
    "a block of one number more": after(lambda p: reported(p, held_block(p)[0], held_block(p)[1] + 1), lambda p: held_block(p) is not None),
    "a block of one number before": after(lambda p: reported(p, held_block(p)[0] - 1, held_block(p)[1]), lambda p: held_block(p) is not None),
    "a block of what never came": after(lambda p: reported(p, p.segment.ack + 100000, p.segment.ack + 100100), may_report),
    "a block whose edges are exchanged": after(lambda p: reported(p, p.peer + 1, p.peer), may_report),
    "a block by the end's own numbers": after(lambda p: reported(p, p.syn, p.syn + 1), may_report),
}


def empty(place, seq):
    """An acknowledgement alone at this number, with the segment's options but for blocks."""
    return place.segment.changed(seq=seq, flags=ACK, options=own_times(place), text=b"")


def has_new_text(place):
    """Whether it is text that goes the first time, at SND.NXT."""
    return place.is_plain() and place.next is not None and place.segment.seq == place.next and len(place.segment.text) > 0


def is_open(place):
    """Whether both SYNs went, and were acknowledged."""
    return is_told(place) and place.peer is not None and place.acked is not None and place.next is not None


def reset(place, seq, flags=RST | ACK, **fields):
    return place.segment.changed(seq=seq, flags=flags, options=b"", text=b"", **fields)


def in_flight(place):
    """How many numbers are in flight behind the segment."""
    end = furthest([place.next, place.segment.seq + place.segment.numbers()])
    return (end - place.acked) % SPACE


def end_of(place):
    """SND.NXT behind the segment."""
    return furthest([place.next, place.segment.seq + place.segment.numbers()])


def came_with(place, flags):
    """Five bytes that come in order, with these flags."""
    last = place.came[-1]
    return last.changed(seq=place.segment.ack, ack=end_of(place), flags=flags, options=b"", text=b"fresh")


def from_port(line):
    """The segment from another port."""
    return line.with_data(bytes([line.data[0] ^ 1]) + line.data[1:])


def window_left(place):
    """How many numbers the greatest window that came has behind the segment's number."""
    return (place.peer_edge() - place.segment.seq) % SPACE


def shrunk(place, units):
    """The window field with which the right edge is so many units before where it was told last, or below 0."""
    left = (place.edge() - place.segment.ack) % SPACE
    return (left >> place.shift()) - units if 0 < left < HALF and left >> place.shift() < 65536 else -1


def size_of(place):
    """The most text that the peer's SYN allows beside the options."""
    told = body_of(place.syns()[1].options, 2)
    return (int.from_bytes(told, "big") if told else 536) - len(place.segment.options)


def longer(place, count):
    """So much more text from the segment's number on than the peer allows, if so much went."""
    return place.stream(place.segment.seq, size_of(place) + count) if place.syns() else None


def times_of(line):
    """The timestamp and the echo of a segment, or None."""
    body = body_of(line.options, 8)
    return struct.unpack(">II", body) if body and len(body) == 8 else None


def has_times(place):
    syns = place.syns()
    return is_open(place) and all(times_of(syn) for syn in syns) and times_of(place.segment) is not None


def last_time(place):
    return next(times_of(line)[0] for line in reversed(place.before) if line.word == "went" and times_of(line))


def with_times(place, time, echo):
    """The segment with another timestamp and echo."""
    area = place.segment.options
    at = area.index(bytes([8, 10])) + 2
    return place.segment.changed(options=area[:at] + struct.pack(">II", time % SPACE, echo % SPACE) + area[at + 8 :])


def blocks_of(place):
    """The blocks that a segment reports beyond what it acknowledges."""
    body = body_of(place.segment.options, 5) if place.is_plain() else None
    blocks = list(struct.iter_unpack(">II", body)) if body else []
    return [block for block in blocks if 0 < (block[0] - place.segment.ack) % SPACE < HALF]


def with_blocks(place, blocks):
    """An acknowledgement alone with these blocks in place of its own."""
    option = bytes([1, 1, 5, 2 + 8 * len(blocks)]) + b"".join(struct.pack(">II", left % SPACE, right % SPACE) for left, right in blocks)
    return place.segment.changed(flags=ACK, options=own_times(place) + option, text=b"")


def halves(block):
    """A block in two that touch."""
    middle = block[0] + (block[1] - block[0]) % SPACE // 2
    return [(block[0], middle), (middle, block[1])]


ORDER = {
    "text before the SYN is acknowledged": after(
        lambda p: p.segment.changed(seq=p.syn + 1, flags=ACK, options=own_times(p), text=b"early"),
        lambda p: p.segment.has(SYN | ACK) and p.acked is None),
    "text before the SYN's number": after(lambda p: p.segment.changed(seq=p.syn - 5, flags=ACK, options=own_times(p), text=b"older"), is_open),
    "text that passes ten numbers over": instead(
        lambda p: p.segment.changed(seq=p.segment.seq + 10, text=p.segment.text[10:]), lambda p: has_new_text(p) and len(p.segment.text) > 10),
    "text far behind a gap": after(lambda p: p.segment.changed(seq=end_of(p) + 5000, flags=ACK, options=own_times(p), text=b"ahead"), is_open),
    "a FIN behind a gap": instead(lambda p: p.segment.changed(seq=p.segment.seq + 1), lambda p: p.is_plain() and p.segment.has(FIN)),
    "an empty segment one number ahead": after(lambda p: empty(p, end_of(p) + 1), is_open),
    "an empty segment far ahead": after(lambda p: empty(p, end_of(p) + 100000), is_open),
    "an empty segment below what is acknowledged": after(lambda p: empty(p, p.acked - 10), lambda p: is_open(p) and (p.acked - p.syn) % SPACE > 10),
    "an empty segment ten numbers too low, with text in flight": after(
        lambda p: empty(p, end_of(p) - 10), lambda p: is_open(p) and 20 < in_flight(p) < HALF),
}
RESETS = {
    "a reset far ahead": after(lambda p: reset(p, end_of(p) + 100000), is_open),
    "a reset one number ahead": after(lambda p: reset(p, end_of(p) + 1), is_open),
    "a reset before the SYN's number": after(lambda p: reset(p, p.syn - 1), is_open),
    "a reset at 0, of what didn't come": after(lambda p: reset(p, 0, ack=p.segment.ack + 77777), is_open),
    "text after the own reset": behind(
        lambda p: [reset(p, end_of(p)), p.segment.changed(seq=end_of(p), flags=ACK, options=own_times(p), text=b"late")],
        lambda p: is_open(p) and p.fin is None),
    "an acknowledgement of text that came with RST": behind(
        lambda p: [came_with(p, flags=RST | ACK), told_again(p, p.segment.ack + 5)], is_open),
    "an acknowledgement of text from another port": behind(
        lambda p: [from_port(came_with(p, flags=ACK)), told_again(p, p.segment.ack + 5)], is_open),
}
WINDOWS = {
    "text beyond the window": instead(
        lambda p: p.segment.changed(text=p.segment.text + bytes(window_left(p) + 1 - len(p.segment.text))),
        lambda p: has_new_text(p) and is_open(p) and window_left(p) < 60000 and len(p.segment.text) <= window_left(p)),
    "a byte behind the window": after(
        lambda p: p.segment.changed(seq=p.peer_edge(), flags=ACK, options=own_times(p), text=b"x"), is_open),
    "a window that shrinks by the least that shows": instead(
        lambda p: p.segment.changed(window=shrunk(p, 1)), lambda p: is_open(p) and shrunk(p, 1) >= 0),
    "a window that shrinks by half": instead(lambda p: p.segment.changed(window=shrunk(p, 0) // 2), lambda p: is_open(p) and shrunk(p, 1) >= 0),
    "a window that shrinks to nothing": instead(lambda p: p.segment.changed(window=0), lambda p: is_open(p) and shrunk(p, 1) >= 0),
}
SIZES = {
    "a segment a byte longer than the peer allows": instead(
        lambda p: p.segment.changed(text=longer(p, 1)), lambda p: has_new_text(p) and longer(p, 1) is not None),
    "a segment twice as long as the peer allows": instead(
        lambda p: p.segment.changed(text=longer(p, size_of(p))), lambda p: has_new_text(p) and longer(p, size_of(p)) is not None),
}
TIMES = {
    "a timestamp that is left out": instead(lambda p: p.segment.changed(options=without(p.segment.options, 8)), has_times),
    "a timestamp before the last one": instead(lambda p: with_times(p, last_time(p) - 1, times_of(p.segment)[1]), has_times),
    "a timestamp far before the last one": instead(lambda p: with_times(p, last_time(p) - 100000, times_of(p.segment)[1]), has_times),
    "an echo of a timestamp ahead of those that came": instead(
        lambda p: with_times(p, times_of(p.segment)[0], times_of(p.segment)[1] + 1000), has_times),
    "an echo of a timestamp before those that came": instead(
        lambda p: with_times(p, times_of(p.segment)[0], min(times_of(line)[0] for line in p.came if times_of(line)) - 1), has_times),
    "an echo of nothing": instead(lambda p: with_times(p, times_of(p.segment)[0], 0), has_times),
}
MORE_BLOCKS = {
    "a first block that isn't the newest": after(
        lambda p: with_blocks(p, [blocks_of(p)[1], blocks_of(p)[0], *blocks_of(p)[2:]]), lambda p: len(blocks_of(p)) > 1),
    "two blocks that touch": after(
        lambda p: with_blocks(p, halves(blocks_of(p)[0])), lambda p: len(blocks_of(p)) > 0 and (blocks_of(p)[0][1] - blocks_of(p)[0][0]) % SPACE > 1),
    "a block before the acknowledgement": after(
        lambda p: reported(p, p.segment.ack - 5, p.segment.ack), lambda p: may_report(p) and (p.segment.ack - p.peer) % SPACE > 6),
    "an old block behind another one": after(
        lambda p: with_blocks(p, [*blocks_of(p)[:1], (p.segment.ack - 5, p.segment.ack)]),
        lambda p: len(blocks_of(p)) > 0 and (p.segment.ack - p.peer) % SPACE > 6),
}
BLOCKS |= MORE_BLOCKS
GROUPS = {"form": FORM, "positions": POSITIONS, "order": ORDER, "resets and ports": RESETS, "acknowledgements": ACKNOWLEDGEMENTS, "windows": WINDOWS,
          "sizes": SIZES, "timestamps": TIMES, "blocks": BLOCKS}
KINDS = {kind: make for kinds in GROUPS.values() for kind, make in kinds.items()}


def planted(places, kind, most):
    """Logs with one fault of this kind, in at most so many of a log's places, spread over it; and the numbers of the lines that are new."""
    made = []
    for place in places:
        found = KINDS[kind](place)
        if found is not None:
            first = len(place.before) + 1
            new = {first + i for i, line in enumerate(found) if line is not place.segment and str(line).startswith("went")}
            made.append(([*place.before, *found, *place.behind], new))
    step = max(1, len(made) / most)
    return [made[int(i * step)] for i in range(min(most, len(made)))]
