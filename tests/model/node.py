#!/usr/bin/env python3
"""Document 01 in Python, with A2's flag, A6's count of firings, A7's full f and A8's longer window, written from the papers alone and
sharing nothing with the Rattle crates: evidence is a set of numbers for each serial and kind, and the rules are tried as the paper lists
them.

usage: node.py < LOG      prints the listing of a log

boot, deliver, read and convert work on byte buffers as the calls for C do; a bytearray that they are handed is the lent buffer. The first
three take a layout, too, so that a node can be had as it was before A8."""
import sys
from collections import Counter, namedtuple

LAST = 4_000_000_000  # the last tick
ROOM = 192  # bytes of output that boot and deliver ask
INIT, ECHO = 1, 2
BROADCAST, ANSWER = 0, 1  # byte 1 of a frame, its flag
FLAGS = {INIT: {BROADCAST}, ECHO: {BROADCAST, ANSWER}}  # those that each kind may have
HEADER = 32


class Layout(namedtuple("Layout", "mark window")):
    """The form of an image: byte 3, and how many ticks a window has. A mask has a bit for each of them."""

    mask = property(lambda self: self.window // 8)
    row = property(lambda self: 4 + 2 * (4 + self.mask))

    def size(self, n):
        return HEADER + self.row * n


OLD, NEW = Layout(mark=0, window=64), Layout(mark=1, window=128)  # before A8, and since
assert (OLD.mask, OLD.row, OLD.size(32), NEW.mask, NEW.row, NEW.size(32)) == (8, 28, 928, 16, 44, 1440)

Node = namedtuple("Node", "n f own active k last")  # last: the last echo sent


class Refused(Exception):
    """A call's number; it is raised before anything is written."""


def refuse_if(wrong, number):
    if wrong:
        raise Refused(number)


def number(data):
    return int.from_bytes(data, "big")


# Layouts


def check_roster(n, f, own, serials):
    refuse_if(not 1 <= n <= 32 or n < 3 * f + 1, 2)
    refuse_if(f != (n - 1) // 3, 21)  # too small, where it is not too great
    refuse_if(own == 0 or 0 in serials, 3)
    refuse_if(len(set(serials)) < len(serials), 4)
    refuse_if(own not in serials, 5)


def read_form(form):
    refuse_if(len(form) < 8 or number(form[2:4]) != 8 or len(form) != 8 + 4 * form[0], 1)
    n, f, own = form[0], form[1], number(form[4:8])
    serials = [number(form[at : at + 4]) for at in range(8, len(form), 4)]
    check_roster(n, f, own, serials)
    return n, f, own, serials


def read_frame(frame):
    refuse_if(len(frame) != 8 or frame[1] not in FLAGS.get(frame[0], ()) or any(frame[2:4]), 10)
    tick = number(frame[4:8])
    refuse_if(tick > LAST, 11)
    return frame[0], frame[1], tick


def write_frame(kind, flag, tick):
    return bytes([kind, flag, 0, 0]) + tick.to_bytes(4, "big")


def write_records(records, out):
    """Puts (destination, kind, flag, tick) each at the front of the output; gives their number."""
    data = b"".join(to.to_bytes(4, "big") + write_frame(kind, flag, tick) for to, kind, flag, tick in records)
    assert len(data) <= ROOM
    out[: len(data)] = data
    return len(records)


def read_set(data):
    """The set of a top and a mask, or 8 where a sound image can't hold them."""
    top, mask = number(data[:4]), number(data[4:])
    bits = [i for i in range(8 * len(data[4:])) if mask >> i & 1]
    refuse_if(top > LAST, 8)
    refuse_if(mask != 0 and 0 not in bits, 8)
    refuse_if(mask == 0 and top != 0, 8)
    refuse_if(any(i > top for i in bits), 8)
    return {top - i for i in bits}


def write_set(held, layout):
    top = max(held, default=0)
    return top.to_bytes(4, "big") + sum(1 << (top - t) for t in held).to_bytes(layout.mask, "big")


def read_row(row, layout):
    """The serial of a row and its evidence, a dict from kind to a set of ticks."""
    echo, init = 4, 8 + layout.mask
    return number(row[:echo]), {ECHO: read_set(row[echo:init]), INIT: read_set(row[init:])}


def read_image(image, layout=NEW):
    """The node and its evidence, a dict from serial to what its row has; 8 unless the image is sound."""
    refuse_if(len(image) < HEADER or len(image) < number(image[18:20]), 8)
    n, f, mode = image[0], image[1], image[2]
    own, k, last = (number(image[at : at + 4]) for at in (4, 8, 12))
    refuse_if(image[3] != layout.mark or any(image[20:32]) or mode > 1 or not last <= k <= LAST, 8)
    refuse_if(number(image[16:18]) != HEADER or number(image[18:20]) != layout.size(n), 8)
    rows = [read_row(image[at : at + layout.row], layout) for at in range(HEADER, layout.size(n), layout.row)]
    try:
        check_roster(n, f, own, [serial for serial, _ in rows])
    except Refused:
        raise Refused(8)
    evidence = dict(rows)
    node = Node(n, f, own, mode == 1, k, last)
    refuse_if(next_firing(node, evidence) is not None, 8)
    return node, evidence


def write_image(node, evidence, image, layout=NEW):
    header = bytes([node.n, node.f, node.active, layout.mark])
    header += b"".join(x.to_bytes(4, "big") for x in (node.own, node.k, node.last))
    header += HEADER.to_bytes(2, "big") + layout.size(node.n).to_bytes(2, "big") + bytes(12)
    rows = (s.to_bytes(4, "big") + b"".join(write_set(sets[kind], layout) for kind in (ECHO, INIT)) for s, sets in evidence.items())
    data = header + b"".join(rows)
    image[: len(data)] = data


# One delivery


def credit(evidence, serial, kind, j, window):
    """Adds a frame to the evidence of a serial, and cuts the set to the window."""
    held = evidence[serial][kind]
    held |= {t for t in (j, j - 1, j - 2) if t >= 0} if kind == ECHO else {j}
    evidence[serial][kind] = {t for t in held if max(held) - t <= window - 1}


def holders(evidence, kind):
    """How many serials hold each tick of a kind."""
    return Counter(tick for sets in evidence.values() for tick in sets[kind])


def broadcast(kind, tick):
    """The record that goes to all."""
    return 0, kind, BROADCAST, tick


def next_firing(node, evidence):
    """The first rule that can fire, fired: the node that follows and the broadcasts; None where no rule can."""
    k, some = node.k, node.f + 1
    echo, init = holders(evidence, ECHO), holders(evidence, INIT)
    unsent = node.last < k
    if (init[k] >= some and unsent) or (echo[k] >= some and unsent):  # R1, R2
        return node._replace(last=k), [broadcast(ECHO, k)]
    if echo[k] >= node.n - node.f and k < LAST:  # R3
        return node._replace(k=k + 1), [broadcast(INIT, k + 1)]
    ahead = [tick for tick, serials in echo.items() if serials >= some and tick > k + 1]
    if ahead:  # R4
        to = max(ahead) - 1
        return node._replace(k=to, last=to), [broadcast(ECHO, to)]
    begun = [tick for tick, serials in init.items() if serials >= some]
    if not node.active and begun:  # R5
        to = max(max(begun) - 1, k)
        said = [broadcast(ECHO, to)] if node.last < to else []
        return node._replace(active=True, k=to, last=max(node.last, to)), said
    return None


def step(node, evidence, window, port, kind, flag, tick):
    """One delivery: the node that follows, its records and how many times a rule fired, with a record or without; the evidence is
    changed in place. A broadcast of echo 0 by another serial is answered, an answer never; evidence and rules do not know the flag."""
    credit(evidence, port, kind, tick, window)
    asks = (kind, flag, tick) == (ECHO, BROADCAST, 0) and port != node.own
    records = [(port, ECHO, ANSWER, node.last)] if asks else []
    fired = 0
    while (firing := next_firing(node, evidence)) is not None:
        node, said = firing
        records += said
        fired += 1
    return node, records, fired


# The calls: boot and deliver give number, records and rules fired, read gives number and clock, convert number and bytes written


def boot(form, image, out, layout=NEW):
    try:
        n, f, own, serials = read_form(form)
        refuse_if(len(image) < layout.size(n), 6)
        refuse_if(len(out) < ROOM, 7)
    except Refused as why:
        return why.args[0], 0, 0
    write_image(Node(n, f, own, False, 0, 0), {s: {ECHO: set(), INIT: set()} for s in serials}, image, layout)
    return 0, write_records([broadcast(ECHO, 0)], out), 0


def deliver(image, port, frame, out, layout=NEW):
    try:
        refuse_if(len(out) < ROOM, 7)
        node, evidence = read_image(image, layout)
        refuse_if(port not in evidence, 9)
        kind, flag, tick = read_frame(frame)
    except Refused as why:
        return why.args[0], 0, 0
    node, records, fired = step(node, evidence, layout.window, port, kind, flag, tick)
    write_image(node, evidence, image, layout)
    return 0, write_records(records, out), fired


def read(image, layout=NEW):
    try:
        node, _ = read_image(image, layout)
        refuse_if(not node.active, 12)
    except Refused as why:
        return why.args[0], 0
    return 0, node.k


def convert(old, image):
    """The same node and the same evidence, read in the old layout and written in the new one."""
    try:
        node, evidence = read_image(old, OLD)
        refuse_if(len(image) < NEW.size(node.n), 6)
    except Refused as why:
        return why.args[0], 0
    write_image(node, evidence, image, NEW)
    return 0, NEW.size(node.n)


# The log program


def read_log(log):
    """The form and the events; 13 where the layout is broken."""
    refuse_if(len(log) < 12, 13)
    count, form_at, events_at = (number(log[at : at + 4]) for at in (0, 4, 8))
    refuse_if(form_at != 12 or not 20 <= events_at <= 1012 or count > 4096, 13)
    refuse_if(len(log) != events_at + 12 * count, 13)
    return log[12:events_at], [log[at : at + 12] for at in range(events_at, len(log), 12)]


def listing(log):
    try:
        form, events = read_log(log)
    except Refused as why:
        return f"0 {why.args[0]} 0 0 p\n"
    image, out = bytearray(NEW.size(32)), bytearray(ROOM)
    lines = []
    for i in range(len(events) + 1):
        given, records, _ = boot(form, image, out) if i == 0 else deliver(image, number(events[i - 1][:4]), events[i - 1][4:], out)
        lines.append(f"{i} {given} {records} {number(image[8:12])} {'pa'[image[2]]}\n")
        if i == 0 and given != 0:
            break
    return "".join(lines)


if __name__ == "__main__":
    sys.stdout.write(listing(sys.stdin.buffer.read()))
