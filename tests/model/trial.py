#!/usr/bin/env python3
"""The steps that the program `trial` takes, and what it has to print, by the model in node.py.

usage: trial.py stdin > crates/trial/stdin
       trial.py stdout > crates/trial/stdout

The program keeps one image buffer, as this file does. Each step is written for the program and made here at once, on buffers of the
same length and with the same bytes in them. What the calls give comes from the model alone."""
import struct
import sys

import node
from node import ANSWER, BROADCAST, ECHO, INIT, LAST

FILL = 165  # what buffers hold before a call
TEXT, HAND_IN, IMAGE, READ, BOOT, DELIVER, CONVERT, CLEAR = range(1, 9)  # kinds of step


def make_form(f, own, serials):
    return bytes([len(serials), f, 0, 8]) + b"".join(s.to_bytes(4, "big") for s in (own, *serials))


def blank(length):
    return bytearray([FILL] * length)


def image_size(n):
    return node.NEW.size(n)


ROW = node.NEW.row
# places in a row: the last byte of the serial, and where the two sets have their tops and masks
SERIAL_END, ECHO_TOP, ECHO_MASK, INIT_TOP, INIT_MASK = 3, 4, 8, 8 + node.NEW.mask, 12 + node.NEW.mask
ECHO_TOP_END, ECHO_MASK_END = ECHO_MASK - 1, INIT_TOP - 1


def place(row, at):
    """Where something of a row stands in the image."""
    return image_size(row) + at


BUFFER = image_size(32) + 48  # of the image: there is more than a row behind the longest one
OUT = 200  # of the output
FOUR = make_form(1, 11, (11, 22, 33, 44))
FULL = image_size(4)
stdin, stdout = bytearray(), bytearray()
image = blank(BUFFER)


# Steps


def step(kind, data=b"", size=BUFFER, room=OUT, shown=(0, 0, 0), written=0, port=0):
    """A head of 20 bytes: in 2 bytes each kind, length of the data, bytes lent of the image and of the output, three places in the
    image (shown are the bytes up to the first, and from the second to the third), bytes of the output that may change; in 4 bytes
    the port. Then the data."""
    stdin.extend(struct.pack(">8HI", kind, len(data), size, room, *shown, written, port) + data)


def hand_in(data):
    """Puts an image at the front of the buffer."""
    step(HAND_IN, data)
    image[: len(data)] = data


def clear():
    step(CLEAR)
    image[:] = blank(BUFFER)


def begin(label, name):
    step(TEXT, f"{label} {name}".encode())
    stdout.extend(f"{label} {name}".encode())


def words(data):
    return "".join(f" {data[at : at + 4].hex()}" for at in range(0, len(data), 4))


def call(kind, data, size, room, port, shown):
    """Boots or delivers with the first bytes of the image buffer and of an output. Where no part of the image is shown, no byte of
    the two may change; else the shown bytes of the image, and the records."""
    old, out = bytes(image), blank(OUT)
    part, front = image[:size], out[:room]
    number, records, fired = node.boot(data, part, front) if kind == BOOT else node.deliver(part, port, data, front)
    image[:size], out[:room] = part, front
    written = 12 * records if any(shown) else 0
    step(kind, data, size, room, shown, written, port)
    first, start, end = shown
    parts = [out[: 12 * records]] + [part for part in (image[:first], image[start:end]) if part]
    kept = image[first:start] == old[first:start] and image[end:] == old[end:] and out[written:] == blank(OUT - written)
    line = f" {number} {records} {fired}" + "".join(f" |{words(part)}" for part in parts) + (" | same\n" if kept else " | changed\n")
    stdout.extend(line.encode())


def boot(label, form, size):
    begin(label, "boot")
    call(BOOT, form, BUFFER, OUT, 0, (size, size, size))


def deliver(label, row, port, kind, tick, flag=BROADCAST):
    begin(label, "deliver")
    at = place(row, 0)
    call(DELIVER, node.write_frame(kind, flag, tick), BUFFER, OUT, port, (node.HEADER, at, at + ROW))


def try_boot(label, form, size=BUFFER, room=OUT):
    begin(label, "boot")
    call(BOOT, form, size, room, 0, (0, 0, 0))


def try_frame(label, port, frame, size=BUFFER, room=OUT):
    begin(label, "deliver")
    call(DELIVER, frame, size, room, port, (0, 0, 0))


def try_deliver(label, port, kind, tick, size=BUFFER, room=OUT):
    try_frame(label, port, node.write_frame(kind, BROADCAST, tick), size, room)


def read(label, size=BUFFER):
    begin(label, "read")
    step(READ, size=size)
    number, clock = node.read(image[:size])
    stdout.extend(f" {number} {clock}\n".encode())


def convert(label, old, size=BUFFER):
    """Converts an old image into the first bytes of the image buffer; what is written is shown, and the rest may not change."""
    begin(label, "convert")
    before, part = bytes(image), image[:size]
    number, written = node.convert(old, part)
    image[:size] = part
    step(CONVERT, old, size=size, shown=(written, 0, 0))
    made = f" |{words(image[:written])}" if written else ""
    kept = image[written:] == before[written:]
    stdout.extend(f" {number} {written}{made} | {'same' if kept else 'changed'}\n".encode())


def show_image(label, size):
    begin(label, "image")
    step(IMAGE, shown=(size, 0, 0))
    stdout.extend(f"{words(image[:size])}\n".encode())


# The trials


# the deliveries of W2 to W9: label, row, port, kind and tick
STORY = (
    ("W2", 0, 11, ECHO, 0),
    ("W3", 1, 22, ECHO, 0),
    ("W4", 2, 33, ECHO, 0),
    ("W5", 0, 11, INIT, 1),
    ("W6", 1, 22, INIT, 1),
    ("W7", 3, 44, ECHO, 1),
    ("W7", 2, 33, ECHO, 5),
    ("W8", 1, 22, ECHO, 6),
    ("W9", 3, 44, ECHO, 4),
)


def story():
    """W1 to W10 as one story; gives the image of W9. After echo 69 all that 22 held before it is held still. After echo 133 the window
    begins at 6: echo 7 brings 7 and 6, echo 5 nothing."""
    boot("W1", FOUR, FULL)
    for label, row, port, kind, tick in STORY:
        deliver(label, row, port, kind, tick)
        if label in ("W4", "W6", "W9"):
            read(label)
    show_image("W9", FULL)
    w9 = bytes(image[:FULL])
    deliver("W10-69", 1, 22, ECHO, 69)
    deliver("W10-69-133", 1, 22, ECHO, 133)
    for tick in (70, 134):
        hand_in(w9)
        deliver(f"W10-{tick}", 1, 22, ECHO, tick)
    hand_in(w9)
    for tick in (133, 7, 5):
        deliver(f"W10-133-{tick}", 1, 22, ECHO, tick)
    return w9


def refused(w9):
    """Deliveries that are refused with 9, 10 or 11."""
    hand_in(w9)
    try_deliver("port-12", 12, ECHO, 5)
    try_deliver("port-0", 0, ECHO, 5)
    try_deliver("port-greatest", 2**32 - 1, ECHO, 5)
    try_deliver("port-12-kind-3", 12, 3, 2**32 - 1)
    frames = (
        ("frame-of-7", "02000000000000"),
        ("frame-of-0", ""),
        ("frame-of-9", "02000000ffffffff00"),
        ("byte-2", "0200010000000005"),
        ("byte-3", "02000001ffffffff"),
        ("init-flag-1", "0101000000000005"),
        ("init-0-flag-1", "0101000000000000"),
        ("init-flag-255", "01ff000000000005"),
        ("kind-3-flag-1", "0301000000000005"),
        ("flag-2", "0202000000000005"),
        ("flag-2-too-late", "02020000ffffffff"),
        ("flag-128-echo-0", "0280000000000000"),
        ("flag-255-echo-0", "02ff000000000000"),
        ("answer-byte-2", "0201010000000005"),
        ("answer-byte-3", "0201000100000000"),
        ("answer-of-7", "02010000000000"),
        ("answer-of-9", "020100000000000000"),
        ("answer-too-late", "02010000ee6b2801"),
    )
    for label, frame in frames:
        try_frame(label, 22, bytes.fromhex(frame))
    try_deliver("kind-0", 22, 0, 5)
    try_deliver("kind-3", 22, 3, 2**32 - 1)
    try_deliver("echo-too-late", 22, ECHO, LAST + 1)
    try_deliver("init-too-late", 22, INIT, 2**32 - 1)
    read("after-refusals")


def room(w9):
    """Buffers that are just long enough, and buffers that are not."""
    clear()
    try_boot("out-191", FOUR, FULL, 191)
    try_boot("out-192", FOUR, FULL, 192)
    clear()
    for short in (FULL - 1, node.OLD.size(4), 0):
        try_boot(f"image-{short}", FOUR, short)
    try_boot(f"image-{FULL - 1}-out-191", FOUR, FULL - 1, 191)
    hand_in(w9)
    for length in (0, 31, 32, FULL - 1, FULL):
        read(f"image-{length}", length)
    try_deliver("out-191", 22, ECHO, 0, FULL, 191)
    try_deliver("image-0-out-0", 22, ECHO, 0, 0, 0)
    for length in (0, 31, 32, FULL - 1):
        try_deliver(f"image-{length}", 22, ECHO, 0, length, 192)
    try_deliver("out-192", 22, ECHO, 0, FULL, 192)


def change(w9, label, changes):
    """Tries the image of W9 with other bytes at some places, by a frame that a sound one takes without a record."""
    other = bytearray(w9)
    for at, data in changes.items():
        other[at : at + len(data)] = data
    hand_in(other)
    read(label)
    try_deliver(label, 44, ECHO, 1)


def unsound(w9):
    """Images that are not sound, made from that of W9 (k = 5, last echo 5, active), and beside them some that are: headers, rosters and
    clocks."""

    def with_byte(label, at, byte):
        change(w9, label, {at: bytes([byte])})

    def with_clock(label, k, sent):
        change(w9, label, {8: k.to_bytes(4, "big") + sent.to_bytes(4, "big")})

    # with f = 0 no rule could fire either: that image is not sound because 4 controllers allow f = 1. Sizes: one less and one more than
    # the right one, that of an old image, and one above the buffer
    header = "n-5 0 5, f-2 1 2, f-85 1 85, f-0 1 0, mode-2 2 2, byte-3-0 3 0, byte-3-2 3 2, byte-3-255 3 255, offset-33 17 33,"
    header += f"offset-288 16 1, size-less 19 {FULL - 1}, size-more 19 {FULL + 1}, size-old 19 {node.OLD.size(4)}, size-far 18 255,"
    header += "byte-20 20 1, byte-23 23 1, byte-24 24 128, byte-27 27 1, byte-28 28 1, byte-31 31 255"
    for label, at, byte in (case.split() for case in header.split(",")):
        with_byte(label, int(at), int(byte))
    # a header that agrees with itself, of no rows and of 33
    change(w9, "n-0", {0: b"\0\0", 18: image_size(0).to_bytes(2, "big")})
    assert image_size(33) <= BUFFER
    change(w9, "n-33", {0: b"\x21\x0a", 18: image_size(33).to_bytes(2, "big")})
    for label, byte in (("own-0", 0), ("own-12", 12), ("own-44", 44)):
        with_byte(label, 7, byte)
    for label, byte in (("serial-0", 0), ("twin-11", 11)):
        with_byte(label, place(1, SERIAL_END), byte)
    for label, k, sent in (("last-echo-6", 5, 6), ("k-6", 6, 5), ("k-last", LAST, LAST), ("k-too-late", LAST + 1, 5)):
        with_clock(label, k, sent)
    with_clock("k-greatest", 2**32 - 1, 5)
    # each rule in turn is the only one that could fire; for R1 the echo sets of 22 and 44 are cut to tick 0, or R4 could as well
    cut = {place(row, at): byte for row in (1, 3) for at, byte in ((ECHO_TOP_END, b"\0"), (ECHO_MASK_END, b"\1"))}
    change(w9, "R1", {11: b"\1", 15: b"\0", **cut})
    with_clock("R2", 5, 4)
    with_clock("R3", 4, 4)
    with_clock("R4", 3, 3)
    with_byte("R5", 2, 0)


def unsound_sets(w9):
    """The same with sets: a bit 0 that is clear, and bits above the top and beside that, about the edges of the mask's words."""

    def with_mask(label, mask):
        """Another echo mask of 22."""
        change(w9, label, {place(1, ECHO_MASK): mask.to_bytes(node.NEW.mask, "big")})

    def with_set(label, top, mask):
        """Another init set of 44, which is empty."""
        change(w9, label, {place(3, INIT_TOP): top.to_bytes(4, "big") + mask.to_bytes(node.NEW.mask, "big")})

    # the echo set of 22 is 6, 5, 4 and 0
    right = 0b1000111
    assert w9[place(1, ECHO_MASK) : place(1, INIT_TOP)] == right.to_bytes(node.NEW.mask, "big")
    with_mask("bit-0-clear", right - 1)
    for bit in (7, 63, 64, 127):
        with_mask(f"bit-{bit}-of-6", right | 1 << bit)
    with_set("top-1-mask-0", 1, 0)
    for mask in (1, 2, 3):
        with_set(f"top-0-mask-{mask}", 0, mask)
    for bit in (62, 63, 64, 65, 126, 127):
        with_set(f"bit-{bit}-of-{bit - 1}", bit - 1, 1 << bit | 1)
        with_set(f"bit-{bit}-of-{bit}", bit, 1 << bit | 1)
        with_set(f"bit-{bit}-alone", 1000, 1 << bit)
    with_set("all-of-126", 126, 2**128 - 1)
    with_set("all-of-127", 127, 2**128 - 1)
    with_set("top-last", LAST, 1)
    with_set("top-too-late", LAST + 1, 1)


def rosters():
    """Forms that boot refuses with 1, 2, 21, 3, 4 or 5, and one with great serials that it takes. A zero counts before a twin, whatever
    the order of lines."""
    clear()
    for size in (0, 7, 23):
        try_boot(f"form-of-{size}", FOUR[:size])
    forms = (
        ("form-of-13", "01000008 00000007 00000007 00"),
        ("offset-9", "01000009 00000007 00000007"),
        ("offset-264", "01000108 00000007 00000007"),
        ("n-0", "00000008 00000007"),
        ("n-33", "210a0008" + "01010101" * 34),
        ("n-3-f-1", "03010008 00000001 00000001 00000002 00000003"),
        ("n-1-f-85", "01550008 00000007 00000007"),
        ("own-0", "01000008 00000000 00000007"),
        ("zero-twins", "03000008 00000007 00000000 00000007 00000007"),
        ("twins-zero", "03000008 00000007 00000007 00000007 00000000"),
        ("twins", "03000008 00000009 00000007 00000008 00000007"),
        ("own-unknown", "02000008 00000009 00000007 00000008"),
    )
    for label, digits in forms:
        try_boot(label, bytes.fromhex(digits))
    # f beside the full number, 21 below it and 2 above; 1 and 2 go before 21, all others behind
    for n, f in ((4, 0), (7, 0), (7, 1), (7, 3), (31, 9), (32, 0), (32, 9), (32, 11), (33, 0), (33, 9)):
        try_boot(f"n-{n}-f-{f}", make_form(f, n, range(1, n + 1)))
    less = make_form(1, 7, range(1, 8))
    try_boot("less-of-35", less[:-1])
    try_boot("less-offset-9", less[:3] + b"\x09" + less[4:])
    lists = (
        ("own-0", 0, (1, 2, 3, 4, 5, 6, 7)),
        ("zero", 7, (0, 2, 3, 4, 5, 6, 7)),
        ("twins", 7, (1, 1, 3, 4, 5, 6, 7)),
        ("own-unknown", 8, (1, 2, 3, 4, 5, 6, 7)),
        ("all-three", 8, (0, 2, 2, 4, 5, 6, 7)),
    )
    for label, own, serials in lists:
        try_boot(f"less-{label}", make_form(1, own, serials))
    try_boot("less-image-0", less, 0)
    try_boot("less-out-0", less, BUFFER, 0)
    boot("greatest-serial", bytes.fromhex("02000008 ffffffff 01000000 ffffffff"), image_size(2))


def faults():
    """Images that state less than the full f, or more, and the sound ones that they are made from. Nothing is held in them, so that no
    rule can fire with these f, but R3 with f = 1 of 1."""
    for n, beside in ((1, (1,)), (2, (1,)), (3, (1,)), (4, (0, 2)), (7, (0, 1, 3)), (32, (0, 9, 11))):
        full = (n - 1) // 3
        boot(f"faults-{n}", make_form(full, n, range(1, n + 1)), image_size(n))
        for f in (*beside, full):
            hand_in(bytes([n, f]))
            read(f"faults-{n}-{f}")
            try_deliver(f"faults-{n}-{f}", n, INIT, 2)


def zero():
    """Echo 0 and its answers, a serial that says a thing twice, and the ways to wake; each on a fresh image."""
    clear()
    boot("zero", FOUR, FULL)
    fresh = bytes(image[:FULL])
    # each echo 0 of another serial is answered, also once it lies below that serial's window; echo 1 and 2 are not
    deliver("asks", 1, 22, ECHO, 0)
    deliver("asks-again", 1, 22, ECHO, 0)
    deliver("own", 0, 11, ECHO, 0)
    for tick in (1, 2, 64, 127, 128):
        deliver(f"echo-{tick}", 1, 22, ECHO, tick)
    deliver("below", 1, 22, ECHO, 0)
    deliver("below-again", 1, 22, ECHO, 0)
    deliver("init-0", 1, 22, INIT, 0)
    # the answer goes first and names the last echo sent before this delivery, here 0, although echo 1 is sent in it
    hand_in(fresh)
    deliver("order-22", 1, 22, ECHO, 1)
    deliver("order-33", 2, 33, ECHO, 1)
    deliver("order-44", 3, 44, ECHO, 0)
    # one serial twice is one; two serials at tick 0 wake the node, which keeps its tick 0
    hand_in(fresh)
    deliver("init-22", 1, 22, INIT, 1)
    deliver("init-22-again", 1, 22, INIT, 1)
    read("init-22-again")
    deliver("init-0-44", 3, 44, INIT, 0)
    deliver("init-0-33", 2, 33, INIT, 0)
    read("init-0-33")
    # two serials at tick 7 wake the node at tick 6, with its echo
    hand_in(fresh)
    deliver("init-7-22", 1, 22, INIT, 7)
    deliver("init-7-33", 2, 33, INIT, 7)
    read("init-7-33")
    # a wake without a record counts as a firing, too; in the end echo 0 brings four firings and, its answer included, five records,
    # the most of one delivery unless n = 1
    hand_in(fresh)
    for tick in (1, 2):
        deliver(f"four-init-{tick}-22", 1, 22, INIT, tick)
        deliver(f"four-init-{tick}-33", 2, 33, INIT, tick)
    for row, port, tick in ((3, 44, 3), (0, 11, 1), (1, 22, 1), (2, 33, 0)):
        deliver(f"four-echo-{tick}-{port}", row, port, ECHO, tick)
    read("four")


def answers(w9):
    """The flag of an echo: an answer is credited as a broadcast is, and never answered."""
    clear()
    boot("answers", FOUR, FULL)
    fresh = bytes(image[:FULL])
    # the flag decides, not what was heard before: 22 is answered where it asks, and not where it answers
    deliver("answer", 1, 22, ECHO, 0, ANSWER)
    deliver("answer-again", 1, 22, ECHO, 0, ANSWER)
    deliver("then-asks", 1, 22, ECHO, 0)
    deliver("then-answer", 1, 22, ECHO, 0, ANSWER)
    deliver("answer-own", 0, 11, ECHO, 0, ANSWER)
    # answers of other ticks: with the second echo 134 the node jumps to 133; echo 0 is now below the window of 22
    deliver("answer-134-22", 1, 22, ECHO, 134, ANSWER)
    deliver("answer-1-33", 2, 33, ECHO, 1, ANSWER)
    deliver("answer-134-33", 2, 33, ECHO, 134, ANSWER)
    deliver("answer-below", 1, 22, ECHO, 0, ANSWER)
    deliver("asks-below", 1, 22, ECHO, 0)
    deliver("asks-44", 3, 44, ECHO, 0)
    # three serials hold echo 0 by answers alone: the node ticks, and the init is its only record
    hand_in(fresh)
    for row, port in ((1, 22), (3, 44), (2, 33)):
        deliver(f"by-answers-{port}", row, port, ECHO, 0, ANSWER)
    # every echo of W2 to W9 as an answer leaves the same image, with no answer among the records
    hand_in(fresh)
    for label, row, port, kind, tick in STORY:
        deliver(f"{label}-by-answers", row, port, kind, tick, ANSWER if kind == ECHO else BROADCAST)
    assert image[:FULL] == w9
    deliver("last-answer", 2, 33, ECHO, LAST, ANSWER)


def words_apart(w9):
    """Ticks of 22 that lie in both words of its mask, and the edges between these and behind the second."""
    hand_in(w9)
    for tick in (69, 70, 71, 131, 132, 133, 134, 196, 197, 198):  # 6 lies 63 to 65, 125 to 128 below, 69 lies 127 to 129
        deliver(f"init-{tick}", 1, 22, INIT, tick)
    for tick in (135, 134, 133, 72, 71, 70, 69):  # of 198: 63, 64 and 65 below, and about the end of the window
        deliver(f"back-{tick}", 1, 22, INIT, tick)
    # two serials hold a tick that lies 100 below the top of one: the node jumps to the one before it, and not further
    hand_in(w9)
    deliver("far-22", 1, 22, ECHO, 300)
    deliver("far-44", 3, 44, ECHO, 200)
    deliver("back-22", 1, 22, ECHO, 200)
    read("back-22")
    deliver("far-33", 2, 33, ECHO, 327)
    deliver("edge-33", 2, 33, ECHO, 202)  # 200 is 127 below 327
    deliver("below-33", 2, 33, ECHO, 199)


def old_story():
    """The image of W9 as it was before A8."""
    old, out = bytearray(node.OLD.size(4)), blank(OUT)
    node.boot(FOUR, old, out, node.OLD)
    for _, _, port, kind, tick in STORY:
        node.deliver(old, port, node.write_frame(kind, BROADCAST, tick), out, node.OLD)
    return bytes(old)


def conversions(w9):
    """Old images that are converted, and live on; and those that are refused."""
    old = old_story()
    clear()
    convert("W9", old)
    assert image[:FULL] == w9
    read("W9-converted")
    deliver("W9-converted", 1, 22, ECHO, 69)
    convert("behind", old + b"\xff")
    convert("room", old, FULL)
    for room in (FULL - 1, len(old), 0):
        convert(f"room-{room}", old, room)
    # 8 before 6; of the new form, cut, from the other form's size, with less than the full f, and with a rule that can fire
    convert("new", w9)
    convert("cut", old[:-1])
    convert("empty", b"")
    convert("empty-room-0", b"", 0)
    changes = "byte-3 3 1, f-0 1 0, mode-2 2 2, size-new 19 208, byte-20 20 1, own-12 7 12, R2 15 4, R5 2 0, bit-0-clear 75 70,"
    changes += "bit-7-of-6 75 199, bit-63-of-6 68 128"
    for label, at, byte in (case.split() for case in changes.split(",")):
        convert(label, old[: int(at)] + bytes([int(byte)]) + old[int(at) + 1 :])
    convert("R5-room-0", old[:2] + b"\0" + old[3:], 0)
    # the longest, from which nothing was heard
    longest = bytearray(node.OLD.size(32))
    node.boot(make_form(10, 33, range(64, 32, -1)), longest, blank(OUT), node.OLD)
    convert("longest", bytes(longest))
    read("longest")


def last():
    """The last tick: a jump to the one before it, a tick onto it, and no further."""
    clear()
    boot("last", FOUR, FULL)
    for row, port in ((1, 22), (2, 33), (3, 44), (0, 11)):
        deliver(f"last-{port}", row, port, ECHO, LAST)
    deliver("last-asks", 2, 33, ECHO, 0)
    try_deliver("last-and-1", 11, ECHO, LAST + 1, FULL, 192)
    read("last")
    deliver("last-init-22", 1, 22, INIT, LAST)
    deliver("last-init-44", 3, 44, INIT, LAST)
    read("last-init-44")


def small():
    """n = 1, f = 0: a node that hears itself. Its clock goes on by what the wiring delivers back, never by itself in one call."""
    clear()
    boot("one", bytes.fromhex("01000008 00000007 00000007"), image_size(1))
    fresh = bytes(image[: image_size(1)])
    for tick in (0, 1, 2):
        deliver(f"one-echo-{tick}", 0, 7, ECHO, tick)
        deliver(f"one-init-{tick + 1}", 0, 7, INIT, tick + 1)
        if tick != 1:
            read(f"one-init-{tick + 1}")
    show_image("one", image_size(1))
    # seven firings and seven records, the most that one delivery can bring: woken without a record, and with one
    hand_in(fresh)
    for name, kind, tick in (("init", INIT, 1), ("init", INIT, 5), ("echo", ECHO, 1), ("echo", ECHO, 4)):
        deliver(f"most-{name}-{tick}", 0, 7, kind, tick)
    read("most")
    show_image("most", image_size(1))
    hand_in(fresh)
    frames = (("echo", ECHO, 0), ("init", INIT, 4), ("echo", ECHO, 3), ("echo", ECHO, 4), ("init", INIT, 8), ("echo", ECHO, 7))
    for name, kind, tick in frames:
        deliver(f"seven-{name}-{tick}", 0, 7, kind, tick)
    read("seven")


def large():
    """n = 32, f = 10, own serial 33 on line 31. Echo 0 from n - f = 22 lines brings the first tick; the next line is still answered
    with echo 0, the last that was sent. Init 1 from f + 1 = 11 lines wakes the node."""
    clear()
    boot("many", make_form(10, 33, range(64, 32, -1)), image_size(32))
    for row in range(23):
        deliver("many-echo-0", row, 64 - row, ECHO, 0)
    for row in range(11):
        deliver("many-init-1", row, 64 - row, INIT, 1)
    read("many")
    deliver("many-own", 31, 33, ECHO, 1)


def main():
    if sys.argv[1:] not in (["stdin"], ["stdout"]):
        sys.exit(__doc__)
    w9 = story()
    for trial in (refused, room, unsound, unsound_sets, answers, words_apart, conversions):
        trial(w9)
    for trial in (rosters, faults, zero, last, small, large):
        trial()
    assert len(stdin) < 65536  # what the program reads
    sys.stdout.buffer.write(stdin if sys.argv[1] == "stdin" else stdout)


if __name__ == "__main__":
    main()
