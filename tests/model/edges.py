#!/usr/bin/env python3
"""The edges of document 01 on fields, forms, frames, masks, sets of ticks and rows, with the flag of request A2, the full f of A7, the
window of A8 and the early stop of A12, from the papers alone: forms and frames are bytes made of their fields, a mask is an int, a set of ticks is a Python set of
ints. CASES has the cases; this writes what the program `edges` is given, and what it must print.

usage: tests/model/edges.py stdin > crates/edges/stdin
       tests/model/edges.py stdout > crates/edges/stdout"""
import sys

WINDOW, LAST, INIT, ECHO = 128, 4_000_000_000, 1, 2
MASK, HALF = WINDOW // 8, 64                                                           # bytes of a mask, bits of each of its two words
BROADCAST, ANSWER = 0, 1                                                               # byte 1 of a frame

# ---- the input: for each case a head, the label and the bytes that the call is given

CALLS = ["half", "word", "long", "form", "serial", "frame", "write form", "write frame", "none", "after", "holds", "proper", "rows", "row",
         "ask", "greatest", "store", "bit", "word at", "below", "up", "cut", "mark"]   # numbered from 0
WORDS = ["room", "count", "serial", "kind", "flag", "tick", "last", "top"]             # of a head, 0 where a call has no use for one


def case(call, label, answer, data=b"", value=0, mask=0, **words):
    """A case: what the program is given for it, and its line."""
    assert set(words) <= set(WORDS)
    text = label.encode()
    head = word(CALLS.index(call), 2) + word(len(text), 2) + word(len(data))
    head += b"".join(word(words.get(name, 0)) for name in WORDS) + word(value, 8) + word(mask, MASK)
    return head + text + data, " ".join([label, *map(str, answer)]) + "\n"


def word(x, size=4):
    return x.to_bytes(size, "big")


def words(*values):
    return b"".join(map(word, values))


# ---- fields: big-endian

def field(call, width, value):
    given = {"value": value} if width == 8 else {"count": value}
    return case(call, call + ":", [(b"\xee" + word(value, width) + b"\xee").hex(), value], **given)


# ---- forms (01, "Layouts" and "Numbers given back"; A7: n must not allow a greater f)

def form(n, f, own, serials, offset=8):
    return bytes([n, f]) + word(offset, 2) + words(own, *serials)


def roster_number(f, own, serials):
    n = len(serials)
    if not 1 <= n <= 32 or n < 3 * f + 1:
        return 2
    if n >= 3 * (f + 1) + 1:
        return 21
    if own == 0 or 0 in serials:
        return 3
    if len(set(serials)) < n:
        return 4
    if own not in serials:
        return 5
    return 0


def taken(b):
    """Number, f, own serial and serials."""
    if len(b) < 8 or b[2:4] != b"\x00\x08" or len(b) != 8 + 4 * b[0]:
        return 1, 0, 0, []
    own = int.from_bytes(b[4:8], "big")
    serials = [int.from_bytes(b[i:i + 4], "big") for i in range(8, len(b), 4)]
    number = roster_number(b[1], own, serials)
    return (number, 0, 0, []) if number else (0, b[1], own, serials)


def read_form(label, b):
    number, f, own, serials = taken(b)
    return case("form", f"form {label}:", [number, len(serials), f, own], b)


def read_serial(label, b, line):
    return case("serial", f"serial {label}:", (taken(b)[3][line:line + 1] or [0])[:1], b, value=line)


def written(number, made, room):
    """A writer's end: number, length written and the output afterwards, which was room bytes 0xee."""
    out = b"\xee" * room
    if number == 0 and room < len(made):
        number = 7
    return [number, 0, out.hex()] if number else [0, len(made), (made + out[len(made):]).hex()]


def write_form(label, f, own, serials, room):
    number = roster_number(f, own, serials)
    answer = written(number, b"" if number else form(len(serials), f, own, serials), room)
    return case("write form", f"write form {label}:", answer, words(*serials), room=room, count=f, serial=own)


# ---- frames (A2: byte 1 of an echo may be 1)

def frame(kind, tick, flag=BROADCAST, zeros=b"\x00\x00"):
    return bytes([kind, flag]) + zeros + word(tick)


def frame_number(kind, flag, tick):
    return 10 if (kind, flag) not in [(INIT, BROADCAST), (ECHO, BROADCAST), (ECHO, ANSWER)] else 11 if tick > LAST else 0


def read_frame(label, b):
    number, fields = 10, [0, 0, 0]
    if len(b) == 8 and b[2:4] == b"\x00\x00":
        fields = [b[0], b[1], int.from_bytes(b[4:], "big")]
        number = frame_number(*fields)
    return case("frame", f"frame {label}:", [number, 0, 0, 0] if number else [0, *fields], b, last=LAST)


def write_frame(label, kind, tick, room, flag=BROADCAST):
    number = frame_number(kind, flag, tick)
    answer = written(number, b"" if number else frame(kind, tick, flag), room)
    return case("write frame", f"write frame {label}:", answer, room=room, kind=kind, flag=flag, tick=tick, last=LAST)


# ---- masks: a number of 128 bits, in two words of the program. A line shows one as 32 digits in hex

def show_mask(call, mask, place, answer):
    return case(call, f"{call} {place} of {mask:#x}:", [answer], mask=mask, count=place)


def digits(mask):
    return f"{mask:0{2 * MASK}x}"


def store(mask):
    """Stored behind one byte, and read back."""
    return case("store", f"store {mask:#x}:", [(b"\xee" + word(mask, MASK) + b"\xee").hex(), digits(mask)], mask=mask)


def bit(mask, i):
    return show_mask("bit", mask, i, mask >> i & 1)


def word_at(mask, i):
    return show_mask("word at", mask, i, (mask >> i) % 2**HALF)


def below(mask, k):
    return show_mask("below", mask, k, "yes" if mask < 2**k else "no")


def up(mask, d):
    return show_mask("up", mask, d, digits((mask << d) % 2**WINDOW))


def cut(mask, w):
    return show_mask("cut", mask, w, digits(mask % 2**w))


def mark(mask, d):
    return show_mask("mark", mask, d, digits(mask | 1 << d))


FULL = 2**WINDOW - 1
ENDS = 1 << 127 | 1 << 64 | 1 << 63 | 1                                                # the outer bits of both words
MIXED = 0xFEDCBA9876543210_0123456789ABCDEF
PLACES = [0, 1, 62, 63, 64, 65, 126, 127]


# ---- sets of ticks (01, "Evidence")

def after(ticks, kind, j):
    ticks = ticks | {t for t in ([j, j - 1, j - 2] if kind == ECHO else [j]) if t >= 0}
    return {t for t in ticks if max(ticks) - t <= WINDOW - 1}


def image(ticks):
    """Top and mask."""
    top = max(ticks, default=0)
    return top, sum(1 << (top - t) for t in ticks)


def shown(ticks):
    top, mask = image(ticks)
    return [top, digits(mask)]


def proper(top, mask):
    """Whether top and mask are those of some set that an image may hold."""
    if mask == 0:
        return top == 0
    held = [i for i in range(WINDOW) if mask >> i & 1]
    return 0 in held and max(held) <= top


def show_after(label, ticks, kind, tick):
    top, mask = image(ticks)
    return case("after", label + ":", shown(after(ticks, kind, tick)), top=top, mask=mask, kind=kind, tick=tick)


def show_holds(label, ticks, tick):
    top, mask = image(ticks)
    return case("holds", f"{label} holds {tick}:", [int(tick in ticks)], top=top, mask=mask, tick=tick)


def show_proper(top, mask):
    return case("proper", f"proper: {top} {mask:#x}", ["yes" if proper(top, mask) else "no"], top=top, mask=mask)


HUNDRED, HIGH, WIDE = {100}, {200}, {73, 136, 137, 200}
SIX = after(after(set(), ECHO, 0), ECHO, 6)
assert after(SIX, ECHO, 69) == {69, 68, 67, 6, 5, 4, 0}                                       # W10, as A8 works it again
assert after(SIX, ECHO, 133) == {133, 132, 131, 6} and after(SIX, ECHO, 134) == {134, 133, 132}


# ---- rows: a dictionary of the serials, in the form's order

def credited(events):
    held = {serial: {ECHO: set(), INIT: set()} for serial in (11, 22, 33, 44)}
    for serial, kind, tick in events:
        if serial in held:
            held[serial][kind] = after(held[serial][kind], kind, tick)
    return held


def rows(held):
    b = b""
    for serial, of in held.items():
        b += word(serial)
        for top, mask in image(of[ECHO]), image(of[INIT]):
            b += word(top) + word(mask, MASK)
    return b


def holders(held, kind, tick):
    return sum(tick in of[kind] for of in held.values())


def show_rows(label, events):
    return case("rows", label + ":", [rows(credited(events)).hex()], b"".join(words(*event) for event in events))


def show_row(held, serial):
    place = list(held).index(serial) if serial in held else "nowhere"
    return case("row", f"row of: {serial}", [place], rows(held), serial=serial)


NAMES = {INIT: "init", ECHO: "echo"}


def show_asked(held, kind, tick, m, where=""):
    """Whether m rows hold a tick: read are as few as leave no other answer, whatever the others hold."""
    held_by = [tick in of[kind] for of in held.values()]
    read = next(r for r in range(len(held) + 1) if sum(held_by[:r]) >= m or sum(held_by[:r]) + len(held_by[r:]) < m)
    answer = "yes" if holders(held, kind, tick) >= m else "no"
    return case("ask", f"{NAMES[kind]} {tick} by {m}{where}:", [answer, read], rows(held), kind=kind, tick=tick, count=m)


def show_greatest(held, kind, m, low, where=""):
    some = {t for of in held.values() for t in of[kind] if t >= low and holders(held, kind, t) >= m}
    answer = max(some, default=-1) + 1                                                # as tick + 1, 0 for none
    return case("greatest", f"greatest {NAMES[kind]}{where}: {m} {low}", [answer], rows(held), kind=kind, count=m, value=low)


W8 = [(11, ECHO, 0), (22, ECHO, 0), (33, ECHO, 0), (11, INIT, 1), (22, INIT, 1), (44, ECHO, 1), (33, ECHO, 5), (22, ECHO, 6)]
AGAIN = W8 + [(22, INIT, 1)]
STRANGER = AGAIN + [(99, ECHO, 5)]
LEAPS = {tick: STRANGER + [(22, ECHO, tick)] for tick in (69, 133, 134)}
HELD = credited(W8)                                                                   # W2 to W8
assert [of[ECHO] for of in HELD.values()] == [{0}, {6, 5, 4, 0}, {5, 4, 3, 0}, {1, 0}]


def apart(one, other, low=0):
    """The greatest tick that two hold: 11 and 44 hold init 1,000, which lies so far below the top of one and of the other."""
    held = credited([(11, INIT, 1000), (11, INIT, 1000 + one), (44, INIT, 1000), (44, INIT, 1000 + other), (22, INIT, 5000)])
    return show_greatest(held, INIT, 2, low, f", {one} and {other} below")


# ---- the cases

ONE, TWO = form(1, 0, 11, [11]), form(2, 0, 5, [0x01020304, 5])
FOUR = [11, 22, 33, 44]
MANY = FOUR + [5] * 256
MOST = list(range(1, 32)) + [2**32 - 1]
LONGEST = form(32, 10, 2**32 - 1, MOST)
# n, and f at the full number and beside it: 21 below it, 2 above
FAULTS = [(2, 0), (3, 0), (4, 0), (5, 0), (5, 1), (6, 1), (6, 2), (7, 0), (7, 1), (7, 2), (7, 3), (31, 9), (31, 10), (32, 0), (32, 9),
          (32, 10), (32, 11)]
SEVEN = list(range(1, 8))

CASES = [
    field("half", 2, 0x89AB),
    field("word", 4, 0x89ABCDEF),
    field("long", 8, 0xFEDCBA9876543210),
    # 1: length and offset
    read_form("empty", b""),
    read_form("of 7 bytes", bytes([0, 0, 0, 8, 0, 0, 0])),
    read_form("offset 9", form(1, 0, 11, [11], offset=9)),
    read_form("offset 0x0108", form(1, 0, 11, [11], offset=0x0108)),
    read_form("one byte short", ONE[:-1]),
    read_form("one byte long", ONE + b"\x00"),
    # 2: n and f
    read_form("n=0", form(0, 0, 11, [])),
    read_form("n=1 f=0", ONE),
    read_form("n=3 f=1", form(3, 1, 11, [11, 22, 33])),
    *(read_form(f"n=4 f={f}", form(4, f, 11, FOUR)) for f in (1, 85, 255)),
    read_form("n=33", form(33, 10, 0, [0] * 33)),
    # 21: less than the full f; 1 and 2 go before it, 3, 4 and 5 behind
    *(read_form(f"n={n} f={f}", form(n, f, n, range(1, n + 1))) for n, f in FAULTS),
    read_form("n=7 f=1 offset 9", form(7, 1, 7, SEVEN, offset=9)),
    read_form("n=7 f=1 one byte short", form(7, 1, 7, SEVEN)[:-1]),
    read_form("n=33 f=0", form(33, 0, 33, range(1, 34))),
    read_form("n=33 f=9", form(33, 9, 33, range(1, 34))),
    read_form("n=7 f=1 own 0", form(7, 1, 0, SEVEN)),
    read_form("n=7 f=1 and 0", form(7, 1, 7, [0] + SEVEN[1:])),
    read_form("n=7 f=1 twin", form(7, 1, 1, SEVEN[:6] + [1])),
    read_form("n=7 f=1 own missing", form(7, 1, 8, SEVEN)),
    read_form("n=4 f=0 and all of 3, 4, 5", form(4, 0, 7, [9, 0, 9, 8])),
    # 3, in any order of lines
    read_form("5 5 0", form(3, 0, 5, [5, 5, 0])),
    read_form("0 5 5", form(3, 0, 5, [0, 5, 5])),
    read_form("own 0", form(2, 0, 0, [5, 6])),
    read_form("own 0 and twin", form(2, 0, 0, [5, 5])),
    # 4, then 5; and the greatest serial
    read_form("twin", form(3, 0, 5, [5, 6, 5])),
    read_form("twin and own missing", form(2, 0, 7, [5, 5])),
    read_form("own missing", form(2, 0, 7, [5, 6])),
    read_form("greatest serial", form(1, 0, 2**32 - 1, [2**32 - 1])),
    read_serial("on line 0", TWO, 0),
    read_serial("on line 1", TWO, 1),
    read_serial("past the last line", TWO, 2),
    read_serial("far past the last line", TWO, 2**64 - 1),
    read_serial("of a refused form", form(1, 0, 5, [6]), 0),
    read_serial("of a form with less than the full f", form(7, 1, 7, SEVEN), 0),
    # 7, and bytes behind
    *(write_form(f"into {room}", 1, 11, FOUR, room) for room in (23, 24, 25)),
    # 2: f may be wider than a byte, where a byte of it may be the full one, and three times f than a word; n is the length of the list.
    # The first four of the 260 would do by themselves
    *(write_form(f"f={f}", f, 11, FOUR, 25) for f in (85, 256, 257, 1431655765, 4294967295)),
    write_form("no serial", 0, 11, [], 25),
    write_form("3 serials f=1", 1, 11, FOUR[:3], 25),
    write_form("33 serials", 10, 11, MANY[:33], 25),
    write_form("260 serials", 1, 11, MANY, 25),
    # 21: less than the full f; 2 goes before it, 3, 4, 5 and 7 behind
    *(write_form(f"{n} serials f={f}", f, n, list(range(1, n + 1)), 8 + 4 * n) for n, f in FAULTS),
    *(write_form(f"33 serials f={f}", f, 33, list(range(1, 34)), 136) for f in (0, 9)),
    write_form("260 serials f=0", 0, 11, MANY, 25),
    write_form("7 serials f=1 own 0", 1, 0, SEVEN, 36),
    write_form("7 serials f=1 and 0", 1, 7, [0] + SEVEN[1:], 36),
    write_form("7 serials f=1 twin", 1, 1, SEVEN[:6] + [1], 36),
    write_form("7 serials f=1 own missing", 1, 8, SEVEN, 36),
    write_form("4 serials f=0 and all of 3, 4, 5", 0, 7, [9, 0, 9, 8], 24),
    *(write_form(f"7 serials f={f} into no room", f, 7, SEVEN, 0) for f in (1, 2, 3)),
    # 3, in any order of lines; 4, then 5; 7 is last
    write_form("5 5 0", 0, 5, [5, 5, 0], 20),
    write_form("0 5 5", 0, 5, [0, 5, 5], 20),
    write_form("own 0", 0, 0, [5, 6], 20),
    write_form("twin", 0, 5, [5, 6, 5], 20),
    write_form("twin and own missing", 0, 7, [5, 5], 20),
    write_form("own missing", 0, 7, [5, 6], 20),
    write_form("own missing into no room", 0, 7, [5, 6], 0),
    write_form("into no room", 0, 5, [5, 6], 0),
    # the longest form
    write_form("32 serials", 10, 2**32 - 1, MOST, 136),
    read_form("read back", LONGEST),
    read_serial("read back", LONGEST, 31),
    # taken frames, and 11
    read_frame("init 0", frame(INIT, 0)),
    read_frame("echo 16909060", frame(ECHO, 16909060)),
    read_frame("last tick", frame(ECHO, LAST)),
    read_frame("after the last tick", frame(ECHO, LAST + 1)),
    # an answer, of any tick
    *(read_frame(f"answer {tick}", frame(ECHO, tick, ANSWER)) for tick in (0, 16909060, LAST, LAST + 1)),
    # 10 for the length, the kind, the flag and bytes 2 and 3, before 11
    read_frame("empty", b""),
    read_frame("of 7 bytes", frame(ECHO, 0)[:7]),
    read_frame("of 9 bytes", frame(ECHO, 0) + b"\x00"),
    read_frame("of 9 bytes with a late tick", frame(ECHO, 2**32 - 1) + b"\x00"),
    read_frame("answer of 9 bytes", frame(ECHO, 0, ANSWER) + b"\x00"),
    *(read_frame(f"kind {kind}", frame(kind, 0)) for kind in (0, 3)),
    read_frame("kind 3 with a late tick", frame(3, 2**32 - 1)),
    *(read_frame(f"kind {kind} flag 1", frame(kind, 0, ANSWER)) for kind in (0, INIT, 3)),
    *(read_frame(f"echo flag {flag}", frame(ECHO, 0, flag)) for flag in (2, 3, 128, 255)),
    read_frame("echo flag 2 with a late tick", frame(ECHO, LAST + 1, 2)),
    read_frame("init flag 1 with a late tick", frame(INIT, LAST + 1, ANSWER)),
    *(read_frame(f"{name} byte {2 + at} set", frame(kind, 0, flag, bytes([1 - at, at])))
      for name, kind, flag in [("init", INIT, BROADCAST), ("echo", ECHO, BROADCAST), ("answer", ECHO, ANSWER)] for at in (0, 1)),
    *(write_frame(f"kind {kind}", kind, 5, 8) for kind in (0, 3, 257)),
    write_frame("kind 3 with a late tick", 3, LAST + 1, 8),
    write_frame("after the last tick", INIT, LAST + 1, 8),
    write_frame("the last tick", INIT, LAST, 8),
    *(write_frame(f"answer {tick}", ECHO, tick, 8, ANSWER) for tick in (0, 5, LAST, LAST + 1)),
    # 10 for the flag: the last byte of a wider one may be that of a right one, and a flag of 256 must not count to the kind
    *(write_frame(f"kind {kind} flag 1", kind, 5, 8, ANSWER) for kind in (0, INIT, 3)),
    *(write_frame(f"echo flag {flag}", ECHO, 5, 8, flag) for flag in (2, 3, 255, 256, 257, 65537, 2**32 - 1)),
    *(write_frame(f"init flag {flag}", INIT, 5, 8, flag) for flag in (2, 256, 257, 65536)),
    write_frame("kind 0 flag 512", 0, 5, 8, 512),
    write_frame("echo flag 2 with a late tick", ECHO, LAST + 1, 8, 2),
    write_frame("init flag 1 with a late tick", INIT, LAST + 1, 8, ANSWER),
    # 7, last, and the byte behind
    write_frame("into 7", ECHO, 5, 7),
    write_frame("kind 0 into 7", 0, 5, 7),
    write_frame("a late tick into 7", ECHO, LAST + 1, 7),
    write_frame("into 9", ECHO, 16909060, 9),
    write_frame("answer into 7", ECHO, 5, 7, ANSWER),
    write_frame("echo flag 2 into 7", ECHO, 5, 7, 2),
    write_frame("answer with a late tick into 7", ECHO, LAST + 1, 7, ANSWER),
    write_frame("answer into 9", ECHO, 16909060, 9, ANSWER),
    # masks: each place about the end of a word
    *(store(mask) for mask in (0, 1, ENDS, MIXED, FULL)),
    *(bit(mask, place) for mask in (ENDS, FULL - ENDS) for place in PLACES),
    *(word_at(mask, place) for mask in (MIXED, FULL) for place in PLACES),
    *(below(1 << place, bits) for place in (0, 62, 63, 64, 126, 127) for bits in (place, place + 1)),
    *(below(mask, bits) for mask, bits in [(0, 0), (0, 64), (2**64 - 1, 63), (2**64 - 1, 64), (2**64, 64), (FULL, 64), (FULL, 127),
                                           (FULL, 128)]),
    *(up(mask, place) for mask in (1, MIXED, FULL) for place in PLACES if place > 0),
    *(cut(FULL, place) for place in [*PLACES, 128]),
    *(cut(MIXED, place) for place in (0, 4, 64, 68, 128)),
    *(mark(mask, place) for mask in (0, ENDS, FULL) for place in PLACES),
    # from {100}: the old tick lies 62 to 65 and 126 to 129 below the new one. From the empty set the top 0 is no tick
    show_after("init 100", set(), INIT, 100),
    *(show_after(f"init 100, init {tick}", HUNDRED, INIT, tick) for tick in (162, 163, 164, 165, 226, 227, 228, 229, LAST)),
    *(show_after(f"init 100, echo {tick}", HUNDRED, ECHO, tick) for tick in (163, 164, 165, 166, 227, 228, 229, 230, LAST)),
    show_after("init 5", set(), INIT, 5),
    # ticks of both words that go up by less than a word, a word, and more
    *(show_after(f"{{73, 136, 137, 200}}, init {tick}", WIDE, INIT, tick) for tick in (201, 262, 263, 264, 265, 326, 327, 328)),
    # W10, from the set that W8 leaves
    show_after("echo 0, echo 6", {0}, ECHO, 6),
    *(show_after(f"echo 0, echo 6, echo {tick}", SIX, ECHO, tick) for tick in (69, 70, 133, 134)),
    show_after("echo 6, echo 0", {6, 5, 4}, ECHO, 0),
    # ticks below 0 are none
    case("none", "none:", shown(set())),
    *(show_after(f"echo {tick}", set(), ECHO, tick) for tick in (0, 1, 2)),
    show_after("init 0", set(), INIT, 0),
    # the window of {200} reaches down to 73; its first word to 137
    *(show_after(f"init 200, echo {tick}", HIGH, ECHO, tick) for tick in (139, 138, 137, 136, 75, 74, 73, 72)),
    *(show_after(f"init 200, init {tick}", HIGH, INIT, tick) for tick in (137, 136, 73, 72)),
    show_after("init 200 twice", HIGH, INIT, 200),
    *(show_holds("{73, 136, 137, 200}", WIDE, tick) for tick in (72, 73, 74, 135, 136, 137, 138, 199, 200, 201)),
    show_holds("{}", set(), 0),
    show_holds("{0}", {0}, 0),
    # sets as an image may hold them
    *(show_proper(top, mask) for top, mask in [(0, 0), (1, 0), (0, 1), (0, 3), (5, 2), (5, 63), (5, 64), (5, 65), (5, 2**64),
                                               (5, 2**64 + 1), (126, FULL), (127, FULL), (2**32 - 1, 2**64 - 1), (2**32 - 1, FULL),
                                               (2**32 - 1, FULL - 1)]),
    *(show_proper(top, 2**place + 1) for place in (62, 63, 64, 65, 126, 127) for top in (place - 1, place)),
    show_rows("rows", []),
    show_rows("rows after W8", W8),
    *(show_row(HELD, serial) for serial in (11, 22, 33, 44, 99)),
    *(show_asked(HELD, ECHO, tick, m) for tick in (0, 1, 4, 6) for m in range(6)),
    *(show_asked(HELD, INIT, 1, m) for m in (1, 2, 3)),
    show_asked(HELD, ECHO, 7, 1),
    # the same rows from the last up: the answers stay, and how many rows are read does not
    *(show_asked(dict(reversed(HELD.items())), ECHO, tick, m, ", last row first")
      for tick in (1, 4) for m in (1, 2, 3, 4)),
    *(show_asked({}, ECHO, 0, m, " of no rows") for m in (0, 1)),
    show_asked(HELD, ECHO, 0, 2**32 - 1),
    *(show_greatest(HELD, ECHO, m, low) for m, low in [(2, 0), (2, 3), (2, 5), (2, 6), (2, 7), (1, 0), (4, 0), (5, 0)]),
    *(show_greatest(HELD, INIT, m, low) for m, low in [(1, 0), (2, 1), (3, 0)]),
    show_rows("rows after 22 init 1 again", AGAIN),
    show_rows("rows after 99 echo 5", STRANGER),
    *(show_rows(f"rows after 22 echo {tick}", events) for tick, events in LEAPS.items()),
    *(show_asked(credited(LEAPS[133]), ECHO, tick, m) for tick in (6, 5) for m in (1, 2)),
    # one tick that two hold, in either word of each
    *(apart(one, other) for one in (0, 63, 64, 65, 126, 127, 128) for other in (0, 100)),
    *(apart(127, 64, low) for low in (1000, 1001)),
]

if sys.argv[1:] not in (["stdin"], ["stdout"]):
    sys.exit(__doc__)
assert sum(len(given) for given, _ in CASES) < 65536                                  # what the program reads
for given, line in CASES:
    sys.stdout.buffer.write(given if sys.argv[1] == "stdin" else line.encode())
