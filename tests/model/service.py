#!/usr/bin/env python3
"""Images from before A8 for the program `convert`, and what it has to make of them, by the model in node.py. tests/convert/run asks about
them: they are made, not stored, but for the one that the crate of the program has.

usage: tests/model/service.py FOLDER      writes NAME.old each into the folder, and NAME.new where it is converted
       tests/model/service.py old > crates/convert/stdin
       tests/model/service.py new > crates/convert/stdout"""
import pathlib
import random
import sys

import node
import packs
from node import ECHO, INIT, LAST, NEW, OLD


def booted(n):
    """A fresh image, and the serials of its roster in their order."""
    serials = [1 + 7919 * i for i in range(n)][::-1]
    form = bytes([n, (n - 1) // 3, 0, 8]) + b"".join(s.to_bytes(4, "big") for s in (serials[n // 2], *serials))
    image = bytearray(OLD.size(n))
    assert node.boot(form, image, bytearray(node.ROOM), OLD) == (0, 1, 0)
    return image, serials


def lived(n, frames):
    """An image after some frames: mostly about the clock, now and then at an edge of the window."""
    rng = random.Random(n)
    image, serials = booted(n)
    for _ in range(frames):
        away = rng.choice([-64, -63, -62, -2, -1, 0, 0, 0, 1, 1, 1, 2, 3, 62, 63, 64, 65])
        tick = min(max(node.number(image[8:12]) + away, 0), LAST)
        frame = node.write_frame(rng.choice([INIT, ECHO]), node.BROADCAST, tick)
        assert node.deliver(image, rng.choice(serials), frame, bytearray(node.ROOM), OLD)[0] == 0
    return bytes(image)


def made(n, k, held):
    """An active node that has sent echo k, of which every serial holds the same ticks of both kinds."""
    image = bytearray(OLD.size(n))
    evidence = {serial: {ECHO: set(held), INIT: set(held)} for serial in range(1, n + 1)}
    node.write_image(node.Node(n, (n - 1) // 3, 1, True, k, k), evidence, image, OLD)
    return bytes(image)


def changed(image, *changes):
    """The image with other bytes at some places."""
    other = bytearray(image)
    for at, *data in changes:
        other[at : at + len(data)] = data
    return bytes(other)


def converted(old):
    """The new image, or None where the old one is refused, which is always with 8."""
    image = bytearray(NEW.size(32))
    number, written = node.convert(old, image)
    assert (number, written > 0) in [(0, True), (8, False)]
    return bytes(image[:written]) or None


EXAMPLE = packs.old()  # of four, at tick 4; the echo mask of its second row, 15, ends at byte 75
RUN = lived(7, 400)
WIDE = made(4, LAST, range(LAST - 63, LAST + 1))  # all ticks that an old set can hold

TAKEN = {
    "example": EXAMPLE,
    **{f"fresh-{n}": bytes(booted(n)[0]) for n in (1, 4, 32)},
    **{f"lived-{n}": lived(n, 300) for n in (1, 2, 3, 4, 10, 31, 32)},
    "lived-7": RUN,
    "all-ticks": WIDE,
    "first-ticks": made(1, 62, {63, 0}),
    "a-byte-behind": EXAMPLE + b"\xff",
    "two-images": EXAMPLE + RUN,
    "new-image-behind": EXAMPLE + converted(EXAMPLE),
    "as-long-as-a-new-one": EXAMPLE + bytes(NEW.size(4) - OLD.size(4)),
    "longest-and-more": lived(32, 300) + b"\xff" * 700,
    "100000-behind": RUN + b"\xff" * 100_000,
}

REFUSED = {
    "empty": b"",
    "one-byte": EXAMPLE[:1],
    "short": EXAMPLE[:31],
    "header-alone": EXAMPLE[:32],
    "cut": EXAMPLE[:-1],
    "cut-longest": lived(32, 300)[:-1],
    "zeros": bytes(100_000),
    # of the new form, or half of it
    "new": converted(EXAMPLE),
    "new-longest": converted(lived(32, 300)),
    "new-and-more": converted(EXAMPLE) + bytes(100_000),
    "new-with-byte-3-of-an-old-one": changed(converted(EXAMPLE), (3, 0)),
    "byte-3-1": changed(EXAMPLE, (3, 1)),
    "byte-3-2": changed(EXAMPLE, (3, 2)),
    "size-of-a-new-one": changed(EXAMPLE + bytes(200), (18, 0, NEW.size(4))),
    "size-929": changed(EXAMPLE + bytes(2000), (18, 3, 161)),
    # another f than the full one, and more controllers than there may be
    "f-0-of-4": changed(EXAMPLE, (1, 0)),
    "f-1-of-7": changed(RUN, (1, 1)),
    "f-3-of-7": changed(RUN, (1, 3)),
    "n-0": changed(EXAMPLE, (0, 0, 0), (18, 0, 32)),
    "n-33": changed(lived(32, 0) + bytes([0, 0, 0, 9]) + bytes(24), (0, 33, 10), (18, 3, 188)),
    # what else a sound image has
    "mode-2": changed(EXAMPLE, (2, 2)),
    "own-serial-12": changed(EXAMPLE, (7, 12)),
    "a-serial-0": changed(EXAMPLE, (63, 0)),
    "22-twice": changed(EXAMPLE, (91, 22)),
    "last-echo-5": changed(EXAMPLE, (15, 5)),
    "clock-too-late": changed(EXAMPLE, (8, 255)),
    "byte-31": changed(EXAMPLE, (31, 1)),
    "bit-0-clear": changed(EXAMPLE, (75, 14)),
    "bit-4-of-top-3": changed(EXAMPLE, (75, 31)),
    "bit-63-of-top-3": changed(EXAMPLE, (68, 128)),
    "bit-63-of-top-62": changed(made(1, 62, {62}), (40, 128), (52, 128)),
    "echo-unsent": changed(EXAMPLE, (15, 3)),
    "passive": changed(EXAMPLE, (2, 0)),
    "damaged-and-more": changed(EXAMPLE, (75, 14)) + bytes(100_000),
}


def main():
    if len(sys.argv) != 2:
        sys.exit(__doc__)
    if sys.argv[1] in ("old", "new"):
        sys.stdout.buffer.write(RUN if sys.argv[1] == "old" else converted(RUN))
        return
    assert converted(EXAMPLE) == packs.image()  # the example's node is the same before A8 and since
    for name, old in {**TAKEN, **REFUSED}.items():
        new = converted(old)
        assert (new is not None) == (name in TAKEN), name
        pathlib.Path(sys.argv[1], name + ".old").write_bytes(old)
        if new is not None:
            pathlib.Path(sys.argv[1], name + ".new").write_bytes(new)


main()
