#!/usr/bin/env python3
"""Sheets and images for the desk's program, which tests/pack/run asks about. They are made, not stored; the model in node.py says which
number each image has, and the test states the answers.

usage: desk.py FOLDER      writes NAME.sheet and NAME.image each into the folder"""
import pathlib
import sys

import node
from packs import ENTRIES, image, sheet

ACTIVE = image()
CLOCK = node.read(ACTIVE)[1]
MOST = 2**32 - 1

# packs 1 and 5 and the greatest number are in force at the clock, each at an edge; 2, 3 and 4 are not
EDGES = [
    (1, CLOCK, CLOCK + 1),
    (2, CLOCK + 1, MOST),
    (3, 0, CLOCK),
    (4, CLOCK, CLOCK),
    (5, 0, MOST),
    (MOST, CLOCK, MOST),
]
FULL = sheet([(pack, 0, pack) for pack in range(1, 201)])
GOOD = sheet(ENTRIES)

SHEETS = {
    "good": GOOD,
    "edges": sheet(EDGES),
    "edges-reversed": sheet(EDGES[::-1]),
    "no-entry": sheet([]),
    "full": FULL,
    # 14
    "empty": b"",
    "three-bytes": GOOD[:3],
    "header-alone": GOOD[:4],
    "a-byte-less": GOOD[:-1],
    "a-byte-more": GOOD + b"\0",
    "offset-5": GOOD[:3] + b"\5" + GOOD[4:],
    "201-entries": sheet([(pack, 0, pack) for pack in range(1, 202)]),
    "2405-bytes": FULL + b"\0",
    "four-times-full": FULL * 4,
    # 15, the last two with a wrong entry of 16 before and behind
    "pack-0": sheet([(1, 0, 9), (0, 0, 9)]),
    "twice": sheet([(2, 0, 9), (1, 0, 9), (2, 0, 9)]),
    "backward-then-0": sheet([(1, 9, 8), (0, 0, 9)]),
    "twice-then-backward": sheet([(1, 0, 9), (1, 0, 9), (2, 9, 8)]),
    # 16
    "backward": sheet([(1, 0, 9), (2, 9, 8)]),
}


def silent(count, active, layout=node.NEW):
    """An image of so many controllers from which nothing was heard."""
    data = bytearray(layout.size(count))
    nothing = {serial: {node.ECHO: set(), node.INIT: set()} for serial in range(1, count + 1)}
    node.write_image(node.Node(count, (count - 1) // 3, 1, active, CLOCK, CLOCK), nothing, data, layout)
    return bytes(data)


def stating(f, data):
    """The same image with another f."""
    return data[:1] + bytes([f]) + data[2:]


def marked(mark, data):
    """The same image with another byte 3."""
    return data[:3] + bytes([mark]) + data[4:]


# each with the number and the clock that read gives
IMAGES = {
    "active": (ACTIVE, (0, CLOCK)),
    "bytes-behind": (ACTIVE + b"\xff" * 5000, (0, CLOCK)),
    "longest": (silent(32, True), (0, CLOCK)),
    "longest-and-more": (silent(32, True) + b"\xff", (0, CLOCK)),
    "f-2-of-7": (silent(7, True), (0, CLOCK)),
    "passive": (silent(4, False), (12, 0)),
    "empty": (b"", (8, 0)),
    "short": (ACTIVE[:31], (8, 0)),
    "cut": (ACTIVE[:-1], (8, 0)),
    "byte-3-0": (marked(0, ACTIVE), (8, 0)),
    "byte-3-2": (marked(2, ACTIVE), (8, 0)),
    "byte-3-255": (marked(255, ACTIVE), (8, 0)),
    # from before A8, active and passive
    "old": (image(node.OLD), (8, 0)),
    "old-and-more": (image(node.OLD) + bytes(2000), (8, 0)),
    "old-longest": (silent(32, True, node.OLD), (8, 0)),
    "old-passive": (silent(4, False, node.OLD), (8, 0)),
    "f-1-of-7": (stating(1, silent(7, True)), (8, 0)),
    "f-0-of-7": (stating(0, silent(7, True)), (8, 0)),
    "f-3-of-7": (stating(3, silent(7, True)), (8, 0)),
    "f-9-of-32": (stating(9, silent(32, True)), (8, 0)),
    "f-1-of-7-passive": (stating(1, silent(7, False)), (8, 0)),
    "size-1441": (ACTIVE[:18] + (1441).to_bytes(2, "big") + ACTIVE[20:] + bytes(2000), (8, 0)),
}


def main():
    if len(sys.argv) != 2:
        sys.exit(__doc__)
    folder = pathlib.Path(sys.argv[1])
    for name, data in SHEETS.items():
        (folder / f"{name}.sheet").write_bytes(data)
    for name, (data, told) in IMAGES.items():
        assert node.read(data) == told, name
        (folder / f"{name}.image").write_bytes(data)


main()
