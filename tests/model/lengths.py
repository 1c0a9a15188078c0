#!/usr/bin/env python3
"""Logs about the greatest length, 1,012 + 12 * 4,096 = 50,164 bytes, with their listings by the model in node.py. The front of a longer
one is a good log, so that a player that judges what its buffer holds, and not the whole, is noticed. They are made, not stored.

usage: lengths.py FOLDER      writes NAME.log and NAME.txt each into the folder"""
import pathlib
import sys

import node

LINES, EVENTS = 248, 4096  # a form part of 1,000 bytes, the most events


def words(*numbers):
    return b"".join(number.to_bytes(4, "big") for number in numbers)


FORM = bytes([LINES, (LINES - 1) // 3, 0, 8]) + words(1, *range(1, LINES + 1))
GREATEST = words(EVENTS, 12, 12 + len(FORM)) + FORM + (words(1) + node.write_frame(node.ECHO, node.BROADCAST, 0)) * EVENTS
assert len(GREATEST) == 50_164

# Each with the line that document 01 settles: 2 where the layout is right, since no form of so many lines is taken; else 13.
LOGS = [
    ("greatest", GREATEST, 2),
    ("a-byte-less", GREATEST[:-1], 13),
    ("a-byte-more", GREATEST + b"\0", 13),
    ("an-event-more", GREATEST + GREATEST[-12:], 13),
    ("four-times", GREATEST * 4, 13),
]

if len(sys.argv) != 2:
    sys.exit(__doc__)
for name, log, number in LOGS:
    listing = node.listing(log)
    assert listing == f"0 {number} 0 0 p\n", name
    path = pathlib.Path(sys.argv[1], name)
    path.with_suffix(".log").write_bytes(log)
    path.with_suffix(".txt").write_text(listing)
