#!/usr/bin/env python3
"""Makes the example files of the desk's program: a pack sheet, and the image of the first controller at the end of the run that
examples/faulty-controller.log is a log of, active at tick 4. For the program `convert`: that image as it was before A8.

usage: tests/model/packs.py sheet > examples/packs.sheet
       tests/model/packs.py image > examples/active.image
       tests/model/packs.py old > examples/old.image"""
import sys

import example
import node

# pack number, first tick, first tick no longer licensed; in ascending pack number, as the writer leaves them
ENTRIES = [
    (3, 0, 4_294_967_295),  # always in force
    (7, 2, 1_000),  # in force at tick 4
    (9, 1_000, 2_000),  # not yet
    (12, 1, 4),  # no longer
]


def sheet(entries):
    head = len(entries).to_bytes(2, "big") + (4).to_bytes(2, "big")
    return head + b"".join(x.to_bytes(4, "big") for entry in entries for x in entry)


def image(layout=node.NEW):
    _, images = example.run(layout)
    return bytes(images[11])


def old():
    return image(node.OLD)


if __name__ == "__main__":
    sys.stdout.buffer.write({"sheet": lambda: sheet(ENTRIES), "image": image, "old": old}[sys.argv[1]]())
