#!/usr/bin/env python3
"""Makes examples/faulty-controller.log: four controllers are powered one after another, the fourth lies, and the log is what the wiring
delivered to the first. The correct ones run the model of this folder.

usage: tests/model/example.py > examples/faulty-controller.log"""
import random
import sys

import node

SERIALS, LIAR = [11, 22, 33, 44], 44


def form(own):
    return bytes([4, 1, 0, 8]) + b"".join(s.to_bytes(4, "big") for s in [own] + SERIALS)


def run(layout=node.NEW):
    """Runs the truck; gives the log and the images of the controllers that are up. With the old layout they are as they were before A8."""
    rng = random.Random(11)
    images, wire, log = {}, [], []

    def send(sender, out, records):
        for i in range(records):
            record = bytes(out[12 * i : 12 * i + 12])
            dest = int.from_bytes(record[:4], "big")
            for serial in SERIALS if dest == 0 else [dest]:
                wire.append((sender, serial, record[4:]))

    def boot(serial):
        images[serial], out = bytearray(layout.size(4)), bytearray(node.ROOM)
        _, records, _ = node.boot(form(serial), images[serial], out, layout)
        send(serial, out, records)

    for step in range(240):  # so many that the clocks are at tick 4, which the entries of packs.py go by
        if step in (0, 12, 30):
            boot({0: 11, 12: 22, 30: 33}[step])
        if step % 5 == 0:  # the liar says a tick far ahead, far behind, or nonsense, to everybody something else
            for serial in SERIALS[:3]:
                kind = rng.choice([1, 2])
                tick = rng.choice([0, 3, 7, 1000, 3_999_999_999, 4_294_967_295])
                flag = rng.choice([node.BROADCAST, node.ANSWER])  # an init that says to be an answer is nonsense, too
                wire.append((LIAR, serial, node.write_frame(kind, flag, tick)))
        if not wire:
            continue
        sender, dest, frame = wire.pop(0)
        if dest not in images:
            continue  # that controller is down: the message is lost
        if dest == 11:
            log.append(sender.to_bytes(4, "big") + frame)
        out = bytearray(node.ROOM)
        _, records, _ = node.deliver(images[dest], sender, frame, out, layout)
        send(dest, out, records)
    head = b"".join(x.to_bytes(4, "big") for x in [len(log), 12, 12 + len(form(11))])
    return head + form(11) + b"".join(log), images


if __name__ == "__main__":
    sys.stdout.buffer.write(run()[0])
