"""Images that are cut at every place, and images at the limits, each with the answer that it must have by how it is made.

    python3 tests/pieces/extremes.py

prints lines of the form of tests/reference/pieces.py; tests/pieces.sh runs them.
"""

import os
import sys

HERE = os.path.dirname(os.path.abspath(__file__))
sys.path.insert(0, os.path.join(HERE, "..", "joint"))
from build import CONTROLLABLE, Plan, full  # noqa: E402

LIMIT = 49152
# How many bytes a record of a kind has
BYTES = {0x10: 4, 0x11: 4, 0x12: 4, 0x13: 5, 0x14: 12, 0x15: 5, 0x16: 11, 0x17: 12, 0x18: 3, 0x1F: 1}


def ask(image, cuts, answer):
    print("pieces %s %s > %s" % (image.hex() or "-", cuts, answer))


def offsets(image):
    """Where the records of an accepted plan begin, and its length."""
    found = [0]
    while found[-1] < len(image):
        found.append(found[-1] + BYTES[image[found[-1]]])
    return found


def every_place(image):
    """The plan cut at each place, and each of its beginnings byte by byte: 3 at the record that is cut, or where none is left."""
    begins = offsets(image)
    for place in range(len(image) + 1):
        ask(image, place, "ok")
    for place in range(len(image)):
        ask(image[:place], "/1", "3 %d" % max(begin for begin in begins if begin <= place))


def two_valves():
    print("# The two-valve plan, cut at each place")
    with open(os.path.join(HERE, "..", "..", "docs", "two-valve.hex"), encoding="utf-8") as f:
        every_place(bytes.fromhex("".join(line.split("#")[0] for line in f)))


def all_kinds():
    print("# A plan with a record of each kind, cut at each place")
    plan = Plan()
    module = plan.module(2, 0, [0, 1])
    event = plan.event(module, CONTROLLABLE, (0, 1), (1, 0))
    plan.supervisor(2, 0, [event], [(0, event, 1)], [(1, [event])])
    plan.steps(event, 2)
    every_place(plan.image())


def most():
    print("# As many modules, supervisors and events as there may be, with all their states and bits, and 64 steps of the last event")
    plan = Plan()
    for _ in range(16):
        plan.module(32, 31, [31])
    events = [plan.event(number // 4, CONTROLLABLE, (31, 31)) for number in range(64)]
    for _ in range(32):
        plan.supervisor(64, 63, events, [(63, 63, 63)], [(63, events)])
    plan.steps(63, 64)
    image = plan.image()
    for cuts in ("-", "/1", "/7", "/12"):
        ask(image, cuts, "ok")
    # its last record but for the end and the 16 marks: a 65th step's index is out of range, a second 64th is out of order
    before, last = image[: -16 * 3 - 1], image[-16 * 3 - 13 : -16 * 3 - 1]
    ask(before + bytes([0x17, 63, 64]) + last[3:], len(before) + 3, "5 %d" % len(before))
    ask(before + last, len(before) + 11, "4 %d" % len(before))
    # a head that promises one more module, supervisor or event than there are
    for modules, supervisors, events in ((15, 32, 64), (16, 31, 64), (16, 32, 63)):
        small = Plan()
        for _ in range(modules):
            small.module(1)
        for _ in range(supervisors):
            small.supervisor(1, 0, [])
        for _ in range(events):
            small.event(0, CONTROLLABLE)
        image = bytes([0x10, 16, 32, 64]) + small.image()[4:]
        ask(image, "/5", "8 %d" % (len(image) - 1))


def longest():
    print("# 49,152 bytes: accepted, without the end, with something in its place, and one byte more")
    image = full([]).image()
    assert len(image) == LIMIT
    for cuts in ("-", "/512", "49151", "1,49152"):
        ask(image, cuts, "ok")
    ask(image[:-1], "/4096", "3 49151")
    ask(image[:-1] + b"\x20", "49151", "2 49151")
    ask(image[:-1] + b"\x18", "49151", "3 49151")
    ask(image[:-1] + b"\x18\x00", "49151,49152", "1 0")
    ask(image + b"\x00", "49152", "1 0")
    ask(image + b"\x1f", "/4096", "1 0")
    step = offsets(image)[-3]
    faulty = image[: step + 3] + b"\x09" + image[step + 4 :]
    ask(faulty, "/4096", "5 %d" % step)
    ask(faulty + b"\x00", "49152", "1 0")


def main():
    two_valves()
    all_kinds()
    most()
    longest()


if __name__ == "__main__":
    main()
