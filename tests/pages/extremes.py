"""Plans that fill their pages, or nearly, and the largest ones, each with the text that it must have by how it is made.

    python3 tests/pages/extremes.py

prints lines of the form of tests/reference/pages.py; tests/pages.sh runs them.
"""

import os
import sys

sys.path.insert(0, os.path.join(os.path.dirname(os.path.abspath(__file__)), "..", "joint"))
from build import CONTROLLABLE, REFUSED, Plan, full  # noqa: E402

LINE, PAGE = 73, 4380
MOST = 735840  # what is always enough

# A line by its kind: the name, the one-byte fields and the eight-byte field, which are given as a list
FORMS = {
    0x10: "head            %6d%6d%6d                                      \n",
    0x11: "event           %6d%6d%6d                                      \n",
    0x12: "module          %6d%6d%6d                                      \n",
    0x13: "module move     %6d%6d%6d%6d                                \n",
    0x14: "supervisor      %6d%6d%6d                      %016X\n",
    0x15: "supervisor move %6d%6d%6d%6d                                \n",
    0x16: "disabling       %6d%6d                            %016X\n",
    0x17: "procedure step  %6d%6d%6d                      %016X\n",
    0x18: "marking         %6d%6d                                            \n",
    0x1F: "end                                                                     \n",
}


def ask(plan, room, answer):
    print("pages %s %d > %s" % (plan.image().hex(), room, answer))


def text_of(plan):
    lines = [FORMS[kind] % tuple(fields) for kind, fields in plan.in_order()]
    assert all(len(line) == LINE for line in lines)
    while len(lines) % 60:
        lines.append(" " * 72 + "\n")
    return "".join(lines).encode()


def told(plan, pages, rooms=("exact", "short", "none", "more")):
    """The plan into the room that its text takes, into one byte less, into none, and into one more."""
    text = text_of(plan)
    assert len(text) == pages * PAGE
    for room in rooms:
        bytes_lent = len(text) + {"exact": 0, "short": -1, "none": -len(text), "more": 1}[room]
        ask(plan, bytes_lent, text.hex() if bytes_lent >= len(text) else "15 0")


def of_records(count):
    """A plan of so many records, from 27 to 538, with all kinds among them: all but 26 are moves of its supervisor."""
    plan = Plan()
    module = plan.module(32, 31, [0, 31])
    events = [plan.event(module, CONTROLLABLE, (number, 31 - number)) for number in range(8)]
    leads = [(state, event, 63 - state) for state in range(64) for event in events]
    plan.supervisor(64, 63, events, leads[: count - 26], [(63, events[3:])])
    plan.steps(events[-1], 3)
    assert len(plan.in_order()) == count
    return plan


def most_records():
    """10,049 records, as many as an accepted plan can have: all moves and all marks of 16 modules, and as many moves of supervisors as fit."""
    plan = Plan()
    for number in range(16):
        plan.module(32, 2 * number, range(32))
    for number in range(64):
        plan.event(number % 16, CONTROLLABLE, *((state, (state + number) % 32) for state in range(32)))
    leads = [(state, event, state ^ event) for state in range(64) for event in range(64)]
    plan.supervisor(64, 63, range(64), leads)
    plan.supervisor(64, 0, range(64), leads[:3309])
    assert len(plan.in_order()) == 10049 and len(plan.image()) == 49150
    return plan


def main():
    for count in (59, 60, 61, 119, 120, 121):
        print("# %d records" % count)
        told(of_records(count), -(-count // 60))
    print("# The most records")
    told(most_records(), 168, ("exact", "short", "none"))
    print("# The most bytes")
    plan = full([])
    told(plan, -(-len(plan.in_order()) // 60), ("exact", "short"))
    print("# The image's own numbers come first, whatever the room")
    for image, answer in REFUSED:
        for room in (0, 72, PAGE - 1, PAGE, MOST):
            print("pages %s %d > %s" % (image, room, answer))


if __name__ == "__main__":
    main()
