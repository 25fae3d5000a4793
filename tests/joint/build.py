"""Plans for the tests of joint states, made so that their joint states and words are known: tests/stuck/extremes.py and
tests/counts/extremes.py take them."""

import os
import sys

sys.path.insert(0, os.path.join(os.path.dirname(os.path.abspath(__file__)), "..", "reference"))
from plan_check import (  # noqa: E402
    CONTROLLABLE, DISABLING, END, EVENT, HEAD, KEY, LIMIT, MARKING, MODULE, MODULE_MOVE, OUTPUT_ON, STEP, SUPERVISOR, SUPERVISOR_MOVE,
    UNCONTROLLABLE, bytes_of,
)

__all__ = ["CONTROLLABLE", "UNCONTROLLABLE", "REFUSED", "Plan", "counter", "full", "product"]

# Images that are refused, with the number and the offset
REFUSED = [
    (image.replace("+", ""), answer)
    for image, answer in (
        ("00" * 49153, "1 0"), ("20", "2 0"), ("-", "3 0"), ("18", "3 0"), ("10010001+18", "3 4"), ("1F", "4 0"), ("180000", "4 0"), ("10110001+1F", "5 0"),
        ("10010001+11000001+12000100+180001+1F", "6 12"), ("10010001+11000001+12000100+180100+1F", "6 12"),
        ("10010002+11000001+11010000+12000200+170100010000000000000000+180000+1F", "7 16"), ("10010001+1F", "8 4"),
        ("10020001+11000001+12000200+180000+1F", "8 15"), ("10010001+11000001+12000200+180000+1F+00", "4 16"),
    )
]


class Plan:
    """A plan under construction: modules, supervisors and events get their numbers in the order in which they are added."""

    def __init__(self):
        self.counts = {MODULE: 0, SUPERVISOR: 0, EVENT: 0}
        self.records = [(END, [])]

    def number(self, kind):
        self.counts[kind] += 1
        return self.counts[kind] - 1

    def event(self, module, kind, *moves):
        """An event of a module, which moves it as the pairs of states say."""
        number = self.number(EVENT)
        self.records.append((EVENT, [number, module, kind]))
        self.records += [(MODULE_MOVE, [module, before, number, after]) for before, after in moves]
        return number

    def module(self, states, initial=0, marks=()):
        number = self.number(MODULE)
        self.records.append((MODULE, [number, states, initial]))
        self.records += [(MARKING, [number, state]) for state in marks]
        return number

    def supervisor(self, states, initial, alphabet, moves=(), disablings=()):
        """Moves are (state, event, state), disablings (state, events)."""
        number = self.number(SUPERVISOR)
        self.records.append((SUPERVISOR, [number, states, initial, mask_of(alphabet)]))
        self.records += [(SUPERVISOR_MOVE, [number, *move]) for move in moves]
        self.records += [(DISABLING, [number, state, mask_of(events)]) for state, events in disablings]
        return number

    def cycle(self, states, marks=()):
        """A module that goes round by one event."""
        module = self.module(states, 0, marks)
        return self.event(module, CONTROLLABLE, *((state, (state + 1) % states) for state in range(states)))

    def steps(self, event, count):
        self.records += [(STEP, [event, index, OUTPUT_ON, 0]) for index in range(count)]

    def in_order(self):
        """The records as kinds and fields, in the image's order."""
        head = (HEAD, [self.counts[kind] for kind in (MODULE, SUPERVISOR, EVENT)])
        return sorted([head, *self.records], key=lambda record: (record[0], record[1][: KEY[record[0]]]))

    def image(self):
        return b"".join(bytes_of(kind, fields) for kind, fields in self.in_order())


def mask_of(events):
    return sum(1 << event for event in events)


def product(*sizes, marks=()):
    """Modules that go round, each by its own event: as many joint states as the product of the sizes."""
    plan = Plan()
    for size in sizes:
        plan.cycle(size, marks)
    return plan


def counter(bits, start, parties=False):
    """A binary counter of supervisors: event i is the one that turns bit i to 1 and the bits below it to 0. When all bits are 1, a last event
    leads the module to its second state, where it has no move. From `start` on there is one word, and as many joint states as it has
    events, and one more. With `parties`, as many modules and supervisors as a plan may have. The plan, the word and its last states."""
    plan = Plan()
    module = plan.module(2, 0, [0])
    events = [plan.event(module, CONTROLLABLE, (0, 0)) for _ in range(bits)]
    last = plan.event(module, CONTROLLABLE, (0, 1))
    for bit, own in enumerate(events):
        above = events[bit + 1 :]
        moves = [(0, own, 1)] + [(1, event, 0) for event in above]
        plan.supervisor(2, start >> bit & 1, [*events[bit:], last], moves, [(0, above + [last]), (1, [own])])
    while parties and plan.counts[MODULE] < 16:
        plan.module(1)
    while parties and plan.counts[SUPERVISOR] < 32:
        plan.supervisor(1, 0, [])
    word = [(~value & value + 1).bit_length() - 1 for value in range(start, 2**bits - 1)] + [last]
    states = [1] + [0] * (plan.counts[MODULE] - 1) + [1] * bits + [0] * (plan.counts[SUPERVISOR] - bits)
    return plan, word, states


def full(marks):
    """49,152 bytes, most of them moves and steps of no account: event 0 leads to a dead end, and no other has a move on the way."""
    plan = Plan()
    module = plan.module(32, 0, marks)
    plan.event(module, CONTROLLABLE, (0, 1))
    for _ in range(63):
        plan.event(module, CONTROLLABLE, *((state, 0) for state in range(2, 32)))
    leads = [(state, event, 63 - state) for state in range(64) for event in range(64)]
    # steps have twelve bytes: some moves of five fewer make what is left a multiple of that
    while (LIMIT - len(plan.image()) - 12 - 5 * len(leads)) % 12:
        leads.pop()
    plan.supervisor(64, 0, range(64), leads)
    steps = (LIMIT - len(plan.image())) // 12
    for event in range(64):
        plan.steps(event, min(64, max(0, steps - 64 * event)))
    assert len(plan.image()) == LIMIT
    return plan
