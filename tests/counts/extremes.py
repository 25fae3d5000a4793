"""Plans at the limits of `count_words`, each with the answer that it must have by how it is made.

    python3 tests/counts/extremes.py

prints lines of the form of tests/reference/joint.py; tests/counts.sh runs them.
"""

import functools
import math
import os
import sys

sys.path.insert(0, os.path.join(os.path.dirname(os.path.abspath(__file__)), "..", "joint"))
from build import CONTROLLABLE, REFUSED, UNCONTROLLABLE, Plan, counter, full, product  # noqa: E402

MOST = 86037  # what is always enough
LARGEST = 2**64 - 1


def ask(plan, length, room, answer):
    print("counts %s %d %d > %s" % (plan.image().hex(), length, room, answer))


def text_of(counts):
    return "".join("%d\n" % number for number in [*counts, sum(counts)]).encode()


def told(plan, length, counts, rooms=("exact", "short", "none")):
    """The counts into the room that their text takes, into one byte less, into none, and into more."""
    text = text_of(counts)
    for room in rooms:
        bytes_lent = {"exact": len(text), "short": len(text) - 1, "none": 0, "more": MOST}[room]
        ask(plan, length, bytes_lent, text.hex() if bytes_lent >= len(text) else "15 0")


def refused(plan, lengths, number, rooms=(0, MOST)):
    for length in lengths:
        for room in rooms:
            ask(plan, length, room, "%d 0" % number)


def only(place, count, states):
    """Counts that are 0 but for one."""
    return [0] * place + [count] + [0] * (states - place - 1)


# ---- independent modules: the words of a joint system are those of its parts, shuffled

def shuffled(first, second, length):
    """Of two parts, by state and then by the length of a word, the counts of both together up to a length; the second's states run faster."""
    return [
        [sum(math.comb(n, k) * one[k] * other[n - k] for k in range(n + 1)) for n in range(length + 1)] for one in first for other in second
    ]


def counts_of(parts, length):
    """The counts of modules that do not meet, at that length."""
    whole = functools.reduce(lambda first, second: shuffled(first, second, length), parts[:-1])
    last = parts[-1]
    return [sum(math.comb(length, k) * one[k] * other[length - k] for k in range(length + 1)) for one in whole for other in last]


def round_part(size, length):
    """A module that goes round by one event: a word of it ends in the state of its length."""
    return [[int(n % size == state) for n in range(length + 1)] for state in range(size)]


def rounds(sizes, lengths, rooms=("exact", "short")):
    plan = product(*sizes)
    for length in lengths:
        told(plan, length, counts_of([round_part(size, length) for size in sizes], length), rooms)
    return plan


def numbers():
    print("# The image's own numbers come first, whatever the length and the room")
    for image, answer in REFUSED:
        for length, room in ((0, 0), (3, MOST), (41, 0), (LARGEST, MOST)):
            print("counts %s %d %d > %s" % (image, length, room, answer))


def lengths():
    print("# A plan without a move has the empty word and no other; lengths above 40 are refused, also those that 8, 16 or 32 bits would cut")
    plan = Plan()
    plan.module(1)
    plan.event(0, CONTROLLABLE)
    told(plan, 0, [1], ("exact", "short", "none", "more"))
    for length in (1, 2, 39, 40):
        told(plan, length, [0])
    refused(plan, (41, 42, 255, 256, 2**16, 2**16 + 3, 2**31, 2**32, 2**32 + 1, 2**63, 2**63 + 40, LARGEST), 17)
    print("# The initial state is not the first")
    plan = Plan()
    module = plan.module(32, 31)
    plan.event(module, UNCONTROLLABLE, *((state, state - 1) for state in range(1, 32)))
    for length in (0, 1, 30, 31):
        told(plan, length, only(31 - length, 1, 32))
    for length in (32, 40):
        told(plan, length, [0] * 32)


def loops(count):
    plan = Plan()
    module = plan.module(1)
    for _ in range(count):
        plan.event(module, CONTROLLABLE, (0, 0))
    return plan


def sixty_four_bits():
    print("# Four self-loops: the words of 31 events are counted, those of 32 are 2 to the 64th")
    told(loops(4), 31, [4**31])
    refused(loops(4), (32, 33, 40, 41), 17)
    print("# Three are counted up to 40; two and 64 as well as they can be")
    told(loops(3), 40, [3**40])
    told(loops(2), 40, [2**40])
    told(loops(64), 10, [64**10])
    refused(loops(64), (11, 12, 40), 17)
    print("# 64 events from each state to the next, in 32 states: there is no word of 32 events, but there are too many of 11")
    plan = Plan()
    module = plan.module(32)
    for _ in range(64):
        plan.event(module, CONTROLLABLE, *((state, state + 1) for state in range(31)))
    for length in (0, 1, 9, 10):
        told(plan, length, only(length, 64**length, 32))
    refused(plan, range(11, 42), 17, [MOST])
    refused(plan, (32,), 17)


def ladder(last):
    """Sixteen events. From each of sixteen states the first leads to the next one, and the others to a state that all of them keep. Of n
    events there are 16 to the power n words, up to the last state, where the first event moves as `last` says. Of 16 events there are
    thus 2 to the 64th, less one if it does not move."""
    plan = Plan()
    module = plan.module(17)
    plan.event(module, CONTROLLABLE, *((state, state + 1) for state in range(15)), *last, (16, 16))
    for _ in range(15):
        plan.event(module, UNCONTROLLABLE, *((state, 16) for state in range(17)))
    return plan


def largest():
    print("# 2 to the 64th, less one: a count and the sum; of 17 events there are too many")
    plan = ladder([])
    told(plan, 15, only(15, 1, 16) + [16**15 - 1])
    told(plan, 16, only(16, LARGEST, 17), ("exact", "short", "none", "more"))
    refused(plan, (17, 18, 40), 17)
    print("# One word more: in the same state, so that its count is too large, or in the first, so that only the sum is")
    refused(ladder([(15, 16)]), (16,), 17)
    refused(ladder([(15, 0)]), (16,), 17)
    print("# 2 to the 64th, less one, as a sum of two counts that have 63 and 64 bits, and of the same with one more")
    for last, more in (([], 0), ([(15, 0)], 1)):
        plan = Plan()
        module = plan.module(18)
        plan.event(module, CONTROLLABLE, *((state, state + 1) for state in range(15)), *last, (16, 16), (17, 16))
        for number in range(1, 16):
            plan.event(module, CONTROLLABLE, *((state, 16 if number < 8 else 17) for state in range(18)))
        if more:
            refused(plan, (16,), 17)
        else:
            told(plan, 16, [0] * 16 + [2**63 - 1, 2**63])
    print("# Only a sum is too large, of 11 events, by half of them in each of two states that have no move; with fewer, all lengths are answered")
    for both in (True, False):
        plan = Plan()
        module = plan.module(13)
        for number in range(64):
            last = [(10, 11 if number < 8 else 12)] if number < 15 + both else []
            plan.event(module, CONTROLLABLE, *((state, state + 1) for state in range(10)), *last)
        told(plan, 10, only(10, 2**60, 13))
        if both:
            refused(plan, (11, 12, 40), 17)
        else:
            told(plan, 11, [0] * 11 + [2**63, 7 * 2**60])
            told(plan, 12, [0] * 13)
            told(plan, 40, [0] * 13)
    print("# 2 to the 64th, less one, at length 40: a supervisor lets one event happen 24 times, then leads as before, and stays in its last state")
    for stopped in (True, False):
        plan = Plan()
        module = plan.module(1)
        events = [plan.event(module, CONTROLLABLE, (0, 0)) for _ in range(16)]
        moves = [(state, 0, state + 1) for state in range(39)] + [(39, 0, 40)] * (not stopped)
        moves += [(state, event, 40) for state in range(24, 40) for event in events[1:]]
        disablings = [(state, events[1:]) for state in range(24)] + [(39, events[:1])] * stopped
        plan.supervisor(64, 0, events, moves, disablings)
        told(plan, 24, only(24, 1, 41))
        told(plan, 39, only(39, 1, 40) + [16**15 - 1])
        if stopped:
            told(plan, 40, only(40, LARGEST, 41))
        else:
            refused(plan, (40,), 17)


def place_of(value, bits):
    """The place of a counter's state among those that are not 0: its lowest bit is the first supervisor's, which goes first."""
    return int(format(value, "0%db" % bits)[::-1], 2) - 1


def sizes():
    print("# 4,096 reachable joint states: three modules that go round")
    plan = rounds((32, 32, 4), (0, 1, 40), ("exact", "short", "none"))
    refused(plan, (41, LARGEST), 17)
    print("# .. and twelve modules of 2 states: of 18 events there are too many")
    plan = rounds([2] * 12, (1, 17))
    refused(plan, (18, 19, 40, 41), 17)
    print("# .. and in a row: of each length there is one word, also with 16 modules and 32 supervisors")
    for parties in (False, True):
        plan = counter(12, 1, parties)[0]
        for length in (0, 1, 2, 3, 40):
            told(plan, length, only(place_of(1 + length, 12), 1, 4096), ("exact",))
        told(plan, 39, only(place_of(40, 12), 1, 4096))
        refused(plan, (41,), 17)
    print("# The last of a row, a state of the module, goes behind all others")
    plan = counter(5, 1)[0]
    for length in (29, 30):
        told(plan, length, only(place_of(1 + length, 5), 1, 32))
    told(plan, 31, only(31, 1, 32))
    told(plan, 32, [0] * 32)
    print("# 4,097 are refused with 16, whatever the length and the room; so are 8,192 and 32 to the 16th")
    for parties in (False, True):
        refused(counter(12, 0, parties)[0], (0, 1, 40, 41), 16)
    refused(product(*[2] * 13), (0, 40, 41, LARGEST), 16)
    refused(product(*[32] * 16), (0, 41), 16)


def resetting(size, events):
    """A module with an event for each state, which leads there from all, and some events that lead nowhere else."""
    def part(length):
        ends = [[int(state == 0)] for state in range(size)]
        for _ in range(length):
            total = sum(counts[-1] for counts in ends)
            for counts in ends:
                counts.append(total + events * counts[-1])
        return ends

    return part


def longest():
    print("# A long text: three modules of 16 states with an event to each state, and eight events that move nothing; 16 digits in most lines")
    plan = Plan()
    for extra in (8, 0, 0):
        module = plan.module(16)
        for to in range(16):
            plan.event(module, CONTROLLABLE, *((state, to) for state in range(16)))
        for _ in range(extra):
            plan.event(module, CONTROLLABLE, *((state, state) for state in range(16)))
    counts = counts_of([resetting(16, extra)(11) for extra in (8, 0, 0)], 11)
    assert len(counts) == 4096 and sum(counts) == 56**11 and len(text_of(counts)) > 69000
    told(plan, 11, counts, ("exact", "short", "more"))
    refused(plan, (12, 40), 17)


def order():
    print("# States are ordered by the first module, then the second, and so on, though the last one's event has the lowest number")
    for sizes_of in ((3, 2, 4), (2, 5)):
        plan = Plan()
        modules = [plan.module(size) for size in sizes_of]
        for module in reversed(modules):
            plan.event(module, CONTROLLABLE, *((state, (state + 1) % sizes_of[module]) for state in range(sizes_of[module])))
        for length in (1, 2, 3, 7, 20):
            told(plan, length, counts_of([round_part(size, length) for size in sizes_of], length))
    print("# Modules go before supervisors: a supervisor that follows a module from its last state to its first")
    plan = Plan()
    module = plan.module(3)
    event = plan.event(module, CONTROLLABLE, (0, 1), (1, 2))
    plan.supervisor(3, 2, [event], [(2, event, 1), (1, event, 0)])
    for length in range(4):
        told(plan, length, only(length, 1, 3) if length < 3 else [0] * 3)
    print("# 16 modules and 32 supervisors, of which the last of each move: module 15 before supervisor 31")
    plan = Plan()
    for _ in range(15):
        plan.module(1)
    module = plan.module(32, 30)
    events = [plan.event(module, UNCONTROLLABLE, *([(30, 31), (31, 30)] if number == 63 else [])) for number in range(64)]
    for _ in range(31):
        plan.supervisor(64, 1, events[:63])
    plan.supervisor(64, 63, events[63:], [(63, 63, 62), (62, 63, 0)])
    # (30, 63), (31, 62), (30, 0), (31, 0), in order: (30, 0), (30, 63), (31, 0), (31, 62)
    for length, place in ((0, 1), (1, 3), (2, 0), (3, 2), (4, 0), (40, 0)):
        told(plan, length, only(place, 1, 4))
    print("# Modules 7 and 8 of 16, with states up to 31: the higher number of the former goes behind all of the latter")
    plan = Plan()
    for number in range(16):
        plan.module(32 if number in (7, 8) else 1)
    for module in (8, 7):
        plan.event(module, CONTROLLABLE, *((state, (state + 1) % 32) for state in range(32)))
    for length in (3, 40):
        told(plan, length, counts_of([round_part(32, length)] * 2, length), ("exact",))


def full_image():
    print("# An image of 49,152 bytes with 2 reachable joint states")
    for length, counts in ((0, [1, 0]), (1, [0, 1]), (2, [0, 0]), (40, [0, 0])):
        told(full([]), length, counts)
    refused(full([0]), (41,), 17)


def supervisors():
    print("# A supervisor without a listed move stays, and stops nothing")
    plan = Plan()
    module = plan.module(3)
    event = plan.event(module, CONTROLLABLE, (0, 1), (1, 2))
    plan.supervisor(3, 2, [event], [(0, event, 1)])
    told(plan, 2, [0, 0, 1])
    print("# An event outside the alphabet moves no supervisor")
    plan = Plan()
    module = plan.module(1)
    first, second = plan.event(module, CONTROLLABLE, (0, 0)), plan.event(module, CONTROLLABLE, (0, 0))
    plan.supervisor(2, 0, [first], [(0, first, 1)])
    told(plan, 3, [1, 7])
    print("# A mask stops a controllable event where it is shown; no supervisor stops an uncontrollable one")
    plan.supervisor(1, 0, [first, second], [], [(0, [second])])
    told(plan, 3, [0, 1])
    plan.event(module, UNCONTROLLABLE, (0, 0))
    told(plan, 3, [1, 7])
    print("# The mask is that of the state before the event")
    plan = Plan()
    module = plan.module(1)
    go, turn = plan.event(module, CONTROLLABLE, (0, 0)), plan.event(module, CONTROLLABLE, (0, 0))
    plan.supervisor(2, 0, [go, turn], [(0, turn, 1), (1, turn, 0)], [(1, [go])])
    # (a, b) is (a + b, a) after one more
    for length, counts in ((1, [1, 1]), (2, [2, 1]), (3, [3, 2]), (40, [165580141, 102334155])):
        told(plan, length, counts)
    print("# Marks and steps count for nothing")
    for marks in ([], [0], [1], [0, 1]):
        plan = Plan()
        module = plan.module(2, 0, marks)
        event = plan.event(module, CONTROLLABLE, (0, 1), (1, 0))
        plan.steps(event, 64)
        told(plan, 5, [0, 1], ("exact",))


def main():
    numbers()
    lengths()
    sixty_four_bits()
    largest()
    order()
    supervisors()
    full_image()
    sizes()
    longest()


if __name__ == "__main__":
    main()
