"""Plans at the limits of `find_stuck`, each with the answer that it must have by how it is made.

    python3 tests/stuck/extremes.py

prints lines of the form of tests/reference/joint.py; tests/stuck.sh runs them.
"""

import os
import sys

sys.path.insert(0, os.path.join(os.path.dirname(os.path.abspath(__file__)), "..", "joint"))
from build import CONTROLLABLE, REFUSED, UNCONTROLLABLE, Plan, counter, full, product  # noqa: E402

MOST = 4143  # the longest answer: 4,095 events, 16 modules and 32 supervisors


def ask(plan, room, answer):
    print("stuck %s %d > %s" % (plan.image().hex(), room, answer))


def stuck(word, states):
    return "stuck " + bytes([*word, *states]).hex()


def sizes():
    print("# 4,096 reachable joint states are answered: 12 modules of 2 states, 2 modules of 32 beside 2 of 2, and with the initial one marked")
    ask(product(*[2] * 12), 0, "free")
    ask(product(32, 32, 2, 2), 0, "free")
    ask(product(8, 8, 8, 8, marks=[0]), 0, "free")
    print("# 4,096 in a row, the last one stuck: the longest word; into the room that it takes, one byte less, and none")
    for parties in (False, True):
        plan, word, states = counter(12, 1, parties)
        assert len(word) == 4095 and (not parties or len(word + states) == MOST)
        ask(plan, len(word + states), stuck(word, states))
        ask(plan, len(word + states) - 1, "15 0")
        ask(plan, 0, "15 0")
    print("# 4,097 in a row are too many, whatever the room")
    for parties in (False, True):
        plan = counter(12, 0, parties)[0]
        for room in (0, MOST):
            ask(plan, room, "16 0")
    print("# Fewer in a row: 1,025, and one")
    for bits, start in ((10, 0), (1, 1)):
        plan, word, states = counter(bits, start)
        ask(plan, MOST, stuck(word, states))
    print("# 8,192 and 32 to the 16th")
    ask(product(*[2] * 13), 0, "16 0")
    ask(product(*[32] * 16), MOST, "16 0")
    print("# A stuck state one event away, and the initial one stuck, beside 5,000 others: too many")
    plan = product(25, 25, 8)
    module = plan.module(2, 0, [0])
    plan.event(module, UNCONTROLLABLE, (0, 1))
    ask(plan, MOST, "16 0")
    plan = product(25, 25, 8)
    plan.module(2, 0, [1])
    ask(plan, MOST, "16 0")
    ask(plan, 0, "16 0")


def largest():
    print("# An image of 49,152 bytes with 2 reachable joint states")
    ask(full([0]), 3, stuck([0], [1, 63]))
    ask(full([0]), 2, "15 0")
    ask(full([1]), 0, "free")
    ask(full([]), MOST, "free")


def numbers():
    print("# The image's own numbers come first, also with no room")
    for image, answer in REFUSED:
        for room in (0, MOST):
            print("stuck %s %d > %s" % (image, room, answer))


def states():
    print("# The initial state is stuck: the empty word; with room for the states, one byte less, and none")
    plan = Plan()
    module = plan.module(2, 0, [1])
    plan.event(module, CONTROLLABLE, (1, 0))
    ask(plan, 1, stuck([], [0]))
    ask(plan, 0, "15 0")
    plan.supervisor(64, 63, [])
    ask(plan, 2, stuck([], [0, 63]))
    ask(plan, 1, "15 0")
    print("# A dead end with all modules marked is not stuck, nor is one in a plan without marks; where only another state is marked, it is")
    for marks, answer in (([1], "free"), ([], "free"), ([0], stuck([0], [1])), ([0, 1], "free")):
        plan = Plan()
        module = plan.module(2, 0, marks)
        plan.event(module, UNCONTROLLABLE, (0, 1))
        ask(plan, 2, answer)
    print("# A loop through unmarked states is stuck, one with a marked state is not")
    for marks, answer in (([0], stuck([0], [1])), ([0, 2], "free"), ([2], "free")):
        plan = Plan()
        module = plan.module(3, 0, marks)
        plan.event(module, CONTROLLABLE, (0, 1))
        plan.event(module, CONTROLLABLE, (1, 2), (2, 1))
        ask(plan, 2, answer)
    print("# Each module can reach its mark, but not both together")
    plan = Plan()
    first, second = plan.module(2, 0, [1]), plan.module(2, 0, [1])
    a, b = plan.event(first, CONTROLLABLE, (0, 1)), plan.event(second, CONTROLLABLE, (0, 1))
    plan.supervisor(2, 0, [a, b], [(0, a, 1), (0, b, 1)], [(1, [a, b])])
    ask(plan, 3, stuck([], [0, 0, 0]))
    print("# Steps count for nothing: the events of a procedure that never ends")
    plan = Plan()
    module = plan.module(2, 0, [0])
    event = plan.event(module, CONTROLLABLE, (0, 1), (1, 0))
    plan.steps(event, 64)
    ask(plan, 0, "free")


def supervisors():
    print("# A supervisor without a listed move stays, and stops nothing: by the event the mark is reached")
    plan = Plan()
    module = plan.module(3, 0, [1])
    event = plan.event(module, CONTROLLABLE, (0, 1))
    plan.supervisor(3, 2, [event], [(0, event, 1)])
    ask(plan, 0, "free")
    print("# .. and by a second one the state that is left is stuck, with the supervisor where it was")
    plan.event(module, UNCONTROLLABLE, (1, 2))
    ask(plan, 4, stuck([0, 1], [2, 2]))
    ask(plan, 3, "15 0")
    print("# An event outside the alphabet moves no supervisor")
    plan = Plan()
    module = plan.module(2, 0, [0])
    event = plan.event(module, UNCONTROLLABLE, (0, 1))
    other = plan.event(module, CONTROLLABLE, (0, 0))
    plan.supervisor(2, 0, [other], [(0, other, 1)])
    ask(plan, 3, stuck([event], [1, 0]))
    print("# A shown mask stops a controllable event, in one state of one supervisor; an uncontrollable one it cannot stop")
    for kind, answer in ((CONTROLLABLE, "free"), (UNCONTROLLABLE, stuck([1], [1, 0, 0]))):
        plan = Plan()
        module = plan.module(2, 0, [0])
        stopped = plan.event(module, CONTROLLABLE, (0, 1))
        event = plan.event(module, kind, (0, 1))
        plan.supervisor(2, 0, [stopped], [], [(0, [stopped])])
        plan.supervisor(2, 0, [stopped, event], [], [(0, [stopped, event] if kind == CONTROLLABLE else [stopped])])
        ask(plan, 4, answer)
    print("# The mask is that of the state shown: the event is stopped only after another one")
    plan = Plan()
    module = plan.module(3, 0, [1])
    go, turn = plan.event(module, CONTROLLABLE, (0, 1), (2, 1)), plan.event(module, CONTROLLABLE, (0, 2))
    plan.supervisor(2, 0, [go, turn], [(0, turn, 1)], [(1, [go])])
    ask(plan, 3, stuck([turn], [2, 1]))


def words():
    print("# A shorter word goes before one of lower events")
    plan = Plan()
    module = plan.module(5, 0, [0])
    plan.event(module, CONTROLLABLE, (0, 1))
    plan.event(module, CONTROLLABLE, (1, 2))
    plan.event(module, CONTROLLABLE, (0, 3))
    plan.event(module, CONTROLLABLE, (1, 0))
    ask(plan, MOST, stuck([2], [3]))
    print("# Of two words of one length the one of lower events, though its state has the higher number")
    plan = Plan()
    module = plan.module(4, 0, [0, 1])
    plan.event(module, CONTROLLABLE, (0, 1))
    plan.event(module, CONTROLLABLE, (0, 1), (1, 3))
    plan.event(module, CONTROLLABLE, (1, 2))
    ask(plan, 3, stuck([0, 1], [3]))
    print("# .. also where the lower event is another module's")
    plan = Plan()
    first, second = plan.module(3, 2, [1, 2]), plan.module(2, 0, [0])
    plan.event(second, UNCONTROLLABLE, (0, 1))
    plan.event(first, UNCONTROLLABLE, (2, 0))
    ask(plan, 3, stuck([0], [2, 1]))
    print("# The highest numbers: event 63, module 15 in state 31, supervisor 31 in state 63")
    plan = Plan()
    for _ in range(15):
        plan.module(1)
    module = plan.module(32, 30, [30])
    events = [plan.event(module, UNCONTROLLABLE, *([(30, 31)] if number == 63 else [])) for number in range(64)]
    for _ in range(31):
        plan.supervisor(64, 1, events[:63])
    plan.supervisor(64, 62, events[63:], [(62, 63, 63)])
    ask(plan, 49, stuck([63], [0] * 15 + [31] + [1] * 31 + [63]))
    ask(plan, 48, "15 0")


def main():
    numbers()
    states()
    supervisors()
    words()
    sizes()
    largest()


if __name__ == "__main__":
    main()
