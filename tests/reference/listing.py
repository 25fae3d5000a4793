"""The listing program, written from the paper alone.

    python3 tests/reference/listing.py PLAN < SCRIPT

prints what the program `listing` must print in a folder where the file PLAN is `plan.bin`; a missing PLAN is an empty image. The files
tests/listing/*.expected are made so.

    python3 tests/reference/listing.py --random SEED PLAN SCRIPT

writes a random accepted plan and a random script, some of whose lines are misshapen.
"""

import random
import re
import sys

from plan_check import (
    CONTROLLABLE,
    DISABLING,
    END,
    EVENT,
    HEAD,
    MARKING,
    MODULE,
    MODULE_MOVE,
    OUTPUT_ON,
    STEP,
    SUPERVISOR,
    SUPERVISOR_MOVE,
    UNCONTROLLABLE,
    bits_of,
    bytes_of,
    read,
    verdict,
)

QUEUE = 8

# "A script line is its letter and decimal numbers without leading zeros, one space before each"
NUMBER = rb"(0|[1-9][0-9]*)"
TURN = re.compile(rb"t " + NUMBER)
RESPONSE = re.compile(rb"r " + NUMBER + rb" " + NUMBER)


class Device:
    """The one-device controller at the start of an accepted plan."""

    def __init__(self, image):
        self.events = {}  # number to its module and class
        self.states = {}  # of the modules
        self.moves = {}  # (module, state, event) to the next state
        self.alphabets = {}
        self.supervisors = {}  # their states
        self.leads = {}  # (supervisor, state, event) to the next state
        self.masks = {}  # (supervisor, state) to the events that it disables
        self.with_steps = set()
        at = 0
        while at < len(image):
            kind, fields, at = read(image, at)
            self.take(kind, fields)
        self.queues = {m: [] for m in self.states}
        self.running = set()  # modules whose procedure is not idle: no tick ever comes, so it stays so

    def take(self, kind, fields):
        """Takes what a turn depends on: marks it has no use for."""
        if kind == HEAD:
            self.counts = fields
        elif kind == EVENT:
            self.events[fields[0]] = fields[1:]
        elif kind == MODULE:
            self.states[fields[0]] = fields[2]
        elif kind == MODULE_MOVE:
            self.moves[tuple(fields[:3])] = fields[3]
        elif kind == SUPERVISOR:
            self.supervisors[fields[0]] = fields[2]
            self.alphabets[fields[0]] = bits_of(fields[3])
        elif kind == SUPERVISOR_MOVE:
            self.leads[tuple(fields[:3])] = fields[3]
        elif kind == DISABLING:
            self.masks[tuple(fields[:2])] = bits_of(fields[2])
        elif kind == STEP:
            self.with_steps.add(fields[0])

    def fire(self, module, event):
        self.states[module] = self.moves[module, self.states[module], event]
        for supervisor, alphabet in self.alphabets.items():
            if event in alphabet:
                here = self.supervisors[supervisor]
                self.supervisors[supervisor] = self.leads.get((supervisor, here, event), here)
        if self.events[event][1] == CONTROLLABLE and event in self.with_steps:
            self.running.add(module)

    def can_move(self, module, event):
        return (module, self.states[module], event) in self.moves

    def is_shown(self, event):
        return any(event in self.masks.get(place, []) for place in self.supervisors.items())

    def turn(self, module):
        """('event', E), ('none',) or ('refused', N)."""
        if module not in self.states:
            return "refused", 11
        for event in self.queues[module]:
            if self.can_move(module, event):
                self.queues[module].remove(event)  # its first place in the queue is this one
                self.fire(module, event)
                return "event", event
        if module not in self.running:
            for event in sorted(self.events):
                if (
                    self.events[event] == [module, CONTROLLABLE]
                    and self.can_move(module, event)
                    and not self.is_shown(event)
                ):
                    self.fire(module, event)
                    return "event", event
        return ("none",)

    def respond(self, module, event):
        """None, or the number."""
        if self.events.get(event) != [module, UNCONTROLLABLE]:
            return 11
        if len(self.queues[module]) == QUEUE:
            return 13
        self.queues[module].append(event)
        return None


def numbers(match):
    """The numbers of a line, or None if one is over 255."""
    if any(len(digits) > 3 for digits in match.groups()):
        return None  # without leading zeros, so it is over 999
    found = [int(digits) for digits in match.groups()]
    return found if max(found) <= 255 else None


def line_of(line):
    """The numbers of a turn, one, or of a response, two; None for any other line."""
    match = TURN.fullmatch(line) or RESPONSE.fullmatch(line)
    return numbers(match) if match else None


def answer(device, line):
    asked = line_of(line)
    if asked is None:
        return "refused 10"
    if len(asked) == 1:
        got = device.turn(*asked)
        if got[0] == "refused":
            return "refused %d" % got[1]
        return " ".join(["turn", str(asked[0]), *map(str, got)])
    number = device.respond(*asked)
    if number is not None:
        return "refused %d" % number
    return "response %d queued %d" % tuple(asked)


def listing(image, script):
    """The lines that the program prints."""
    refused = verdict(image)
    if refused is not None:
        return ["plan refused %d at %d" % refused]
    device = Device(image)
    lines = script.split(b"\n")
    if lines[-1] == b"":
        del lines[-1]
    said = ["plan %d %d %d" % tuple(device.counts)]
    said += [answer(device, line) for line in lines]
    states = [device.states[m] for m in range(device.counts[0])]
    states += [device.supervisors[v] for v in range(device.counts[1])]
    said.append(" ".join(["states", *map(str, states)]))
    return said


def random_plan(chance):
    """The bytes of an accepted plan."""
    modules, supervisors, events = chance.randint(1, 16), chance.randint(0, 32), chance.randint(1, 64)
    owner = [chance.randrange(modules) for _ in range(events)]
    kinds = [chance.choice((UNCONTROLLABLE, CONTROLLABLE)) for _ in range(events)]
    states = [chance.randint(1, 4) for _ in range(modules)]
    stages = [chance.randint(1, 4) for _ in range(supervisors)]
    alphabets = [sum(1 << e for e in range(events) if chance.random() < 0.3) for _ in range(supervisors)]
    records = [(HEAD, [modules, supervisors, events])]
    records += [(EVENT, [e, owner[e], kinds[e]]) for e in range(events)]
    records += [(MODULE, [m, states[m], chance.randrange(states[m])]) for m in range(modules)]
    records += [
        (MODULE_MOVE, [m, s, e, chance.randrange(states[m])])
        for m in range(modules)
        for s in range(states[m])
        for e in range(events)
        if owner[e] == m and chance.random() < 0.6
    ]
    records += [(SUPERVISOR, [v, stages[v], chance.randrange(stages[v]), alphabets[v]]) for v in range(supervisors)]
    records += [
        (SUPERVISOR_MOVE, [v, s, e, chance.randrange(stages[v])])
        for v in range(supervisors)
        for s in range(stages[v])
        for e in bits_of(alphabets[v])
        if chance.random() < 0.5
    ]
    for v in range(supervisors):
        for s in range(stages[v]):
            mask = sum(1 << e for e in bits_of(alphabets[v]) if kinds[e] == CONTROLLABLE and chance.random() < 0.05)
            if mask:
                records.append((DISABLING, [v, s, mask]))
    records += [(STEP, [e, 0, OUTPUT_ON, 0]) for e in range(events) if kinds[e] == CONTROLLABLE and chance.random() < 0.05]
    records += [(MARKING, [m, s]) for m in range(modules) for s in range(states[m]) if chance.random() < 0.2]
    records.append((END, []))
    return b"".join(bytes_of(kind, fields) for kind, fields in records)


def random_line(chance, device):
    """A line: a turn, a response of an event and its module, one of any numbers, or one with a byte changed, lost or added."""
    modules, events = device.counts[0], list(device.events)
    event = chance.choice(events)
    line = chance.choice(
        [
            b"t %d" % chance.randrange(modules),
            b"t %d" % chance.randrange(modules),
            b"r %d %d" % (device.events[event][0], event),
            b"r %d %d" % (device.events[event][0], event),
            b"t %d" % chance.choice((modules, 99, 255, 256, 1000)),
            b"r %d %d" % (chance.randint(0, 300), chance.randint(0, 300)),
        ]
    )
    if chance.random() < 0.1:
        at = chance.randrange(len(line) + 1)
        line = line[:at] + chance.choice([b"", b" ", b"0", b"\r", b"\t", b"-", b"\0", b"\xff"]) + line[at + chance.randrange(2) :]
    return line


def random_case(seed):
    chance = random.Random(seed)
    image = random_plan(chance)
    device = Device(image)
    script = b"\n".join(random_line(chance, device) for _ in range(2000))
    return image, script + chance.choice([b"", b"\n", b"\n\n"])


def main(words):
    if words[0] == "--random":
        for name, content in zip(words[2:], random_case(int(words[1]))):
            with open(name, "wb") as file:
                file.write(content)
        return
    try:
        with open(words[0], "rb") as file:
            image = file.read()
    except FileNotFoundError:
        image = b""
    for line in listing(image, sys.stdin.buffer.read()):
        print(line)


if __name__ == "__main__":
    main(sys.argv[1:])
