"""The controller on many devices beside that on one, written from the paper alone.

    python3 tests/reference/many_devices.py PLAN < SCRIPT

prints what the program `simulate` must print in a folder where the file PLAN is `plan.bin`; a missing PLAN is an empty image. The files
tests/simulate/*.expected are made so.

    python3 tests/reference/many_devices.py --random SEED COUNT PLAN SCRIPT

writes a random small plan and a script of so many lines, most of them calls that do something.

A line is a letter and decimal numbers without leading zeros, one space before each:

    m M      a step of module M: `module M event E`, `module M none`, `module M bids V` or `module M waits`
    s V      a step of supervisor V: `supervisor V permits M` or `supervisor V waits`
    d K      the delivery of the K-th message under way, from 0, in the order sent: `delivered BYTES`; `nothing` where none stands
    r M E    a response: `response M queued E`
    k M N    a tick with a reading of N eighths of a litre: `tick M`
    k M -    a tick where no sensor is fitted: `tick M`

Numbers are up to 255, a reading up to 65,535; any other line is `refused 10`. A call that is refused prints `refused N`. A step's answer is
followed by `sent BYTES` for each message that it writes. At the end stand the events fired, the commands, the states of the modules and
supervisors, and those of one device that is fed the same turns, responses and ticks. A row of events breaks after 1024.
"""

import copy
import functools
import random
import re
import sys
from collections import namedtuple

import plan_check
from one_device import NO_SENSOR, PLACES, Device, Own, arrival, bits_of, eighths, judged, mask_of, numbers, subset
from plan_check import (
    DISABLING, END, EVENT, HEAD, MARKING, MODULE, MODULE_MOVE, STEP, SUPERVISOR, SUPERVISOR_MOVE,
    OUTPUT_ON, OUTPUT_OFF, WAIT_TICKS, WAIT_LITRES, RESPOND, CONTROLLABLE, UNCONTROLLABLE,
)

BID, PERMIT, RELEASE = 1, 2, 3
NO_EVENT = 0xFF
HOME = "home"

LONGEST = 128  # the bytes of 32 releases
ROW = 1024


class Refused(Exception):
    """A refused call, with its number and offset."""

    def __init__(self, number, offset=0):
        self.number, self.offset = number, offset


def plan_of(image):
    """The plan of an accepted image, which every call judges first."""
    found, plan = judged(image)
    if found is not None:
        raise Refused(*found)
    return plan


@functools.lru_cache(maxsize=None)
def meet(plan, module, supervisor):
    """Whether they are neighbours: the supervisor's alphabet has an event of the module."""
    return any(plan.is_event(e, module, (UNCONTROLLABLE, CONTROLLABLE)) for e in plan.alphabet(supervisor))


def neighbours(plan, module):
    """The supervisors that are the module's neighbours, ascending."""
    return [v for v in range(plan.supervisors) if meet(plan, module, v)]


def neighbour_modules(plan, supervisor):
    return [m for m in range(plan.modules) if meet(plan, m, supervisor)]


# The content is a permit's mask and a release's event; a bid has none.
Message = namedtuple("Message", "kind module supervisor content", defaults=[None])


def read_message(data):
    """The message that the bytes are, or None."""
    if len(data) == 3 and data[0] == BID:
        return Message(BID, data[1], data[2])
    if len(data) == 11 and data[0] == PERMIT:
        return Message(PERMIT, data[2], data[1], int.from_bytes(data[3:], "big"))
    if len(data) == 4 and data[0] == RELEASE:
        return Message(RELEASE, data[1], data[2], data[3])
    return None


def write_message(message):
    if message.kind == BID:
        return bytes([BID, message.module, message.supervisor])
    if message.kind == PERMIT:
        return bytes([PERMIT, message.supervisor, message.module]) + message.content.to_bytes(8, "big")
    return bytes([RELEASE, message.module, message.supervisor, message.content])


def names_strangers(plan, message):
    """Whether the message names what the plan lacks, no neighbours, or an event that is not of both."""
    kind, module, supervisor, content = message
    if module >= plan.modules or supervisor >= plan.supervisors or not meet(plan, module, supervisor):
        return True
    if kind != RELEASE or content == NO_EVENT:
        return False
    return content not in plan.alphabet(supervisor) or not plan.is_event(content, module, (UNCONTROLLABLE, CONTROLLABLE))


def taken(plan, data, known):
    """The message, unless its shape or what it names is refused. A party that the plan lacks is 11 too, after the shape."""
    message = read_message(data)
    if message is None:
        raise Refused(10)
    if not known or names_strangers(plan, message):
        raise Refused(11)
    return message


def written(messages, room):
    """The messages' bytes, one by one, where they have room in the buffer."""
    sent = [write_message(message) for message in messages]
    if sum(map(len, sent)) > room:
        raise Refused(15)
    return sent


class Module:
    """A module's state, and the calls on it with an image and the module's number. A refused call leaves the state, except the start."""

    def __init__(self, own=None):
        self.own, self.held, self.received, self.bid = own or Own(), 0, 0, 0

    def fits(self, plan, module):
        mine = neighbours(plan, module)
        return (
            self.own.fits(plan, module)
            and self.held in [mask_of(mine[:count]) for count in range(len(mine) + 1)]
            and (self.held != 0 or self.received == 0)
            and (not self.bid or self.held != mask_of(mine))
        )

    def judge(self, image, module):
        """The plan. A module that it lacks has no state to judge."""
        plan = plan_of(image)
        if module < plan.modules and not self.fits(plan, module):
            raise Refused(9)
        return plan

    def start(self, image, module):
        self.__init__()
        plan = plan_of(image)
        if module >= plan.modules:
            raise Refused(11)
        self.__init__(Own(plan.initial(MODULE, module)))

    def commands(self, plan, module):
        """The controllable events with a move here, ascending."""
        here = [e for m, s, e in plan.records[MODULE_MOVE] if (m, s) == (module, self.own.state)]
        return sorted(e for e in here if plan.is_event(e, module, (CONTROLLABLE,)))

    def wishes(self, plan, module):
        usable = self.own.first_usable(plan, module) is not None
        return usable or (not self.own.procedure.running and self.commands(plan, module) != [])

    def turn(self, plan, module):
        """('event', E) or ('none',)."""
        own = self.own
        k = own.first_usable(plan, module)
        if k is not None:
            event = own.take(k)
            own.state = plan.move(MODULE_MOVE, module, own.state, event)
            return "event", event
        if not own.procedure.running:
            for event in self.commands(plan, module):
                if not self.received >> event & 1:
                    own.state = plan.move(MODULE_MOVE, module, own.state, event)
                    own.procedure = arrival(plan, event, 0)
                    return "event", event
        return ("none",)

    def step(self, image, module, room):
        """A turn, ('bids', V) or ('waits',), and the messages written to a buffer of so many bytes."""
        plan = self.judge(image, module)
        if module >= plan.modules:
            raise Refused(11)
        mine = neighbours(plan, module)
        missing = [v for v in mine if not self.held >> v & 1]
        if not missing and (mine or self.wishes(plan, module)):
            after = copy.deepcopy(self)  # a step refused for its buffer takes no turn
            turn = after.turn(plan, module)
            fired = turn[1] if turn[0] == "event" else NO_EVENT
            events = [fired if fired in plan.alphabet(v) else NO_EVENT for v in mine]
            sent = written([Message(RELEASE, module, v, e) for v, e in zip(mine, events)], room)
            self.own, self.held, self.received = after.own, 0, 0
            return turn, sent
        if missing and not self.bid and (self.held or self.wishes(plan, module)):
            sent = written([Message(BID, module, missing[0])], room)
            self.bid = 1
            return ("bids", missing[0]), sent
        return ("waits",), []

    def deliver(self, image, module, data):
        plan = self.judge(image, module)
        message = taken(plan, data, module < plan.modules)
        missing = [v for v in neighbours(plan, module) if not self.held >> v & 1]
        # an open bid is with the lowest neighbour not held
        if message.kind != PERMIT or message.module != module or not self.bid or message.supervisor != missing[0]:
            raise Refused(12)
        self.held |= 1 << message.supervisor
        self.received |= message.content
        self.bid = 0

    def respond(self, image, module, event):
        plan = self.judge(image, module)
        if module >= plan.modules or not plan.is_event(event, module, (UNCONTROLLABLE,)):
            raise Refused(11)
        if self.own.length == PLACES:
            raise Refused(13)
        self.own.put(event)

    def tick(self, image, module, reading):
        plan = self.judge(image, module)
        if module >= plan.modules:
            raise Refused(11)
        litres = 0 if reading == NO_SENSOR else eighths(reading)
        if litres is None or litres > 64 * 8:
            raise Refused(14)
        self.own.tick(plan, reading)


class Supervisor:
    """A supervisor's state, and the calls on it with an image and the supervisor's number. A refused call leaves the state, except the
    start. The holder is a module, or the permit is home."""

    def __init__(self, state=0, last=0):
        self.state, self.noted, self.holder, self.last = state, 0, HOME, last

    def fits(self, plan, supervisor):
        mine = neighbour_modules(plan, supervisor)
        return (
            self.state < plan.states(SUPERVISOR, supervisor)
            and self.noted & ~mask_of(mine) == 0
            and (self.holder == HOME or self.holder in mine)
            and self.last <= 15
        )

    def judge(self, image, supervisor):
        """The plan. A supervisor that it lacks has no state to judge."""
        plan = plan_of(image)
        if supervisor < plan.supervisors and not self.fits(plan, supervisor):
            raise Refused(9)
        return plan

    def start(self, image, supervisor):
        self.__init__()
        plan = plan_of(image)
        if supervisor >= plan.supervisors:
            raise Refused(11)
        self.__init__(plan.initial(SUPERVISOR, supervisor), 15)

    def next_served(self):
        """The first noted module cyclically after the last served, or None."""
        after = [(self.last + k) % 16 for k in range(1, 17)]
        return next((m for m in after if self.noted >> m & 1), None)

    def step(self, image, supervisor, room):
        """('sends', M) or ('waits',), and the messages written to a buffer of so many bytes."""
        plan = self.judge(image, supervisor)
        if supervisor >= plan.supervisors:
            raise Refused(11)
        module = self.next_served()
        if self.holder != HOME or module is None:
            return ("waits",), []
        shown = mask_of(plan.shown(supervisor, self.state))
        sent = written([Message(PERMIT, module, supervisor, shown)], room)
        self.noted &= ~(1 << module)
        self.holder = self.last = module
        return ("sends", module), sent

    def deliver(self, image, supervisor, data):
        plan = self.judge(image, supervisor)
        message = taken(plan, data, supervisor < plan.supervisors)
        if message.supervisor != supervisor or message.kind == PERMIT:
            raise Refused(12)
        if message.kind == BID:
            if self.noted >> message.module & 1:
                raise Refused(12)
            self.noted |= 1 << message.module
            return
        if self.holder != message.module:
            raise Refused(12)
        self.holder = HOME
        after = plan.move(SUPERVISOR_MOVE, supervisor, self.state, message.content)
        self.state = self.state if after is None else after


# The simulation.

NUMBER = rb"(0|[1-9][0-9]*)"
LINE = re.compile(rb"[msd] " + NUMBER + rb"|r " + NUMBER + rb" " + NUMBER + rb"|k " + NUMBER + rb" (-|" + NUMBER + rb")")


def words_of(line):
    """The letter and the numbers of a line, None where no sensor is fitted; or None for a misshapen line."""
    if not LINE.fullmatch(line):
        return None
    letter, *digits = line.decode().split(" ")
    if any(len(word) > 5 for word in digits):
        return None  # without leading zeros, so it is over 65,535
    values = [None if word == "-" else int(word) for word in digits]
    limits = [255, 65535 if letter == "k" else 255]
    if any(value is not None and value > limit for value, limit in zip(values, limits)):
        return None
    return letter, values


class Simulation:
    """Every party of an accepted plan from its start, the messages under way, and one device beside."""

    def __init__(self, image):
        self.image, self.plan = image, plan_of(image)
        self.modules = [Module() for _ in range(self.plan.modules)]
        self.supervisors = [Supervisor() for _ in range(self.plan.supervisors)]
        for parties in (self.modules, self.supervisors):
            for number, party in enumerate(parties):
                party.start(image, number)
        self.device = Device()
        self.device.start(image)
        self.under_way, self.rows = [], {"record": [], "commands": []}

    def module(self, number):
        return self.modules[number] if number < len(self.modules) else Module()

    def supervisor(self, number):
        return self.supervisors[number] if number < len(self.supervisors) else Supervisor()

    def send(self, sent):
        self.under_way += sent
        return ["sent " + data.hex().upper() for data in sent]

    def fire(self, event):
        """The rows that break before the event, each after its own 1024 numbers."""
        said = []
        for name, row in self.rows.items():
            if name == "record" or self.plan.records[EVENT][event,][1] == CONTROLLABLE:
                if len(row) == ROW:
                    said.append(" ".join([name, *map(str, row)]))
                    row.clear()
                row.append(event)
        return said

    def module_step(self, number):
        answer, sent = self.module(number).step(self.image, number, LONGEST)
        if answer[0] in ("event", "none"):
            self.device.turn(self.image, number)
        said = [" ".join(["module", str(number), *map(str, answer)])] + self.send(sent)
        return said + (self.fire(answer[1]) if answer[0] == "event" else [])

    def supervisor_step(self, number):
        answer, sent = self.supervisor(number).step(self.image, number, LONGEST)
        what = "permits %d" % answer[1] if answer[0] == "sends" else "waits"
        return ["supervisor %d %s" % (number, what)] + self.send(sent)

    def deliver(self, place):
        if place >= len(self.under_way):
            return ["nothing"]
        data = self.under_way[place]
        message = read_message(data)
        if message.kind == PERMIT:
            self.module(message.module).deliver(self.image, message.module, data)
        else:
            self.supervisor(message.supervisor).deliver(self.image, message.supervisor, data)
        del self.under_way[place]  # a refused delivery leaves it under way
        return ["delivered " + data.hex().upper()]

    def respond(self, number, event):
        if number < self.plan.modules:
            self.device.respond(self.image, number, event)
        self.module(number).respond(self.image, number, event)
        return ["response %d queued %d" % (number, event)]

    def tick(self, number, count):
        reading = NO_SENSOR if count is None else bits_of(count / 8)
        if number < self.plan.modules:
            self.device.tick(self.image, number, reading)
        self.module(number).tick(self.image, number, reading)
        return ["tick %d" % number]

    def answer(self, line):
        """The lines that the program prints for the line."""
        asked = words_of(line)
        if asked is None:
            return ["refused 10"]
        letter, values = asked
        calls = {"m": self.module_step, "s": self.supervisor_step, "d": self.deliver, "r": self.respond, "k": self.tick}
        try:
            return calls[letter](*values)
        except Refused as refused:
            return ["refused %d" % refused.number]

    def end(self):
        plan, device = self.plan, self.device
        states = [m.own.state for m in self.modules] + [v.state for v in self.supervisors]
        beside = [own.state for own in device.modules[: plan.modules]] + device.supervisors[: plan.supervisors]
        rows = [" ".join([name, *map(str, row)]) for name, row in self.rows.items()]
        return rows + ["states " + numbers(states), "device " + numbers(beside)]


def simulate(image, script):
    """The lines that the program prints."""
    try:
        run = Simulation(image)
    except Refused as refused:
        return ["plan refused %d at %d" % (refused.number, refused.offset)]
    lines = script.split(b"\n")
    if lines[-1] == b"":
        del lines[-1]
    said = ["plan " + numbers(plan_check.read(image, 0)[1])]
    for line in lines:
        said += run.answer(line)
    return said + run.end()


# The random plans and scripts.

# modules, supervisors and events
SHAPES = [(1, 0, 3), (1, 2, 4), (2, 1, 6), (2, 2, 7), (2, 3, 8), (3, 2, 9), (3, 4, 10), (4, 3, 12), (4, 6, 16), (6, 8, 24), (3, 4, 64)]


def random_step(r, responses):
    """An operation and its operand; waits are short, so that procedures end."""
    operation = r.choice((OUTPUT_ON, OUTPUT_OFF, WAIT_TICKS, WAIT_LITRES) + ((RESPOND,) * 2 if responses else ()))
    if operation in (OUTPUT_ON, OUTPUT_OFF):
        return operation, r.randrange(32)
    if operation == WAIT_TICKS:
        return operation, r.choice((1, 1, 2, 3))
    if operation == WAIT_LITRES:
        return operation, bits_of(r.choice((1, 2, 8, 20, 100)) / 8)
    return operation, r.choice(responses)


def random_plan(r, shape):
    """The records of an accepted plan with so many modules, supervisors and events, as kinds and fields."""
    modules, supervisors, events = shape
    owner = [e % modules if e < 2 * modules else r.randrange(modules) for e in range(events)]
    classes = [r.choice((UNCONTROLLABLE, CONTROLLABLE)) for _ in range(events)]
    for e in subset(r, range(min(events, 2 * modules)), 0.9):
        classes[e] = CONTROLLABLE if e < modules else UNCONTROLLABLE  # most modules have some of each
    commands = [e for e in range(events) if classes[e] == CONTROLLABLE]
    records = [(HEAD, [modules, supervisors, events]), (END, [])]
    records += [(EVENT, [e, owner[e], classes[e]]) for e in range(events)]
    for m in range(modules):
        states = r.randint(1, 4)
        records.append((MODULE, [m, states, r.randrange(states)]))
        mine = [(m, s, e) for s in range(states) for e in range(events) if owner[e] == m]
        records += [(MODULE_MOVE, [*key, r.randrange(states)]) for key in subset(r, mine, r.choice((0.5, 0.8)))]
        records += [(MARKING, [m, s]) for s in subset(r, range(states), 0.3)]
    for v in range(supervisors):
        states = r.randint(1, 4)
        alphabet = subset(r, range(events), r.choice((0.1, 0.3, 0.6)))
        records.append((SUPERVISOR, [v, states, r.randrange(states), mask_of(alphabet)]))
        mine = [(v, s, e) for s in range(states) for e in alphabet]
        records += [(SUPERVISOR_MOVE, [*key, r.randrange(states)]) for key in subset(r, mine, 0.7)]
        for s in subset(r, range(states), 0.5):
            mask = mask_of(subset(r, [e for e in alphabet if e in commands], 2 / (1 + supervisors)))
            records += [(DISABLING, [v, s, mask])] if mask else []
    for e in subset(r, commands, 0.6):
        responses = [u for u in range(events) if owner[u] == owner[e] and u not in commands]
        records += [(STEP, [e, k, *random_step(r, responses)]) for k in range(r.randint(1, 5))]
    return sorted(records, key=lambda record: (record[0], record[1][: plan_check.KEY[record[0]]]))


BAD_LINES = [
    b"", b"m", b"m ", b"m 00", b"m 01", b" m 0", b"m 0 ", b"m  0", b"m 0 0", b"M 0", b"m 0\r", b"s\t0", b"s 0\0", b"\0", b"\xff 0", b"t 0",
    b"s -", b"d -", b"d -1", b"d +1", b"r 0", b"r 0 -", b"k 0", b"k - 0", b"k 0 --", b"k 0 -8", b"k 0 1.5", b"k 0 08", b"k 0 8 8",
    b"m 256", b"s 256", b"d 256", b"r 256 0", b"r 0 256", b"k 256 -", b"k 0 65536", b"m 99999999999999999999", b"k 0 99999999999999999999",
]


def random_lines(r, run):
    """Lines of the script, mostly one, chosen from how the simulation stands."""
    x, plan, modules = r.random(), run.plan, run.modules
    m = r.randrange(plan.modules)
    event = r.choice([e for e in range(64) if plan.is_event(e, m, (UNCONTROLLABLE,))] or [0])
    if x < 0.03:
        return [r.choice(BAD_LINES)]
    if x < 0.06:
        past = r.choice((0, 1, 99, 239))  # numbers that the plan lacks
        return [r.choice((
            b"m %d" % (plan.modules + past), b"s %d" % (plan.supervisors + past), b"d %d" % r.randrange(256),
            b"r %d %d" % (r.randrange(plan.modules + 1), r.randrange(256)), b"r %d 0" % (plan.modules + past),
            b"k %d %d" % (m, r.randint(513, 65535)), b"k %d 0" % (plan.modules + past),
        ))]
    if x < 0.065:
        return [b"r %d %d" % (m, event)] * (PLACES + 1)
    reading = b"-" if r.random() < 0.2 else b"%d" % r.choice((0, 1, 2, 7, 8, 100, 512, r.randrange(513)))
    moves = [(k, e) for k, s, e in plan.records[MODULE_MOVE] if s == modules[k].own.state and modules[k].own.length < 3]
    useful = [
        [b"d %d" % k for k in range(len(run.under_way))],
        [b"s %d" % k for k, party in enumerate(run.supervisors) if party.holder == HOME and party.noted],
        [b"m %d" % k for k, party in enumerate(modules) if copy.deepcopy(party).step(run.image, k, LONGEST)[0] != ("waits",)],
        [b"k %d %s" % (k, reading) for k, party in enumerate(modules) if party.own.procedure.running],
        [b"r %d %d" % (k, e) for k, e in moves if plan.is_event(e, k, (UNCONTROLLABLE,))],
        [b"r %d %d" % (m, event)] if modules[m].own.length < 4 else [],  # the module may have no move by it yet
    ]
    useful = [lines for lines in useful[:1] + useful if lines]
    if x < 0.15 or not useful:
        useful = [[b"m %d" % m, b"s %d" % r.randrange(plan.supervisors + 1), b"k %d %s" % (m, reading), b"r %d %d" % (m, event)]]
    return [r.choice(r.choice(useful))]


def random_case(seed, count):
    r = random.Random(seed)
    image = b"".join(plan_check.bytes_of(kind, fields) for kind, fields in random_plan(r, r.choice(SHAPES)))
    run, lines = Simulation(image), []
    while len(lines) < count:
        for line in random_lines(r, run):
            lines.append(line)
            run.answer(line)
    return image, b"\n".join(lines[:count]) + r.choice((b"", b"\n"))


def main(words):
    if words[0] == "--random":
        for name, content in zip(words[3:], random_case(int(words[1]), int(words[2]))):
            with open(name, "wb") as file:
                file.write(content)
        return
    try:
        with open(words[0], "rb") as file:
            image = file.read()
    except FileNotFoundError:
        image = b""
    for line in simulate(image, sys.stdin.buffer.read()):
        print(line)


if __name__ == "__main__":
    main(sys.argv[1:])
