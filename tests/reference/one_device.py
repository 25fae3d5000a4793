"""The one-device controller, written from the paper alone.

    python3 tests/reference/one_device.py < crates/device_vectors/stdin

prints what the program `device_vectors` must print: crates/device_vectors/stdout is made so.

    python3 tests/reference/one_device.py --random SEED COUNT

makes lines with so many calls on random small plans, some of them damaged.

A line is a word and its arguments, one space before each. M is a module, E an event, V a supervisor:

    # ..                a comment, echoed
    plan IMAGE          the image from here on, and the start: `done` or `refused N at B`
    image IMAGE         the image from here on; the state stays
    turn M              `event E`, `none` or `refused N at B`
    respond M E         `done` or `refused N at B`
    tick M READING      `done` or `refused N at B`
    ticks M N READING   the last answer of N such ticks, N at least 1
    own M               `state S queue LENGTH PLACE.. procedure RUNNING EVENT INDEX COUNT water TARGET TOTAL outputs MASK`
    states              `states S..`, those of the 32 supervisors
    set M FIELD VALUE   damages the module's own part: state, length, place K, running, event, index, count, target, total, outputs
    setv V VALUE        damages a supervisor's state

An IMAGE is as plan_check.py says. A READING is litres, or `none` where no sensor is fitted. Litres, a target and a total are 16
hexadecimal digits, the bits of an f64 that is no NaN, or `nan`; outputs are 8 such digits, and running is 0 or 1. A line of `image`,
`set` or `setv` prints nothing.
"""

import copy
import functools
import random
import struct
import sys
from fractions import Fraction

import plan_check
from plan_check import (
    DISABLING, END, EVENT, HEAD, MARKING, MODULE, MODULE_MOVE, STEP, SUPERVISOR, SUPERVISOR_MOVE,
    OUTPUT_ON, OUTPUT_OFF, WAIT_TICKS, WAIT_LITRES, RESPOND, CONTROLLABLE, UNCONTROLLABLE,
)

MODULES, SUPERVISORS, PLACES = 16, 32, 8

NAN = "nan"
NO_SENSOR = "none"


def bits_of(litres):
    return int.from_bytes(struct.pack(">d", litres), "big")


def eighths(bits):
    """Litres in eighths, or None where they are not a whole number from 0, or are minus zero."""
    if bits == NAN or bits >> 63:
        return None
    litres = struct.unpack(">d", bits.to_bytes(8, "big"))[0]
    if litres == float("inf"):
        return None
    count = Fraction(litres) * 8
    return int(count) if count.denominator == 1 else None


class Plan:
    """An accepted plan's records, by their keys."""

    def __init__(self, image):
        self.records = {kind: {} for kind in plan_check.FIELDS}
        at = 0
        while at < len(image):
            kind, fields, at = plan_check.read(image, at)
            keys = plan_check.KEY[kind]
            self.records[kind][tuple(fields[:keys])] = fields[keys:]
        self.modules, self.supervisors, _ = self.records[HEAD][()]

    def states(self, kind, number):
        return self.records[kind][number,][0]

    def initial(self, kind, number):
        return self.records[kind][number,][1]

    def alphabet(self, supervisor):
        return plan_check.bits_of(self.records[SUPERVISOR][supervisor,][2])

    def is_event(self, event, module, classes):
        """Whether it is an event of the module and of one of the classes."""
        found = self.records[EVENT].get((event,))
        return found is not None and found[0] == module and found[1] in classes

    def move(self, kind, owner, state, event):
        """The state that the move leads to, or None."""
        found = self.records[kind].get((owner, state, event))
        return None if found is None else found[0]

    def shown(self, supervisor, state):
        """The events that the supervisor disables."""
        found = self.records[DISABLING].get((supervisor, state))
        return [] if found is None else plan_check.bits_of(found[0])

    def step(self, event, index):
        """Operation and operand, or None."""
        return self.records[STEP].get((event, index))


@functools.lru_cache(maxsize=16)
def judged(image):
    """The image's own number and offset, or None, and then the plan."""
    found = plan_check.verdict(image)
    return found, Plan(image) if found is None else None


class Procedure:
    """Idle, with every field 0, or at a step of an event."""

    def __init__(self, running=0, event=0, index=0, target=0):
        self.running, self.event, self.index, self.count, self.target, self.total = running, event, index, 0, target, 0

    def fields(self):
        return [self.running, self.event, self.index, self.count, self.target, self.total]

    def fits(self, plan, module):
        if not self.running:
            return self.fields() == [0] * 6
        step = plan.step(self.event, self.index)
        if step is None or not plan.is_event(self.event, module, (UNCONTROLLABLE, CONTROLLABLE)):
            return False
        operation, operand = step
        if operation == WAIT_TICKS:
            return self.count < operand and [self.target, self.total] == [0, 0]
        if operation == WAIT_LITRES:
            total = eighths(self.total)
            return self.count == 0 and self.target == operand and total is not None and total < eighths(operand)
        return [self.count, self.target, self.total] == [0, 0, 0]


def arrival(plan, event, index):
    """The procedure at a step, or idle where there is none."""
    step = plan.step(event, index)
    if step is None:
        return Procedure()
    operation, operand = step
    return Procedure(1, event, index, operand if operation == WAIT_LITRES else 0)


class Own:
    """A module's own part."""

    def __init__(self, state=0):
        self.state, self.queue, self.length, self.procedure, self.outputs = state, [0] * PLACES, 0, Procedure(), 0

    def fields(self):
        return [self.state, self.queue, self.length, self.procedure.fields(), self.outputs]

    def fits(self, plan, module):
        if module >= plan.modules:
            return self.fields() == Own().fields()
        if self.state >= plan.states(MODULE, module) or self.length > PLACES:
            return False
        waiting, past = self.queue[: self.length], self.queue[self.length :]
        if not all(plan.is_event(e, module, (UNCONTROLLABLE,)) for e in waiting) or any(past):
            return False
        return self.procedure.fits(plan, module)

    def put(self, event):
        self.queue[self.length] = event
        self.length += 1

    def first_usable(self, plan, module):
        """The index of the first queued response by which the module has a move, or None."""
        for k, event in enumerate(self.queue[: self.length]):
            if plan.move(MODULE_MOVE, module, self.state, event) is not None:
                return k
        return None

    def take(self, k):
        """The response at the index, which leaves the queue; those behind it move up."""
        event, self.queue = self.queue[k], self.queue[:k] + self.queue[k + 1 :] + [0]
        self.length -= 1
        return event

    def tick(self, plan, reading):
        at = self.procedure
        if not at.running:
            return
        operation, operand = plan.step(at.event, at.index)
        if operation == OUTPUT_ON:
            self.outputs |= 1 << operand
        elif operation == OUTPUT_OFF:
            self.outputs &= ~(1 << operand)
        elif operation == WAIT_TICKS:
            at.count += 1
            if at.count < operand:
                return
        elif operation == WAIT_LITRES:
            if reading == NO_SENSOR:
                return
            total = eighths(at.total) + eighths(reading)
            if total < eighths(at.target):
                at.total = bits_of(total / 8)
                return
        elif operation == RESPOND:
            if self.length == PLACES:
                return
            self.put(operand)
        self.procedure = arrival(plan, at.event, at.index + 1)


class Device:
    """The state, and the calls on it with an image. A refused call leaves the state, except the start."""

    def __init__(self):
        self.modules = [Own() for _ in range(MODULES)]
        self.supervisors = [0] * SUPERVISORS

    def fits(self, plan):
        return all(own.fits(plan, m) for m, own in enumerate(self.modules)) and all(
            state < plan.states(SUPERVISOR, v) if v < plan.supervisors else state == 0
            for v, state in enumerate(self.supervisors)
        )

    def refusal(self, image, module, event=None, reading=NO_SENSOR):
        """The smallest number that applies, and its offset, or None, and then the plan."""
        found, plan = judged(image)
        if found is not None:
            return found, None
        if not self.fits(plan):
            return (9, 0), None
        if module >= plan.modules:
            return (11, 0), None
        if event is not None:
            if not plan.is_event(event, module, (UNCONTROLLABLE,)):
                return (11, 0), None
            if self.modules[module].length == PLACES:
                return (13, 0), None
        if reading != NO_SENSOR:
            litres = eighths(reading)
            if litres is None or litres > 64 * 8:
                return (14, 0), None
        return None, plan

    def start(self, image):
        self.__init__()
        found, plan = judged(image)
        if found is not None:
            return "refused %d at %d" % found
        for m in range(plan.modules):
            self.modules[m] = Own(plan.initial(MODULE, m))
        for v in range(plan.supervisors):
            self.supervisors[v] = plan.initial(SUPERVISOR, v)
        return "done"

    def fire(self, plan, module, event):
        """Whether the module has a move by the event; then it is made."""
        own = self.modules[module]
        after = plan.move(MODULE_MOVE, module, own.state, event)
        if after is None:
            return False
        own.state = after
        for v in range(plan.supervisors):
            if event in plan.alphabet(v):
                after = plan.move(SUPERVISOR_MOVE, v, self.supervisors[v], event)
                self.supervisors[v] = self.supervisors[v] if after is None else after
        if plan.is_event(event, module, (CONTROLLABLE,)):
            own.procedure = arrival(plan, event, 0)
        return True

    def turn(self, image, module):
        refused, plan = self.refusal(image, module)
        if refused:
            return "refused %d at %d" % refused
        own = self.modules[module]
        k = own.first_usable(plan, module)
        if k is not None:
            event = own.take(k)
            if not self.fire(plan, module, event):
                raise AssertionError("a response without a move was taken")
            return "event %d" % event
        if not own.procedure.running:
            disabled = set()
            for v in range(plan.supervisors):
                disabled.update(plan.shown(v, self.supervisors[v]))
            for event in range(64):
                if plan.is_event(event, module, (CONTROLLABLE,)) and event not in disabled:
                    if self.fire(plan, module, event):
                        return "event %d" % event
        return "none"

    def respond(self, image, module, event):
        refused, _ = self.refusal(image, module, event=event)
        if refused:
            return "refused %d at %d" % refused
        self.modules[module].put(event)
        return "done"

    def tick(self, image, module, reading):
        refused, plan = self.refusal(image, module, reading=reading)
        if refused:
            return "refused %d at %d" % refused
        self.modules[module].tick(plan, reading)
        return "done"


def hexadecimal(value, digits):
    return NAN if value == NAN else "%0*X" % (digits, value)


def float_of(text):
    return NAN if text == NAN else int(text, 16)


def reading_of(text):
    return NO_SENSOR if text == NO_SENSOR else float_of(text)


def numbers(values):
    return " ".join(map(str, values))


class Run:
    """The image and the device, as the lines so far leave them."""

    def __init__(self):
        self.image, self.device = b"", Device()

    def damage(self, module, field, *value):
        own = self.device.modules[module]
        if field in ("state", "length"):
            setattr(own, field, int(value[0]))
        elif field == "place":
            own.queue[int(value[0])] = int(value[1])
        elif field == "outputs":
            own.outputs = int(value[0], 16)
        elif field in ("target", "total"):
            setattr(own.procedure, field, float_of(value[0]))
        elif field in ("running", "event", "index", "count"):
            setattr(own.procedure, field, int(value[0]))
        else:
            raise ValueError(field)

    def own(self, module):
        own = self.device.modules[module]
        *fields, target, total = own.procedure.fields()
        return "state %d queue %d %s procedure %s water %s %s outputs %s" % (
            own.state, own.length, numbers(own.queue), numbers(fields),
            hexadecimal(target, 16), hexadecimal(total, 16), hexadecimal(own.outputs, 8),
        )

    def call(self, word, arguments):
        if word == "turn":
            return self.device.turn(self.image, int(arguments[0]))
        if word == "respond":
            return self.device.respond(self.image, int(arguments[0]), int(arguments[1]))
        module, times, reading = arguments[0], 1 if word == "tick" else int(arguments[1]), arguments[-1]
        for _ in range(times):
            answer = self.device.tick(self.image, int(module), reading_of(reading))
        return answer

    def answer(self, line):
        """What the program prints for the line, or None."""
        if line.startswith("#"):
            return line
        word, *arguments = line.split(" ")
        if word in ("plan", "image"):
            self.image = plan_check.image_of(arguments[0])
            return self.device.start(self.image) if word == "plan" else None
        if word in ("turn", "respond", "tick", "ticks"):
            return self.call(word, arguments)
        if word == "own":
            return self.own(int(arguments[0]))
        if word == "states":
            return "states " + numbers(self.device.supervisors)
        if word == "set":
            return self.damage(int(arguments[0]), *arguments[1:])
        if word == "setv":
            self.device.supervisors[int(arguments[0])] = int(arguments[1])
            return None
        raise ValueError(line)


# The random lines.

GOOD = [bits_of(e / 8) for e in (0, 1, 2, 3, 5, 8, 20, 512)]
BAD = [NAN, *map(bits_of, (-0.0, 64.125, 0.1, float("inf"), float("-inf"), -0.125, 5e-324, 1e300, 63.9999))]


def subset(r, values, share):
    return [v for v in values if r.random() < share]


def mask_of(events):
    return sum(1 << e for e in events)


def random_step(r, responses):
    """An operation and its operand."""
    operation = r.choice((1, 2, 3, 4, 5) if responses else (1, 2, 3, 4))
    if operation in (OUTPUT_ON, OUTPUT_OFF):
        return operation, r.choice((0, 1, 31, r.randrange(32)))
    if operation == WAIT_TICKS:
        return operation, r.choice((1, 2, 3, 300))
    if operation == WAIT_LITRES:
        return operation, bits_of(r.choice((1, 2, 20, r.randint(1, 600), 1048576)) / 8)
    return operation, r.choice(responses)


def random_plan(r):
    """The records of an accepted plan, as kinds and fields."""
    modules, supervisors, events = r.choice([(1, 1, 4), (2, 1, 6), (2, 3, 8), (3, 0, 6), (3, 5, 12), (1, 0, 3)])
    if r.random() < 0.03:
        modules, supervisors, events = 16, 32, 64
    owner = [r.randrange(modules) for _ in range(events)]
    classes = [r.choice((UNCONTROLLABLE, CONTROLLABLE)) for _ in range(events)]
    commands = [e for e in range(events) if classes[e] == CONTROLLABLE]
    records = [(HEAD, [modules, supervisors, events]), (END, [])]
    records += [(EVENT, [e, owner[e], classes[e]]) for e in range(events)]
    for m in range(modules):
        states = r.randint(1, 4)
        records.append((MODULE, [m, states, r.randrange(states)]))
        mine = [(m, s, e) for s in range(states) for e in range(events) if owner[e] == m]
        records += [(MODULE_MOVE, [*key, r.randrange(states)]) for key in subset(r, mine, r.choice((0.4, 0.7)))]
        records += [(MARKING, [m, s]) for s in subset(r, range(states), 0.3)]
    for v in range(supervisors):
        states = r.randint(1, 4)
        alphabet = subset(r, range(events), 0.5)
        records.append((SUPERVISOR, [v, states, r.randrange(states), mask_of(alphabet)]))
        mine = [(v, s, e) for s in range(states) for e in alphabet]
        records += [(SUPERVISOR_MOVE, [*key, r.randrange(states)]) for key in subset(r, mine, 0.6)]
        for s in subset(r, range(states), 0.6 if supervisors < 6 else 0.1):
            mask = mask_of(subset(r, [e for e in alphabet if e in commands], 0.4))
            records += [(DISABLING, [v, s, mask])] if mask else []
    for e in subset(r, commands, 0.7):
        responses = [u for u in range(events) if owner[u] == owner[e] and u not in commands]
        records += [(STEP, [e, k, *random_step(r, responses)]) for k in range(r.randint(1, 4))]
    return sorted(records, key=lambda record: (record[0], record[1][: plan_check.KEY[record[0]]]))


def text_of(records):
    return "+".join(plan_check.bytes_of(kind, fields).hex().upper() for kind, fields in records)


def settings(own):
    """What lines of `set` say of each field of an own part."""
    p = own.procedure
    found = {"state": own.state, "length": own.length}
    found.update(("place %d" % k, e) for k, e in enumerate(own.queue))
    found.update(running=p.running, event=p.event, index=p.index, count=p.count)
    found.update(target=hexadecimal(p.target, 16), total=hexadecimal(p.total, 16), outputs=hexadecimal(own.outputs, 8))
    return found


class Maker:
    """Makes lines, and runs each, so that the next may follow from the state."""

    def __init__(self, seed):
        self.r, self.run, self.calls, self.size = random.Random(seed), Run(), 0, 0

    def say(self, line):
        print(line)
        self.size += len(line) + 1
        return self.run.answer(line)

    def fits(self):
        plan = judged(self.run.image)[1]
        return plan is not None and self.run.device.fits(plan)

    def start(self):
        self.text = text_of(random_plan(self.r))
        self.say("plan " + self.text)
        self.plan = judged(self.run.image)[1]

    def module(self):
        return self.r.randrange(self.plan.modules) if self.r.random() < 0.96 else self.r.choice((self.plan.modules, 15, 16, 255))

    def reading(self):
        x = self.r.random()
        return NO_SENSOR if x < 0.2 else hexadecimal(self.r.choice(BAD if x < 0.3 else GOOD), 16)

    def responses(self, module):
        return [e for e in range(64) if self.plan.is_event(e, module, (UNCONTROLLABLE,))]

    def call(self):
        """A call, and what it leaves."""
        self.calls += 1
        m, x = self.module(), self.r.random()
        if x < 0.35:
            self.say("turn %d" % m)
        elif x < 0.55:
            e = self.r.choice(self.responses(m) or [0]) if self.r.random() < 0.9 else self.r.choice((*range(12), 63, 64, 255))
            for _ in range(9 if self.r.random() < 0.15 else 1):
                self.say("respond %d %d" % (m, e))
        elif x < 0.9:
            self.say("tick %d %s" % (m, self.reading()))
        else:
            self.say("ticks %d %d %s" % (m, self.r.choice((2, 3, 10, 300)), self.reading()))
        if m < MODULES:
            self.say("own %d" % m)
        if x < 0.35:
            self.say("states")

    def early(self):
        """Responses without a move here, up to a full queue of them, and behind them any; often a procedure at a respond step; some calls."""
        m, before = self.r.randrange(self.plan.modules), copy.deepcopy(self.run.device)
        state = before.modules[m].state
        early = [e for e in self.responses(m) if self.plan.move(MODULE_MOVE, m, state, e) is None]
        if not early:
            return
        if self.r.random() < 0.5:
            self.put_at_step(m, (RESPOND,))
        events = self.r.choices(early, k=self.r.choice((1, 2, 4, PLACES))) + self.r.choices(self.responses(m), k=2)
        for event in events:
            self.say("respond %d %d" % (m, event))
        for _ in range(self.r.randint(1, 4)):
            self.calls += 1
            self.say("turn %d" % m if self.r.random() < 0.6 else "tick %d %s" % (m, NO_SENSOR))
            self.say("own %d" % m)
        if self.r.random() < 0.7:
            self.restore(before)

    def put_at_step(self, m, operations=(1, 2, 3, 4, 5)):
        """The module's procedure put at a step of such operations, with any count or total that fits."""
        steps = [key for key, (operation, _) in self.plan.records[STEP].items() if operation in operations]
        steps = [key for key in steps if self.r.random() < 0.1 or self.plan.is_event(key[0], m, (CONTROLLABLE,))]
        if steps:
            event, index = self.r.choice(steps)
            operation, operand = self.plan.step(event, index)
            litres = eighths(operand) if operation == WAIT_LITRES else 1
            p = copy.copy(self.run.device.modules[m])
            p.procedure = Procedure(1, event, index, operand if operation == WAIT_LITRES else 0)
            p.procedure.count = self.r.choice((0, operand - 1)) if operation == WAIT_TICKS else 0
            p.procedure.total = bits_of(self.r.choice((0, litres - 1)) / 8)
            self.set_all(m, p)

    def value(self, m, field):
        """Some value of the module's field, often one about where it stops fitting."""
        p = self.run.device.modules[m].procedure
        operation, operand = self.plan.step(p.event, p.index) or (0, 0)
        if field in ("target", "total"):
            litres = eighths(operand) if operation == WAIT_LITRES else 1
            near = [bits_of(e / 8) for e in (litres - 1, litres, litres + 1)]
            return hexadecimal(self.r.choice(near * 2 + GOOD + BAD), 16)
        if field == "outputs":
            return hexadecimal(self.r.choice((0, 1, 1 << 31, self.r.randrange(1 << 32))), 8)
        if field == "running":
            return self.r.choice("01")
        if field == "count":
            near = operand if operation == WAIT_TICKS else 1
            return str(self.r.choice((near - 1, near, near + 1, 65535)))
        limits = {"state": self.plan.states(MODULE, m) if m < self.plan.modules else 1, "length": PLACES}
        return str(self.r.choice((limits.get(field, p.index), *range(9), 63, 64, 255)))

    def damaged(self):
        """A damaged own part or supervisor's state, some calls, and the damage undone unless the state fits."""
        before = copy.deepcopy(self.run.device)
        if self.r.random() < 0.2:
            v = self.r.choice((*range(self.plan.supervisors), self.r.randrange(SUPERVISORS)))
            states = self.plan.states(SUPERVISOR, v) if v < self.plan.supervisors else 1
            self.say("setv %d %d" % (v, self.r.choice((states - 1, states, self.r.randrange(256)))))
        else:
            m = self.r.randrange(MODULES) if self.r.random() < 0.15 else self.r.randrange(self.plan.modules)
            if self.r.random() < 0.6:
                self.put_at_step(m)
            fields = ["state", "length", "place", "running", "event", "index", "count", "target", "total", "outputs"]
            for field in self.r.sample(fields, self.r.choice((0, 1, 1, 1, 2))):
                place = " %d" % self.r.randrange(PLACES) if field == "place" else ""
                self.say("set %d %s%s %s" % (m, field, place, self.value(m, field)))
        for _ in range(self.r.randint(1, 2)):
            self.call()
        if not self.fits():
            self.restore(before)

    def set_all(self, m, own):
        now = settings(self.run.device.modules[m])
        for field, value in settings(own).items():
            if value != now[field]:
                self.say("set %d %s %s" % (m, field, value))

    def restore(self, before):
        for m, own in enumerate(before.modules):
            self.set_all(m, own)
        for v, state in enumerate(before.supervisors):
            if state != self.run.device.supervisors[v]:
                self.say("setv %d %d" % (v, state))

    def another_image(self):
        """The image with one byte changed, some calls, and the image back."""
        image = bytearray(self.run.image)
        image[self.r.randrange(len(image))] = self.r.choice((0, 1, 2, 3, 4, 5, 0x17, 0x18, 0x1F, self.r.randrange(256)))
        self.say(("plan " if self.r.random() < 0.2 else "image ") + image.hex().upper())
        for _ in range(self.r.randint(1, 3)):
            self.call()
        self.say("image " + self.text)
        if not self.fits():
            self.start()

    def make(self, count):
        """Lines with so many calls, or fewer if the program's room for lines is full."""
        self.start()
        while self.calls < count and self.size < 200000:
            x = self.r.random()
            if x < 0.03:
                self.start()
            elif x < 0.06:
                self.another_image()
            elif x < 0.36:
                self.damaged()
            elif x < 0.5:
                self.early()
            else:
                self.call()


if __name__ == "__main__":
    if sys.argv[1:2] == ["--random"]:
        Maker(int(sys.argv[2])).make(int(sys.argv[3]))
    else:
        run = Run()
        for line in sys.stdin:
            answer = run.answer(line.rstrip("\n"))
            if answer is not None:
                print(answer)
