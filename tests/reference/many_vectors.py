"""Single calls of the controller on many devices, written from the paper alone.

    python3 tests/reference/many_vectors.py < crates/many_vectors/stdin

prints what the program `many_vectors` must print: crates/many_vectors/stdout is made so.

    python3 tests/reference/many_vectors.py --random SEED COUNT

makes so many lines on random plans, some of which, and some states, are damaged.

A line is a word and its arguments, one space before each. M is a module, V a supervisor, E an event. The state of one module and of one
supervisor is kept from line to line, whichever number a call gives it:

    # ..               a comment, echoed
    plan IMAGE         the image from here on; the states stay
    module M           the start of module M: `done` or `refused N at B`
    supervisor V       the start of supervisor V
    mstep M L          a step with a buffer of L bytes, which held AA throughout: `event E N`, `none N` or `bids V N`, N being the bytes
                       written, or `waits` or `refused N at B`; then the whole buffer
    mdeliver M BYTES   `done` or `refused N at B`
    mrespond M E       `done` or `refused N at B`
    mtick M READING    `done` or `refused N at B`
    sstep V L          `sends M N`, `waits` or `refused N at B`; then the whole buffer
    sdeliver V BYTES   `done` or `refused N at B`
    mset FIELD VALUE   damages the module's state: held, received, bid, or a field of its own part as in one_device.py
    sset FIELD VALUE   damages the supervisor's state: state, noted, holder, last
    mstate             `held MASK received MASK bid 0` or `1`, and the own part as in one_device.py
    sstate             `state S noted MASK holder M last L`; the holder may be `home`
    message BYTES      `bid M V`, `permit V M MASK`, `release M V E` or `misshapen`

An IMAGE is as plan_check.py says, a READING as one_device.py says. BYTES are an image of at most 16, and `-` for none; L is up to 160.
Masks are hexadecimal digits: 8 for held, 16 for received and a permit's, 4 for noted. A line of `plan`, `mset` or `sset` prints nothing.
"""

import copy
import random
import sys

import one_device
from many_devices import (
    BID, HOME, NO_EVENT, PERMIT, RELEASE, SHAPES, Message, Module, Refused, Supervisor,
    neighbour_modules, neighbours, random_plan, read_message, write_message,
)
from one_device import BAD, GOOD, NO_SENSOR, PLACES, bits_of, eighths, hexadecimal, judged, mask_of, reading_of, settings, subset, text_of
from plan_check import (
    EVENT, MODULE, MODULE_MOVE, STEP, SUPERVISOR, RESPOND, WAIT_LITRES, WAIT_TICKS, CONTROLLABLE, UNCONTROLLABLE, bytes_of, image_of,
)


class Run:
    """The image and the two states, as the lines so far leave them."""

    def __init__(self):
        self.image, self.module, self.supervisor = b"", Module(), Supervisor()

    def own(self):
        """The module's own part, for the lines of one_device.py."""
        run = one_device.Run()
        run.device.modules[0] = self.module.own
        return run

    def damage_module(self, field, *value):
        if field in ("held", "received"):
            setattr(self.module, field, int(value[0], 16))
        elif field == "bid":
            self.module.bid = int(value[0])
        else:
            self.own().damage(0, field, *value)

    def damage_supervisor(self, field, value):
        if field in ("state", "last"):
            setattr(self.supervisor, field, int(value))
        elif field == "noted":
            self.supervisor.noted = int(value, 16)
        elif field == "holder":
            self.supervisor.holder = HOME if value == HOME else int(value)
        else:
            raise ValueError(field)

    def step(self, party, number, length):
        buffer = b"\xaa" * length
        try:
            answer, sent = party.step(self.image, number, length)
        except Refused as refused:
            return "refused %d at %d %s" % (refused.number, refused.offset, buffer.hex().upper() or "-")
        data = b"".join(sent)
        size = () if answer == ("waits",) else (len(data),)
        return " ".join(map(str, answer + size)) + " " + ((data + buffer[len(data) :]).hex().upper() or "-")

    def call(self, word, number, *argument):
        m, v = self.module, self.supervisor
        if word == "module":
            m.start(self.image, number)
        elif word == "supervisor":
            v.start(self.image, number)
        elif word == "mdeliver":
            m.deliver(self.image, number, image_of(argument[0]))
        elif word == "mrespond":
            m.respond(self.image, number, int(argument[0]))
        elif word == "mtick":
            m.tick(self.image, number, reading_of(argument[0]))
        elif word == "sdeliver":
            v.deliver(self.image, number, image_of(argument[0]))
        else:
            raise ValueError(word)

    def message(self, data):
        found = read_message(data)
        if found is None:
            return "misshapen"
        kind, module, supervisor, content = found
        if kind == BID:
            return "bid %d %d" % (module, supervisor)
        if kind == PERMIT:
            return "permit %d %d %s" % (supervisor, module, hexadecimal(content, 16))
        return "release %d %d %d" % (module, supervisor, content)

    def answer(self, line):
        """What the program prints for the line, or None."""
        if line.startswith("#"):
            return line
        word, *arguments = line.split(" ")
        m, v = self.module, self.supervisor
        if word == "plan":
            self.image = image_of(arguments[0])
            return None
        if word == "mset":
            return self.damage_module(*arguments)
        if word == "sset":
            return self.damage_supervisor(*arguments)
        if word == "mstate":
            return "held %s received %s bid %d %s" % (hexadecimal(m.held, 8), hexadecimal(m.received, 16), m.bid, self.own().own(0))
        if word == "sstate":
            return "state %d noted %s holder %s last %d" % (v.state, hexadecimal(v.noted, 4), v.holder, v.last)
        if word == "message":
            return self.message(image_of(arguments[0]))
        if word in ("mstep", "sstep"):
            return self.step(m if word == "mstep" else v, *map(int, arguments))
        try:
            self.call(word, int(arguments[0]), *arguments[1:])
        except Refused as refused:
            return "refused %d at %d" % (refused.number, refused.offset)
        return "done"


# The random lines.


def crowd(r):
    """A plan in which every supervisor is a neighbour of module 0, up to 32 of them."""
    records = random_plan(r, (2, r.choice((17, 31, 32, 32)), 6))
    mine = [fields[0] for kind, fields in records if kind == EVENT and fields[1] == 0]
    for kind, fields in records:
        if kind == SUPERVISOR:
            fields[3] |= 1 << r.choice(mine)
    return records


def changed(records, at, field, value):
    """The digits of the plan with a field of one record changed."""
    kind, fields = records[at]
    return text_of(records[:at] + [(kind, fields[:field] + [value] + fields[field + 1 :])] + records[at + 1 :])


def damaged_plans(r, records):
    """The digits of the plan, damaged in one way each."""
    text, image = text_of(records), bytearray(b"".join(bytes_of(kind, fields) for kind, fields in records))
    at, head = r.randrange(1, len(records)), r.randrange(3)
    event, module = (r.choice([k for k, record in enumerate(records) if record[0] == kind]) for kind in (EVENT, MODULE))
    # of an event with steps, if there is one
    steps = [fields[0] for kind, fields in records if kind == STEP]
    command = r.choice([k for k, (kind, fields) in enumerate(records) if kind == EVENT and fields[0] in steps] or [event])
    cut = image[: r.choice((0, r.randrange(len(image))))].hex().upper() or "-"
    image[r.randrange(len(image))] = r.choice((0, 1, 2, 3, 5, 64, 0x17, 0x18, 0x1F, 0x20, 255, r.randrange(256)))
    return [
        text + "+00*49153",
        text_of(records[:at]) + "+" + r.choice(("00", "0F", "18", "19", "1E", "20", "FF")),
        cut,
        text + "+" + r.choice(("00", "1F", "20")),
        text_of(records[: at + 1] + records[at:]),
        text_of(records[:at] + records[at + 1 :]),
        changed(records, *r.choice(((event, 2, 2), (module, 1, 0), (module, 1, 33), (0, 0, 17)))),
        changed(records, module, 2, records[module][1][1]),
        changed(records, command, 2, 1 - records[command][1][2]),
        changed(records, 0, head, records[0][1][head] + 1),
        text_of(records[:-1]) + "+18" + r.choice(("0000", "0004", "1000", "FFFF")) + "+1F",  # a mark doubled, out of order or undeclared
        image.hex().upper(),
    ]


class Maker:
    """Makes lines, and runs each, so that the next may follow from the states."""

    def __init__(self, seed):
        self.r, self.run, self.lines, self.size = random.Random(seed), Run(), [], 0
        self.damages = self.messages = 6 * seed  # which way of damage, and which length, is next

    def say(self, line):
        self.lines.append(line)
        self.size += len(line) + 1
        return self.run.answer(line)

    def often(self, share):
        return self.r.random() < share

    def begin(self):
        """Another plan, now and then some calls on the states that the one before left, and a module's and a supervisor's start."""
        x = self.r.random()
        shape = (16, 32, 64) if x < 0.03 and self.size < 100000 else self.r.choice(SHAPES)
        self.records = crowd(self.r) if x > 0.85 else random_plan(self.r, shape)
        self.text = text_of(self.records)
        self.say("plan " + self.text)
        self.plan = judged(self.run.image)[1]
        self.m = self.r.randrange(self.plan.modules) if x <= 0.85 else 0
        self.v = self.any_supervisor()
        if self.often(0.2):
            self.some_calls()
        self.start_module()
        self.start_supervisor()

    def any_supervisor(self):
        """One of the plan, mostly with neighbours."""
        busy = [v for v in range(self.plan.supervisors) if neighbour_modules(self.plan, v)]
        return self.r.choice(busy if busy and self.often(0.95) else range(max(1, self.plan.supervisors)))

    def start_module(self):
        if self.often(0.1):
            self.say("module %d" % self.r.choice((self.plan.modules, 16, 255)))
            self.say("mstate")
        if self.often(0.3):
            self.m = self.r.randrange(self.plan.modules)
        self.say("module %d" % self.m)

    def start_supervisor(self):
        if self.often(0.1):
            self.say("supervisor %d" % self.r.choice((self.plan.supervisors, 32, 255)))
            self.say("sstate")
        if self.often(0.3):
            self.v = self.any_supervisor()
        self.say("supervisor %d" % self.v)

    # Numbers: mostly that of the kept state, now and then another's, or one that the plan lacks.

    def module(self):
        return self.m if self.often(0.95) else self.r.choice((*range(self.plan.modules), self.plan.modules, 15, 16, 254, 255))

    def supervisor(self):
        return self.v if self.often(0.95) else self.r.choice((*range(self.plan.supervisors), self.plan.supervisors, 31, 32, 254, 255))

    def length(self, party, number):
        """A buffer's length: often the very bytes that the step writes, or one fewer."""
        try:
            needed = sum(map(len, copy.deepcopy(party).step(self.run.image, number, 160)[1]))
        except Refused:
            needed = 3
        return self.r.choice((needed, needed, needed, max(0, needed - 1), needed + 1, 160, 0, self.r.randrange(161)))

    def mask(self):
        few = mask_of(subset(self.r, range(64), 0.1))
        return self.r.choice((0, 0, few, few, (1 << 64) - 1, self.r.randrange(1 << 64)))

    def events(self, module, classes=(UNCONTROLLABLE, CONTROLLABLE)):
        return [e for e in range(64) if self.plan.is_event(e, module, classes)]

    # Messages.

    def any_message(self):
        """A message of any kind, mostly between neighbours of which one is the kept module or supervisor."""
        plan, r = self.plan, self.r
        pairs = [(self.m, v) for v in neighbours(plan, self.m)]
        pairs += [(m, self.v) for m in range(plan.modules) if self.v in neighbours(plan, m)]
        pairs += [(self.run.supervisor.holder, self.v)] * (0 if self.run.supervisor.holder == HOME else len(pairs))
        module, supervisor = r.choice(pairs or [(self.m, self.v)])
        if self.often(0.1):
            module = r.choice((*range(plan.modules), plan.modules, 255))
        if self.often(0.1):
            supervisor = r.choice((*range(plan.supervisors), plan.supervisors, 255))
        alphabet = plan.alphabet(supervisor) if supervisor < plan.supervisors else []
        both = [e for e in self.events(module) if e in alphabet]
        events = (NO_EVENT, *both, *both) if self.often(0.7) else (*self.events(module), *alphabet, r.randrange(64), 64, 254)
        return r.choice((
            Message(BID, module, supervisor),
            Message(PERMIT, module, supervisor, self.mask()),
            Message(RELEASE, module, supervisor, r.choice(events)),
        ))

    def digits(self, message):
        """The message's bytes, or now and then damaged ones."""
        data = bytearray(write_message(message))
        if self.often(0.06):
            x = self.r.randrange(4)
            if x == 0:
                data = data[: self.r.randrange(len(data))]
            elif x == 1:
                data = (data + bytes(self.r.randrange(256) for _ in range(5)))[: len(data) + self.r.randint(1, 5)]
            elif x == 2:
                data[0] = self.r.choice((0, 1, 2, 3, 4, 255))
            else:
                data[self.r.randrange(len(data))] = self.r.randrange(256)
        return data.hex().upper() or "-"

    def permit(self):
        """The permit that the module has a bid for, or else any message."""
        missing = [v for v in neighbours(self.plan, self.m) if not self.run.module.held >> v & 1]
        return Message(PERMIT, self.m, missing[0], self.mask()) if missing else self.any_message()

    def good_release(self):
        """The holder's release, or else any message."""
        holder = self.run.supervisor.holder
        if holder == HOME or self.v >= self.plan.supervisors:
            return self.any_message()
        events = [e for e in self.events(holder) if e in self.plan.alphabet(self.v)]
        return Message(RELEASE, holder, self.v, self.r.choice(events * 2 + [NO_EVENT]))

    def good_bid(self):
        """A neighbour's bid that is not noted yet, or else any message."""
        mine = neighbour_modules(self.plan, self.v) if self.v < self.plan.supervisors else []
        free = [m for m in mine if not self.run.supervisor.noted >> m & 1]
        return Message(BID, self.r.choice(free), self.v) if free else self.any_message()

    # Calls, each mostly with what it leaves.

    def module_step(self):
        m = self.module()
        self.say("mstep %d %d" % (m, self.length(self.run.module, m)))

    def deliver_to_module(self):
        message = self.permit() if self.run.module.bid and self.often(0.85) else self.any_message()
        if self.often(0.08):
            message = message._replace(module=self.r.randrange(self.plan.modules))
        self.say("mdeliver %d %s" % (self.module(), self.digits(message)))

    def respond(self):
        events = self.events(self.m, (UNCONTROLLABLE,))
        event = self.r.choice(events) if events and self.often(0.9) else self.r.choice((*range(8), 63, 64, 255))
        for _ in range(9 if self.often(0.05) else 1):
            self.say("mrespond %d %d" % (self.module(), event))

    def tick(self):
        x = self.r.random()
        reading = NO_SENSOR if x < 0.2 else hexadecimal(self.r.choice(BAD if x < 0.3 else GOOD), 16)
        self.say("mtick %d %s" % (self.module(), reading))

    def module_call(self):
        x, m = self.r.random(), self.run.module
        if x < 0.1 or (x < 0.45 and m.bid):
            self.deliver_to_module()
        elif x < 0.55:
            self.module_step()
        elif x < 0.65 or (x < 0.9 and not m.own.procedure.running):
            self.respond()
        else:
            self.tick()
        if self.often(0.7):
            self.say("mstate")

    def supervisor_call(self):
        x = self.r.random()
        if x < 0.4:
            v = self.supervisor()
            self.say("sstep %d %d" % (v, self.length(self.run.supervisor, v)))
        else:
            held = self.run.supervisor.holder != HOME
            message = self.any_message() if x < 0.55 else self.good_release() if held and x < 0.75 else self.good_bid()
            self.say("sdeliver %d %s" % (self.supervisor(), self.digits(message)))
        if self.often(0.7):
            self.say("sstate")

    def some_calls(self):
        for _ in range(self.r.randint(1, 3)):
            self.supervisor_call() if self.often(0.4 if self.plan.supervisors else 0.05) else self.module_call()

    def round(self):
        """A wish, then bids and permits until the module takes its turn, and some ticks of the procedure that it may have started."""
        if not self.run.module.wishes(self.plan, self.m):
            self.respond()
        if len(neighbours(self.plan, self.m)) > 8 and self.often(0.9):
            self.put_permits()
        for _ in range(len(neighbours(self.plan, self.m)) + 1):
            if not self.run.module.bid and not self.say("mstep %d %d" % (self.m, self.r.choice((128, 160)))).startswith("bids"):
                break
            self.say("mdeliver %d %s" % (self.m, write_message(self.permit()).hex().upper()))
        for _ in range(self.r.randint(0, 4)):
            if self.run.module.own.procedure.running:
                self.tick()
        self.say("mstate")

    def message(self):
        """Bytes of each length in turn, or a whole message's."""
        self.messages += 1
        length = self.messages % 17 if self.often(0.6) else self.r.choice((3, 4, 11))
        kind = {3: BID, 4: RELEASE, 11: PERMIT}.get(length)
        if kind is None or self.often(0.2):
            kind = self.r.choice((BID, PERMIT, RELEASE, self.r.randrange(256)))
        data = bytes([kind] + [self.r.randrange(256) for _ in range(15)])[:length]
        self.say("message " + (data.hex().upper() or "-"))

    # Damage.

    def put(self, now, found):
        """Lines of `mset` for the fields that are to be otherwise than now."""
        for field, value in found.items():
            if value != now[field]:
                self.say("mset %s %s" % (field, value))

    def fields(self):
        m = self.run.module
        return {"held": hexadecimal(m.held, 8), "received": hexadecimal(m.received, 16), "bid": m.bid, **settings(m.own)}

    def put_at_step(self, operations=(1, 2, 3, 4, 5)):
        """The procedure put at a step of such operations, with any count or total that fits."""
        steps = [key for key, (operation, _) in self.plan.records[STEP].items() if operation in operations]
        steps = [key for key in steps if self.plan.is_event(key[0], self.m, (CONTROLLABLE,)) or self.often(0.1)]
        if steps:
            event, index = self.r.choice(steps)
            operation, operand = self.plan.step(event, index)
            count = self.r.randrange(operand) if operation == WAIT_TICKS else 0
            target, total = (operand, self.r.randrange(eighths(operand))) if operation == WAIT_LITRES else (0, 0)
            found = {"running": 1, "event": event, "index": index, "count": count}
            self.put(self.fields(), {**found, "target": hexadecimal(target, 16), "total": hexadecimal(bits_of(total / 8), 16)})

    def put_permits(self):
        """Some of the lowest neighbours' permits held, often all or all but one."""
        mine = neighbours(self.plan, self.m)
        count = self.r.choice((len(mine), len(mine), max(0, len(mine) - 1), self.r.randint(0, len(mine))))
        found = {"held": hexadecimal(mask_of(mine[:count]), 8), "received": hexadecimal(self.mask() if count else 0, 16)}
        self.put(self.fields(), {**found, "bid": int(count < len(mine) and self.often(0.5))})

    def put_queue(self):
        """Some responses queued, the first of them often without a move here; of a full queue of those the procedure is at a respond step."""
        events = self.events(self.m, (UNCONTROLLABLE,))
        early = self.without_move(self.run.module.own.state) or events
        length = self.r.choice((0, 1, 1, 2, 2, 4, PLACES, PLACES)) if events else 0
        first = self.r.choice((0, length, self.r.randint(0, length)))
        queue = [self.r.choice(early if k < first else events) for k in range(length)] + [0] * (PLACES - length)
        self.put(self.fields(), {"length": length, **{"place %d" % k: e for k, e in enumerate(queue)}})
        if first == PLACES:
            self.put_at_step((RESPOND,))

    def without_move(self, state):
        """The responses by which the module has no move in the state."""
        return [e for e in self.events(self.m, (UNCONTROLLABLE,)) if self.plan.move(MODULE_MOVE, self.m, state, e) is None]

    def early(self):
        """A queue whose first responses often have no move here, mostly with all permits held, and some steps and ticks."""
        responses = len(self.events(self.m, (UNCONTROLLABLE,)))
        mixed = [s for s in range(self.plan.states(MODULE, self.m)) if 0 < len(self.without_move(s)) < responses]
        if mixed:
            self.put(self.fields(), {"state": self.r.choice(mixed)})
        self.put_queue()
        self.put_permits()
        for _ in range(self.r.randint(1, 4)):
            self.module_step() if self.often(0.7) else self.tick()
        self.say("mstate")

    def value(self, field):
        """Some value of the module's field, often one about where it stops fitting."""
        own, r = self.run.module.own, self.r
        operation, operand = self.plan.step(own.procedure.event, own.procedure.index) or (0, 0)
        if field == "held":
            mine = neighbours(self.plan, self.m)
            near = mask_of(mine[: r.randint(0, len(mine))])
            return hexadecimal(r.choice((near, mask_of(subset(r, mine, 0.6)), near ^ 1 << r.randrange(32), (1 << 32) - 1)), 8)
        if field == "received":
            return hexadecimal(self.mask(), 16)
        if field in ("bid", "running"):
            return r.choice("01")
        if field in ("target", "total"):
            litres = eighths(operand) if operation == WAIT_LITRES else 1
            near = [bits_of(e / 8) for e in (litres - 1, litres, litres + 1)]
            return hexadecimal(r.choice(near * 3 + GOOD + BAD), 16)
        if field == "outputs":
            return hexadecimal(r.randrange(1 << 32), 8)
        if field == "count":
            near = operand if operation == WAIT_TICKS else 1
            return r.choice((near - 1, near, near + 1, 65535))
        if field == "state":
            states = self.plan.states(MODULE, self.m)
            return r.choice((states - 1, states, r.randrange(states), 255))
        if field == "length":
            return r.choice((min(255, own.length + 1), max(0, own.length - 1), PLACES, PLACES + 1, 255))
        if field.startswith("place"):
            return r.choice((*self.events(self.m), r.randrange(64), 0, 64, 255))
        return r.choice((min(255, own.procedure.index + 1), *range(6), r.randrange(64), 64, 255))

    def damaged_module(self):
        """A module's state put elsewhere, mostly with some of its fields damaged, and some calls."""
        for put, share in ((self.put_at_step, 0.6), (self.put_permits, 0.7), (self.put_queue, 0.5)):
            if self.often(share):
                put()
        if self.often(0.3):
            self.put(self.fields(), {"state": self.r.randrange(self.plan.states(MODULE, self.m))})
        fields = [field for field in self.fields() if not field.startswith("place")] + ["place %d" % self.r.randrange(PLACES)]
        for field in self.r.sample(fields + ["held", "received", "bid"], self.r.choice((0, 0, 1, 1, 1, 2))):
            self.say("mset %s %s" % (field, self.value(field)))
        if self.often(0.7):
            self.module_step()
        for _ in range(self.r.randint(1, 2)):
            self.module_call()

    def damaged_supervisor(self):
        """A supervisor's state with some of its fields damaged, some of them so that it still fits, and some calls."""
        r, plan = self.r, self.plan
        if self.v >= plan.supervisors:
            return
        mine, states = neighbour_modules(plan, self.v), plan.states(SUPERVISOR, self.v)
        noted = (mask_of(subset(r, mine, 0.6)), mask_of(mine), r.randrange(1 << 16), 1 << plan.modules % 16)
        values = {
            "state": (r.randrange(states), states - 1, states, 255),
            "noted": [hexadecimal(mask, 4) for mask in noted],
            "holder": (HOME, r.choice(mine or [0]), r.choice(mine or [0]), r.randrange(16), plan.modules, 255),
            "last": (r.randrange(16), r.randrange(16), 15, 16, 255),
        }
        for field in r.sample(list(values), r.randint(1, 3)):
            self.say("sset %s %s" % (field, r.choice(values[field][:-2] if self.often(0.5) else values[field])))
        for _ in range(r.randint(1, 3)):
            self.supervisor_call()

    def damaged_image(self):
        """A damaged image, some calls, and the image back; of a large plan seldom, as the lines are long."""
        if len(self.text) > 4000 and self.often(0.9):
            return
        texts = damaged_plans(self.r, self.records)
        self.damages += 1
        self.say("plan " + texts[self.damages % len(texts)])
        if self.often(0.2):
            self.start_module()
            self.start_supervisor()
            self.say("mstate")
            self.say("sstate")
        self.some_calls()
        self.say("plan " + self.text)

    def mend(self):
        """The states started anew where they do not fit."""
        if not self.run.module.fits(self.plan, self.m):
            self.start_module()
        if self.v < self.plan.supervisors and not self.run.supervisor.fits(self.plan, self.v):
            self.start_supervisor()

    def make(self, count):
        """So many lines, or fewer if the program's room for lines is full."""
        self.begin()
        while len(self.lines) < count and self.size < 200000:
            x = self.r.random()
            if x < 0.03:
                self.begin()
            elif x < 0.08:
                self.damaged_image()
            elif x < 0.23:
                self.damaged_module()
            elif x < 0.30:
                self.damaged_supervisor()
            elif x < 0.44:
                self.round()
            elif x < 0.52:
                self.message()
            elif x < 0.54:
                self.start_module() if self.often(0.5) else self.start_supervisor()
            elif x < 0.66:
                self.early()
            else:
                self.some_calls()
            self.mend()
        return self.lines[:count]


if __name__ == "__main__":
    if sys.argv[1:2] == ["--random"]:
        for line in Maker(int(sys.argv[2])).make(int(sys.argv[3])):
            print(line)
    else:
        run = Run()
        for line in sys.stdin:
            answer = run.answer(line.rstrip("\n"))
            if answer is not None:
                print(answer)
