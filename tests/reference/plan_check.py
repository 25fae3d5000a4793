"""The plan check, the reader, the writer of one record and the copy of a plan, written from the paper alone.

    python3 tests/reference/plan_check.py < crates/vectors/stdin

prints what the program `vectors` must print: crates/vectors/stdout is made so.

A line is a word and its arguments, one space before each:

    # ..                      a comment, echoed
    check IMAGE               `accepted`, or `N at B`
    read IMAGE OFFSET         `record KIND FIELD.. next N`, `unknown`, `cut` or `nothing`
    write KIND FIELD.. into N `length L` or `refused N`, and the buffer of N bytes, which held AA throughout
    copy IMAGE into N         `length L` or `refused N at B`, and the buffer of N bytes, which held AA throughout

An IMAGE is `-`, the empty one, or pieces joined by `+`. A piece is hexadecimal digits; `HEX*N` is N copies of it, and `HEX^N` is
N copies of a record whose third byte, an index or a state, is one more in each.
"""

import struct
import sys

LIMIT = 49152

HEAD, EVENT, MODULE, MODULE_MOVE, SUPERVISOR, SUPERVISOR_MOVE, DISABLING, STEP, MARKING = range(0x10, 0x19)
END = 0x1F

# The fields of each kind in their order, by their sizes in bytes.
FIELDS = {
    HEAD: (1, 1, 1),
    EVENT: (1, 1, 1),
    MODULE: (1, 1, 1),
    MODULE_MOVE: (1, 1, 1, 1),
    SUPERVISOR: (1, 1, 1, 8),
    SUPERVISOR_MOVE: (1, 1, 1, 1),
    DISABLING: (1, 1, 8),
    STEP: (1, 1, 1, 8),
    MARKING: (1, 1),
    END: (),
}

# How many of a record's first fields are its key. A head has none, so that no head may follow one.
KEY = {
    HEAD: 0,
    EVENT: 1,
    MODULE: 1,
    MODULE_MOVE: 3,
    SUPERVISOR: 1,
    SUPERVISOR_MOVE: 3,
    DISABLING: 2,
    STEP: 2,
    MARKING: 2,
    END: 0,
}

OUTPUT_ON, OUTPUT_OFF, WAIT_TICKS, WAIT_LITRES, RESPOND = 1, 2, 3, 4, 5
UNCONTROLLABLE, CONTROLLABLE = 0, 1


def read(image, at):
    """(kind, fields, next offset) of the record at the offset, or 'unknown', 'cut' or 'nothing'."""
    if at >= len(image):
        return "nothing"
    kind = image[at]
    if kind not in FIELDS:
        return "unknown"
    at += 1
    if at + sum(FIELDS[kind]) > len(image):
        return "cut"
    fields = []
    for size in FIELDS[kind]:
        fields.append(int.from_bytes(image[at : at + size], "big"))
        at += size
    return kind, fields, at


def litres_target(bits):
    """Whether the bits of an f64 are a multiple of 1/8 from 0.125 to 131,072."""
    litres = struct.unpack(">d", bits.to_bytes(8, "big"))[0]
    return 0.125 <= litres <= 131072 and litres % 0.125 == 0


def operand_in_range(operation, operand):
    if operation in (OUTPUT_ON, OUTPUT_OFF):
        return operand <= 31
    if operation == WAIT_TICKS:
        return 1 <= operand <= 65535
    if operation == WAIT_LITRES:
        return litres_target(operand)
    return operation == RESPOND


def in_range(kind, fields):
    """Whether the fields are in the ranges that the table of kinds and the list of operations give."""
    if kind == HEAD:
        modules, supervisors, events = fields
        return 1 <= modules <= 16 and supervisors <= 32 and 1 <= events <= 64
    if kind == EVENT:
        return fields[2] in (UNCONTROLLABLE, CONTROLLABLE)
    if kind == MODULE:
        return 1 <= fields[1] <= 32
    if kind == SUPERVISOR:
        return 1 <= fields[1] <= 64
    if kind == DISABLING:
        return fields[2] != 0
    if kind == STEP:
        return fields[1] <= 63 and operand_in_range(fields[2], fields[3])
    return True


def bits_of(mask):
    return [e for e in range(64) if mask >> e & 1]


class Plan:
    """What the records so far declare."""

    def __init__(self):
        self.last = None  # kind and key of the record before
        self.counts = {}  # of events, modules and supervisors, by the kind that declares them
        self.declared = {EVENT: {}, MODULE: {}, SUPERVISOR: {}}  # number to the fields after it

    def take(self, kind, fields):
        self.last = (kind, fields[: KEY[kind]])
        if kind == HEAD:
            self.counts = {MODULE: fields[0], SUPERVISOR: fields[1], EVENT: fields[2]}
        elif kind in self.declared:
            self.declared[kind][fields[0]] = fields[1:]

    def out_of_order(self, kind, fields):
        if self.last is None:
            return kind != HEAD
        if (kind, fields[: KEY[kind]]) <= self.last:
            return True
        if kind == STEP:
            event, index = fields[:2]
            follows = self.last[0] == STEP and self.last[1][0] == event
            return index != (self.last[1][1] + 1 if follows else 0)
        return False

    def has_event(self, event):
        return event in self.declared[EVENT]

    def has_state(self, owner, number, state):
        """Whether the module or supervisor is declared and has the state."""
        return number in self.declared[owner] and state < self.declared[owner][number][0]

    def names_undeclared(self, kind, fields):
        if kind == EVENT:
            return fields[0] >= self.counts[EVENT] or fields[1] >= self.counts[MODULE]
        if kind in (MODULE, SUPERVISOR):
            number, states, initial = fields[:3]
            mask = fields[3] if kind == SUPERVISOR else 0
            return number >= self.counts[kind] or initial >= states or not all(map(self.has_event, bits_of(mask)))
        if kind in (MODULE_MOVE, SUPERVISOR_MOVE):
            owner = MODULE if kind == MODULE_MOVE else SUPERVISOR
            number, before, event, after = fields
            return not (
                self.has_state(owner, number, before)
                and self.has_state(owner, number, after)
                and self.has_event(event)
            )
        if kind == DISABLING:
            supervisor, state, mask = fields
            return not (self.has_state(SUPERVISOR, supervisor, state) and all(map(self.has_event, bits_of(mask))))
        if kind == MARKING:
            return not self.has_state(MODULE, *fields)
        if kind == STEP:
            event, _, operation, operand = fields
            return not (self.has_event(event) and (operation != RESPOND or self.has_event(operand)))
        return False

    def module_of(self, event):
        return self.declared[EVENT][event][0]

    def controllable(self, event):
        return self.declared[EVENT][event][1] == CONTROLLABLE

    def alphabet(self, supervisor):
        return bits_of(self.declared[SUPERVISOR][supervisor][2])

    def breaks_event_rule(self, kind, fields):
        if kind == MODULE_MOVE:
            return self.module_of(fields[2]) != fields[0]
        if kind == SUPERVISOR_MOVE:
            return fields[2] not in self.alphabet(fields[0])
        if kind == DISABLING:
            return not all(self.controllable(e) and e in self.alphabet(fields[0]) for e in bits_of(fields[2]))
        if kind == STEP:
            event, _, operation, operand = fields
            if operation == RESPOND and (
                self.controllable(operand) or self.module_of(operand) != self.module_of(event)
            ):
                return True
            return not self.controllable(event)
        return False

    def lacks_promised(self, kind):
        return kind == END and any(len(self.declared[k]) < self.counts[k] for k in self.declared)

    def fault(self, kind, fields):
        """The smallest number that applies to the next record, or None."""
        if self.out_of_order(kind, fields):
            return 4
        if not in_range(kind, fields):
            return 5
        if self.names_undeclared(kind, fields):
            return 6
        if self.breaks_event_rule(kind, fields):
            return 7
        if self.lacks_promised(kind):
            return 8
        return None


def verdict(image):
    """None for an accepted plan, else the number and the offset."""
    if len(image) > LIMIT:
        return 1, 0
    plan = Plan()
    at = 0
    while True:
        what = read(image, at)
        if what == "nothing":
            return 3, len(image)
        if what == "unknown":
            return 2, at
        if what == "cut":
            return 3, at
        kind, fields, after = what
        number = plan.fault(kind, fields)
        if number is not None:
            return number, at
        if kind == END:
            return (4, after) if after < len(image) else None
        plan.take(kind, fields)
        at = after


def bytes_of(kind, fields):
    return bytes([kind]) + b"".join(f.to_bytes(size, "big") for f, size in zip(fields, FIELDS[kind]))


def write(kind, fields, buffer):
    """('length', L) or ('refused', N), and the buffer afterwards."""
    if not in_range(kind, fields):
        return "refused", 5, buffer
    record = bytes_of(kind, fields)
    if len(buffer) < len(record):
        return "refused", 15, buffer
    return "length", len(record), record + buffer[len(record) :]


def copy(image, buffer):
    """The answer for a plan taken apart into records and written, and the buffer afterwards."""
    found = verdict(image)
    if found is not None:
        return "refused %d at %d" % found, buffer
    plan = b""
    while len(plan) < len(image):
        kind, fields, _ = read(image, len(plan))
        plan += bytes_of(kind, fields)
    if len(buffer) < len(plan):
        return "refused 15 at 0", buffer
    return "length %d" % len(plan), plan + buffer[len(plan) :]


def image_of(text):
    if text == "-":
        return b""
    image = b""
    for piece in text.split("+"):
        if "^" in piece:
            digits, copies = piece.split("^")
            one = bytes.fromhex(digits)
            for k in range(int(copies)):
                image += one[:2] + bytes([one[2] + k]) + one[3:]
        else:
            digits, _, copies = piece.partition("*")
            image += bytes.fromhex(digits) * int(copies or 1)
    return image


def answer(line):
    """What the program prints for the line."""
    if line.startswith("#"):
        return line
    word, *arguments = line.split(" ")
    if word == "check":
        found = verdict(image_of(arguments[0]))
        return "accepted" if found is None else "%d at %d" % found
    if word == "read":
        what = read(image_of(arguments[0]), int(arguments[1]))
        if isinstance(what, str):
            return what
        kind, fields, after = what
        return " ".join(["record", "%02X" % kind, *map(str, fields), "next", str(after)])
    if word == "write":
        fields = list(map(int, arguments[1:-2]))
        what, number, buffer = write(int(arguments[0], 16), fields, b"\xaa" * int(arguments[-1]))
        return "%s %d %s" % (what, number, buffer.hex().upper() or "-")
    if word == "copy":
        what, buffer = copy(image_of(arguments[0]), b"\xaa" * int(arguments[-1]))
        return "%s %s" % (what, buffer.hex().upper() or "-")
    raise ValueError(line)


if __name__ == "__main__":
    for line in sys.stdin:
        print(answer(line.rstrip("\n")))
