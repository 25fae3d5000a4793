"""The check of a plan image that comes in pieces, cut anywhere, written from the papers alone.

    python3 tests/reference/pieces.py < tests/pieces/cases.txt

prints each line with the answer that it must have; what stands behind ` > ` in a line is not looked at. A line is:

    # ..                         a comment, echoed
    check IMAGE > ANSWER         `ok`, or `N B`, the number and the offset
    pieces IMAGE CUTS > ANSWER   the same, of an image that comes in pieces

An IMAGE is as plan_check.py says. CUTS are the offsets at which it is cut, ascending, with commas between them; equal ones make empty
pieces. `/N` is a cut after every N bytes, and `-` is none.

    python3 tests/reference/pieces.py --random SEED COUNT

makes so many lines of `pieces`, with their answers, on random small plans, most of which are damaged.

"From its starting state, the answer after the last piece is that for the whole image": the two are compared, after each piece where the
image is short.
"""

import random
import sys

import one_device
import plan_check

SHORT = 2000  # up to so many bytes, an image is handed over byte by byte too
FEW = 20000  # up to so many bytes in all, the beginnings of an image are checked, one after each piece


class Check:
    """The check of the bytes handed over so far. Of these it keeps none but those of a record that has begun."""

    def __init__(self):
        self.plan = plan_check.Plan()  # what the records so far declare
        self.taken = 0
        self.begun = b""
        self.ended = False
        self.refused = None  # the first fault, as number and offset

    def take(self, piece):
        held = self.begun + piece
        first = self.taken - len(self.begun)
        self.taken += len(piece)
        at = 0
        while self.refused is None and at < len(held):
            after = self.fault_or_next(held, at)
            if isinstance(after, int):
                at = after
            elif after == "cut":
                break
            else:
                self.refused = after[0], first + at
        self.begun = held[at:] if self.refused is None else b""

    def fault_or_next(self, held, at):
        """What the record at the place comes to: the next place, (its number,), or 'cut'."""
        if self.ended:
            return (4,)
        what = plan_check.read(held, at)
        if what == "unknown":
            return (2,)
        if what == "cut":
            return what
        kind, fields, after = what
        number = self.plan.fault(kind, fields)
        if number is not None:
            return (number,)
        self.plan.take(kind, fields)
        self.ended = kind == plan_check.END
        return after

    def answer(self):
        """None for an accepted plan, else the number and the offset. "1 is found late": a refusal is not final."""
        if self.taken > plan_check.LIMIT:
            return 1, 0
        if self.refused is not None or self.ended:
            return self.refused
        return 3, self.taken - len(self.begun)


def in_pieces(image, cuts):
    """The answer after the last piece."""
    check = Check()
    for begin, end in zip([0, *cuts], [*cuts, len(image)]):
        check.take(image[begin:end])
        if len(image) * len(cuts) <= FEW:
            assert check.answer() == plan_check.verdict(image[:end]), (image[:end].hex(), cuts)
    return check.answer()


def cuts_of(text, length):
    if text == "-":
        return []
    if text.startswith("/"):
        return list(range(int(text[1:]), length, int(text[1:])))
    cuts = list(map(int, text.split(",")))
    assert cuts == sorted(cuts) and cuts[-1] <= length, text
    return cuts


def answer(line):
    """The line with its answer."""
    if line.startswith("#"):
        return line
    asked = line.partition(" > ")[0]
    word, *arguments = asked.split(" ")
    image = plan_check.image_of(arguments[0])
    found = plan_check.verdict(image)
    if word == "pieces":
        cuts = cuts_of(arguments[1], len(image))
        assert in_pieces(image, cuts) == found, line
        if len(image) <= SHORT:
            assert in_pieces(image, range(1, len(image))) == found, line
    elif word != "check":
        raise ValueError(line)
    return asked + " > " + ("ok" if found is None else "%d %d" % found)


def damage(r, image):
    """Bytes changed, taken away or added."""
    image = bytearray(image)
    for _ in range(r.choice((0, 1, 1, 1, 2, 4))):
        at = r.randrange(len(image))
        what = r.randrange(6)
        if what < 3:
            image[at] = r.choice((0, 1, 2, 3, 5, 0x10, 0x17, 0x18, 0x1F, 0x20, 64, r.randrange(256)))
        elif what == 3:
            del image[at : at + r.choice((1, 4, 5, 12))]
            image += b"\x1f" * (not image)
        elif what == 4:
            image[at:at] = image[at : at + r.choice((1, 4, 5, 12))]
        else:
            image += bytes(r.choice((0x10, 0x1F, 0, r.randrange(256))) for _ in range(r.randint(1, 12)))
    return bytes(image[: r.randrange(len(image) + 1)] if r.random() < 0.15 else image)


def random_line(r):
    image = damage(r, plan_check.image_of(one_device.text_of(one_device.random_plan(r))))
    cuts = sorted(r.choice((r.randint(0, len(image)), r.randint(0, len(image)), 0, len(image))) for _ in range(r.randrange(9)))
    if cuts and r.random() < 0.2:
        cuts = sorted([*cuts, r.choice(cuts)])
    return "pieces %s %s" % (image.hex() or "-", ",".join(map(str, cuts)) or "-")


def main(words):
    if words[:1] == ["--random"]:
        r = random.Random(int(words[1]))
        for _ in range(int(words[2])):
            print(answer(random_line(r)))
        return
    for line in sys.stdin:
        print(answer(line.rstrip("\n")))


if __name__ == "__main__":
    main(sys.argv[1:])
