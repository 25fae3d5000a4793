"""A plan on paper: its records as lines of columns, 60 lines to a page, and how they are read back by the columns; written from the papers
alone.

    python3 tests/reference/pages.py < tests/pages/cases.txt

prints each line with the answer that it must have; what stands behind ` > ` in a line is not looked at. A line is:

    # ..                        a comment, echoed
    pages IMAGE ROOM > ANSWER   for a buffer of ROOM bytes: the text's BYTES, or `N B`, the number and the offset

    python3 tests/reference/pages.py --back < LINES

reads the text of each line that has one by its columns, which must give exactly the line's image, and prints how many it has read.

    python3 tests/reference/pages.py --random SEED COUNT

makes so many lines, with their answers, on random plans, some of which are damaged.

An IMAGE is as plan_check.py says; BYTES are hexadecimal digits.
"""

import random
import re
import sys

import one_device
import pieces
import plan_check
from plan_check import DISABLING, END, EVENT, FIELDS, HEAD, MARKING, MODULE, MODULE_MOVE, STEP, SUPERVISOR, SUPERVISOR_MOVE

# "lines of exactly 72 characters and a line feed, 60 lines to a page"
WIDTH = 72
LINE = WIDTH + 1
PAGE = 60

# "Names are document 01's; 18 is `marking`."
NAMES = {
    HEAD: "head",
    EVENT: "event",
    MODULE: "module",
    MODULE_MOVE: "module move",
    SUPERVISOR: "supervisor",
    SUPERVISOR_MOVE: "supervisor move",
    DISABLING: "disabling",
    STEP: "procedure step",
    MARKING: "marking",
    END: "end",
}

# "record name 16, left; up to four one-byte fields, decimal, right, 6 each; an 8-byte field as 16 upper-case hexadecimal digits, right, 32"
NAME_COLUMN = slice(0, 16)
BYTE_COLUMNS = [slice(16, 22), slice(22, 28), slice(28, 34), slice(34, 40)]
WORD_COLUMN = slice(40, 72)


def records_of(image):
    """The records of an accepted plan, as kinds and fields."""
    records, at = [], 0
    while at < len(image):
        kind, fields, at = plan_check.read(image, at)
        records.append((kind, fields))
    return records


def columns_of(kind):
    """The columns of a kind's fields, in their order."""
    free = iter(BYTE_COLUMNS)
    return [next(free) if size == 1 else WORD_COLUMN for size in FIELDS[kind]]


def characters(column, field):
    return str(field) if column != WORD_COLUMN else "%016X" % field


def line_of(kind, fields):
    line = [" "] * WIDTH
    line[: len(NAMES[kind])] = NAMES[kind]
    for column, field in zip(columns_of(kind), fields):
        shown = characters(column, field)
        line[column.stop - len(shown) : column.stop] = shown
    return "".join(line) + "\n"


def page_set(image):
    """The text of an accepted plan. "padded with blank lines at the end": of 72 spaces, and none after a full page."""
    lines = [line_of(kind, fields) for kind, fields in records_of(image)]
    lines += [" " * WIDTH + "\n"] * (-len(lines) % PAGE)
    return "".join(lines).encode("ascii")


class Misprint(Exception):
    """A text that is not the page set of any records."""


def demand(good, *what):
    if not good:
        raise Misprint(*what)


def record_of(line):
    """The kind and the fields of a line, which must be as the columns tell, blanks too."""
    kinds = [kind for kind, name in NAMES.items() if name.ljust(16) == line[NAME_COLUMN]]
    demand(len(kinds) == 1, "no name", line)
    columns = columns_of(kinds[0])
    for column in [*BYTE_COLUMNS, WORD_COLUMN]:
        demand(column in columns or line[column].strip(" ") == "", "a field that the record lacks", line)
    fields = []
    for column in columns:
        field = line[column].lstrip(" ")
        if column == WORD_COLUMN:
            demand(re.fullmatch("[0-9A-F]{16}", field), "no eight bytes", line)
            fields.append(int(field, 16))
        else:
            demand(re.fullmatch("0|[1-9][0-9]{0,2}", field) and int(field) <= 255, "no byte", line)
            fields.append(int(field))
    return kinds[0], fields


def image_back(text):
    """The image of a page set, read by its columns alone."""
    demand(text.isascii(), "other bytes than characters")
    text = text.decode("ascii")
    demand(len(text) > 0 and len(text) % (PAGE * LINE) == 0, "no whole pages", len(text))
    lines = [text[at : at + LINE] for at in range(0, len(text), LINE)]
    demand(all(line.find("\n") == WIDTH for line in lines), "a line of another length")
    lines = [line[:WIDTH] for line in lines]
    blank = 0
    while blank < len(lines) and lines[-1 - blank] == " " * WIDTH:
        blank += 1
    demand(blank < PAGE, "a page without a record")
    return b"".join(plan_check.bytes_of(*record_of(line)) for line in lines[: len(lines) - blank])


def answer_of(image, room):
    """The text, or (number, offset)."""
    found = plan_check.verdict(image)
    if found is not None:
        return found
    text = page_set(image)
    return text if len(text) <= room else (15, 0)


def answer(line):
    """The line with its answer."""
    if line.startswith("#"):
        return line
    asked = line.partition(" > ")[0]
    word, image, room = asked.split(" ")
    if word != "pages":
        raise ValueError(line)
    found = answer_of(plan_check.image_of(image), int(room))
    return asked + " > " + (found.hex() if isinstance(found, bytes) else "%d %d" % found)


def read_back(lines):
    count = 0
    for line in lines:
        asked, _, text = line.rstrip("\n").partition(" > ")
        if line.startswith("#") or " " in text:
            continue
        image = plan_check.image_of(asked.split(" ")[1])
        demand(image_back(bytes.fromhex(text)) == image, "another image", asked[:200])
        count += 1
    return count


def random_line(r):
    image = plan_check.image_of(one_device.text_of(one_device.random_plan(r)))
    if r.random() < 0.3:
        image = pieces.damage(r, image)
    length = 0 if plan_check.verdict(image) is not None else len(page_set(image))
    room = r.choice((length, length, length, max(0, length - 1), 0, r.randint(0, length), length + r.randint(1, 300)))
    return "pages %s %d" % (image.hex() or "-", room)


def main(words):
    if words[:1] == ["--random"]:
        r = random.Random(int(words[1]))
        for _ in range(int(words[2])):
            print(answer(random_line(r)))
    elif words == ["--back"]:
        print(read_back(sys.stdin))
    else:
        for line in sys.stdin:
            print(answer(line.rstrip("\n")))


if __name__ == "__main__":
    main(sys.argv[1:])
