"""Damaged plans for tests/check_plan.sh, and the answers of the reference.

    python3 tests/check_plan/damaged.py SEED COUNT FOLDER PLAN..

makes COUNT images FOLDER/damaged-N.bin, each from one of the PLANs, files of bytes, by one or two random changes. Then it writes beside each image of
the folder, NAME.bin, what the program must print of it, NAME.reference.
"""

import os
import pathlib
import random
import sys

sys.path.insert(0, os.path.join(os.path.dirname(os.path.abspath(__file__)), "..", "reference"))
import plan_check  # noqa: E402


def records_of(image):
    """The bytes of each record, and last what is none."""
    records, at = [], 0
    while isinstance(what := plan_check.read(image, at), tuple):
        records.append(image[at : what[2]])
        at = what[2]
    return [*records, image[at:]]


def changed(r, image):
    """The image with one change: of a byte, of bytes at a place, or of whole records."""
    at = r.randrange(len(image) + 1)
    few = r.randbytes(r.randint(1, 12))
    way = r.randrange(8)
    if way == 0:
        return image[:at]
    if way == 1:
        return image[:at] + image[at + len(few) :]
    if way == 2:
        return image[:at] + few + image[at:]
    if way == 3:
        return image + few
    if way == 4:
        return image[:at] + few[:1] + image[at + 1 :]
    if way == 5:  # a byte by one, as of a number that is just out of its range
        return image[:at] + bytes((b + r.choice((-1, 1))) % 256 for b in image[at : at + 1]) + image[at + 1 :]
    records = records_of(image)
    one, other = r.randrange(len(records)), r.randrange(len(records))
    if way == 6:
        records[one], records[other] = records[other], records[one]
    else:
        records[one : one + 1] = r.choice(([], [records[one]] * 2))
    return b"".join(records)


def printed(image):
    found = plan_check.verdict(image)
    return "accepted\n" if found is None else "plan refused %d at %d\n" % found


def main(seed, count, folder, *plans):
    r, folder = random.Random(int(seed)), pathlib.Path(folder)
    for number in range(int(count)):
        image = pathlib.Path(r.choice(plans)).read_bytes()
        for _ in range(r.randint(1, 2)):
            image = changed(r, image)
        (folder / ("damaged-%d.bin" % number)).write_bytes(image)
    for path in folder.glob("*.bin"):
        path.with_suffix(".reference").write_text(printed(path.read_bytes()))


main(*sys.argv[1:])
