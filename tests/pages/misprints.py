"""Lines and texts that are spoilt, before the reader by columns of tests/reference/pages.py: it must take none but the text of what it reads.

    python3 tests/pages/misprints.py
"""

import os
import sys

sys.path.insert(0, os.path.join(os.path.dirname(os.path.abspath(__file__)), "..", "reference"))
import pages  # noqa: E402
from extremes import of_records  # noqa: E402

LINE = 73
OTHERS = " 0123456789AFaegmnstz+-._\n\t\0"
BLANK = " " * 72 + "\n"


def tried(read, written, text):
    """1 if the reader takes the text, which then must be what is written for that."""
    try:
        found = read(text)
    except pages.Misprint:
        return 0
    assert written(found) == text, text
    return 1


def image_back(text):
    return pages.image_back(text.encode())


def page_set(image):
    return pages.page_set(image).decode()


def characters(line):
    """Every line that has one other character."""
    for at in range(72):
        for other in OTHERS.replace(line[at], ""):
            yield line[:at] + other + line[at + 1 :]


def texts(text):
    """Texts with bytes, lines and pages that are missing, too many or at another place."""
    lines = [text[at : at + LINE] for at in range(0, len(text), LINE)]
    yield from ("", "\n", BLANK, 60 * BLANK, text[:-1], text + "\n", text + " ", text[1:], " " + text, text[:-LINE], text + BLANK)
    yield from (text + 60 * BLANK, text + text, text.replace("\n", "\r"), text.replace("\n", "\r\n"), text.lower(), text.rstrip() + "\n")
    for at in (0, 1, 30, 58, 59):
        first, here, rest = "".join(lines[:at]), lines[at], "".join(lines[at + 1 :])
        yield from (first + rest, first + rest + BLANK, first + BLANK + rest, first + BLANK + here + rest[:-LINE], first + here + here + rest[:-LINE])
        yield from (first + here[:-2] + "\n " + rest, first + here[:-1] + rest + "\n", first + here.rstrip() + "\n" + rest)


def main():
    one_page, two_pages = (page_set(of_records(count).image()) for count in (40, 61))
    assert tried(image_back, page_set, one_page) == 1
    of_kinds = {line[:16]: line for line in one_page.split("\n")[:40]}
    assert len(of_kinds) == 10
    spoilt = [changed for line in of_kinds.values() for changed in characters(line)]
    taken = sum(tried(pages.record_of, lambda record: pages.line_of(*record)[:-1], line) for line in spoilt)
    whole = [*texts(one_page), *texts(two_pages)]
    read = sum(tried(image_back, page_set, text) for text in whole)
    print("misprints: of %d lines %d are those of other records, of %d texts %d those of other images" % (len(spoilt), taken, len(whole), read))


if __name__ == "__main__":
    main()
