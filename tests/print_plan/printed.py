"""What the program print_plan must print, by the reference.

    python3 tests/print_plan/printed.py FOLDER..

writes into a file `reference` of each folder what the program must print there; a missing `plan.bin` is an empty image.
"""

import os
import pathlib
import sys

sys.path.insert(0, os.path.join(os.path.dirname(os.path.abspath(__file__)), "..", "reference"))
import pages  # noqa: E402
import plan_check  # noqa: E402


def printed(image):
    refused = plan_check.verdict(image)
    return pages.page_set(image) if refused is None else b"plan refused %d at %d\n" % refused


for folder in map(pathlib.Path, sys.argv[1:]):
    plan = folder / "plan.bin"
    (folder / "reference").write_bytes(printed(plan.read_bytes() if plan.exists() else b""))
