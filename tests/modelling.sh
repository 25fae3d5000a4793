#!/usr/bin/env bash
# The fenced blocks of docs/MODELLING.md beside the files of examples/plans that they are marked with. The lines of a block `NAME.plan` stand in
# that file, in that order; a block `NAME.expected` is that file, its line feeds partly written as ` | `, and with `without messages` the file
# less the lines about the wire. Every block is marked, and a plan that is shown has its output shown too. That the plans are built and
# run so is tests/plans.sh's matter. A block `sh` is run here, and must give what the block `printed` behind it has. Another page may be given, to see
# this fail.
set -eu
cd "$(dirname "$0")/.."
room=$(mktemp -d)
trap 'rm -rf "$room"' EXIT
python3 - "${1:-docs/MODELLING.md}" examples/plans "$room" << 'END'
import os
import pathlib
import re
import subprocess
import sys

page, folder, room = map(pathlib.Path, sys.argv[1:])
MESSAGE = re.compile(r"sent |delivered |supervisor |module \d+ bids ")


def stop(at, fault):
    sys.exit("modelling: %s:%d: %s" % (page, at, fault))


def blocks(lines):
    """The line number, the mark and the lines of each fenced block."""
    start, mark, inside = 0, None, []
    for at, line in enumerate(lines, 1):
        if not line.startswith("```"):
            inside.append(line)
        elif mark is None:
            start, mark, inside = at, line[3:], []
        elif line == "```":
            yield start, mark, inside
            mark = None
        else:
            stop(at, "a fence within a block")
    if mark is not None:
        stop(start, "a block without an end")


def compare_plan(at, block, lines):
    rest = iter(lines)
    for line in block:
        if line not in rest:  # takes the lines up to this one
            stop(at, "this line is not in the plan, or not behind those before it: %r" % line)


def compare_output(at, block, lines):
    block = [line for row in block for line in row.split(" | ")]
    for shown, line in zip(block + [None], lines + [None]):
        if shown != line:
            stop(at, "shown is %r where the file has %r" % (shown, line))


def run(at, block):
    """What a block prints, in a folder of its own, with the programs and plans of this repository."""
    text = re.sub(r"(?<![^\s])(?:\./)?(?=run |tools/|examples/)", lambda _: os.getcwd() + "/", "\n".join(block))
    done = subprocess.run(["bash", "-euo", "pipefail", "-c", text], cwd=room, stdin=subprocess.DEVNULL, stdout=subprocess.PIPE)
    if done.returncode != 0:
        stop(at, "the block ends with %d" % done.returncode)
    return done.stdout.decode().splitlines()


shown = {"plan": set(), "expected": set()}
count = 0
printed = None  # by the block before, if it was run
runs = 0
for at, mark, block in blocks(page.read_text().splitlines()):
    if (mark == "text printed") != (printed is not None):
        stop(at, "a block that is run stands without what it prints, or the other way round")
    if mark == "sh":
        printed = run(at, block)
        continue
    if mark == "text printed":
        compare_output(at, block, printed)
        printed, runs = None, runs + 1
        continue
    found = re.fullmatch(r"text ([a-z-]+)\.(plan|expected( without messages)?)", mark)
    if not found:
        stop(at, "a block without the name of its file: %r" % mark)
    name, kind = found[1], found[2].split()[0]
    path = folder / ("%s.%s" % (name, kind))
    if not path.is_file():
        stop(at, "there is no %s" % path)
    lines = path.read_text().splitlines()
    if found[3]:
        lines = [line for line in lines if not MESSAGE.match(line)]
    if not block:
        stop(at, "an empty block")
    compare_plan(at, block, lines) if kind == "plan" else compare_output(at, block, lines)
    shown[kind].add(name)
    count += 1
if shown["plan"] != shown["expected"] or not count:
    stop(1, "not shown with both plan and output: %s" % sorted(shown["plan"] ^ shown["expected"]))
if printed is not None or not runs:
    stop(1, "no block is run, or one stands without what it prints")
print("modelling: %d blocks of %s stand as the files of %s have them, %d prints what it shows" % (count, page, folder, runs))
END
