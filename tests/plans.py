"""tools/plan on the plans of examples, on texts with faults or notes, on random, damaged and largest images, on damaged texts.

    python3 tests/plans.py LISTING..

in the repository's root, where LISTING.. is the command that runs the listing program; it judges the images that are
built. The last line counts what was tried.

    python3 tests/plans.py --hex IMAGE

prints an image as digits, a record a line: examples/plans/*.hex are made so.

The plan check of tests/reference tells of each image whether it is accepted: exactly then `show` has no line of
`record`, and what it says of an image that cannot be shown is what the check says.
"""

import contextlib
import glob
import importlib.machinery
import importlib.util
import io
import os
import random
import re
import subprocess
import sys
import tempfile

sys.dont_write_bytecode = True
sys.path.insert(0, "tests/reference")

import listing  # noqa: E402
import many_devices  # noqa: E402
import one_device  # noqa: E402
import plan_check  # noqa: E402
from plan_check import (  # noqa: E402
    DISABLING, END, EVENT, HEAD, MARKING, MODULE, MODULE_MOVE, STEP, SUPERVISOR, SUPERVISOR_MOVE,
)

SEEDS = 200
DAMAGES, SMALL = 12, 1500  # damages of each random image, if it is so short
TEXTS = 500
NOTE = re.compile(r".*?:[0-9]+: note: ")


def load(path):
    loader = importlib.machinery.SourceFileLoader("plan", path)
    module = importlib.util.module_from_spec(importlib.util.spec_from_loader("plan", loader))
    loader.exec_module(module)
    return module


plan = load("tools/plan")
folder = tempfile.TemporaryDirectory()
tried = {}


def count(what):
    tried[what] = tried.get(what, 0) + 1


def insist(holds, *what):
    if not holds:
        sys.exit("plans: " + " ".join(map(str, what)))


def place(name):
    return os.path.join(folder.name, name)


def write(name, content):
    with open(place(name), "wb") as file:
        file.write(content)


def read(name):
    with open(place(name), "rb") as file:
        return file.read()


def told(act, *arguments):
    """The exit status, and what went to standard output and to standard error."""
    output, errors = io.StringIO(), io.StringIO()
    with contextlib.redirect_stdout(output), contextlib.redirect_stderr(errors):
        status = act(*arguments)
    return status, output.getvalue(), errors.getvalue()


def build(path):
    """The image and the table of a text with what is noted, or what is told of its faults."""
    for name in ("built.bin", "built.names"):
        if os.path.exists(place(name)):
            os.remove(place(name))
    status, output, errors = told(plan.build, path, place("built.bin"))
    insist(output == "", path, "prints", output)
    written = [os.path.exists(place(name)) for name in ("built.bin", "built.names")]
    insist((status, written) in ((0, [True, True]), (1, [False, False])), path, "leaves", status, written)
    notes = [NOTE.match(message) is not None for message in errors.splitlines()]
    insist(all(notes) if status == 0 else notes and not any(notes), path, "tells", errors)
    return (read("built.bin"), read("built.names").decode(), errors) if status == 0 else (None, None, errors)


def show(image, table=None):
    """The text of an image, and what is told."""
    write("shown.bin", image)
    if table is not None:
        write("shown.names", table.encode())
    status, text, errors = told(plan.show, place("shown.bin"), table and place("shown.names"))
    insist(status == 0 or (status == 1 and text == "" and errors), "show leaves", status, image.hex())
    return text if status == 0 else None, errors


def build_shown(text):
    write("shown.plan", text.encode())
    return build(place("shown.plan"))


def judge_shown(image):
    """Shows the image and builds it again; whether it can be shown is as the check tells."""
    verdict = plan_check.verdict(image)
    text, errors = show(image)
    if text is None:
        found = re.fullmatch(r".*: byte ([0-9]+): .* \(number ([1-4])\)\n", errors)
        insist(found, "show tells", errors)
        offset, number = map(int, found.groups())
        earlier = verdict is not None and verdict[0] >= 5 and verdict[1] < offset
        insist(verdict == (number, offset) or earlier, image.hex(), "show:", number, offset, "the check:", verdict)
        count("images that cannot be shown")
        return None
    insist(("record" in text) == (verdict is not None), image.hex(), "is shown otherwise than the check tells", verdict)
    built, table, errors = build_shown(text)
    insist(built == image, image.hex(), "is shown and built otherwise", errors)
    count("images shown")
    return text


# Images.


def image_of(records):
    return b"".join(plan_check.bytes_of(kind, fields) for kind, fields in records)


def random_image(seed):
    chance = random.Random(seed)
    which = seed % 3
    if which == 0:
        return image_of(one_device.random_plan(chance))
    if which == 1:
        return image_of(many_devices.random_plan(chance, chance.choice(many_devices.SHAPES)))
    return listing.random_plan(chance)


def full_image():
    """As many supervisor moves as an image has room for."""
    records = [(HEAD, [1, 3, 64])] + [(EVENT, [e, 0, e % 2]) for e in range(64)]
    records += [(MODULE, [0, 32, 31])]
    records += [(SUPERVISOR, [v, 64, 63, 2**64 - 1]) for v in range(3)]
    end = [(DISABLING, [2, 63, 0xAAAAAAAAAAAAAAAA]), (END, [])]
    moves = [(SUPERVISOR_MOVE, [v, s, e, 63 - s]) for v in range(3) for s in range(64) for e in range(64)]
    room = (plan_check.LIMIT - len(image_of(records + end))) // 5
    return image_of(records + moves[:room] + end)


def every_kind_image():
    """A small image with records of every kind and steps of every operation."""
    records = [(HEAD, [2, 1, 3]), (EVENT, [0, 0, 1]), (EVENT, [1, 0, 0]), (EVENT, [2, 1, 1])]
    records += [(MODULE, [0, 2, 1]), (MODULE, [1, 1, 0]), (MODULE_MOVE, [0, 0, 1, 1]), (MODULE_MOVE, [1, 0, 2, 0])]
    records += [(SUPERVISOR, [0, 2, 0, 7]), (SUPERVISOR_MOVE, [0, 1, 2, 0]), (DISABLING, [0, 1, 5])]
    steps = [(1, 31), (2, 0), (3, 9), (4, one_device.bits_of(2.5)), (5, 1)]
    records += [(STEP, [0, index, *step]) for index, step in enumerate(steps)]
    records += [(STEP, [2, 0, 1, 1]), (MARKING, [0, 0]), (MARKING, [0, 1]), (MARKING, [1, 0])]
    return image_of(records + [(END, [])])


def steps_image():
    """All 64 steps of an event, with the bounds of every operand."""
    records = [(HEAD, [1, 0, 2]), (EVENT, [0, 0, 1]), (EVENT, [1, 0, 0]), (MODULE, [0, 1, 0])]
    steps = [(1, 0), (1, 31), (2, 31), (3, 1), (3, 65535), (5, 1)]
    steps += [(4, one_device.bits_of(litres)) for litres in (0.125, 131072, 131071.875, 0.5)]
    records += [(STEP, [0, index, *steps[index % len(steps)]]) for index in range(64)]
    return image_of(records + [(END, [])])


# Images with little in them: empty, no head, nothing declared, no modules, no events, a module without its record.
ODD = """- 1F 10000000+1F 1000001F 1001000012000100+1F 10010000+12000100+1F 10000001+1F 10010001+1F 10010001+1F00
10010001+11000000+1F 10010001+12000100+1F 10020001+11000100+12010100+1F 10FFFFFF+1F
10010101+11000001+12000100+1F""".split()


def stored_image(path):
    return subprocess.run(["tests/bytes.sh", path], stdout=subprocess.PIPE, check=True).stdout


def places_of(image):
    """Where the records of an accepted image begin."""
    found, at = [], 0
    while at < len(image):
        found.append(at)
        at = plan_check.read(image, at)[2]
    return found


def damaged(chance, image):
    """An image with one thing changed, so that often only a number in a record is wrong."""
    at, places = chance.randrange(len(image)), places_of(image)
    record = chance.choice(places)
    after = plan_check.read(image, record)[2]
    near = bytes([max(0, min(255, image[at] + chance.choice((-1, 1, 2))))])
    kinds = (0x17, 0x18, 0x19, 0x1F)
    anything = bytes([chance.choice((0, 1, 2, 5, 6, 16, 32, 63, 64, *kinds, 255, chance.randrange(256)))])
    return chance.choice((
        image[:at] + near + image[at + 1 :],
        image[:at] + near + image[at + 1 :],
        image[:at] + anything + image[at + 1 :],
        image[:record] + image[after:],
        image[:record] + image[record:after] * 2 + image[after:],
        image[:at],
        image[:at] + anything + image[at:],
        image + anything,
    ))


def with_fields(image):
    """Images that differ from this one in one field of one record: all that only a number can make wrong."""
    bits = [0, 1, 31, 32, 65535, 65536, 2**32, 2**63, 2**64 - 1, *map(one_device.bits_of, (
        0.0, -0.0, 0.0625, 0.125, 0.1875, 2.5, 131072, 131072.125, -1.0, float("inf"), float("nan"), 5e-324))]
    for at in places_of(image):
        kind, fields, after = plan_check.read(image, at)
        for which, size in enumerate(plan_check.FIELDS[kind]):
            near = (0, 1, 2, 3, 5, 6, 16, 31, 32, 33, 63, 64, 65, 255, (fields[which] + 1) % 256)
            for value in near if size == 1 else bits:
                changed = fields[:which] + [value] + fields[which + 1 :]
                yield image[:at] + plan_check.bytes_of(kind, changed) + image[after:]


def random_names(chance, table):
    """A table with other names for some of the things of a table."""
    lines, modules, events = [], {}, {}
    for number, line in enumerate(table.splitlines()):
        kind, *numbers, name = line.split()
        new = "%s%d" % (chance.choice(("on", "s", "v", "m-", "Pump_", "_")), number)
        if kind == "module":
            new = modules[name] = new if chance.random() < 0.8 else name
        if kind == "event":
            owner = name.partition(".")[0]
            events[owner] = events.get(owner, -1) + 1
            new = "%s.e%d" % (modules[owner], events[owner])  # modules may have events of the same name
        if kind == "module" or chance.random() < 0.7:
            lines.append(" ".join([kind, *numbers, new]))
    if chance.random() < 0.7:
        lines += ["output 0 %d out%d" % (output, output) for output in chance.sample(range(32), 3)]
    return "".join(line + "\n" for line in lines)


def try_names(chance, image):
    """An image shown with random names has them, and is the same image."""
    table = random_names(chance, build_shown(show(image)[0])[1])
    text, errors = show(image, table)
    insist(text is not None, "a table is refused:", errors, table)
    built, names, errors = build_shown(text)
    insist(built == image, image.hex(), "is shown with names and built otherwise", errors, text)
    insist(set(table.splitlines()) <= set(names.splitlines()), "names are lost:", table, names)
    insist(show(image, names)[0] == text, "the names that were built show another text")
    count("tables of names")


def try_images():
    for path in sorted(glob.glob("tests/*/*.hex") + glob.glob("examples/plans/*.hex")):
        judge_shown(stored_image(path))
    for image in (full_image(), steps_image()):
        insist(judge_shown(image) is not None, "a large image is not shown")
    for image in [*map(plan_check.image_of, ODD), *with_fields(every_kind_image())]:
        judge_shown(image)
    for seed in range(SEEDS):
        chance, image = random.Random(seed), random_image(seed)
        insist("record" not in judge_shown(image), seed, "is not shown whole")
        if len(image) < SMALL:
            try_names(chance, image)
            for _ in range(DAMAGES):
                judge_shown(damaged(chance, image))


def try_bad_tables():
    """A table that does not belong to the image is told with its line."""
    image = stored_image("docs/two-valve.hex")
    for table, message in (
        ("module 0 pump\nmodule 1 pump\n", "2: pump: the number or the name stands above already"),
        ("module 0 pump\n\nmodule 0 valve\n", "3: valve: the number or the name stands above already"),
        ("module 2 pump\n", "1: pump: the image has no such module"),
        ("# states\nmodule_state 1 2 half\n", "2: half: the image has no such module_state"),
        ("supervisor_state 0 2 half\n", "1: half: the image has no such supervisor_state"),
        ("output 0 32 coil\n", "1: coil: the image has no such output"),
        ("event 4 m1.open\n", "1: m1.open: the image has no such event"),
        ("event 2 m0.open\n", "1: m0.open: event 2 is one of module 1"),
        ("event 2 open\n", "1: open: an event is named MODULE.NAME"),
        ("state 0 0 off\n", "1: state: is none of module, module_state, output, event, supervisor, supervisor_state"),
        ("module pump\n", "1: module: has 1 number(s) and a name"),
        ("module x pump\n", "1: x: is not a number"),
        ("module 0 states\n", "1: states: is a word of the text and no name"),
        ("module\n", "1: module: has 1 number(s) and a name"),
    ):
        text, errors = show(image, table)
        expected = "%s:%s\n" % (place("shown.names"), message)
        insist(text is None and errors == expected, "of the table", table, "is told", errors)
        count("bad tables")


# Texts.


def try_examples():
    """A plan shown with its names has the same text after it is built again, the same image and the same names."""
    for path in sorted(glob.glob("examples/plans/*.plan")):
        image, table, errors = build(path)
        insist(image is not None and errors == "", errors)
        text = show(image, table)[0]
        insist(build_shown(text)[:2] == (image, table), path, "is shown with its names and built otherwise")
        insist(show(image, table)[0] == text, path, "is shown otherwise the second time")
        count("plans shown")


def try_faults():
    """What is told of each text; those named note-.. are built."""
    for path in sorted(glob.glob("tests/plans/*.plan")):
        with open(path[:-5] + ".expected", encoding="utf-8") as file:
            expected = file.read()
        image, _, errors = build(path)
        noted = os.path.basename(path).startswith("note-")
        insist((image is not None) == noted and errors == expected, path, "is told as", errors)
        count("texts with notes" if noted else "texts with a fault")


ODD_WORDS = ["", "=", "= 3", "9999999999", "-1", "0.1", "32", "#", "module", "like", "\u00e9", "\0", "\u2028", "a.b.c"]


# Texts that say the same: a module like another, which adds a state and a move and has a procedure of its own; groups;
# numbers; blocks in another order; lines that add up.
SAME = """
group closes b.close
supervisor one = 0
  states none
  states some
  events closes opens
  none opens some
  some closes none
  disable some opens
procedure a.open
  on coil
  respond done
procedure a.close
  off coil
module a                      # the first
  states shut open
  marked open
  command open close
  response done
  output lamp coil
  shut open open
  open close shut
procedure b.open
  wait 2.50 litres
module b like a
  states stuck
  initial stuck
  marked shut
  stuck close shut
group opens a.open
group opens b.open
""", """
module second = 1
  marked shut open
  states shut open stuck
  command open = 3
  output lamp = 0
  shut open open
  open close shut
  initial stuck
  stuck close shut
  command close = 4
  response done
module first
  states shut open
  marked open
  command open = 0
  command close = 1
  response done=2
  output coil=1
  shut open open
  open close shut
supervisor one
  states none some
  events second.close second.open first.open
  none first.open second.open some
  some second.close none
  disable some second.open
  disable some first.open
procedure second.open
  wait 2.5 litres
procedure second.close
  off 1
procedure first.open
  on coil
  respond first.done
procedure first.close
  off coil
"""


def try_forms():
    """Texts that say the same build the same image, also with a mark of UTF-8 before them and other line ends."""
    images = set()
    for text in SAME:
        for content in (text.encode(), ("\ufeff" + text.replace("\n", "\r\n")).encode()):
            write("form.plan", content)
            image, _, errors = build(place("form.plan"))
            insist(image is not None, "a good text is told as", errors)
            images.add(image)
            count("forms of one plan")
    insist(len(images) == 1, "the forms of one plan build several images")


def damaged_text(chance, text):
    """A text with some words or lines changed, or a byte."""
    lines = text.split("\n")
    words = text.split()
    for _ in range(chance.choice((1, 1, 1, 2, 3))):
        at, x = chance.randrange(len(lines)), chance.random()
        line = lines[at].split(" ")
        which = chance.randrange(len(line))
        if x < 0.25:
            line[which] = chance.choice(words)
        elif x < 0.4:
            line[which] = chance.choice(ODD_WORDS)
        elif x < 0.5:
            line.insert(which, chance.choice(words))
        elif x < 0.6:
            line = []
        elif x < 0.7:
            line += ["\n"] + lines[chance.randrange(len(lines))].split(" ")
        elif x < 0.8:
            line, lines[at - 1] = lines[at - 1].split(" "), " ".join(line)
        elif x < 0.85:
            del lines[chance.randrange(len(lines)) :]
            at, line = 0, (lines or [""])[0].split(" ")
            lines = lines or [""]
        else:
            chance.shuffle(line)
        lines[at] = " ".join(line)
    content = bytearray("\n".join(lines).encode())
    if chance.random() < 0.1:
        content[chance.randrange(len(content) + 1) : 0] = bytes([chance.randrange(256)])
    return bytes(content)


def judge_messages(path, content, errors):
    """Each message has a line of the text and a word of that line, unless it is of the plan or of a group's event."""
    lines = content.decode("utf-8-sig", "replace").split("\n")
    groups = re.findall(r"^\s*group\s+(\S+)", "\n".join(lines), re.M)
    for message in errors.splitlines():
        found = re.fullmatch(re.escape(path) + r":([0-9]+): (?:note: )?(\S.*?): (\S.*)", message)
        insist(found and 1 <= int(found[1]) <= len(lines), "is told:", message)
        line, name = lines[int(found[1]) - 1], found[2].rpartition(".")[2]
        quoted = found[2][0] in "'\""  # a word with bytes that cannot be printed
        here = name in line or any(group in line for group in groups)
        insist(here or quoted or name == "plan", "names no word of its line:", message)


def header_of(image):
    return "plan %d %d %d" % tuple(image[1:4])


def listed(command):
    """What the listing program says to the plan and an empty script."""
    nothing, pipe = subprocess.DEVNULL, subprocess.PIPE
    return subprocess.run(command, stdin=nothing, stdout=pipe, cwd=folder.name, check=True).stdout.decode()


def try_texts(command):
    """Damaged texts are told or built, and what is built the proved check accepts."""
    texts = []
    for path in sorted(glob.glob("examples/plans/*.plan")):
        with open(path, encoding="utf-8") as file:
            texts.append(file.read())
    chance = random.Random(1)
    for number in range(TEXTS):
        content = damaged_text(chance, texts[number % len(texts)])
        write("damaged.plan", content)
        image, _, errors = build(place("damaged.plan"))
        judge_messages(place("damaged.plan"), content, errors)
        if image is None:
            count("damaged texts with faults")
        else:
            write("plan.bin", image)
            said = listed(command)
            insist(said.startswith(header_of(image) + "\n"), "a built plan is answered with", said, content)
            count("damaged texts built and accepted")


# Drawings.


def try_drawings():
    for path in sorted(glob.glob("examples/plans/*.plan")):
        image = build(path)[0]
        name = os.path.basename(path)
        drawings = draw(path, name + ".1")
        insist(drawings == draw(path, name + ".2"), path, "is drawn otherwise the second time")
        known = one_device.Plan(image)
        insist(len(drawings) == known.modules + known.supervisors, path, "has", len(drawings), "drawings")
        judge_drawings(path, known, drawings)
        count("plans drawn")


def draw(path, name):
    insist(told(plan.draw, path, place(name)) == (0, "", ""), path, "is not drawn")
    found = {}
    for drawing in glob.glob(place(name) + "/*.dot"):
        with open(drawing, encoding="utf-8") as file:
            found[os.path.basename(drawing)] = file.read()
    return found


def judge_drawings(path, known, drawings):
    """The states, marked states, moves and disablings that are drawn are as many as the plan has."""
    states, marked, moves, dashed, disabled, initial = [], 0, 0, 0, 0, []
    for text in drawings.values():
        outlined = re.findall(r'^  s[0-9]+ \[label="(.*)"(, peripheries=2)?\];$', text, re.M)
        nodes = [label for label, _ in outlined]
        states.append(len(nodes))
        marked += sum(outline != "" for _, outline in outlined)
        disabled += sum(len(node.split("\\n")) - 2 for node in nodes if "\\n" in node)
        arrows = re.findall(r'^  s[0-9]+ -> s[0-9]+ \[label="(.*)"(, style=dashed)?\];$', text, re.M)
        moves += sum(len(label.split("\\n")) for label, _ in arrows)
        dashed += sum(len(label.split("\\n")) for label, style in arrows if style)
        initial += re.findall(r"^  initial -> s([0-9]+);$", text, re.M)
    kinds = known.records
    moved = [key[2] for kind in (MODULE_MOVE, SUPERVISOR_MOVE) for key in kinds[kind]]
    owners = [fields for kind in (MODULE, SUPERVISOR) for fields in kinds[kind].values()]
    insist(sorted(states) == sorted(fields[0] for fields in owners), path, "states drawn:", states)
    insist(sorted(map(int, initial)) == sorted(fields[1] for fields in owners), path, "initial states drawn:", initial)
    insist(marked == len(kinds[MARKING]), path, "marked states drawn:", marked)
    insist(moves == len(moved), path, "moves drawn:", moves)
    insist(dashed == sum(kinds[EVENT][e,][1] == 0 for e in moved), path, "dashed moves drawn:", dashed)
    masks = [fields[0] for fields in kinds[DISABLING].values()]
    insist(disabled == sum(map(lambda mask: bin(mask).count("1"), masks)), path, "disablings drawn:", disabled)


def digits(image):
    for at in places_of(image):
        print(" ".join("%02X" % byte for byte in image[at : plan_check.read(image, at)[2]]))


def main(words):
    if words[:1] == ["--hex"]:
        with open(words[1], "rb") as file:
            digits(file.read())
        return
    try_examples()
    try_faults()
    try_forms()
    try_bad_tables()
    try_images()
    try_texts(words)
    try_drawings()
    print(", ".join("%d %s" % (number, what) for what, number in tried.items()))


if __name__ == "__main__":
    main(sys.argv[1:])
