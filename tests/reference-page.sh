#!/usr/bin/env bash
# docs/REFERENCE.md says what is so: its plans and images get the answers that stand beside them, whole and in pieces, its blocks of calls and its pages
# are what the programs print, the definitions and files that it names are there, it has every name of the header and no other, with its value, and every
# kind, message, number and field of a state has its row, with the functions of the header that read it.
set -eu
cd "$(dirname "$0")/.."
repo=$PWD
# shellcheck source=tests/programs.sh
. tests/programs.sh
for program in listing simulate stuck word_counts check_plan print_plan device_vectors many_vectors; do prove $program; done
room=$(mktemp -d)
trap 'rm -rf "$room"' EXIT
python3 - docs/REFERENCE.md "$room" <<'END'
import glob, os, re, subprocess, sys

page, room = sys.argv[1:]
text = open(page).read()
here = os.getcwd()
wrong = []
counts = dict.fromkeys(["images", "plans", "blocks of calls", "pages", "definitions", "files", "names", "values", "rows", "fields", "readers"], 0)


def complain(what):
    wrong.append("reference page: " + what)


def run(program, given, image=b""):
    with open(os.path.join(room, "plan.bin"), "wb") as plan:
        plan.write(image)
    command = [os.path.join(here, "crates", program, "out", program)]
    return subprocess.run(command, input=given, stdout=subprocess.PIPE, cwd=room, check=True).stdout.decode()


# The fenced blocks, by the word behind the fence: (word, its arguments, lines).
blocks = []
for marks, body in re.findall(r"^```([^\n]*)\n(.*?)^```$", text, re.M | re.S):
    word, *arguments = marks.split() or [""]
    if word not in ("", "plan", "parts", "calls", "page", "sh"):
        complain("a block is marked %s" % word)
    blocks.append((word, arguments, body.splitlines()))


# ---- images

parts = {}


def image_of(digits):
    image = b""
    for piece in digits.split():
        if piece == "-":
            continue
        if piece in parts:
            image += parts[piece]
        elif "^" in piece:
            one, copies = piece.split("^")
            one = bytes.fromhex(one)
            image += b"".join(one[:2] + bytes([one[2] + k]) + one[3:] for k in range(int(copies)))
        else:
            one, _, copies = piece.partition("*")
            image += bytes.fromhex(one) * int(copies or 1)
    return image


def answer(image):
    line = run("listing", b"", image).splitlines()[0]
    refused = re.fullmatch(r"plan refused (\d+ at \d+)", line)
    in_pieces = run("check_plan", image)
    if in_pieces != (line if refused else "accepted") + "\n":
        complain("listing prints `%s` of an image of %d bytes, and check_plan `%s`" % (line, len(image), in_pieces.rstrip("\n")))
    return refused.group(1) if refused else "accepted"


# A plan: its digits, and behind # the offset of the line's record.
for word, arguments, lines in blocks:
    if word == "plan":
        name, image = arguments[0], b""
        for line in lines:
            digits, _, note = line.partition("#")
            if str(len(image)) != (note.split() or [""])[0]:
                complain("plan %s: %s stands at %d" % (name, digits.strip(), len(image)))
            image += image_of(digits)
        parts[name] = image
        counts["plans"] += 1
        if answer(image) != "accepted":
            complain("plan %s is %s" % (name, answer(image)))
    elif word == "parts":
        for line in lines:
            name, digits = line.split("#")[0].split("=")
            parts[name.strip()] = image_of(digits)
            if line.split("#")[1].split()[-2:] != [str(len(parts[name.strip()])), "bytes"]:
                complain("part %s has %d bytes" % (name.strip(), len(parts[name.strip()])))

sheet = bytes.fromhex("".join(open("docs/two-valve.hex").read().split()))
if parts["P"] != sheet:
    complain("plan P is not docs/two-valve.hex")

# A row: images with commas between them, and the answer that each gets.
for table in re.findall(r"^\| Image \| Answer \|.*\n\|[-|]+\n((?:\|.*\n)+)", text, re.M):
    for row in table.splitlines():
        images, expected = re.match(r"\| (`[^|]+`) \| ([^|]+?) \|", row).groups()
        for digits in re.findall(r"`([^`]+)`", images):
            counts["images"] += 1
            given = answer(image_of(digits))
            if given != expected:
                complain("image %s is %s, not %s" % (digits, given, expected))


# ---- calls: GIVEN -> PRINTED; PRINTED, or GIVEN alone where nothing is printed; a note begins with # behind two spaces

def script_of(lines):
    """The lines given and the lines that must be printed."""
    given, printed = [], []
    for line in lines:
        call, arrow, answers = re.sub(r" {2,}# .*", "", line).partition("-> ")
        call, times = re.fullmatch(r"(.*?)(?: \((\d+) times\))?", call.strip()).groups()
        times = int(times or 1)
        given += [call] * times if call else []
        printed += answers.strip().split("; ") * times if arrow else []
    return given, printed


def agrees(line, said):
    return line.startswith(said[:-2]) if said.endswith(" ..") else line == said


for word, arguments, lines in blocks:
    if word != "calls":
        continue
    program, name = arguments
    script, expected = script_of(lines)
    if program == "check_plan":  # its input is the plan
        printed = run(program, parts[name]).splitlines()
    elif program in ("listing", "simulate", "stuck", "word_counts", "print_plan"):
        printed = run(program, "".join(line + "\n" for line in script).encode(), parts[name]).splitlines()
    else:  # these two are given the plan in a line, which `device_vectors` answers
        printed = run(program, "".join(line + "\n" for line in ["plan " + parts[name].hex().upper()] + script).encode()).splitlines()
        printed = printed[1:] if program == "device_vectors" else printed
    counts["blocks of calls"] += 1
    for place in range(max(len(printed), len(expected))):
        line = printed[place] if place < len(printed) else "nothing more"
        said = expected[place] if place < len(expected) else "nothing more"
        if not agrees(line, said):
            complain("calls of %s with %s: printed line %d is `%s`, not `%s`" % (program, name, place + 1, line, said))
            break


# ---- pages: the lines of a plan on paper, without the spaces at their ends and the blank lines behind them

stored = open("docs/two-valve.pages").read()
for word, arguments, lines in blocks:
    if word != "page":
        continue
    name = arguments[0]
    printed = run("print_plan", b"", parts[name])
    counts["pages"] += 1
    if name == "P" and printed != stored:
        complain("print_plan does not print docs/two-valve.pages of plan P")
    if printed != "".join(line.ljust(72) + "\n" for line in lines + [""] * (-len(lines) % 60)):
        complain("the page of plan %s is not what print_plan prints" % name)


# ---- what the page names

# a name is defined in a file if a line of it begins with the name, behind words of the language, and goes on to its type
def defines(source, name):
    return re.search(r"^\s*(?:(?:pub|abbrev|unfoldable|record|data)\s+)*%s(?:\s+[({].*)?\s*:" % re.escape(name), source, re.M)


prose = re.sub(r"^```.*?^```$", "", text, flags=re.M | re.S)
for path, names in re.findall(r"`(crates/\w+/(?:specs|proofs)/\w+\.antt)`((?:[,\s]+`[^`/]+`)*)", prose):
    if not os.path.exists(path):
        complain("there is no " + path)
        continue
    source = open(path).read()
    for name in re.findall(r"`([^`]+)`", names):
        counts["definitions"] += 1
        if not defines(source, name):
            complain("%s does not define %s" % (path, name))

for path in re.findall(r"(?<![\w/])((?:crates|docs|tests|include|examples)/[\w./*-]*\w)", prose):
    counts["files"] += 1
    if not glob.glob(path):
        complain("there is no " + path)

# every name in the header's code, but the guard's, is on the page, and every such name on the page is in the header's code; where a number stands behind
# a constant's name it is the header's, and it stands there once at least
header = open("include/pewterslug.h").read()
code = re.sub(r"/\*.*?\*/", "", header, flags=re.S)
word = r"\b(?:pewterslug|PEWTERSLUG)_\w+"
declared = set(re.findall(word, code)) - set(re.findall(r"^#ifndef (\w+)", code, re.M))
named = set(re.findall(word, re.sub(r"\w+/[\w/]+\.h\b", "", text)))
counts["names"] = len(declared)
for name in sorted(declared - named):
    complain("the header's %s is not named" % name)
for name in sorted(named - declared):
    complain("%s is not in the header" % name)
for name, value in re.findall(r"^(?:#define |\s+)(PEWTERSLUG_\w+) (?:= )?(\w+)", code, re.M):
    counts["values"] += 1
    said = set(re.findall(r"`%s`[\s|]+(\d\w*)" % name, text))
    if said != {value}:
        complain("%s is %s, and the page says %s" % (name, value, " and ".join(sorted(said)) or "nothing"))


# ---- what must have a row: each kind, message, number and field of a state

def row(section, pattern, what):
    counts["rows"] += 1
    if not re.search(r"^\| %s" % pattern, re.search(r"^## %d\. .*?(?=^## |\Z)" % section, text, re.M | re.S).group(), re.M):
        complain("there is no row for " + what)


def definition(path, name):
    return re.search(r"^%s .*?(?=\n\n|\Z)" % name, open(path).read(), re.M | re.S).group()


for kind, body in re.findall(r"k 0x(\w\w)\) (\d+)", definition("crates/records/specs/Kinds.antt", "body_len")):
    row(2, r"%s \| [^|]+ \| %s \|" % (kind.upper(), body), "kind %s with a body of %s bytes" % (kind.upper(), body))
for kind, body in re.findall(r"shaped 0x(\w\w) (\d+)", definition("crates/messages/specs/Message.antt", "parse")):
    row(6, r"%s \| [^|]+ \| [^|]+: %d \|" % (kind, int(body) + 1), "message %s with a body of %s bytes" % (kind, body))
given = "".join(definition("crates/refusals/specs/Table.antt", name) for name in ("of_image =", "numbers_of"))
for number in sorted(set(int(n) for n in re.findall(r"(\d+) ∷", given))):
    row(8, r"%d \| [^|]+ \| [^|]+ \| [^|]+ \|$" % number, "number %d" % number)
layouts = "".join(re.findall(r"/\* ---- states, by offset ----.*?\*/", header, re.S))
for place, field in re.findall(r" (\d+(?:\.\.\d+)?) {2,}(\w[^,;\n]*?)(?=[,;\n]| {2,})", layouts):
    counts["fields"] += 1
    row(7, r"%s \| %s" % (re.escape(place), re.escape(field)), "the state's field %s, %s" % (place, field))

# a function that takes bytes of a state at numbered places stands in the row of its party whose bytes begin at one of them
parties = {"own": "7.1", "module": "7.2", "supervisor": "7.3"}
for name, party, body in re.findall(r"^static inline \w+ (pewterslug_(own|module|supervisor)_\w+)\(const uint8_t \*\2\b[^)]*\)\s*\{(.*?)\}", code, re.M | re.S):
    places = re.findall(r"\b%s(?:\[| \+ )(\d+)" % party, body)
    if places:
        counts["readers"] += 1
        table = re.search(r"^### %s .*?(?=^##|\Z)" % re.escape(parties[party]), text, re.M | re.S).group()
        if not re.search(r"^\| (?:%s)(?:\.\.\d+)? \|.*`%s`" % ("|".join(places), name), table, re.M):
            complain("%s does not stand in the row of byte %s in %s" % (name, " or ".join(places), parties[party]))

for what, count in counts.items():
    if count == 0:
        complain("there are no " + what)
if wrong:
    print("\n".join(wrong))
    sys.exit(1)
print("reference page: " + ", ".join("%d %s" % (n, what) for what, n in counts.items()) + " are as it says")
END
