"""The wrong bodies that are not in the gate: places each in its crate's files, and has the prover refuse it.

    tests/wrong-bodies.sh CRATE [LABEL]     replays those of the crate, or the one with this label; `rt check` must have proved the crate
    tests/wrong-bodies.sh --dry [CRATE]     places those of the crate, or of every crate, and runs nothing
    tests/wrong-bodies.sh --gate [CRATE]    reads what the prover said of the gate's own edits, in target/ci.log, and runs nothing

They are the files tests/wrong-bodies/CRATE/LABEL.edit and the rows of docs/WRONG-BODIES.md without a name; a label may also be one of the gate's.
Status 1 if one is accepted, is refused by the shape of its proof alone, or cannot be placed.
"""
import concurrent.futures
import os
import re
import shutil
import subprocess
import sys
import tempfile
import threading

TABLE = "docs/WRONG-BODIES.md"
# What the gate said, as ./test keeps it.
GATE = "target/ci.log"
SIDE_BY_SIDE = 2

# A token of either language: a literal of bytes, a word, or one other sign.
TOKEN = re.compile(r"""b?"(?:\\.|[^"\\])*"|b'(?:\\.|[^'\\])'|\w+|[^\w\s]""")


class NotPlaced(Exception):
    pass


def read(path):
    with open(path, encoding="utf-8") as f:
        return f.read()


# ---- the table

class Row:
    def __init__(self, crate, functions, old, new, name, refused, number):
        self.crate = crate
        self.functions = functions
        self.old = old
        self.new = new
        self.name = name
        self.refused = refused
        self.number = number
        self.label = ""


def cells(line):
    return [c.strip().replace("\\|", "|") for c in re.split(r"(?<!\\)\|", line)[1:-1]]


def code(cell):
    """The text of a cell that is code, and the words behind it."""
    m = re.match(r"`(.*?)`(.*)$", cell)
    return (m.group(1), m.group(2)) if m else (cell, "")


def rows():
    found, crate = [], None
    for number, line in enumerate(read(TABLE).splitlines(), 1):
        if line.startswith("## "):
            crate = line[3:].strip()
        if not line.startswith("| ") or line.startswith("| Function "):
            continue
        got = cells(line)
        if len(got) != 5:
            raise SystemExit(f"{TABLE}:{number}: a row has five cells, this one {len(got)}")
        functions, old, new, name, refused = got
        names = [] if functions == "–" else [f.strip() for f in functions.split(",")]
        found.append(Row(crate, names, code(old), code(new)[0], name, refused, number))
    # The k-th row without a name of a function is FUNCTION-k.
    count = {}
    for row in found:
        if not row.name:
            word = row.functions[0] if row.functions else "definition"
            key = (row.crate, word)
            count[key] = count.get(key, 0) + 1
            row.label = f"{word}-{count[key]}"
    return found


# ---- placing

def pattern(text):
    """The text as an expression that finds it however its lines are broken: a comma may stand before what closes a broken list."""
    tokens, parts, last = TOKEN.findall(text), [], None
    for t in tokens:
        if last is not None:
            between = r"\s+" if last[-1].isalnum() and t[0].isalnum() else r"\s*"
            parts.append(between + (r"(?:,\s*)?" if t in ")]}" and last != "," else ""))
        parts.append(re.escape(t))
        last = t
    before = r"(?<!\w)" if tokens[0][0].isalnum() else ""
    after = r"(?!\w)" if tokens[-1][-1].isalnum() else ""
    return re.compile(before + "".join(parts) + after)


def files_of(crate, part, ending):
    found = []
    for here, _, names in os.walk(os.path.join("crates", crate, part)):
        found += [os.path.join(here, n) for n in names if n.endswith(ending)]
    return sorted(found)


FUNCTION = re.compile(r"^[ \t]*(?:pub )?(?:extern \"C\" )?fn (\w+)", re.M)


def function_of(text, name):
    """Where the text of a function begins and ends."""
    heads = list(FUNCTION.finditer(text))
    for i, m in enumerate(heads):
        if m.group(1) == name:
            return m.start(), heads[i + 1].start() if i + 1 < len(heads) else len(text)
    return None


def scopes(row):
    """Where the text is looked for: in the functions that the row names, in the one that it is refused at, in all of the crate."""
    sources = [(p, read(p)) for p in files_of(row.crate, "src", ".rt")]
    definitions = [(p, read(p)) for p in files_of(row.crate, "specs", ".antt")]
    if not row.functions:
        yield f"the definitions of {row.crate}", [(p, t, 0, len(t)) for p, t in definitions]
        return
    beside = re.match(r", of (\w+)$", row.old[1])
    refused = re.match(r"(\w+),", row.refused)
    names = ([beside.group(1)] if beside else []) + row.functions + ([refused.group(1)] if refused else [])
    for name in names:
        spans = [(p, t, *at) for p, t in sources for at in [function_of(t, name)] if at]
        if spans:
            yield name, spans
    yield f"the code of {row.crate}", [(p, t, 0, len(t)) for p, t in sources]


def place(row):
    """The file, and its text with the row's edit."""
    old, words = row.old
    if old == row.new:
        raise NotPlaced("what stands is what stood")
    wanted = pattern(old)
    for where, spans in scopes(row):
        found = [(p, t, m) for p, t, a, b in spans for m in wanted.finditer(t, a, b)]
        if not found:
            continue
        if words == ", the last":
            found = found[-1:]
        if len(found) > 1:
            raise NotPlaced(f"`{old}` stands {len(found)} times in {where}")
        path, text, m = found[0]
        return path, text[:m.start()] + row.new + text[m.end():]
    raise NotPlaced(f"`{old}` stands nowhere in crate {row.crate}")


def edited(crate, path):
    """The files of an edit, each with its text after it: the gate's format and rules."""
    texts, name, old, pairs = {}, None, "", 0
    for line in read(path).split("\n"):
        if line.startswith("file: "):
            name = os.path.join("crates", crate, line[6:])
        elif line.startswith("old: "):
            old = line[5:]
        elif line.startswith("new:"):
            if name not in texts:
                if not os.path.isfile(name):
                    raise NotPlaced(f"there is no {name}")
                texts[name] = read(name)
            if not old or texts[name].count(old) != 1:
                raise NotPlaced(f"an old text stands {texts[name].count(old) if old else 0} times in {name}")
            texts[name] = texts[name].replace(old, line[4:].removeprefix(" "))
            old, pairs = "", pairs + 1
    if not pairs:
        raise NotPlaced("it has no pair of old and new")
    return texts


class Body:
    """A wrong body: its label, what it changes in a word, where the table has it refused, and the files after it."""
    def __init__(self, label, says, refused, texts):
        self.label = label
        self.says = says
        self.refused = refused
        self.texts = texts


def edits_in(folder):
    return sorted(n[:-5] for n in os.listdir(folder) if n.endswith(".edit")) if os.path.isdir(folder) else []


def outside(crate):
    return os.path.join("tests/wrong-bodies", crate)


def in_gate(crate):
    return os.path.join("crates", crate, "must-fail")


def bodies(crate, table, label=None):
    """The wrong bodies of a crate that are not in the gate, and a line for each that could not be placed."""
    placed, lost = [], []
    files = [(outside(crate), n) for n in edits_in(outside(crate)) if label in (None, n)]
    files += [(in_gate(crate), n) for n in edits_in(in_gate(crate)) if label == n]
    for folder, name in files:
        where = next((r.refused for r in table if r.crate == crate and r.name.strip("*") == name), "")
        try:
            placed.append(Body(name, name, where, edited(crate, os.path.join(folder, name + ".edit"))))
        except NotPlaced as e:
            lost.append(f"{crate} {name}: NOT PLACED: {e}")
    for row in table:
        if row.crate != crate or row.name or label not in (None, row.label):
            continue
        try:
            path, text = place(row)
            placed.append(Body(row.label, f"{row.old[0]} -> {row.new}", row.refused, {path: text}))
        except NotPlaced as e:
            lost.append(f"{crate} {row.label} ({TABLE}:{row.number}): NOT PLACED: {e}")
    return placed, lost


def listed(table, crates):
    """A line for each name of the table without its edit, and for each edit without its row."""
    wrong = []
    for crate in crates:
        named = {r.name for r in table if r.crate == crate and r.name}
        for folder, names in ((in_gate(crate), {n for n in named if n[0] != "*"}), (outside(crate), {n.strip("*") for n in named if n[0] == "*"})):
            edits = set(edits_in(folder))
            wrong += [f"{crate} {n}: {TABLE} has it, and {folder} not" for n in sorted(names - edits)]
            wrong += [f"{crate} {n}: {folder} has it, and {TABLE} not" for n in sorted(edits - names)]
    return wrong


# ---- replaying

ERROR = re.compile(r"^(\S+?):\d+:\d+: error: (.*)$")
# What the prover says where the proof does not fit the code's shape: its file names what the code no longer has.
SHAPE = re.compile(r"has no (?:field|member|`)|is not in scope")
# What follows from an error above it.
FOLLOWS = re.compile(r"was not admitted|so this cannot be checked")
# A function whose proof the checker makes by itself, and the facts that it could not close.
OPEN = re.compile(r"^fn \w+::(\S+): no proof: .*did not prove (.*)$")
# What the gate says of an edit that was refused: nothing in brackets, and the first error.
REFUSED = re.compile(r"^rt: must-fail (\S+)/(\S+)\.edit: refused, as it must be: (.*)$", re.M)


def facts(log):
    """The facts that were refused, each as a file of the crate and a name. A file where the proof does not fit the code's shape shows none."""
    errors, found = {}, []
    for line in log.splitlines():
        m = ERROR.match(line)
        if m and not FOLLOWS.search(m.group(2)):
            errors.setdefault(os.path.normpath(m.group(1)), []).append(m.group(2))
        m = OPEN.match(line)
        if m:
            found += [(f"fn {m.group(1)}", name) for name in re.findall(r"`([^`]*)`", m.group(2))]
    for path, said in errors.items():
        if any(SHAPE.search(s) for s in said):
            continue
        for s in said:
            name = re.match(r"`([^`]*)`", s)
            found.append((path, name.group(1) if name else s[:60]))
    return found


def as_said(refused, found):
    """The refused fact that the table names, if it is among them."""
    name = re.search(r"`([^`]*)`", refused)
    where = re.match(r"(?:proofs/)?(\w+)\b", refused)
    for path, fact in found:
        same = name and fact == ("returns" if name.group(1) == "ensures" else name.group(1))
        if same and (not where or where.group(1) == "its" or re.search(rf"\b{where.group(1)}\b", path)):
            return path, fact
    return None


def below(crate):
    """The crate and those of the repository that it needs."""
    needs = {}
    for line in read("crates.txt").splitlines():
        name, colon, words = line.split("#")[0].partition(":")
        if colon:
            needs[name.split()[0]] = words.split()
    found, todo = set(), [crate]
    while todo:
        name = todo.pop()
        if name in needs and name not in found:
            found.add(name)
            todo += needs[name]
    return found


def copy_for(names):
    """A tree with these crates. `rt check` there takes what it proved here of the same text."""
    root = tempfile.mkdtemp()
    for name in names:
        for part in ("src", "specs", "proofs"):
            if os.path.isdir(f"crates/{name}/{part}"):
                shutil.copytree(f"crates/{name}/{part}", f"{root}/crates/{name}/{part}")
    with open(f"{root}/crates.txt", "w", encoding="utf-8") as f:
        for line in read("crates.txt").splitlines():
            if line.split("#")[0].partition(":")[0].split()[:1] in [[name] for name in names]:
                f.write(line + "\n")
    return root


def replay(crate, body, root):
    """The verdict on one body in a tree: whether it is as it must be, and the line to print."""
    kept = {path: read(path) for path in body.texts}
    for path, text in body.texts.items():
        with open(os.path.join(root, path), "w", encoding="utf-8") as f:
            f.write(text)
    try:
        ran = subprocess.run(["rt", "check", "--jobs", "1"], cwd=os.path.join(root, "crates", crate), stdin=subprocess.DEVNULL,
                             stdout=subprocess.PIPE, stderr=subprocess.STDOUT, text=True, errors="replace")
    finally:
        for path, text in kept.items():
            with open(os.path.join(root, path), "w", encoding="utf-8") as f:
                f.write(text)
    log = ran.stdout
    with open(f"target/wrong-bodies-{crate}-{body.label}.log", "w", encoding="utf-8") as f:
        f.write(log)
    said = f"{crate} {body.label}: "
    if ran.returncode == 0:
        return False, said + f"ACCEPTED: {body.says}"
    if ran.returncode != 1 or "\nlogic=not-proved" not in log:
        return False, said + f"NOT JUDGED (target/wrong-bodies-{crate}-{body.label}.log): {body.says}"
    found = facts(log)
    if not found:
        return False, said + f"REFUSED BY SHAPE ONLY (target/wrong-bodies-{crate}-{body.label}.log): {body.says}"
    path, name = as_said(body.refused, found) or found[0]
    other = "" if as_said(body.refused, found) else f" (the table: {body.refused})"
    return True, said + f"refused at {path} `{name}`{other}"


def play(crate, table, label):
    placed, lost = bodies(crate, table, label)
    if label and not placed and not lost:
        print(f"wrong-bodies: {crate} has no {label} outside the gate; it has: {' '.join(b.label for b in bodies(crate, table)[0])}")
        return 1
    for line in lost:
        print(line)
    good, names, mine = 0, below(crate), threading.local()
    roots = []

    def one(body):
        if not hasattr(mine, "root"):
            mine.root = copy_for(names)
            roots.append(mine.root)
        return replay(crate, body, mine.root)

    try:
        with concurrent.futures.ThreadPoolExecutor(SIDE_BY_SIDE) as pool:
            for well, line in pool.map(one, placed):
                good += well
                print(line, flush=True)
    finally:
        for root in roots:
            shutil.rmtree(root, ignore_errors=True)
    print(f"wrong-bodies: {crate}: {good} of {len(placed) + len(lost)} refused for a fact")
    return 0 if good == len(placed) + len(lost) else 1


# ---- main

def crate_names():
    names = []
    for line in read("crates.txt").splitlines():
        name = line.split("#")[0].split(":")[0].split()
        if name:
            names.append(name[0])
    return names


def dry(crates, table):
    count, lost = 0, []
    for crate in crates:
        placed, gone = bodies(crate, table)
        count += len(placed)
        lost += gone
    lost += listed(table, crates)
    for line in lost:
        print(line)
    print(f"wrong-bodies: {count} outside the gate are placed, {len(lost)} faults")
    return 1 if lost else 0


def gate(crates):
    """The gate's own edits, by what the prover said of each when the gate last ran."""
    count, wrong, said = 0, [], read(GATE) if os.path.isfile(GATE) else ""
    refused = {(crate, name): text for crate, name, text in REFUSED.findall(said)}
    for crate in crates:
        for name in edits_in(in_gate(crate)):
            count += 1
            if f"rt: must-fail {crate}/{name}.edit: " not in said:
                wrong.append(f"{crate} {name}: no run of the gate has tried it ({GATE})")
            elif SHAPE.search(refused.get((crate, name), "is not in scope")):
                wrong.append(f"{crate} {name}: REFUSED BY SHAPE ONLY, or not at all ({GATE})")
    for line in wrong:
        print(line)
    print(f"wrong-bodies: {count - len(wrong)} of the gate's {count} edits refused for a fact")
    return 1 if wrong else 0


def main(words):
    table, crates = rows(), crate_names()
    if words[:1] in (["--dry"], ["--gate"]):
        names, label = words[1:] or crates, None
    else:
        names, label = words[:1], (words[1:] or [None])[0]
    if not names or len(words) > 2 or any(n not in crates for n in names):
        print(__doc__, file=sys.stderr)
        return 2
    if words[0] == "--gate":
        return gate(names)
    return dry(names, table) if words[0] == "--dry" else play(names[0], table, label)


if __name__ == "__main__":
    sys.exit(main(sys.argv[1:]))
