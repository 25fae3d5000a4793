#!/usr/bin/env bash
# The papers beside the tree: README.md is short; docs/ARCHITECTURE.md has each crate of crates.txt once and no other; a path in backquotes, a
# function written crate::name and a definition written `name` of `file` are there, and so are the proofs that CONTRIBUTING.md names for a kind of
# record; a link leads somewhere. Needs Python 3, and nothing built.
set -eu
cd "$(dirname "$0")/.."
exec python3 - <<'PYTHON'
import glob
import os
import re
import sys

PAPERS = ["README.md", "CONTRIBUTING.md"] + sorted(glob.glob("docs/*.md") + glob.glob("docs/changes/*.md"))
LINKED = PAPERS + sorted(glob.glob("examples/**/*.md", recursive=True) + glob.glob("tests/**/*.md", recursive=True))
README_LIMIT = 6000
PATH = re.compile(r"^(?:(?:docs|crates|tests|include|examples|tools)/|\./[a-z])")
# Words that stand for any name in a path; docs/TRACE.md writes some of them small. Notes of changes are there once a change has landed.
PLACEHOLDERS = {"CRATE", "NAME", "LABEL", "FUNCTION", "N", "crate", "File", "f", "name"}
MAY_BE_EMPTY = "docs/changes/"
faults = []


def fault(paper, text):
    faults.append(f"{paper}: {text}")


def read(path):
    with open(path, encoding="utf-8") as f:
        return f.read()


def prose(text):
    """The text without its fenced blocks."""
    return re.sub(r"^```.*?^```[^\n]*$", "", text, flags=re.S | re.M)


def blocks(text):
    """Its paragraphs, each as one line; a row of a table is one by itself."""
    for part in re.split(r"\n\s*\n", prose(text)):
        lines = part.split("\n")
        yield from (line for line in lines if line.startswith("|"))
        yield " ".join(line.strip() for line in lines if not line.startswith("|"))


def spans(text):
    """What stands in backquotes, and the fenced blocks."""
    for block in blocks(text):
        yield from re.findall(r"`([^`]+)`", block)
    yield from re.findall(r"^```[^\n]*\n(.*?)^```", text, flags=re.S | re.M)


def crates():
    """Each crate of crates.txt."""
    lines = (line.split("#")[0] for line in read("crates.txt").split("\n"))
    return [line.split(":")[0].split()[0] for line in lines if ":" in line]


def table_crates(text):
    """The crates of the table under the heading `The crates`: its second column."""
    section = re.search(r"^## The crates$(.*?)(?=^## |\Z)", text, flags=re.S | re.M)
    rows = re.findall(r"^\|([^|]*)\|([^|]*)\|", section.group(1), flags=re.M) if section else []
    return [name.strip().strip("`") for _, cell in rows[2:] for name in cell.split(",")]


def readme_is_short():
    size = os.path.getsize("README.md")
    if size >= README_LIMIT:
        fault("README.md", f"{size} bytes; it has to be under {README_LIMIT}")


def each_crate_once():
    paper = "docs/ARCHITECTURE.md"
    if not os.path.exists(paper):
        fault(paper, "is missing")
        return
    there, listed = table_crates(read(paper)), crates()
    for name in sorted(set(there) | set(listed)):
        if name not in listed:
            fault(paper, f"the table has {name}, which crates.txt lacks")
        elif there.count(name) != 1:
            fault(paper, f"the table has {name} {there.count(name)} times")


def exists(path):
    """Whether a path, or a pattern, is there."""
    pattern = re.sub(r"[A-Za-z0-9]+", lambda word: "*" if word.group() in PLACEHOLDERS else word.group(), path)
    if "*" not in pattern:
        return os.path.exists(pattern)
    return bool(glob.glob(pattern)) or pattern.startswith(MAY_BE_EMPTY)


def each_of(path):
    """The paths that one written {a,b} stands for."""
    parts = re.fullmatch(r"([^{]*)\{([^}]*)\}(.*)", path)
    return [parts[1] + one + parts[3] for one in parts[2].split(",")] if parts else [path]


def paths_are_there(paper, text):
    for span in spans(text):
        for word in span.split():
            for path in each_of(word.rstrip(".,;:)")):
                if PATH.match(path) and not exists(path):
                    fault(paper, f"`{path}` is not there")


def proofs_are_there(paper, listed):
    """The third column of the table of kinds: `crate: File, function; crate: File`, with what explains a file in brackets."""
    table = re.search(r"^\| Code \| Definitions \| Proofs \|\n\|[-|]+\|\n((?:\|.*\n)+)", read(paper), flags=re.M)
    cells = [row.strip("|").split("|")[-1].strip() for row in table[1].splitlines()] if table else []
    named = 0
    for part in (part for cell in cells if cell != "–" for part in re.sub(r" \([^)]*\)", "", cell).split(";")):
        crate, _, names = part.strip().partition(": ")
        if crate not in listed or not names:
            fault(paper, f"the table of kinds names no proofs of a crate: {part.strip()!r}")
        for name in filter(None, names.split(", ")):
            named += 1
            if not any(os.path.exists(f"crates/{crate}/proofs/{name}{end}") for end in (".antt", "/Answers.antt", "/Invariants.antt", "/Proof.antt")):
                fault(paper, f"the table of kinds has {crate}: {name}, and there is no such proof")
    if not named:
        fault(paper, "the table of kinds is missing, or names no proofs")


def names_of(span, listed):
    """crate::name and crate::{name, name}, with their crates."""
    for crate, one, many in re.findall(r"\b([a-z_]+)::(?:([A-Za-z_]+)|\{([^}]*)\})", span):
        if crate in listed:
            yield from ((crate, name.strip()) for name in (many.split(",") if many else [one]))


def functions_are_there(paper, text, listed):
    code = {}
    for span in spans(text):
        for crate, name in names_of(span, listed):
            if crate not in code:
                code[crate] = "".join(read(f) for f in glob.glob(f"crates/{crate}/src/*.rt"))
            if not re.search(rf"\b(?:fn|struct|enum|const) {re.escape(name)}\b", code[crate]):
                fault(paper, f"`{crate}::{name}` is not there")


def definitions_are_there(paper, text):
    for block in blocks(text):
        for names, path in re.findall(r"((?:`[^`\s]+`(?:,| and|, and) )*`[^`\s]+`) of `(crates/[^`\s]+\.antt)`", block):
            for name in re.findall(r"`([^`]+)`", names):
                if os.path.exists(path) and not re.search(rf"(?<![\w-]){re.escape(name)}(?![\w-])", read(path)):
                    fault(paper, f"`{name}` is not in `{path}`")


def anchors(text):
    """The anchors of its headings, as they are made of Markdown."""
    heads = re.findall(r"^#+ +(.+?)\s*$", prose(text), flags=re.M)
    return {re.sub(r"[^\w\- ]", "", head.lower()).replace(" ", "-") for head in heads}


def links_lead_somewhere(paper, text):
    for target in re.findall(r"\[[^\]]*\]\(([^)\s]+)\)", re.sub(r"`[^`]*`", "", prose(text))):
        if re.match(r"[a-z]+:", target):
            continue
        path, _, anchor = target.partition("#")
        path = os.path.normpath(os.path.join(os.path.dirname(paper), path)) if path else paper
        if not os.path.exists(path):
            fault(paper, f"the link to {target} leads nowhere")
        elif anchor and anchor not in anchors(read(path)):
            fault(paper, f"the link to {target} names no heading")


readme_is_short()
each_crate_once()
proofs_are_there("CONTRIBUTING.md", set(crates()))
for paper in PAPERS:
    if not os.path.exists(paper):
        fault(paper, "is missing")
        continue
    text = read(paper)
    paths_are_there(paper, text)
    functions_are_there(paper, text, set(crates()))
    definitions_are_there(paper, text)
for paper in LINKED:
    if os.path.exists(paper):
        links_lead_somewhere(paper, read(paper))
for line in dict.fromkeys(faults):
    print(f"papers: {line}")
if faults:
    sys.exit(1)
print(f"papers: {len(PAPERS)} papers say what is there; {len(crates())} crates, each once")
PYTHON
