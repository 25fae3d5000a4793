#!/usr/bin/env python3
"""Brings the names of definitions and lemmas in crates/*/specs and crates/*/proofs to snake case: withOwn becomes with_own, held-low becomes held_low.

usage: respell.py [--report]    in the repository, once, after the kit's own port.py

Types, modules and names of other libraries keep their spelling, and so do functions, fields and constants of src/. A clause, a proof and the
text of an edit that cites a name follow it. Where two names would fall together in a file, the one with hyphens, a lemma, gets _lem.
"""
import glob
import os
import re
import sys

NAME = re.compile(r"""[^\s(){}\[\],;."`]+""")
DECLARED = re.compile(r"^(\s*)((?:pub |abbrev |unfoldable |data |record )*)([^\s:(){}.,]+(?: [^\s:(){}.,=λ→≡]+)*)((?:\s+[({][^:]*:.*?[)}])*)\s*:(?!=)")
USED = re.compile(r"^\s*(?:pub |ghost )*use ([^\s{;]+?)(?:\.\{([^}]*)\})?;?\s*$", re.M)
CLAUSE = re.compile(r"^\s*(?:requires|ensures|ghost)\b.*$|^ghost use .*$")


def snake(name):
    name = name.replace("-", "_")
    name = re.sub(r"(?<=[a-z0-9])([A-Z])(?=[A-Z])", lambda m: "_" + m[1].lower(), name)
    name = re.sub(r"(?<=[a-z0-9])([A-Z])", lambda m: "_" + m[1].lower(), name)
    return re.sub(r"_([A-Z])", lambda m: "_" + m[1].lower(), name)


def read(path):
    with open(path, encoding="utf-8") as f:
        return f.read()


def strip(text):
    """The text without comments and strings."""
    return re.sub(r'"[^"\n]*"', '""', re.sub(r"--.*", "", text))


def labels(path, text):
    """The names that a proof of a function declares after what is generated for it."""
    if not path.endswith("/Proof.antt"):
        return set()
    return set(re.findall(r"^(?:abbrev |pub )*(\S+) : tie\.", text, re.M)) | set(re.findall(r"^pub (\S+-spec) :", text, re.M))


# port.py respells this one name in its own file as the library's word of that name, and elsewhere otherwise
GARBLED = [("crates/device_states", "field_own", "own_at")]


def main():
    for folder, wrong, right in GARBLED:
        for path in glob.glob(folder + "/*/**/*.antt", recursive=True) + glob.glob(folder + "/src/*.rt"):
            text = read(path)
            new = re.sub(r"(?<![\w'-])" + wrong + r"(?![\w'-])", right, text)
            if new != text and "--report" not in sys.argv:
                with open(path, "w", encoding="utf-8") as f:
                    f.write(new)
    own_crates = set(os.listdir("crates"))
    antt = sorted(glob.glob("crates/*/specs/**/*.antt", recursive=True) + glob.glob("crates/*/proofs/**/*.antt", recursive=True))
    rt = sorted(glob.glob("crates/*/src/**/*.rt", recursive=True))
    own, foreign, at = set(), {}, {}
    for path in antt:
        text = read(path)
        kept = labels(path, text)
        for line in strip(text).split("\n"):
            m = DECLARED.match(line)
            if m and m[3] not in kept and "=" not in m[3] and not path.endswith("/Lib.antt"):
                for n in m[3].split():
                    own.add(n)
                    at.setdefault(n, set()).add(path)
    for path in antt + rt:
        foreign[path] = set()
        for m in USED.finditer(read(path)):
            parts = m[1].split(".")
            if parts[0] == "Rattle" and parts[1] in own_crates and "declared" not in parts:
                continue
            for it in (m[2] or m[1]).split(","):
                foreign[path].add(it.strip().split(" as ")[-1].strip().split(".")[-1])
    # names after `as`, and of parameters
    own |= set("printAnswer rewriteAnswer printBuffer rewriteBuffer bufferOf pagesBy anyNeighbour notHeld neighbourMask roomToSettle orderRoom countRoom".split())
    plain = {n for n in own if re.match(r"[a-zα-ω]", n) and (re.search(r"[a-z0-9][A-Z]", n) or "-" in n)}
    turned = {n: snake(n) for n in plain}
    # names of src that a clause reads in place of an import
    taken = set()
    for path in rt:
        taken |= set(re.findall(r"^\s*(?:pub )?(\w+): ", read(path), re.M)) | set(re.findall(r"\bconst (\w+):", read(path)))

    def words(path):
        text = USED.sub(lambda m: " " + (m[2] or ""), strip(read(path)))
        if path.endswith(".rt"):
            text = "\n".join(line for line in text.split("\n") if CLAUSE.match(line))
        return set(NAME.findall(text))

    seen = {path: words(path) for path in antt + rt}
    clashes = {}
    for path, names in seen.items():
        here = {}
        for n in names - foreign[path]:
            if n in own:
                here.setdefault(turned.get(n, n), set()).add(n)
        for new, olds in here.items():
            if len(olds) > 1 or (new in foreign[path] and new not in olds):
                clashes.setdefault(new, set()).update(olds)
    for new, olds in sorted(clashes.items()):
        defs = {n for n in olds if re.search(r"[a-z0-9][A-Z]", n)} or {n for n in olds if "-" not in n}
        lemmas = olds - defs
        if len(defs) <= 1 and len(lemmas) >= 1:
            for n in lemmas:
                turned[n] = new + "_lem"
            print("a lemma gets _lem:", new, sorted(olds))
        else:
            print("clash:", new, sorted(olds), {n: sorted(at.get(n, ()))[:3] for n in olds})
    new_names = set(turned.values())
    for path in antt:
        text = USED.sub("", strip(read(path)))
        for n in sorted(new_names & {m[0] for m in NAME.finditer(text) if "." not in (text[m.start() - 1:m.start()], text[m.end():m.end() + 1])} - own):
            print("already here:", path, n)
    for n in sorted(turned):
        if turned[n] in taken and "-" not in n:
            print("also a name of src:", n, turned[n])
    if "--report" in sys.argv:
        print(len(turned), "names")
        return

    def turn(path, text):
        kept = labels(path, text) | foreign[path] if path in foreign else set()

        generated = re.search(r"/proofs/.*/(?:Proof|Given|Answers|Invariants)\.antt$", path)

        def one(m):
            n = m[0]
            field = m.string[m.start() - 1:m.start()] == "."
            if generated and field and not re.search(r"[a-z0-9][A-Z]", n):
                return n
            return turned[n] if n in turned and n not in kept else n

        lines = []
        for line in text.split("\n"):
            code, mark, rest = line, "", ""
            if path.endswith(".antt"):
                at_comment = re.search(r'(?<!\S)--', line)
                if at_comment:
                    code, mark, rest = line[:at_comment.start()], "--", line[at_comment.end():]
            elif not CLAUSE.match(line):
                lines.append(line)
                continue
            used = USED.match(code)
            if used and used[2] is not None:
                start, end = used.span(2)
                code = code[:start] + NAME.sub(one, code[start:end]) + code[end:]
            elif not used:
                parts = re.split(r'("[^"\n]*")', code)
                code = "".join(p if p.startswith('"') else NAME.sub(one, p) for p in parts)
            # in a comment only what can be no word of English
            rest = NAME.sub(lambda m: turned[m[0]] if m[0] in turned and re.search(r"[a-z0-9][A-Z]", m[0]) else m[0], rest)
            rest = re.sub(r"`([^`]+)`", lambda m: "`" + turned.get(m[1], m[1]) + "`", rest)
            lines.append(code + mark + rest)
        return "\n".join(lines)

    for path in antt + rt:
        text = read(path)
        new = turn(path, text)
        if new != text:
            with open(path, "w", encoding="utf-8") as f:
                f.write(new)


main()
