#!/usr/bin/env python3
"""Brings the repository's own definitions and lemmas to one spelling, once, after the toolchain's own script.

usage: python3 tools/respell.py [--look]        at the top of the repository

Words go in snake case and types in camel case: `call-of` becomes `call_of`, and `One-call`, a type, `OneCall`. A name is
renamed wherever it stands as a whole: in specs/ and proofs/, and in the clauses and ghost imports of src/. Names that the
toolchain makes (goals, labels of returns and loops) keep theirs, and so does everything that runs. With --look nothing is
written: it only says which new names are spelt like a word that stood there already.
"""

import os
import re
import sys

# A word of a specification: letters, digits, dashes, underscores, primes.
WORD = re.compile(r"[A-Za-z][A-Za-z0-9_'-]*[A-Za-z0-9_']|[A-Za-z]")
# Goals, invariants and measures, whose names the toolchain makes.
MADE = re.compile(r"(?:loop|returns|invariant|decreases|overflow)-")
DEFINED = re.compile(r"^(?:(?:abbrev|unfoldable|pub|data|record)\s+)*([^\s(){}:,.]+)(?=\s|$)(.*)$")
MEMBER = re.compile(r"^\s+(?:pub\s+)?([^\s(){}:,.]+)\s+:\s")


def files(root):
    for folder, dirs, names in os.walk(os.path.join(root, "crates")):
        dirs[:] = sorted(d for d in dirs if d != "out")
        for name in sorted(names):
            if name.endswith((".antt", ".rt")):
                yield os.path.join(folder, name)


def text_of(path):
    with open(path, encoding="utf-8") as f:
        return f.read()


def defined(text):
    """The names that a file of definitions or lemmas gives."""
    for line in text.split("\n"):
        m = DEFINED.match(line)
        if m and not line.startswith(("use ", "--", "unfolding ", "mod ", "pub mod ")):
            rest = m.group(2)
            if " : " in rest or line.startswith(("abbrev", "unfoldable", "pub", "data", "record")):
                yield m.group(1)
        m = MEMBER.match(line)
        if m:
            yield m.group(1)


def respelt(name):
    if name[0].isupper():
        return "".join(part[:1].upper() + part[1:] for part in name.split("-"))
    return name.replace("-", "_")


def clauses(text):
    """A source file as pieces, each with whether it is a clause, a ghost item or a ghost import."""
    at = 0
    for m in re.finditer(r"\b(?:ghost use|ghost|requires|ensures)\b\*?", text):
        if m.start() < at or text.rfind("//", text.rfind("\n", 0, m.start()) + 1, m.start()) >= 0:
            continue
        if m.group(0) == "ghost use":
            end = text.index(";", m.end()) + 1
        else:
            k = m.end()
            while k < len(text) and text[k] not in "{;(":
                k += 1
            if k == len(text) or text[k] != "{":
                continue
            depth, end = 0, k
            while True:
                depth += {"{": 1, "}": -1}.get(text[end], 0)
                end += 1
                if depth == 0:
                    break
        yield text[at : m.start()], False
        yield text[m.start() : end], True
        at = end
    yield text[at:], False


def renamed(piece, names):
    def one(m):
        word = m.group(0)
        before = piece[: m.start()]
        if before.endswith("goal.") or word not in names:
            return word
        return names[word]

    return WORD.sub(one, piece)


def turned(path, text, names):
    if path.endswith(".antt"):
        return renamed(text, names)
    return "".join(renamed(piece, names) if ghost else piece for piece, ghost in clauses(text))


def main(argv):
    root = "."
    all_files = [(p, text_of(p)) for p in files(root)]
    own = {n for p, t in all_files if p.endswith(".antt") for n in defined(t)}
    names = {n: respelt(n) for n in sorted(own) if "-" in n and not MADE.match(n)}
    if len(set(names.values()) | own) < len(names) + len(own):
        fallen = sorted(n for n in names if names[n] in own or list(names.values()).count(names[n]) > 1)
        print("these fall together with others: " + ", ".join(fallen), file=sys.stderr)
        return 1
    words = {}
    for p, t in all_files:
        for m in WORD.finditer(t):
            words.setdefault(m.group(0), set()).add(p)
    if argv == ["--look"]:
        for old, new in names.items():
            if new in words:
                print(f"{old} -> {new}: also in {' '.join(sorted(words[new]))}")
        return 0
    count = 0
    for p, t in all_files:
        new = turned(p, t, names)
        if new != t:
            count += 1
            with open(p, "w", encoding="utf-8") as f:
                f.write(new)
    print(f"{len(names)} names, {count} files")
    return 0


if __name__ == "__main__":
    raise SystemExit(main(sys.argv[1:]))
