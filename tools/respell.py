#!/usr/bin/env python3
"""Brings the repository's own definitions and lemmas to Rattle's spelling: words in snake case, types and modules in camel case.

usage: tools/respell.py [--check]      at the top of the repository, once, right after the kit's port.py

A name that a file of specs/ or proofs/ declares with a dash or a capital inside turns to snake case wherever it stands in specs/, proofs/,
a `ghost use`, a clause, or a code span of a comment or a page. Functions of src/, exported C names, strings, inputs and outputs keep theirs.
--check writes nothing, and lists the files in which two names would fall together.
"""
import collections
import os
import re
import sys

WORD = r"[^\s(){}\[\].;,@\"«»`]+"
DECLARED = re.compile(r"^\s*(?:(?:abbrev|unfoldable|pub|pattern) )*(?:record |data )?(" + WORD + r")(?: [^:=]*?)?\s*:(?: |$)")
# Where the plain turn would meet another name, or say something else.
OWN = {
    "getD-within": "get_or_within",
    "every-getD": "every_get_or",
    "bit-and": "bit_of_and",
    "bit-or": "bit_of_or",
}


def snake(name):
    if name in OWN:
        return OWN[name]
    name = re.sub(r"([a-z0-9])([A-Z])", r"\1_\2", name)
    return name.replace("-", "_").lower()


def files():
    for folder, dirs, names in os.walk("crates"):
        dirs[:] = sorted(d for d in dirs if d != "out")
        for name in sorted(names):
            if name.endswith((".antt", ".rt")):
                yield os.path.join(folder, name)
    for folder in (".", "docs", "docs/requests"):
        for name in sorted(os.listdir(folder)):
            if name.endswith(".md"):
                yield os.path.normpath(os.path.join(folder, name))


def of_function(path):
    """A file of one function's proof: its own names are Rattle's."""
    return os.path.basename(path) in ("Proof.antt", "Invariants.antt", "Answers.antt")


def table():
    """Each declared name that turns, with its new spelling. Where a lemma and the definition that it is about fall together, the lemma is
    called `X_law`: of such names the one with a capital is the definition, or else the one that needs no turn."""
    declared = set()
    for path in files():
        if not path.endswith(".antt") or of_function(path):
            continue
        with open(path, encoding="utf-8") as f:
            for line in f:
                m = DECLARED.match(line)
                if m and not line.lstrip().startswith("--") and re.match("[a-z]", m[1]):
                    declared.add(m[1])
    alike = collections.defaultdict(set)
    for name in declared:
        alike[snake(name)].add(name)
    found = {}
    for word, names in alike.items():
        first = sorted(names, key=lambda n: (not re.search("[A-Z]", n), "-" in n, n))
        for name in names:
            new = word if name == first[0] else word + "_law"
            if new != name:
                found[name] = new
    return found


def turned(text, names, after_dot):
    def one(m):
        if not after_dot and m.start() and text[m.start() - 1] == ".":
            return m[0]
        return names.get(m[0], m[0])

    return re.sub(WORD, one, text)


def marked(names):
    """Those that no name of code can be: with a dash or a capital inside."""
    return {old: new for old, new in names.items() if re.search("[A-Z-]", old)}


def spans(text, names):
    """A comment or a page: its code spans, and names with a capital inside, which no prose has."""
    text = re.sub(r"`[^`\n]*`", lambda m: turned(m[0], marked(names), True), text)
    return re.sub(WORD, lambda m: names.get(m[0], m[0]) if re.search("[A-Z]", m[0]) and "-" not in m[0] else m[0], text)


def antt(text, names, after_dot):
    out = []
    for line in text.split("\n"):
        code, dashes, comment = line, "", ""
        m = re.search(r"(?:^|(?<=\s))--(?=\s|$)", line)
        if m:
            code, dashes, comment = line[: m.start()], "--", line[m.end() :]
        out.append(turned(code, names, after_dot) + dashes + spans(comment, names))
    return "\n".join(out)


def rust(text, names):
    """Clauses and ghost items hold the names; code has none that is spelled so. Strings stay."""
    out = []
    for line in text.split("\n"):
        m = re.match(r"^(\s*)//(.*)$", line)
        if m:
            out.append(m[1] + "//" + spans(m[2], names))
        else:
            parts = re.split(r'("(?:[^"\\]|\\.)*")', line)
            out.append("".join(p if p.startswith('"') else turned(p, marked(names), True) for p in parts))
    return "\n".join(out)


def of_library(text, crates):
    """The names that a file imports from a library: there they keep their spelling."""
    found = set()
    for m in re.finditer(r"use ([\w.+]+?)\.\{([^}]*)\}", text):
        path = m[1].split(".")
        if path[0] != "Rattle" or path[1] not in crates:
            found.update(re.findall(WORD, m[2]))
    return found


def main(argv):
    every, crates = table(), set(os.listdir("crates"))
    changed = 0
    for path in files():
        with open(path, encoding="utf-8") as f:
            text = f.read()
        kept = of_library(text, crates)
        names = {old: new for old, new in every.items() if old not in kept}
        if path.endswith(".antt"):
            new = antt(text, names, not of_function(path))
        elif path.endswith(".rt"):
            new = rust(text, names)
        else:
            new = spans(text, names)
        met = collections.defaultdict(set)
        for word in re.findall(WORD, text):
            met[names.get(word, word)].add(word)
        for word, before in sorted(met.items()):
            if len(before) > 1:
                print(f"look: {path}: {', '.join(sorted(before))}")
        changed += new != text
        if new != text and "--check" not in argv:
            with open(path, "w", encoding="utf-8") as f:
                f.write(new)
    print(f"respell: {len(every)} names, {changed} files")


main(sys.argv[1:])
