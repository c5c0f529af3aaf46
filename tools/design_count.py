#!/usr/bin/env python3
"""Counts the places of docs/DESIGN-PASS.md in crates/*/src/*.rt of a commit: python3 tools/design_count.py COMMIT [list]

What a text search can see of each point. With `list` each place is printed with its file and line.
"""
import collections
import re
import subprocess
import sys

commit = sys.argv[1]
show = len(sys.argv) > 2


def git(*words):
    return subprocess.run(["git", *words], check=True, capture_output=True, text=True).stdout


files = [f for f in git("ls-tree", "-r", "--name-only", commit, "crates").split("\n") if re.fullmatch(r"crates/\w+/src/\w+\.rt", f)]
source = {f: git("show", f"{commit}:{f}") for f in files}


def lines(pattern):
    """Lines of code, comments and ghost imports aside, that have the pattern."""
    found = []
    for f, text in source.items():
        for n, line in enumerate(text.split("\n"), 1):
            code = line.split("//")[0]
            if not code.startswith("ghost use") and re.search(pattern, code):
                found.append((f, n, line.strip()))
    return found


def functions():
    """File, line, signature with its clauses, body."""
    for f, text in source.items():
        for m in re.finditer(r"^( *)(?:pub )?fn (\w+).*?\n\1\{\n(.*?)\n\1\}$", text, re.M | re.S):
            head = text[m.start():m.start(3)]
            yield f, text[:m.start()].count("\n") + 1, m.group(2), head, m.group(3)


def twins():
    """Functions of three lines and more whose bodies are alike but for names, types and numbers."""
    groups = collections.defaultdict(list)
    for f, n, name, head, body in functions():
        code = re.sub(r"//.*", "", body)
        if len([l for l in code.split("\n") if l.strip()]) < 3:
            continue
        shape = re.sub(r'b?"[^"]*"|b\'.\'', "S", code)
        shape = re.sub(r"0x[0-9A-Fa-f]+|\b\d\w*", "N", shape)
        shape = re.sub(r"\b(?!if|else|for|in|let|mut|match|return|while|as|Ok|Err|Some|None)[A-Za-z_]\w*", "n", shape)
        groups[re.sub(r"\s+", "", shape)].append((f, n, name))
    return [(f, n, "like " + ", ".join(o[2] for o in g if o != (f, n, name)) + ": " + name) for g in groups.values() if len(g) > 1 for f, n, name in g]


def repeated_facts():
    """Facts that stand in a requires or ensures of three functions of a crate and more, equations of the result aside."""
    where = collections.defaultdict(set)
    for f, n, name, head, _ in functions():
        for clause in re.findall(r"(?:requires|ensures)[ \w]*\{(.*?)\}\s*(?=\n)", head, re.S):
            for fact in re.split(r" × ", re.sub(r"\s+", " ", clause)):
                fact = fact.strip(" ()")
                if fact and not re.match(r"(?:result|\(?result)\b.* ≡", fact) and not re.search(r"\.new ≡", fact):
                    where[(f.split("/")[1], fact)].add((f, n, name))
    return [(crate, len(at), fact) for (crate, fact), at in where.items() if len(at) >= 3]


def travelling():
    """Functions that take a page, an output or four parallel slices side by side."""
    found = []
    for f, n, name, head, _ in functions():
        if re.search(r"page: &mut \[u8\]", head) or re.search(r"kinds: &(mut )?\[u8\].*lengths:", head, re.S) or re.search(r"line: &\[u8\],\s*at: usize", head):
            found.append((f, n, name))
    return found


points = [
    ("1", "variants that stand for none, for a refusal or for a fault", lines(r"^    (Refused\(Refusal\)|Unreadable|Nothing|Fault\(Fault\)|Accepted),")),
    ("1", "flags beside a value, and counts of what is left to say", lines(r"^    (pub )?(failed|whole|long|broken|ended|over|error): (bool|i32),")),
    ("1", "kinds, codes and refusals as numbers", lines(r"\b(kind|code): u8\b|const (TRANSFER|EVENT|PINS|SETUP|OUT|IN|VBUS|RESET): u8|fn check_event\(|fn (name_at|find_name|hex_digit)\(")),
    ("2", "functions of three lines and more that are alike", twins()),
    ("3", "loops by `while` or `loop`", lines(r"^\s*(while|loop)\b(?! let)")),
    ("4", "functions that compare, choose, convert or print by hand", lines(r"fn (same_\w+|least|lesser|select|word|mark_of|mark_\w+|is_done|is_refused|is_event_refused|put\w*|hex_\w+|number|found|numbered|\w+_number|tell\w*|greet)\(")),
    ("5", "facts in three contracts of a crate and more", repeated_facts()),
    ("5", "functions that take what travels together", travelling()),
    ("6", "tables of names in one array of bytes; buffers with a length beside", lines(r"const (NAMES|BITS|LINES|ORDERS|HELP|CLASSROOM_HELP|STATUS|USAGE): \[u8|\bfilled: usize|\[usize; 16\]|\[u64; 16\]|kinds: &mut|ticks: &mut|lengths: &mut|bodies: &mut")),
    ("7", "flags that switch what is run, and names by their index", lines(r"taught: bool|match name \{|\(rt, \w+, name")),
]
for point, what, found in points:
    print(f"{point}  {len(found):4}  {what}")
    if show:
        for place in found:
            print("        ", *place)
proofs = git("ls-tree", "-r", "--name-only", commit, "crates").split("\n")
print("8  %4d  answers and invariants of functions (files)" % len([f for f in proofs if re.search(r"proofs/.*(Answers|Invariants|Proof)\.antt$", f)]))
print("8  %4d  lines of proofs" % sum(git("show", f"{commit}:{f}").count("\n") for f in proofs if re.search(r"/proofs/.*\.antt$", f)))
