#!/usr/bin/env python3
"""Brings the names of this repository's own definitions and lemmas to today's spelling.

usage: python3 tools/respell.py     at the top of a tree in which port.py has run, once

Words are in snake case: functions, lemmas, fields, constructors. Types, facts and modules keep upper camel case. A dash stays only where it
joins two words that are themselves defined (flatten-append: append under flatten). Names of src/ keep their spelling, and so do strings.
Also turns the text of must-fail edits, as port.py turned the files that they are of; it says which of them no longer stand once in their file.
"""
import collections
import glob
import os
import re
import sys

# words of the library and of this repository that a lemma's name joins by a dash, the outer call first
WORDS = set("""length take drop append map reverse set sets sum max min add sub mul div neg le lt total flatten view little little_bytes hex
floor ceil bits frac equal""".split())

# names of the library that a lemma here would have
LIBRARY = {"of_fields"}
# lemmas that port.py gave the name of a function here
LEMMAS = {"at_last", "entry_length"}

# what port.py made of words that stand in edits
TURNED = [("getD", "get_or"), ("sumTo", "sum_to"), ("andThen", "and_then"), ("entryOf", "entry_of"), ("pairAt", "pair_at"), ("modeOf", "mode_of"), ("bytesAt", "bytes_at")]

# local names, and names that an import is given
LOCAL = ["texture-off", "palette-off", "tracks-all", "y-pos", "room-given", "word-before", "read-b", "util-cut", "pattern-laws", "material-laws"]

DECLARED = re.compile(r"(?m)^( *)((?:abbrev |unfoldable |opaque |pub )*)(record |data )?([^\s:(){}=,]+(?: [^\s:(){}=,]+)*?) ((?:\((?:[^()]|\([^()]*\))*\) |\{[^}]*\} )*):(?: \S|$)")
NOT = {"use", "let", "module", "--", "infixl", "infixr", "infix", "in", "where", "unfolding", "elim"}
TOKEN = r"(?<![\w'\-·])%s(?![\w'\-])"


def files():
    own = sorted(p for p in glob.glob("crates/*/specs/**/*.antt", recursive=True) + glob.glob("crates/*/proofs/**/*.antt", recursive=True))
    return own, sorted(glob.glob("crates/*/src/**/*.rt", recursive=True))


def laws(p):
    return p.split("/")[2] == "specs" or len(p.split("/")) == 4


def snake(n):
    n = n.replace("-", "_")
    return re.sub(r"(?<=[a-z0-9])([A-Z])", lambda m: "_" + m.group(1).lower(), n)


def main():
    own, source = files()
    texts = {p: open(p, encoding="utf-8").read() for p in own}
    declared = collections.OrderedDict()
    for p in own:
        if not laws(p):
            continue
        for m in DECLARED.finditer(texts[p]):
            names = m.group(4).split()
            if names[0] in NOT or m.group(3):
                continue
            for n in names:
                if re.fullmatch(r"[a-z][\w'\-]*", n) and re.search(r"[A-Z]|-", n):
                    declared.setdefault(n, []).append(p)
    to = {n: snake(n) for n in LOCAL}
    for n in declared:
        parts = n.split("-")
        new = "-".join(map(snake, parts)) if len(parts) > 1 and all(snake(w) in WORDS for w in parts) else snake(n)
        if new != n:
            to[n] = new
    # a lemma that would have its function's name gets _lem
    functions = {new for n, new in to.items() if "-" not in n}
    standing = {n for p in own if laws(p) for m in DECLARED.finditer(texts[p]) for n in m.group(4).split()}
    lemmas = {}
    for n, new in list(to.items()):
        if "-" in n and (new in functions or new in standing or new in LIBRARY):
            lemmas[n] = to[n] = new + "_lem"
        elif "-" not in n and new in standing and new in LEMMAS:
            lemmas[new] = to[new] = new + "_lem"
    for n, new in sorted(lemmas.items()):
        print(f"apart: {n} -> {new}")
    if "--list" in sys.argv:
        for n in to:
            print(n, to[n])
        return 0
    one = re.compile(r"(?<![\w'\-·])(?:" + "|".join(sorted(map(re.escape, to), key=len, reverse=True)) + r")(?![\w'\-])")

    def turn(text):
        return one.sub(lambda m: to[m.group(0)], text)

    for p in own:
        new = turn(texts[p])
        if new != texts[p]:
            open(p, "w", encoding="utf-8").write(new)
    for p in source:
        old = open(p, encoding="utf-8").read()
        new = turn(old)
        if new != old:
            open(p, "w", encoding="utf-8").write(new)
    edits(turn)
    return 0


def edits(turn):
    """Each edit's text as its file now has it. What is left is printed, to be brought over by hand."""
    left = 0
    for p in sorted(glob.glob("crates/*/must-fail/*.edit")):
        lines = open(p, encoding="utf-8").read().split("\n")
        name, now = None, ""
        for i, line in enumerate(lines):
            if line.startswith("file: "):
                name = os.path.join(os.path.dirname(os.path.dirname(p)), line[6:].strip())
                now = open(name, encoding="utf-8").read()
            elif line.startswith(("old: ", "new: ")):
                text = line[5:]
                if name.endswith(".antt") or "⌜" in text:
                    text = re.sub(r"(?<=[\w)]) \.(?=[a-z0-9])", ".", text)
                    text = re.sub(r"\((\w+(?:\.\w+)+)\)", r"\1", text)
                    for was, is_now in TURNED:
                        text = re.sub(TOKEN % re.escape(was), is_now, text)
                    text = re.sub(r"⌜ ?| ?⌝", "", text)
                    text = turn(text)
                lines[i] = line[:5] + text
                if line.startswith("old: "):
                    if now.count(text) != 1:
                        print(f"edit: {p}: {now.count(text)} times: {text}")
                        left += 1
                else:
                    now = now.replace(lines[i - 1][5:], text, 1)
        open(p, "w", encoding="utf-8").write("\n".join(lines))
    print(f"edits: {left} left by hand")


if __name__ == "__main__":
    raise SystemExit(main())
