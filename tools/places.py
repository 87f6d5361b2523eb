#!/usr/bin/env python3
# Counts, in crates/*/src of a commit (or of the files as they stand), the places that docs/DESIGN-PASS.md is about: tools/places.py [COMMIT]
import re
import subprocess
import sys
from collections import defaultdict
from pathlib import Path

root = Path(__file__).resolve().parent.parent


def sources(commit):
    if commit is None:
        for path in sorted(root.glob("crates/*/src/*.rt")):
            yield str(path.relative_to(root)), path.read_text()
        return
    git = ["git", "-C", str(root)]
    names = subprocess.run(git + ["ls-tree", "-r", "--name-only", commit, "crates"], capture_output=True, text=True, check=True).stdout
    for name in names.split():
        if re.fullmatch(r"crates/[^/]+/src/.*\.rt", name):
            yield name, subprocess.run(git + ["show", f"{commit}:{name}"], capture_output=True, text=True, check=True).stdout


def braces(text, at):
    """Where the block that opens at `at` ends."""
    depth = 0
    for i in range(at, len(text)):
        depth += {"{": 1, "}": -1}.get(text[i], 0)
        if depth == 0 and text[i] == "}":
            return i + 1
    return len(text)


def bare(text):
    return re.sub(r"//[^\n]*", "", text)


def functions(text):
    """Name, parameters, requires clauses and body of each function."""
    for m in re.finditer(r"\bfn (\w+)[^({]*\(", text):
        depth, i = 1, m.end()
        while depth:
            depth += {"(": 1, ")": -1}.get(text[i], 0)
            i += 1
        parameters = text[m.end() : i - 1]
        clauses = []
        while True:
            n = re.compile(r"[^{};]*").match(text, i)
            word = re.search(r"(requires|ensures|ghost)[^{};]*$", n.group())
            if n.end() >= len(text) or text[n.end()] != "{":
                body = ""
                break
            end = braces(text, n.end())
            if not word:
                body = text[n.end() : end]
                break
            if word.group(1) == "requires":
                clauses.append(text[n.end() + 1 : end - 1])
            i = end
        yield m.group(1), parameters, clauses, body, text.count("\n", 0, m.start()) + 1


def enums(text):
    for m in re.finditer(r"\benum (\w+)[^{]*\{", text):
        body = text[m.end() : braces(text, m.end() - 1) - 1]
        yield m.group(1), re.findall(r"^\s*(\w+)\s*(\([^)]*\)|\{[^}]*\})?\s*(?:=\s*\d+\s*)?,", body, re.M), text.count("\n", 0, m.start()) + 1


# a body without what may differ between twins: names, types, numbers and signs
def shape(body):
    body = re.sub(r"\s+", " ", body)
    body = re.sub(r"\b\w*\d[\w.]*\b|\b[A-Z]\w*\b|\b[a-z]\w*\b(?=\s*(\(|::|!))|\.\w+", "_", body)
    return re.sub(r"\b(?!let|mut|match|if|else|for|in|while|return|as)[a-z]\w*\b", "v", body)


def conjuncts(clause):
    return [re.sub(r"\s+", " ", c).strip("() ") for c in re.split(r" × ", clause)]


def main():
    commit = sys.argv[1] if len(sys.argv) > 1 else None
    found = defaultdict(list)
    facts = defaultdict(set)
    shapes = defaultdict(list)
    together = defaultdict(set)
    for name, text in sources(commit):
        text = bare(text)
        for enum, variants, line in enums(text):
            plain = [v for v, fields in variants if not fields]
            if any(v == "Refused" for v, _ in variants) or (len(variants) == 2 and len(plain) == 1):
                found["1 enums of the shape of Option or Result"].append(f"{name}:{line} {enum}")
        for m in re.finditer(r"Refused\(\d+\)|refused_object\(\d+\)|return 11;|out, at, 13\)", text):
            found["1 refusals by number"].append(f"{name}:{text.count(chr(10), 0, m.start()) + 1} {m.group()}")
        for m in re.finditer(r"^\s*while .*<.*\{", text, re.M):
            found["3 loops that count an index by hand"].append(f"{name}:{text.count(chr(10), 0, m.end()) + 1} {m.group().strip()}")
        for m in re.finditer(r"^\s*for \w+ in 0\.\..*\{", text, re.M):
            found["3 `for` over indexes"].append(f"{name}:{text.count(chr(10), 0, m.end()) + 1} {m.group().strip()}")
        for fn, parameters, clauses, body, line in functions(text):
            where = f"{name}:{line} {fn}"
            if len(body) > 60:
                shapes[shape(body)].append(where)
            for clause in clauses:
                for fact in conjuncts(clause):
                    facts[fact].add(where)
            names = re.findall(r"(\w+):", parameters)
            for pair in zip(names, names[1:]):
                together[pair].add(where)
            for m in re.finditer(r"match (\w+(?:\.\w+)?) \{\s*\d+[ |]", body):
                found["7 switches on a number"].append(f"{where} match {m.group(1)}")
    for places in shapes.values():
        if len(places) > 1:
            found["2 functions of one shape"].append(" = ".join(places))
    for fact, places in facts.items():
        if len(places) >= 3:
            found["5 facts required by three functions or more"].append(f"{len(places)} x {fact}")
    for pair, places in together.items():
        if len(places) >= 5:
            found["5 and 6 parameters side by side in five functions or more"].append(f"{len(places)} x {', '.join(pair)}")
    for point in sorted(found):
        print(f"{point}: {len(found[point])}")
        for place in found[point]:
            print(f"    {place}")


main()
