#!/usr/bin/env python3
"""Brings the names of the crates' own definitions and lemmas to snake case: `load-place` is `load_place`.

usage: python3 tools/respell.py        at the top of the repository, once, after port.py

A dash stays between two operators, as in `≺-⪯`. A name that a file takes from the kit keeps its spelling there. Clauses, definitions, lemmas, must-fail
edits and what README and docs/ have in backquotes are turned; functions of src/, exported names, strings, inputs and outputs are not.
"""

import os
import re
import sys

TOKEN = re.compile(r"[^\s(){}\[\],;.λ\"`]+")
USE = re.compile(r"use\s+([^\s.{;]+(?:\.[^\s.{;]+)*)\.\{([^}]*)\}")
DEFINED = re.compile(r"^\s*(?:(?:pub|abbrev|unfoldable)\s+)*([^\s(){}\[\],;.]+)(?:\s+[^\s(){}:]+)*\s+:(?:\s|$)")
DECLARED = re.compile(r"^\s*(?:(?:pub|abbrev|unfoldable)\s+)*(?:data|record)\s+(?:pub\s+)?([^\s(){}]+)")
WRITTEN_OTHERWISE = {"-", "-ℤ", "to-6"}


def snake(name):
    out = ""
    for i, c in enumerate(name):
        left, right = name[i - 1] if i else "", name[i + 1] if i + 1 < len(name) else ""
        between = c == "-" and left and right and not left.isalnum() and not right.isalnum() and left not in "_'" and right not in "_'"
        out += "_" if c == "-" and left and right and not between else c
    return out


def files(root, *ends):
    for folder, dirs, names in os.walk(root):
        dirs[:] = sorted(d for d in dirs if d not in ("out", "target", ".git"))
        for n in sorted(names):
            if n.endswith(ends):
                yield os.path.join(folder, n)


def read(path):
    with open(path, encoding="utf-8") as f:
        return f.read()


def of_kit(text, crates):
    taken = set()
    for module, names in USE.findall(text):
        part = module.split(".")
        if not (part[0] == "Rattle" and len(part) > 1 and part[1] in crates):
            taken |= {n.strip() for n in names.split(",")}
    return taken


def own(crates):
    found, taken = set(), set()
    for p in files("crates", ".antt"):
        text = read(p)
        taken |= of_kit(text, crates)
        if os.path.basename(p) == "Proof.antt":
            continue
        for line in text.split("\n"):
            code = line.split("--")[0]
            for m in (DEFINED.match(code), DECLARED.match(code)):
                if m and "-" in m.group(1):
                    found.add(m.group(1))
            if not USE.search(code):
                found |= {t for t in TOKEN.findall(code) if "-" in t}
    for p in files("crates", ".rt"):
        taken |= of_kit(read(p), crates)
    return {n for n in found - taken - WRITTEN_OTHERWISE if snake(n) != n}


def turned(text, names):
    return TOKEN.sub(lambda m: snake(m.group(0)) if m.group(0) in names else m.group(0), text)


def keep(path, text, new):
    if new != text:
        with open(path, "w", encoding="utf-8") as f:
            f.write(new)


def main():
    crates = set(os.listdir("crates"))
    names = own(crates)
    now = {}
    for n in names:
        now.setdefault(snake(n), []).append(n)
    for new, olds in sorted(now.items()):
        if len(olds) > 1:
            print(f"fall together: {olds}")
    words = set()
    for p in files("crates", ".antt"):
        text = read(p)
        code = "\n".join(l.split("--")[0] for l in text.split("\n"))
        for t in set(TOKEN.findall(code)):
            words.add(t)
            if t in now:
                print(f"{p}: {t} stands there beside {now[t]}")
    # what port.py had respelled before stands by its old name in the edits and on the pages
    before = {w.replace("_", "-") for w in words if "_" in w}
    for p in files("crates", ".antt", ".rt"):
        text = read(p)
        keep(p, text, turned(text, names - of_kit(text, crates)))
    for p in files("crates", ".edit"):
        text = read(p)
        keep(p, text, turned(text, names | before))
    for p in ["README.md", *files("docs", ".md")]:
        text = read(p)
        keep(p, text, re.sub(r"`[^`\n]+`", lambda m: turned(m.group(0), names | before), text))
    print(f"{len(names)} names")


if __name__ == "__main__":
    sys.exit(main())
