#!/usr/bin/env python3
"""Respells the definitions and lemmas of this repository: words in snake case, a dash only between two names. Run once, right after the spelling of the language.

usage: python3 tools/respell.py        at the top of the repository

tools/respelled.tsv has a row for each name: old, a tab, new. Whole words turn, in specs/ and proofs/, in clauses and ghost items, in edits and in the code spans of pages.
What the source names (functions, fields, strings) stays; so do the names that a proof file itself declares, and what stands behind a dot in a function's own proof, unless it is in
camel case, since those are made of the source's names.
"""

import glob
import os
import re
import sys

TOP = os.path.dirname(os.path.dirname(os.path.abspath(__file__)))
WORD = re.compile(r'[^\s(){}.;,@"«»`]+')
SPAN = re.compile(r"`[^`\n]+`")
CAMEL = re.compile(r"[a-z0-9][A-Z]")
DECLARED = re.compile(r"(?m)^(?:abbrev |pub |unfoldable )*([^\s:(){}]+) :")


USE = re.compile(r"\buse ([^\s;{]+?)\.\{([^}]*)\}")
OURS = {os.path.basename(d.rstrip(os.sep)) for d in glob.glob(os.path.join(TOP, "crates", "*", ""))}


def foreign(text):
    """The names that a file has from a library."""
    of = lambda path: path.split(".")[1] if path.startswith("Rattle.") else ""
    return {n.strip() for m in USE.finditer(text) if of(m[1]) not in OURS for n in m[2].split(",")}


def table():
    with open(os.path.join(TOP, "tools", "respelled.tsv"), encoding="utf-8") as f:
        rows = [line.rstrip("\n").split("\t") for line in f if line.strip()]
    new = [r[1] for r in rows]
    twice = sorted({n for n in new if new.count(n) > 1})
    if twice:
        sys.exit(f"respell: names that fall together: {', '.join(twice)}")
    return dict(rows)


def words(text, rows, stays=lambda text, m: False):
    return WORD.sub(lambda m: rows[m[0]] if m[0] in rows and not stays(text, m) else m[0], text)


def antt(text, rows, own):
    """Code turns; of a comment only camel case and code spans."""
    kept = foreign(text) | (set(DECLARED.findall(text)) if own else set())

    def stays(line, m):
        return m[0] in kept or (own and line[m.start() - 1 : m.start()] == "." and not CAMEL.search(m[0]))

    camel = {k: v for k, v in rows.items() if CAMEL.search(k) and k not in kept}
    out = []
    for line in text.split("\n"):
        at = re.search(r"(?:^|\s)-- ", line)
        code, note = (line[: at.start()], line[at.start() :]) if at else (line, "")
        out.append(words(code, rows, stays) + words(SPAN.sub(lambda m: words(m[0], rows), note), camel))
    return "\n".join(out)


def rt(text, rows):
    """No name of the source is in camel case or has a dash."""
    kept = foreign(text)
    made = {k: v for k, v in rows.items() if (CAMEL.search(k) or "-" in k or "·" in k) and k not in kept}
    camel = {k: v for k, v in made.items() if CAMEL.search(k)}
    return "\n".join(words(line, camel if line.lstrip().startswith("//") else made) for line in text.split("\n"))


def main():
    rows = table()
    made = {k: v for k, v in rows.items() if CAMEL.search(k) or "-" in k or "·" in k}
    changed = 0
    paths = [p for kind in ("antt", "rt", "edit") for p in glob.glob(os.path.join(TOP, "crates", "**", "*." + kind), recursive=True)]
    paths += [p for p in glob.glob(os.path.join(TOP, "**", "*.md"), recursive=True)]
    for path in sorted(paths):
        if os.sep + "out" + os.sep in path or os.sep + "target" + os.sep in path:
            continue
        with open(path, encoding="utf-8") as f:
            old = f.read()
        if path.endswith(".antt"):
            new = antt(old, rows, os.path.basename(path) in ("Proof.antt", "Answers.antt", "Invariants.antt"))
        elif path.endswith(".md"):
            new = SPAN.sub(lambda m: words(m[0], made), old)
        else:
            new = rt(old, rows)
        if new != old:
            changed += 1
            with open(path, "w", encoding="utf-8") as f:
                f.write(new)
    print(f"respell: {changed} files changed")


if __name__ == "__main__":
    main()
