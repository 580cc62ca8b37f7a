#!/usr/bin/env python3
"""Counts the places of docs/DESIGN-PASS.md a second way: by what each function is handed, answers and asks, not by lines.

    python3 tools/places.py [TREE]        TREE: a checkout, by default this one
"""
import collections
import glob
import itertools
import os
import re
import sys

TREE = sys.argv[1] if len(sys.argv) > 1 else "."
FN = re.compile(r"\n([ ]*)((?:pub )?(?:const )?(?:extern \"C\" )?fn (\w+)(?:<[^\n]*?>)?\()")


def closed(text, start):
    """The place behind the bracket that closes the one before `start`."""
    depth, at = 1, start
    while depth:
        depth += {"(": 1, "[": 1, "{": 1, ")": -1, "]": -1, "}": -1}.get(text[at], 0)
        at += 1
    return at


def parts(params):
    """The parameters, split at the commas that stand in no bracket."""
    out, depth, word = [], 0, ""
    for c in params:
        depth += (c in "([<") - (c in ")]>")
        if c == "," and depth == 0:
            out.append(word)
            word = ""
        else:
            word += c
    return [" ".join(p.split()) for p in out + [word] if p.strip()]


def functions():
    for path in sorted(glob.glob(os.path.join(TREE, "crates/*/src/**/*.rt"), recursive=True)):
        text = "\n" + re.sub(r"//[^\n]*", "", open(path).read())
        crate = os.path.relpath(path, TREE).split(os.sep)[1]
        for m in FN.finditer(text):
            end = closed(text, m.end())
            head = re.compile(r"(?:^|\n|[ ])\{\n").search(text, end)
            clauses = text[end:head.start()] if head else ""
            body = text[head.end():closed(text, head.end())] if head else ""
            yield crate, m.group(3), parts(text[m.end():end - 1]), clauses, body


def main():
    fns = list(functions())
    rows = [("functions", len(fns))]
    flags = [(c, n, p) for c, n, ps, _, _ in fns for p in ps if re.search(r": bool$", p)]
    rows.append(("1: parameters that are a flag", len(flags)))
    answers = [re.match(r"\s*->\s*([^\n{]*)", cl) for _, _, _, cl, _ in fns]
    rows.append(("1: functions that answer a number for a kind (u8)", sum(1 for a in answers if a and a.group(1).split()[0] == "u8")))
    stems = collections.Counter((c, re.sub(r"_(small|medium|large|wide|lent|call|pass|\d)$", "", n)) for c, n, _, _, _ in fns
                                if re.search(r"_(small|medium|large|wide|lent|call|pass)$", n))
    rows.append(("2: functions named like another but for a size or a kind", sum(v for v in stems.values())))
    loops = [(c, n, l) for c, n, _, _, b in fns for l in re.findall(r"(?:^|\n)\s*(for [^\n]*\.\.[^\n]*|while [^\n]*|loop) *\{", b)]
    rows.append(("3: loops over a range, or while", len(loops)))
    pairs = collections.defaultdict(list)
    for c, n, ps, _, _ in fns:
        for pair in itertools.combinations(sorted({re.sub(r"^mut ", "", p) for p in ps if ":" in p}), 2):
            pairs[(c,) + pair].append(n)
    many = {k: v for k, v in pairs.items() if len(v) >= 3}
    rows.append(("5: pairs of parameters in three functions or more", len(many)))
    asked = collections.defaultdict(list)
    for c, n, _, cl, _ in fns:
        for fact in re.findall(r"requires\s+(?:\w+\s+)?\{([^\n]*)\}", cl):
            asked[(c, " ".join(fact.split()))].append(n)
    facts = {k: v for k, v in asked.items() if len(v) >= 3}
    rows.append(("5: clauses `requires` in three functions or more", sum(len(v) for v in facts.values())))
    rows.append(("5: clauses `requires`", sum(len(v) for v in asked.values())))
    for row in rows:
        print(f"{row[1]:5}  {row[0]}")
    for title, listed in (("flags", flags), ("loops", loops)):
        print(f"\n{title}")
        for x in listed:
            print("  " + " ".join(x))
    print("\npairs")
    for k, v in sorted(many.items(), key=lambda kv: -len(kv[1])):
        print(f"  {k[0]}: {k[1]}, {k[2]}: {len(v)}")
    print("\nclauses")
    for k, v in sorted(facts.items(), key=lambda kv: -len(kv[1])):
        print(f"  {k[0]}: {k[1]}: {', '.join(v)}")


main()
