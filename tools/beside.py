#!/usr/bin/env python3
"""Lists the contracts, signatures, constants and definitions of two trees of this repository side by side, in markdown, where they differ.

  python3 tools/beside.py CONTRACTS OLD NEW      CONTRACTS is the toolchain's contracts.py; OLD and NEW are folders

A `-` stands before what was, a `+` before what is.
"""
import importlib.util
import json
import subprocess
import sys
import textwrap

WIDTH = 180


def said(sign, text):
    lines = textwrap.wrap(text, WIDTH, break_long_words=False, break_on_hyphens=False) or ['']
    return [f'{sign} {lines[0]}'] + [f'{sign}     {line}' for line in lines[1:]]


def clauses(sign, word, rows):
    out = []
    for name, text in rows:
        out += said(sign, f'{word} {name + " " if name else ""}{{ {text} }}')
    return out


def functions(found):
    signs = {name: (old, new) for name, old, new in found['signatures changed']}
    promises = {row[0]: row[1:] for row in found['contracts changed']}
    for name in sorted({*signs, *promises}):
        lines = []
        if name in signs:
            lines += said('-', signs[name][0]) + said('+', signs[name][1])
        if name in promises:
            asked, told, asks, tells = promises[name]
            if asked != asks:
                lines += clauses('-', 'requires', asked) + clauses('+', 'requires', asks)
            if told != tells:
                lines += clauses('-', 'ensures', told) + clauses('+', 'ensures', tells)
        yield name, lines


def moved(path, found, old, new):
    """Functions of OLD that stand in another file or type of their crate in NEW, with all of their contracts there."""
    spec = importlib.util.spec_from_file_location('contracts', path)
    contracts = importlib.util.module_from_spec(spec)
    spec.loader.exec_module(contracts)
    before, after = contracts.read(old)[1], contracts.read(new)[1]
    alone = {row.rsplit(' (requires', 1)[0] for row in found['functions not found again']}
    name = lambda key: ' '.join(part for part in key if part)
    row = lambda x, word: [clause[1:] for clause in x[word]]
    for key, rows in sorted(before.items()):
        if name(key) not in alone:
            continue
        there = [(k, x) for k, xs in sorted(after.items()) if k[0] == key[0] and k[3] == key[3] and k not in before for x in xs]
        if not there:
            continue
        lines = []
        for x in rows:
            lines += said('-', x['sign']) + clauses('-', 'requires', row(x, 'requires')) + clauses('-', 'ensures', row(x, 'ensures'))
        for k, x in there:
            lines += said('+', f'{k[2]}: {x["sign"]}') + clauses('+', 'requires', row(x, 'requires')) + clauses('+', 'ensures', row(x, 'ensures'))
        yield name(key), lines


def main(argv):
    if len(argv) != 4:
        sys.exit(__doc__)
    run = subprocess.run([sys.executable, argv[1], argv[2], argv[3], '--json'], capture_output=True, text=True, check=True)
    found = json.loads(run.stdout)
    print('### Functions\n')
    print('Signatures and clauses; a function that has none of a kind here kept that kind as it was.\n')
    for name, lines in functions(found):
        print(f'`{name}`\n\n```diff\n' + '\n'.join(lines) + '\n```\n')
    print('### Functions that moved into a type\n')
    print('All of their clauses, before and after; those that are named after `+` stand in the type there.\n')
    for name, lines in moved(argv[1], found, argv[2], argv[3]):
        print(f'`{name}`\n\n```diff\n' + '\n'.join(lines) + '\n```\n')
    print('### Definitions and types of specs/\n')
    for crate, name, old, new in found['definitions']['changed']:
        lines = [line for text in old for line in said('-', text)] + [line for text in new for line in said('+', text)]
        print(f'`{crate}` `{name}`\n\n```diff\n' + '\n'.join(lines) + '\n```\n')
    print('### Constants\n')
    for crate, kind, name, old, new in found['ghost items and constants']['changed']:
        print(f'- `{crate}` {kind} `{name}`: {", ".join(old)}, now {", ".join(new)}')


main(sys.argv)
