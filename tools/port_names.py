#!/usr/bin/env python3
"""Spells the repository's own definitions and lemmas as today's Rattle does, by the table port_names.tsv beside this file:
words in snake case, a dash only between a name and what a lemma says of it. Run once, right after the kit's port.py.

It turns whole words: in .antt files everywhere, in .rt files and must-fail edits outside strings, in README.md and the pages
right under docs/ inside code spans. Functions of src/, exported names, strings, inputs, outputs and docs/landings stay."""
import glob
import os
import re

HERE = os.path.dirname(os.path.abspath(__file__))
TOP = os.path.dirname(HERE)
TABLE = dict(row.rstrip('\n').split('\t') for row in open(os.path.join(HERE, 'port_names.tsv')))
PART = r"[\w'≡≢≤≥<>ℕℤ-]"
WORD = re.compile(f'(?<!{PART})(?:' + '|'.join(map(re.escape, sorted(TABLE, key=len, reverse=True))) + f')(?!{PART})')
STRING = re.compile(r'"(?:[^"\\\n]|\\.)*"')
SPAN = re.compile(r'`[^`\n]+`')


def turned(text):
    return WORD.sub(lambda m: TABLE[m[0]], text)


def outside_strings(text):
    out, at = [], 0
    for m in STRING.finditer(text):
        out += [turned(text[at:m.start()]), m[0]]
        at = m.end()
    return ''.join(out) + turned(text[at:])


def files(pattern):
    return sorted(glob.glob(os.path.join(TOP, pattern), recursive=True))


def rewrite(paths, how):
    for path in paths:
        old = open(path, encoding='utf-8').read()
        new = how(old)
        if new != old:
            open(path, 'w', encoding='utf-8').write(new)


rewrite(files('crates/*/specs/**/*.antt') + files('crates/*/proofs/**/*.antt'), turned)
rewrite(files('crates/*/src/**/*.rt') + files('crates/*/must-fail/*.edit'), outside_strings)
rewrite(files('README.md') + files('docs/*.md'), lambda t: SPAN.sub(lambda m: turned(m[0]), t))
