#!/usr/bin/env python3
"""Brings the repository's own definitions and lemmas to the spelling of today's Rattle, after the toolchain's port script:
names in snake case, where they were in lower camel case or had dashes. Run once, at the top of the repository.

A definition in camel case goes first. A dashed name that would fall together with another name gets `_lem` at its end.
Names of the library, names that the prover makes, and the names of src/ stay. With --map the pairs are printed and
nothing is written; with --text FILE.. the files given are rewritten too, in whole words."""

import collections
import os
import re
import sys

ROOT = os.path.dirname(os.path.dirname(os.path.abspath(__file__)))
CRATES = os.path.join(ROOT, 'crates')
WORD = re.compile(r"(?<![\w'\-₀-₉])[A-Za-zα-ωℕℤ_][\w'₀-₉⁻¹]*(?:-[\w'₀-₉⁻¹+*]+)*")
DECLARED = re.compile(r"^\s*(?:(?:abbrev|unfoldable|pub|data|record|let)\s+)*([A-Za-z_][\w'\-₀-₉]*(?:\s+[A-Za-z_][\w'\-₀-₉]*)*)\s*:(?!=)")
USE = re.compile(r'\s*(?:ghost )?(?:pub )?use ([^\s{;]+?)(?:\.\{(.*)\})?(?: as .*)?;?\s*$')
# Lemmas and fields whose names a definition takes now: they get `_lem`, where they are no part of a path.
GIVE_WAY = ('goes_on', 'has_room', 'nothing_line', 'read_back', 'run_end', 'too_long')
# Of these no function of src/ has the name, so that a word behind a dot is the lemma too.
NO_PATH = ('goes_on', 'nothing_line', 'read_back')
# What the prover makes, in a proof that walks the code: the places of `c`.
MADE = re.compile(r"(decreases-|invariant-|returns-\d|enum-told|loop-|overflow_|in_|if-|then-|else-|callee-def|callee-thm)")


def odd(name):
    return name[0].islower() and bool(re.search(r'[A-Z]|-', name))


def snake(name):
    return re.sub(r'(?<=[a-z0-9])([A-Z])', r'_\1', name).replace('-', '_').lower()


def files(*ends):
    for folder, folders, names in os.walk(CRATES):
        folders[:] = sorted(f for f in folders if f not in ('out', 'must-fail'))
        for name in sorted(names):
            if name.endswith(ends):
                yield os.path.join(folder, name)


def names():
    """The names that the crates declare, those that they take from libraries, and which file has which words."""
    crates = set(os.listdir(CRATES))
    own, library, words = set(), set(), {}
    for path in files('.antt', '.rt'):
        text = open(path, encoding='utf-8').read()
        # a word behind a dot is a part of a path or a field: it hides nothing
        bare = re.sub(r'--(?=\s|-|$).*', '', text) if path.endswith('.antt') else text
        words[path] = {m.group(0) for m in WORD.finditer(bare) if bare[m.start() - 1:m.start()] != '.' or odd(m.group(0))}
        if path.endswith('.rt'):
            continue
        for line in text.split('\n'):
            line = re.sub(r'--(?=\s|-|$).*', '', line)
            use = USE.match(line)
            if use:
                parts = use.group(1).split('.')
                taken = [n.strip().split(' as ')[0] for n in (use.group(2) or '').split(',') if n.strip()]
                if parts[0] == 'Rattle' and len(parts) > 1 and parts[1] in crates:
                    own.update(taken)
                else:
                    library.update(taken)
                continue
            declared = DECLARED.match(line)
            if declared:
                own.update(declared.group(1).split())
    return own, library, words


def pairs():
    own, library, words = names()
    every = set().union(*words.values())
    local = {w for p, ws in words.items() if not p.endswith('Proof.antt') for w in ws if p.endswith('.antt')}
    turned = sorted(w for w in (own | local) if odd(w) and w not in library and not MADE.match(w))
    to = {}
    assert all(name in own for name in GIVE_WAY)
    for path in words:
        words[path] = {w for w in words[path] if w not in GIVE_WAY}
    taken = collections.defaultdict(set)  # a new name, and the files that have it
    for path, ws in words.items():
        for w in ws:
            taken[w].add(path)
    for name in sorted(turned, key=lambda w: ('-' in w, w)):
        new = snake(name)
        here = {p for p, ws in words.items() if name in ws}
        clash = new in library or any(p.endswith('.antt') and p in here for p in taken[new])
        if '-' in name:
            clash = clash or new in to.values()
        if clash:
            new += '_lem'
        assert new not in to.values() or '-' in name, (name, new)
        to[name] = new
        taken[new] |= here
    return to


def turn(text, to, proof):
    def word(m):
        name, dotted = m.group(0), text[m.start() - 1:m.start()] == '.'
        if proof and name in GIVE_WAY and (not dotted or name in NO_PATH):
            return name + '_lem'
        return to.get(name, name)

    return WORD.sub(word, text)


def main(words):
    to = pairs()
    if '--map' in words:
        print('\n'.join(f'{a} {b}' for a, b in to.items()))
        return
    more = words[words.index('--text') + 1:] if '--text' in words else []
    for path in [*files('.antt', '.rt'), *more]:
        text = open(path, encoding='utf-8').read()
        new = turn(text, to, path.endswith('.antt'))
        if new != text:
            with open(path, 'w', encoding='utf-8') as file:
                file.write(new)


main(sys.argv[1:])
