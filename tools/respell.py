#!/usr/bin/env python3
"""Respells this repository's own definitions and lemmas: words in snake case, types in camel case.

usage: python3 tools/respell.py [--list]     at the top of the repository, once, after the kit's port.py

A definition, a field of a record of specs/ or a constructor there is a word: `foldPair` and `message-of` become `fold_pair` and
`message_of`. A type loses its dash: `All-elements` becomes `AllElements`. A lemma keeps its dashes where each joins two functions, as
in `elements-take`, and is a word else; so is a variable, and the name that a `use` line gives by `as`. Names that come from src/ stay,
and so do names of Rattle's library. The names are taken from the files themselves; --list prints the table and writes nothing.
"""
import glob
import os
import re
import sys

OWN = [line.split(':')[0].split()[0] for line in open('crates.txt') if line.strip() and not line.startswith('#')]
SRC = [f for c in OWN for f in glob.glob(f'crates/{c}/src/**/*.rt', recursive=True)]
ANTT = [f for c in OWN for part in ('specs', 'proofs') for f in glob.glob(f'crates/{c}/{part}/**/*.antt', recursive=True)]
DEFINED = re.compile(r'^[ \t]*(?:(?P<mark>abbrev|unfoldable)[ \t]+)?(?:pub[ \t]+)?(?:(?P<sort>record|data)[ \t]+)?(?P<name>[^\s:(){}\[\],;.=]+)[ \t]+(?:[({][^=\n]*[)}][ \t]+)?:(?=\s)', re.M)
TOKEN = re.compile(r"[^\s(){}\[\],;.`«»]+")
# `verdict_of` would fall together with `verdictOf`, and `last_of` with a word of `station`; `claim_size` and `round_size` are fields
# in src/, and `message_call` and `draw_call` functions there
CHOSEN = {'verdict-of': 'verdict_told', 'last-of': 'last_pair_to', 'Goes_on': 'GoesOn', 'claimSize': 'size_of_claim', 'roundSize': 'size_of_round'}
CHOSEN |= {'message-call': 'ledger_message', 'draw-call': 'ledger_draw'}
# functions that lemmas of this repository are named after: of the library, of mathematics, and its own
FUNCTIONS = {'length', 'take', 'drop', 'map', 'reverse', 'append', 'set', 'nil', 'elements', 'entries', 'fold', 'pairs_in'}
FUNCTIONS |= {'pow', 'mod', 'mul', 'prod', 'dot', 'inv', 'op', 'one', 'unit'}
VARIABLE = re.compile(r"(?:[({](?=[\w' -]+ :)|λ (?=[\w' -]+\.)|let (?=[\w'-]+ [:=]))([\w' -]+)")


def snake(name):
    name = re.sub(r'(?<=[a-z0-9])([A-Z])', lambda m: '_' + m.group(1).lower(), name)
    return name.replace('-', '_')


def camel(name):
    return ''.join(part[:1].upper() + part[1:] for part in re.split(r'[-_]', name))


def library_names():
    names = set()
    for f in ANTT + SRC:
        for m in re.finditer(r'^\s*(?:ghost )?use ([^\s{;]+?)(?:\.\{([^}]*)\})?(?: as [^;\s]+)?;?$', open(f).read(), re.M):
            path = m.group(1)
            if re.match(r'Rattle\.(%s)\.' % '|'.join(OWN), path):
                continue
            for item in (m.group(2) or '').split(','):
                names.add(item.split(' as ')[0].strip())
    return names


def source_names():
    names = set()
    for f in SRC:
        text = '\n'.join(l for l in open(f).read().split('\n') if not re.match(r'\s*(//|ghost |requires|ensures)', l))
        names |= set(re.findall(r'[A-Za-z_][A-Za-z0-9_]*', text))
    return names


def goals(path):
    return os.path.basename(path) in ('Answers.antt', 'Invariants.antt')


def table():
    library = library_names()
    found = {}
    for f in ANTT:
        text = open(f).read()
        # what a function of src/ owes is named by Rattle
        owed = set(re.findall(r'^(?:abbrev )?pub (\S+) : goal\.', text, re.M)) if goals(f) else set()
        for m in DEFINED.finditer(text):
            name = m.group('name')
            if name in owed or name in library or not re.match(r"^[A-Za-z][A-Za-z0-9_'-]*$", name):
                continue
            kind = m.group('sort') or m.group('mark') or ('field' if '/specs/' in f else 'lemma')
            if name[0].isupper():
                kind = 'type'
            found.setdefault(name, set()).add(kind)
        for m in VARIABLE.finditer(text):
            for name in m.group(1).split():
                if re.match(r'^[a-z][a-z0-9_]*(-[a-z0-9_]+)+$', name) and name not in owed and name not in library:
                    found.setdefault(name, set()).add('variable')
    for f in ANTT + SRC:
        for name in re.findall(r' as ([a-z][a-z0-9_]*(?:-[a-z0-9_]+)+)[,};]', open(f).read()):
            found.setdefault(name, set()).add('variable')
    respelled = {}
    for name, kinds in sorted(found.items()):
        if 'type' in kinds or kinds & {'record', 'data'}:
            new = camel(name) if '-' in name or '_' in name else name
        elif kinds == {'lemma'} or (kinds == {'field'} and '-' in name):
            parts = name.split('-')
            joined = len(parts) > 1 and all(snake(p) in FUNCTIONS for p in parts) and kinds == {'lemma'}
            new = '-'.join(snake(p) for p in parts) if joined else snake(name)
        else:
            new = snake(name)
        new = CHOSEN.get(name, new)
        if new != name:
            respelled[name] = new
    return respelled, found, library


def main():
    respelled, found, library = table()
    words = source_names()
    used = set()
    for f in ANTT:
        for line in open(f):
            if not re.match(r'\s*use ', line):
                used |= set(TOKEN.findall(line))
    taken = {}
    for old, new in respelled.items():
        taken.setdefault(new, []).append(old)
    for new, olds in sorted(taken.items()):
        if len(olds) > 1 or new in found or new in library:
            print('together:', new, olds, 'defined' if new in found else '', 'library' if new in library else '')
        if new in words:
            print('source:', new, olds)
        if new in used and new not in found:
            print('used:', new, olds)
    if '--list' in sys.argv:
        for old, new in respelled.items():
            print(old, new)
        return
    turn = lambda text: TOKEN.sub(lambda m: respelled.get(m.group(0), m.group(0)), text)
    for f in ANTT:
        text = open(f).read()
        out = turn(text)
        if out != text:
            open(f, 'w').write(out)
    for f in SRC:
        text = open(f).read()
        out = '\n'.join(turn(l) if re.match(r'\s*(ghost |requires|ensures)', l) else l for l in text.split('\n'))
        if out != text:
            open(f, 'w').write(out)
    for f in glob.glob('crates/*/must-fail/*.edit'):
        text = open(f).read()
        lines = text.split('\n')
        antt = lines[0].strip().endswith('.antt')
        out = '\n'.join(turn(l) if antt or re.search(r'[≡≤→λ]', l) else l for l in lines)
        if out != text:
            open(f, 'w').write(out)
    for f in ['README.md'] + glob.glob('docs/*.md'):
        text = open(f).read()
        out = re.sub(r'`[^`\n]+`', lambda m: turn(m.group(0)), text)
        if out != text:
            open(f, 'w').write(out)


main()
