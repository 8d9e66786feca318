#!/usr/bin/env python3
"""Brings the names of definitions and lemmas to today's spelling: words in snake case, types in camel case.

usage: python3 tools/respell.py      once, at the top of the repository, right after port.py

A dash stays where it joins two names in a lemma's name, as in length-restricts. Goals' and invariants' names, which the
checker makes, are left alone, and so are functions of src/, strings, inputs and outputs. It prints each place where two
names would fall together, and then changes nothing.
"""
import pathlib
import re
import sys

TYPES = {
    'Bounded-shape': 'BoundedShape', 'Few-steps': 'FewSteps', 'Flat-is-nested': 'FlatIsNested',
    'If-refused': 'IfRefused', 'Same-apart': 'SameApart', 'Written-once': 'WrittenOnce',
}
# std's words that a lemma may speak of beside a definition of ours
WORDS = {'length', 'map', 'take', 'drop', 'append', 'fold', 'filter', 'set', 'replicate', 'values', 'push'}
DECLARED = re.compile(r"^\s*(?:(?:abbrev|unfoldable|pattern) )*(?:pub )?(?:abbrev )?(record |data )?([^\s:(){}]+)((?: \(| \{)[^\n]*?)? :(?: |$)")
TOKEN = re.compile(r"[\w'₀-₉′+·◌-]+")
MADE = ('Answers.antt', 'Invariants.antt', 'Choices.antt', 'Proof.antt')
PATH = re.compile(r'^use [^{\s]+', re.M)
STRING = re.compile(r'"(?:\\.|[^"\\])*"')


def files(suffix):
    return sorted(p for p in pathlib.Path('crates').rglob('*' + suffix) if 'out' not in p.parts)


def declared():
    """Each declared name that holds a dash, with whether a file of specs/ declares it; and every name of specs/."""
    dashed, specs = {}, set()
    for p in files('.antt'):
        for line in p.read_text().split('\n'):
            m = DECLARED.match(line)
            if not m or line.lstrip().startswith('--'):
                continue
            if 'goal.' in line or 'given.' in line:
                continue
            name = m[2]
            if 'specs' in p.parts and line.startswith(('abbrev pub ', 'unfoldable pub ')):
                specs.add(name)
            if '-' in name and not name.startswith('-'):
                dashed[name] = dashed.get(name, False) or 'specs' in p.parts
    return dashed, specs


def snake(name):
    return name.replace('getD', 'get_or').replace('-', '_')


def spelled(name, of_specs, words):
    if name in TYPES:
        return TYPES[name]
    if of_specs:
        return snake(name)
    parts = name.split('-')
    for k in range(1, len(parts)):
        left, right = snake('-'.join(parts[:k])), snake('-'.join(parts[k:]))
        if left in words and right in words:
            return left + '-' + right
    return snake(name)


def main():
    dashed, specs = declared()
    words = WORDS | {snake(n) for n in specs if not n[0].isupper()}
    to = {n: spelled(n, of_specs, words) for n, of_specs in dashed.items()}
    to = {n: t for n, t in to.items() if n != t}
    bad = []
    texts = {}
    for p in files('.antt') + files('.rt'):
        text = p.read_text()
        tokens = set(TOKEN.findall(PATH.sub('', text)))
        for n in tokens & set(to):
            if to[n] in tokens and p.suffix == '.antt':
                bad.append(f'{p}: {n} and {to[n]} fall together')
        if len({to[n] for n in tokens & set(to)}) != len(tokens & set(to)):
            bad.append(f'{p}: two names fall together')
        if p.suffix == '.rt':
            kept = [m.span() for m in STRING.finditer(text)]
            inside = lambda at: any(a <= at < b for a, b in kept)
        else:
            inside = lambda at: False
        texts[p] = TOKEN.sub(lambda m: m[0] if inside(m.start()) else to.get(m[0], m[0]), text)
    for p in [pathlib.Path('README.md'), *sorted(pathlib.Path('docs').glob('*.md'))]:
        if p.name.startswith('PORT'):
            continue
        texts[p] = re.sub(r'`([^`\n]+)`', lambda m: '`' + to.get(m[1], snake(m[1]) if snake(m[1]) in specs else m[1]) + '`', p.read_text())
    if bad and '--anyway' not in sys.argv:
        print('\n'.join(bad))
        raise SystemExit(1)
    for p, text in texts.items():
        if text != p.read_text():
            p.write_text(text)
    print(f'{len(to)} names')


if __name__ == '__main__':
    main()
