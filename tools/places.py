#!/usr/bin/env python3
"""Counts the places in crates/*/src/ that an older Rattle left, by the points of docs/DESIGN-PASS.md.

usage: python3 tools/places.py [-l] [FOLDER]     FOLDER is a checkout, by default this one; -l lists the places too

Points 1, 3, 4, 6 and 7 go by the text of a line or of two that follow one another; point 2 by functions and types of one
shape (names and numbers taken out); point 5 by clauses and groups of parameters that stand in three functions or more;
point 8 counts answers, lemmas and lines of proofs/. What it finds is a place to look at, not always one to change.
"""
import collections
import pathlib
import re
import sys

LISTED = '-l' in sys.argv
ROOT = pathlib.Path(next((a for a in sys.argv[1:] if a != '-l'), '.'))

BY_TEXT = {
    '1a a bool that says whether a call worked': r'fn \w+\(&mut self[^{;]*-> bool|fn \w+\([^{;]*: &mut [^{;]*-> bool',
    '1b None, Ok, Err or false passed on by hand': r'else \{\s*return None;|None => (None|false|0),|Ok\((\(\)|\w+)\) => Ok\((\(\)|\w+)\)|Err\(_\) => None',
    '1c a test turned into an Option by hand': r'\{\s*Some\([\w.\[\] -]+\)\s*\} else \{\s*None\s*\}',
    '1d a number in the place of a kind': r'\bkind: u16|fn numbered\(|fn number\(|fn code\(|Option<Cell>',
    '1e a flag beside a value': r'^\s*(pub(\(crate\))? )?\w+: bool,',
    '1f a result that says nothing': r'-> u8\n(    ensures [^\n]*\n)+\{\n    0\n\}',
    '1g an enum of two cases, one of them empty': r'enum \w+ \{\n(?: *//[^\n]*\n)* +\w+,\n(?: *//[^\n]*\n)* +\w+(?: \{[^}]*\}|\([^)]*\)),\n\}|enum \w+ \{\n(?: *//[^\n]*\n)* +\w+(?: \{[^}]*\}|\([^)]*\)),\n(?: *//[^\n]*\n)* +\w+,\n\}',
    '3a while': r'^ *(while |loop )',
    '3b an index that counts up in a range': r"for [a-z]\w* in 0\.\.",
    '3c a counter or a place moved on by hand': r'^\s*\w+ (\+= [1-9]\w*|\+= row_width[^;]*|/= 2|= \w+\.saturating_add\(1\));',
    '3d a search or a test of all by a loop': r'for [^\n]*\{\n\s*(if|let)[^}]*(return (false|Some|true|key)|continue \')',
    '3e elements written one by one': r'\w+\[[\w +]+\] = ',
    '4a Copy, Clone or a comparison by hand': r'impl<?[^\n]*\b(Copy|Clone|PartialEq|Eq|PartialOrd|Ord) for|fn same_\w+',
    '4b a conversion by hand': r'fn number\(|fn numbered\(|fn code\(|Some\((\w+)\) => Some\(\1 as|Err\(\w+\) => Err\(\w*[:!(]|fn number_of|fn (narrowed|widened)\(',
    '4c printing by hand': r"fn \w*(_text|_line|_meaning)\(|-> &'static str|fn push_padded",
    '4d a public enum that derives no comparison': r'#\[derive\(Clone, Copy\)\]\npub enum',
    '6a a buffer with a length beside it': r'items: \[T; N\],|truncate\(|\w+: &(mut )?\[WorkCell\],\s*(kept|tuples|count): usize',
    '6b parallel arrays': r'^\s*(pub )?\w+: \[(usize|Region); 4\],',
    '7 a switch over functions': r'=> \{?\s*group::<|=> (copy|export|import)\(',
}
WORDS = re.compile(r"[A-Za-z_]\w*|\d\w*")
KEPT = {'fn', 'let', 'mut', 'match', 'if', 'else', 'for', 'in', 'while', 'return', 'Some', 'None', 'Ok', 'Err', 'self', 'Self', 'true', 'false', 'struct', 'const'}


def sources():
    for p in sorted(ROOT.glob('crates/*/src/**/*.rt')):
        yield p, p.read_text()


def line_of(text, at):
    return text.count('\n', 0, at) + 1


def items(text):
    """each fn, struct and const, from its first line to the line that closes it"""
    for m in re.finditer(r'^( *)(?:pub(?:\(crate\))? )?(fn|struct|const) (\w+)[^\n]*(?:\n(?:\1 [^\n]*|\1\)[^\n]*|\1\{[^\n]*|))*\n?\1\}?;?$', text, re.M):
        yield m[2], m[3], m.start(), m[0]


def body(kind, whole):
    """what the item does: without clauses, comments and its head's name"""
    lines = [l for l in whole.split('\n') if not re.match(r'\s*(//|requires|ensures|ghost)', l)]
    return '\n'.join(lines)


def shape(text):
    return ' '.join(WORDS.sub(lambda m: m[0] if m[0] in KEPT else '_', text).split())


def twins():
    seen = collections.defaultdict(list)
    for p, text in sources():
        if 'tests' in p.name:
            continue
        for kind, name, at, whole in items(text):
            s = shape(body(kind, whole))
            if len(s) > (60 if kind == 'fn' else 30):
                seen[s].append((p, line_of(text, at), name))
    return [places for places in seen.values() if len(places) > 1]


def clauses():
    seen = collections.defaultdict(set)
    for p, text in sources():
        for kind, name, at, whole in items(text):
            for c in re.findall(r'^\s*requires(?: \w+)? \{ (.*) \}$', whole, re.M):
                c = re.sub(r'\b\w+\.(now|old)\b', '_', c)
                seen[c].add((p, line_of(text, at), name))
    return {c: v for c, v in seen.items() if len(v) > 2}


def together():
    seen = collections.defaultdict(set)
    for p, text in sources():
        for kind, name, at, whole in items(text):
            if kind != 'fn':
                continue
            head = re.search(r'\(([^{]*?)\)', whole, re.S)
            names = [n for n in re.findall(r'(\w+): (?:&|usize|u8)', head[1])] if head else []
            for i in range(len(names)):
                for j in range(i + 3, len(names) + 1):
                    seen[tuple(names[i:j])].add((p, line_of(text, at), name))
    groups = {g: v for g, v in seen.items() if len(v) > 2}
    return {g: v for g, v in groups.items() if not any(set(g) < set(h) and v <= w for h, w in groups.items())}


def tell(point, places):
    print(f'{len(places):5}  {point}')
    if LISTED:
        for p, line, what in sorted(places):
            print(f'         {p.relative_to(ROOT)}:{line}  {what}')


def main():
    for point, pattern in BY_TEXT.items():
        found = []
        for p, text in sources():
            for m in re.finditer(pattern, text, re.M):
                found.append((p, line_of(text, m.start()), ' '.join(m[0].split())[:90]))
        tell(point, found)
    groups = twins()
    tell('2 functions and types of one shape (in %d groups)' % len(groups), [x for g in groups for x in g])
    for c, v in sorted(clauses().items()):
        tell('5 requires ' + c, list(v))
    for g, v in sorted(together().items()):
        tell('5 parameters ' + ', '.join(g), list(v))
    answers = lemmas = lines = 0
    for p in ROOT.glob('crates/*/proofs/**/*.antt'):
        text = p.read_text()
        lines += text.count('\n')
        answers += len(re.findall(r'^pub [^\s:]+ : goal\.', text, re.M))
        if p.name not in ('Answers.antt', 'Invariants.antt'):
            lemmas += len(re.findall(r'^ *(?:pub )?[^\s:|(]+ : \(', text, re.M))
    print(f'{answers:5}  8 answers\n{lemmas:5}  8 lemmas\n{lines:5}  8 lines of proofs/')


main()
