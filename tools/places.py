#!/usr/bin/env python3
"""Lists the places in src/ where an older form of the language may stand, by point.

    tools/places.py [-v] [ROOT]

counts them per point and pattern; with -v it prints each. Patterns find too much rather than too little: a place found
may be right as it is, and says why in a line beside it."""
import re, sys, collections
from pathlib import Path

verbose = '-v' in sys.argv
args = [a for a in sys.argv[1:] if a != '-v']
root = Path(args[0] if args else '.')
crates = [l.split(':')[0] for l in (root / 'crates.txt').read_text().splitlines() if l and not l.startswith('#')]

# point, what is looked for, pattern
LINES = [
    ('1', 'a way out that is a variant of an own enum', r'Flow::Stuck|Option::Stuck|_ => unreachable\(\)'),
    ('1', 'a change that answers whether it was made', r'fn \w+(<[^>]*>)?\(&mut self[^)]*\) -> bool'),
    ('1', 'a flag as a field', r'^\s+(pub )?\w+: bool,'),
    ('1', 'a number for a kind', r'\b(kind|form|target) (==|!=) \d|\bmatch [\w.\[\]]+\.(kind|form|target) |residual\([^)]*\b[12],|add_row\([^)]*\b[12],'),
    ('1', 'an enum of two variants', None),
    ('3', 'a loop over numbers, or by hand', r'^\s*(for \w+ in [^{]*\.\.|while |loop )'),
    ('4', 'a conversion by hand', r'fn of\(|^\s+1 => Some\('),
    ('4', 'a test by hand', r'=> true,$'),
    ('4', 'sameness or a copy by hand', r'fn same\b|\bname: slot\.name|^\s+\w+: (x|l|slot|handler)\.\w+,$|=> x\.at|at: x\.at'),
    ('4', 'a default by hand', r'Position \{ line: 0, column: 0 \}|\{ start: 0, length: 0 \}'),
    ('4', 'text printed piece by piece', r'fn put_\w+'),
    ('6', 'a length beside a buffer', r'^\s+(pub )?(len|height|count|placed|active|live): usize,'),
    ('7', 'a value that selects what is done', r'^\s*match (sort|form|kind|keyword|any|until|op|call|purpose|target)\b'),
]

def files():
    for c in crates:
        for f in sorted((root / 'crates' / c / 'src').rglob('*.rt')):
            yield c, f

found = collections.OrderedDict()
def add(point, what, where, text):
    found.setdefault((point, what), []).append((where, text))

requires = collections.defaultdict(list)
for c, f in files():
    text = f.read_text()
    name = f.relative_to(root)
    lines = text.splitlines()
    for point, what, pattern in LINES:
        found.setdefault((point, what), [])
        if pattern is None:
            for m in re.finditer(r'enum (\w+)[^{]*\{(.*?)\n\}', text, re.S):
                body = re.sub(r'//.*', '', m.group(2))
                body = re.sub(r'\([^)]*\)|\{[^}]*\}', '', body)
                if len([v for v in body.split(',') if v.strip()]) == 2:
                    add(point, what, f'{name}', m.group(1))
            continue
        for i, line in enumerate(lines, 1):
            if line.lstrip().startswith('//'):
                continue
            if re.search(pattern, line):
                add(point, what, f'{name}:{i}', line.strip())
    for m in re.finditer(r'\bfn (\w+)(<[^(]*>)?\(([^)]*)\)', text, re.S):
        params = [p for p in m.group(3).split(',') if p.strip()]
        if len(params) >= 5:
            add('5', 'a function with five parameters or more', f'{name}', f'{m.group(1)} {len(params)}')
    for m in re.finditer(r'requires (?:\w+ )?\{ (.*) \}', text):
        requires[(c, m.group(1))].append(str(name))
# Twins: functions whose bodies are alike but for names and numbers.
KEYWORDS = set('let mut if else match for in return while loop fn self Self Some None Ok Err as true false'.split())
shapes = collections.defaultdict(list)
for c, f in files():
    text = re.sub(r'//.*', '', f.read_text())
    for m in re.finditer(r'^( *)(?:pub(?:\(crate\))? )?fn (\w+).*?^\1\{\n(.*?)^\1\}', text, re.S | re.M):
        if '#[test]' in text[max(0, m.start() - 20):m.start()]:
            continue
        body = re.sub(r'b?"[^"]*"|b?\'.\'', '"', m.group(3))
        body = re.sub(r'\b(?:\w+::)*(\w+)\b', lambda w: w.group(1) if w.group(1) in KEYWORDS else ('0' if w.group(1)[0].isdigit() else 'x'), body)
        body = re.sub(r'\s+', '', body)
        if len(body) >= 24:
            shapes[body].append((str(f.relative_to(root)), m.group(2)))
found[('2', 'functions of one shape')] = [(w[0][0], ', '.join(n for _, n in w)) for w in shapes.values() if len(w) > 1]
found.setdefault(('5', 'a function with five parameters or more'), [])
found[('5', 'a fact asked for by three functions or more')] = [(c, f'{r} ({len(w)})') for (c, r), w in requires.items() if len(w) >= 3]

for (point, what), places in sorted(found.items()):
    print(f'{point} {what}: {len(places)}')
    if verbose:
        for where, text in places:
            print(f'    {where}: {text}')

def spread(pattern):
    return sum(len(re.findall(pattern, f.read_text(), re.M)) for c in crates for f in (root / 'crates' / c / 'proofs').rglob('*.antt') if f.name in ('Answers.antt', 'Invariants.antt'))
lines = sum(len(f.read_text().splitlines()) for c in crates for f in (root / 'crates' / c / 'proofs').rglob('*.antt'))
print(f'8 answers: {spread(r"^(?:abbrev )?pub [^:]*: goal")}')
print(f'8 lines of proofs/: {lines}')
