#!/usr/bin/env python3
"""Counts the places of the design pass in crates/*/src/*.rt, point by point, and prints each.

    tools/places.py [COMMIT]      at a commit; with none, in the working tree
"""
import collections
import re
import subprocess
import sys

COMMIT = sys.argv[1:2]


def git(*words):
    return subprocess.run(['git', *words], capture_output=True, text=True, check=True).stdout


def sources():
    """Each file of src/ with its lines, without comments, clauses' blanks and `mod tests`."""
    names = git('ls-tree', '-r', '--name-only', COMMIT[0]) if COMMIT else git('ls-files')
    for name in sorted(names.split()):
        if re.fullmatch(r'crates/\w+/src/\w+\.rt', name):
            try:
                text = git('show', f'{COMMIT[0]}:{name}') if COMMIT else open(name).read()
            except FileNotFoundError:
                continue
            yield name.removeprefix('crates/'), re.sub(r'(?m)//.*$', '', text.split('#[cfg(test)]')[0])


FILES = dict(sources())

# One pattern for each kind of place; what a pattern finds is read, and stands in docs/DESIGN-PASS.md as changed or kept.
LINES = {
    '1 a number for a kind or a refusal': r'fn (number|answer)\(self\)|fn of\(number: u8\)|=> write_line\(|\bverb (<|>=) \d|'
                                          r'^ *pub (verb|kind): u8|^const (GIVE|TAKE_BACK|SET|DRAIN|FREEZE|THAW): u8|entry: 0,',
    '1 a flag with a value beside it': r'^ *(pub(\(crate\))? )?\w+: bool,',
    '1 a number or a blank that stands for none': r'^ *(None|\[\]) => (return )?0,|^ *return (0|NOOP|BLANK);|else \{ 0 \}|u8::MAX \}|'
                                                  r'^    bytes\.len\(\)$|^ *return Entry \{|const (NOOP|BLANK|NONE|NOTHING)\b',
    '1 an error passed on or made by hand': r'Err\((_|refusal|fault|broken|\(open, refusal\))\) => (return )?Err\(|Err\(\w+\) => return Err|'
                                            r'None => Err\(|else \{\n *return Err\(|Err\(_\) => Err\(|Some\(fault\) => Err',
    '3 a loop that counts or indexes by hand': r'^ *for \w+ in [\w.()]+\.\.|\+= 1;|\.enumerate\(\)|^ *while (?!let)',
    '3 a loop over a cursor by while let': r'^ *while let',
    '4 a comparison, conversion or text by hand': r'fn same_bytes|String::from_str\(|format!\(in \w+;|const NO_MEMORY|'
                                                  r'u16::MAX as u64|\bas (u8|u16|Serial)[;)]',
    '5 a function that only tells a proof something': r'fn know_widths',
    '6 a buffer or a list with a length beside it': r'^ *(pub(\(crate\))? )?(count|room|length|at): \w+,|-> \(\[u8; 7\], usize\)|'
                                                    r'^ *(pub )?places: &\'a mut \[T\],',
    '7 a switch on a step': r'^ *match (table|job|write|\(job, second\)) \{|enum Table\b|\bdyn |: fn\(',
}


def functions():
    for name, text in FILES.items():
        for found in re.finditer(r'(?ms)^( *)(?:pub(?:\(crate\))? )?(?:const )?fn (\w+)(.*?)^\1\{?\}', text):
            yield name, found.group(2), found.group(3)


def shape(text):
    """A function with its names, types and numbers replaced by their order of first use."""
    seen = {}
    words = re.findall(r'"[^"]*"|\w+|[^\w\s]', text)
    return ' '.join(seen.setdefault(w, f'n{len(seen)}') if re.match(r'\w', w) and w not in KEPT else w for w in words)


KEPT = {'if', 'else', 'for', 'in', 'match', 'return', 'let', 'mut', 'while', 'self', 'Some', 'None', 'Ok', 'Err', 'ensures',
        'requires', 'result', 'now', 'old', 'new'}


def show(title, places):
    print(f'{len(places):4}  {title}')
    for place in places:
        print(f'        {place}')


for title, pattern in LINES.items():
    show(title, [f'{name}: {" ".join(m.group(0).split())}' for name, text in FILES.items()
                 for m in re.finditer(pattern, text, re.M)])

groups = collections.defaultdict(list)
for name, function, text in functions():
    if len(text.split()) > 8:
        groups[shape(text)].append(f'{name} {function}')
show('2 functions of one shape (groups)', [', '.join(g) for g in groups.values() if len(g) > 1])

clauses = collections.defaultdict(list)
for name, function, text in functions():
    for found in re.finditer(r'(?s)requires(?: \w+)? \{(.*?)\}\n', text):
        fact = re.sub(r'\b(old|new|entry)\b', 'now', ' '.join(found.group(1).split()))
        clauses[fact].append(f'{name} {function}')
show('5 a fact that three contracts ask for', [f'{fact}: {len(p)}, {", ".join(p)}' for fact, p in clauses.items() if len(p) > 2])
