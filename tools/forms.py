#!/usr/bin/env python3
"""Lists the places of src/ that have one of the older forms that docs/DESIGN-PASS.md speaks of.

    python3 tools/forms.py COMMIT [KIND ..]

It reads the files of COMMIT, not the working tree, and prints for each kind, numbered as on that page, its places and their number. A place is
where to look: whether it stays, and why, is said beside it.
"""
import re
import subprocess
import sys

# kind: (what it is, a line's pattern)
LINES = {
    '1': [
        ('a flag beside a buffer that is written', r'&mut .*-> bool'),
        ('a flag with a value beside it', r'\(bool, \w+\)'),
        ('no word, as two ends that are the same', r'\b(start|begin) == \w|rest\.start =='),
        ('an error handed on by hand', r'Err\(\w+\) =>.*Err\(|if let Err\('),
        ('an Option taken apart to make another or a test', r'None => (None|false)\b|Some\(_\) => Some'),
        ('a number for a refusal', r'\) -> Option<u8>'),
    ],
    '2': [
        ('one function for each size or type', r'fn pick[0-9]|struct Finite[0-9]|impl Scalar for f'),
        ('one loop for each operation', r'ys\[i\] = ys\[i\]'),
        ('one test for each crate', r'fn (holds|is_filled|fills)\b'),
        ('one constant for each type of faults', r'Some\(_\) => Some\('),
    ],
    '3': [('a counted loop', r'^ *(while|loop)\b|for \w+ in .*\.\.')],
    '4': [
        ('an impl of a trait of std', r'impl.* (From|TryFrom|Into|fmt::Display|PartialEq|Eq|PartialOrd|Ord|Clone|Copy|Debug|Hash|Default)(<.*>)? for '),
        ('a test of order or equality', r'fn (before|equals|at_most|is_before|is_equal|compare)\b'),
        ('a conversion', r'fn (time\(self|value\(t:|whole\(n:|integer\b|column\()'),
    ],
    '6': [
        ('rows in one flat list', r'\bVec<i64>|^\s*width: usize|7 \* k|2 \* k|chunks\('),
        ('a list with its length beside it', r'count: usize'),
    ],
    '7': [('a switch on a kind', r'match \(?(self\.)?(mode|op|wrt|by|outputs)\b')],
}


def run(*words):
    return subprocess.run(words, check=True, capture_output=True, text=True).stdout


def sources(commit):
    for path in run('git', 'ls-tree', '-r', '--name-only', commit).split():
        if re.fullmatch(r'crates/[^/]+/src/.*\.rt', path):
            yield path, run('git', 'show', f'{commit}:{path}')


def by_line(files, pattern):
    for path, text in files:
        for number, line in enumerate(text.splitlines(), 1):
            if not line.lstrip().startswith('//') and re.search(pattern, line):
                yield f'{path}:{number}: {line.strip()}'


def many_parameters(files):
    for path, text in files:
        for found in re.finditer(r'fn (\w+)(?:<[^(]*>)?\(([^)]*)\)', text):
            parameters = [p for p in found[2].split(',') if p.strip()]
            if len(parameters) >= 7:
                yield f'{path}: {found[1]}: {len(parameters)} parameters'


def repeated_facts(files):
    facts = {}
    for path, text in files:
        for clause in re.finditer(r'requires (?:\w+ )?\{(.*)\}', text):
            for fact in clause[1].split(' × '):
                plain = re.sub(r'length \w+\.\w+', 'length _', re.sub(r'[()]', '', fact).strip())
                facts.setdefault(plain, []).append(path)
    for fact, paths in sorted(facts.items(), key=lambda pair: -len(pair[1])):
        if len(paths) >= 3:
            yield f'{len(paths)} times: {fact}'


def show(title, places):
    places = list(places)
    print(f'  {title}: {len(places)}')
    for place in places:
        print(f'    {place}')


def main():
    commit, *kinds = sys.argv[1:]
    files = list(sources(commit))
    for kind in kinds or ['1', '2', '3', '4', '5', '6', '7']:
        print(f'kind {kind}')
        for title, pattern in LINES.get(kind, []):
            show(title, by_line(files, pattern))
        if kind == '5':
            show('seven parameters and more', many_parameters(files))
            show('a fact that three requires clauses ask or more', repeated_facts(files))


main()
