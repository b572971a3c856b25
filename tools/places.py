#!/usr/bin/env python3
"""The places of docs/DESIGN-PASS.md in src/: `tools/places.py [COMMIT]` prints them, point by point, for a commit or for the files as they are.

A line that is printed is a place to read, not a verdict. `tools/places.py --other [COMMIT]` counts in another way: by the functions' bodies."""
import difflib
import re
import subprocess
import sys
from pathlib import Path

TOP = Path(__file__).resolve().parent.parent
C_CRATES = {'digest_c', 'keeper', 'stored_c', 'letter_c', 'parts_c', 'passage_c'}

# a point, what is looked for, and the pattern of a line
LINES = [
    ('1', 'an own enum', r'^(pub(\(crate\))? )?enum '),
    ('1', 'a number or a flag in a struct or among the parameters', r'^    (pub(\(crate\))? )?(number: u32|(apart|broken|below|fits): u(8|32)),?$'),
    ('1', 'a number for a kind among the parameters', r'^(pub(\(crate\))? )?fn .*\b(kind|keyed|of): u32'),
    ('3', 'a loop that counts by hand', r'^ *while '),
    ('3', 'a loop over numbers', r'^ *for \w+ in .*\.\.'),
    ('4', 'a derive that is only a drop', r'^#\[derive\(Drop\)\]'),
    ('6', 'an array with a length beside, or parallel arrays', r'^    (pub )?\w+: \[\w+; (8192|1024|256|240|64)\],'),
]


def sources(commit):
    """Path and text of each source file."""
    if commit is None:
        for path in sorted((TOP / 'crates').glob('*/src/*.rt')):
            yield str(path.relative_to(TOP)), path.read_text()
        return
    names = subprocess.run(['git', '-C', TOP, 'ls-tree', '-r', '--name-only', commit, 'crates'], check=True, capture_output=True, text=True).stdout.split()
    for name in names:
        if re.fullmatch(r'crates/\w+/src/\w+\.rt', name):
            yield name, subprocess.run(['git', '-C', TOP, 'show', f'{commit}:{name}'], check=True, capture_output=True, text=True).stdout


def functions(text):
    """Signature, clauses and body of each function, by lines."""
    lines = text.split('\n')
    for start, line in enumerate(lines):
        if re.match(r'(pub(\(crate\))? )?(extern "C" )?fn ', line):
            end = next(i for i in range(start, len(lines)) if lines[i] == '}' or lines[i].endswith('{}'))
            yield re.search(r'fn (\w+)', line).group(1), '\n'.join(lines[start:end + 1])


def parted(text):
    """A function's head, up to the body's brace, and its body."""
    at = text.find('\n{\n')
    at = at if at >= 0 else text.find(' {\n')
    return text[:at], text[at:]


def by_lines(files):
    total = {}
    for path, text in files:
        for number, line in enumerate(text.split('\n'), 1):
            for point, what, pattern in LINES:
                if re.search(pattern, line):
                    total[point, what] = total.get((point, what), 0) + 1
                    print(f'{point} {what}: {path}:{number}: {line.strip()}')
        crate = path.split('/')[1]
        for name, whole in functions(text):
            head, _ = parted(whole)
            if crate not in C_CRATES and re.search(r'-> u(8|32|64)\b', head) and re.search(
                    r'first_number|judged|differ |broken|either|finding_number|foresight|put_outcome|\.number|Ample|or_else', head):
                what = 'a function that answers a number for a refusal, a kind or a flag'
                total['1', what] = total.get(('1', what), 0) + 1
                print(f'1 {what}: {path}: {name}')
    return total


def tokens(text):
    return re.findall(r'\w+|[^\w\s]', text)


def twins(files):
    """Pairs of functions whose bodies are nearly the same text."""
    bodies = []
    for path, text in files:
        for name, whole in functions(text):
            _, body = parted(whole)
            words = tokens(body)
            if len(words) >= 18:
                bodies.append((path, name, words))
    count = 0
    group = {}
    for i, (path, name, words) in enumerate(bodies):
        for other_path, other, others in bodies[i + 1:]:
            if min(len(words), len(others)) * 1.25 < max(len(words), len(others)):
                continue
            alike = difflib.SequenceMatcher(None, words, others, autojunk=False)
            if alike.real_quick_ratio() > 0.86 and alike.quick_ratio() > 0.86 and alike.ratio() > 0.86:
                count += 1
                print(f'2 nearly one text: {path}: {name}, {other_path}: {other}')
                one, two = (group.setdefault(key, {key}) for key in ((path, name), (other_path, other)))
                if one is not two:
                    one |= two
                    group.update((key, one) for key in two)
    groups = len({id(members) for members in group.values()})
    return {('2', 'two functions of nearly one text'): count, ('2', 'functions of nearly one text, in groups'): groups}


def travelling(files):
    """Two parameters that stand in three functions or more, and in these alone: wherever one is, the other is."""
    where = {}
    for path, text in files:
        for name, whole in functions(text):
            head, _ = parted(whole)
            inside = head[head.find('(') + 1:]
            for parameter, kind in re.findall(r'(\w+): ([^,()]+?)(?=,|\)|\n)', inside.split('\n    requires')[0].split('\n    ensures')[0]):
                where.setdefault(f'{parameter}: {kind.strip()}', set()).add(f'{path}: {name}')
    count = 0
    names = sorted(where)
    for i, one in enumerate(names):
        for two in names[i + 1:]:
            if len(where[one]) >= 3 and where[one] == where[two]:
                count += 1
                print(f'5 {one}, {two}: {len(where[one])} functions')
    return {('5', 'two parameters that stand in three functions or more, and in these alone'): count}


def by_bodies(files):
    """The other way: tests against 0, indexes that are added to, refusals by number, each in a body."""
    total = {}
    kinds = [('1', 'a test of a number or flag against 0', r'\bif \w+(\.\w+)*(\([^)]*\))? (!=|==) 0 \{'),
             ('1', 'a value with the number of a refusal', r'\bnumber(: \d+)?,|\bnumber: \w'),
             ('3', 'an index that is added to', r'\b(i|j|k|at|n) (\+=|-=) 1;|\b(at|k|i) = (at|k|i) [+-] 1;')]
    for path, text in files:
        if path.split('/')[1] in C_CRATES:
            continue
        for name, whole in functions(text):
            _, body = parted(whole)
            for point, what, pattern in kinds:
                found = len(re.findall(pattern, body))
                if found:
                    total[point, what] = total.get((point, what), 0) + found
                    print(f'{point} {what}: {path}: {name}: {found}')
    return total


def main():
    arguments = sys.argv[1:]
    other = '--other' in arguments
    commit = next((a for a in arguments if a != '--other'), None)
    files = list(sources(commit))
    if other:
        total = by_bodies(files)
    else:
        total = by_lines(files)
        total.update(twins(files))
        total.update(travelling(files))
    for (point, what), count in sorted(total.items()):
        print(f'point {point}: {what}: {count}')


main()
