#!/usr/bin/env python3
"""Prints the places that docs/DESIGN-PASS.md counts, point by point: tools/places.py [FOLDER] [POINT]

FOLDER is a checkout (this one if left out), POINT a number from 1 to 7. A line is a place to look at, and no verdict.
"""
import re
import sys
from collections import defaultdict
from pathlib import Path


def main():
    args = sys.argv[1:]
    points = [int(a) for a in args if a.isdigit()] or list(range(1, 8))
    folder = Path(next((a for a in args if not a.isdigit()), '.'))
    files = sorted(folder.glob('crates/*/src/**/*.rt'))
    sources = {f.relative_to(folder / 'crates').as_posix(): f.read_text() for f in files}
    for point in points:
        places = FINDERS[point](sources)
        print(f'point {point}: {len(places)}')
        for place in places:
            print('  ' + place)


def lines_that(sources, pattern, but=None):
    found = []
    for name, text in sources.items():
        for number, line in enumerate(text.split('\n'), 1):
            bare = line.split('//')[0]
            if re.search(pattern, bare) and not (but and re.search(but, bare)):
                found.append(f'{name}:{number}: {line.strip()}')
    return found


def functions(text):
    """Each function's name, parameters, clauses and result."""
    for m in re.finditer(r'\n[ ]*(?:pub(?:\(crate\))? )?(?:extern "C" )?fn (\w+)(?:<[^(]*>)?\(', text):
        depth, i = 1, m.end()
        while depth:
            depth += {'(': 1, ')': -1}.get(text[i], 0)
            i += 1
        params = [p.strip() for p in re.split(r',(?![^<\[(]*[>\])])', text[m.end():i - 1]) if p.strip()]
        rest = text[i:]
        clauses = []
        for line in rest.split('\n')[1:]:
            clause = re.match(r'\s*(?:requires|ensures)\*?(?: \w+)? \{ (.*) \}', line)
            if not clause:
                break
            clauses.append(clause.group(1))
        result = re.match(r'\s*->\s*([^\n{;]+)', rest)
        yield m.group(1), params, clauses, result.group(1).strip() if result else ''


# Enums of our own; a function that changes something and answers a bool; a number for a kind or a refusal.
def enums_flags_numbers(sources):
    found = lines_that(sources, r'^\s*(pub )?enum ')
    for name, text in sources.items():
        for function, params, _, result in functions(text):
            if '&mut' in ' '.join(params) and 'bool' in result:
                found.append(f'{name}: {function} changes something and answers {result}')
    return found + lines_that(sources, r'\.number\(\)|fn (from_)?number|kind: u8|=> \d+,|^const NO_|^pub const EVERYONE')


# Functions whose bodies have one shape, that is differ in names, numbers and types alone.
def twins(sources):
    shapes = defaultdict(list)
    for name, text in sources.items():
        for m in re.finditer(r'fn (\w+)(?:<[^(]*>)?\([^{]*?\n?\s*(?:(?:requires|ensures)[^\n]*\n\s*)*\{\n(.*?)\n *\}\n', text, re.S):
            body = re.sub(r'\b\w+\b', lambda w: w.group(0) if w.group(0) in KEEP else 'x', m.group(2))
            if body.strip():
                shapes[re.sub(r'\s+', ' ', body)].append(f'{name} {m.group(1)}')
    return [' ~ '.join(places) for places in shapes.values() if len(places) > 1]


KEEP = {'if', 'else', 'for', 'in', 'match', 'return', 'let', 'mut', 'self', 'Some', 'None', 'Ok', 'Err'}


def loops(sources):
    return lines_that(sources, r'\bfor .*\.\.|\bwhile\b|\bloop\b|\bfor .* in \w+ \{')


# Traits of std written by hand; functions named as conversions; values of zeros.
def by_hand(sources):
    return (lines_that(sources, r'^\s*impl(<[^>]*>)? (fmt::)?(PartialEq|Eq|PartialOrd|Ord|Clone|Copy|Default|Hash|Debug|Display|From|TryFrom)\b')
            + lines_that(sources, r'fn (from_\w+|to_\w+|into_\w+|as_\w+|bits|number|encode\w*|decode|fields_of|message|zeros|no_record|blank_values|restarted|read_(two|four)|(u16|u32)_at|put_u(16|32))\b'))


# A clause that three or more functions of a crate have; three or more parameters that go together in three or more.
def repeated(sources):
    found = []
    by_crate = defaultdict(list)
    for name, text in sources.items():
        by_crate[name.split('/')[0]] += [(name, *f) for f in functions(text)]
    for crate, all_of_it in by_crate.items():
        where = defaultdict(set)
        groups = defaultdict(set)
        for name, function, params, clauses, _ in all_of_it:
            for clause in clauses:
                where[re.sub(r'\bself\.(now|old)\b|\b(bytes|log|body)\.(now|old)\b', r'_', clause)].add(f'{name} {function}')
            names = [p.split(':')[0].strip() for p in params if ':' in p]
            for i in range(len(names)):
                for j in range(i + 3, len(names) + 1):
                    groups[' '.join(names[i:j])].add(f'{name} {function}')
        found += [f'{crate}: in {len(w)}: {c}' for c, w in where.items() if len(w) > 2]
        found += [f'{crate}: parameters {g} in {len(w)}: ' + ', '.join(sorted(w)) for g, w in groups.items()
                  if len(w) > 2 and not any(g != h and f' {g} ' in f' {h} ' and w <= v for h, v in groups.items())]
    return found


# Arrays with a place for each of up to so many; index by a number; numbers into other things.
def buffers(sources):
    return lines_that(sources, r'\w+\[[^\].;]*[a-z(][^\];]*\](?!\))', but=r'#\[|&mut \[|: &?\[|-> &?\[|<\[|in \[|for \(|ghost|ensures|requires|vec!')


def switches(sources):
    return lines_that(sources, r'\bmatch (call|message|change|self)\b|\bdyn\b|fn\(')


FINDERS = {1: enums_flags_numbers, 2: twins, 3: loops, 4: by_hand, 5: repeated, 6: buffers, 7: switches}

if __name__ == '__main__':
    main()
