#!/usr/bin/env python3
"""Counts places of the older style in crates/*/src: what docs/DESIGN-PASS.md goes by.

    tools/places.py           how many of each kind, and in which crates
    tools/places.py --list    each of them

It goes by text: what it finds is to be read, and docs/DESIGN-PASS.md says what was found so.
"""
import collections
import difflib
import glob
import os
import re
import sys

os.chdir(os.path.join(os.path.dirname(os.path.abspath(__file__)), '..'))


def bare(text):
    """The text without comments."""
    return re.sub(r'//[^\n]*', '', text)


FILES = {path: bare(open(path).read()) for path in sorted(glob.glob('crates/*/src/*.rt'))}
TYPES = re.compile(r'\b(?:enum|struct) (\w+)(?:<[^>{]*>)?\s*\{(.*?)\n\}', re.S)
FUNCTION = re.compile(r'\bfn (\w+)(?:<[^>]*>)?\s*\(', re.S)
NUMBER = r'(?:u8|u16|u32|u64|usize)'


def items(pattern):
    for path, text in FILES.items():
        for found in pattern.finditer(text):
            yield path, text, found


def variants(body):
    """The variants of an enum or the fields of a struct, each on a line of its own."""
    return [line.strip().rstrip(',') for line in body.split('\n') if line.strip()]


def choices():
    """Enums of two or three variants, one of them with nothing in it or a refusal; structs of a flag and more."""
    for path, text, found in items(TYPES):
        parts = variants(found[2])
        if found[0].startswith('enum'):
            empty = [part for part in parts if re.fullmatch(r'\w+', part)]
            refused = [part for part in parts if 'Refusal' in part or re.match(r'Wrong\(', part)]
            full = [part for part in parts if '(' in part and part not in refused]
            if full and ((len(empty) == 1 and len(parts) <= 4) or (refused and len(parts) <= 3)):
                yield path, found[1]
        elif any(re.search(r': bool$', part) for part in parts):
            yield path, found[1] + ' (flag)'


def loops():
    """Loops that count by hand: the body has a line that adds one to a variable of the loop's test, or takes one off it."""
    for path, text, found in items(re.compile(r'^( *)while ([^\n]*)\{\n(.*?)^\1\}', re.S | re.M)):
        names = re.findall(r'\b[a-z_]\w*\b', found[2])
        if any(re.search(r'^ *%s [+-]= \w+;' % name, found[3], re.M) for name in names):
            yield path, 'while ' + found[2].strip()


def functions():
    """Each function: its path, name, parameters and text up to the next function."""
    for path, text in FILES.items():
        starts = list(FUNCTION.finditer(text))
        for here, start in enumerate(starts):
            end = starts[here + 1].start() if here + 1 < len(starts) else len(text)
            depth, at = 1, start.end()
            while depth:
                depth += {'(': 1, ')': -1}.get(text[at], 0)
                at += 1
            yield path, start[1], ' '.join(text[start.end():at - 1].split()), text[at:end]


def shape(parameters, rest):
    """The words of a function, where names, types, sizes and constants look alike."""
    body = rest[rest.find('{\n'):]
    body = body[:body.find('\n}\n') + 2] if '\n}\n' in body else body
    words = re.findall(r'\w+|[^\w\s]', parameters + body)
    return ['X' if re.fullmatch(r'[A-Z0-9]\w*|%s' % NUMBER, word) else 'v' if re.fullmatch(r'[a-z_]\w*', word) and word not in KEPT else word for word in words]


KEPT = {'if', 'else', 'match', 'while', 'for', 'loop', 'return', 'let', 'mut', 'as', 'in', 'self'}


def twins():
    """Functions of one crate that have nine words of ten in common, where names, types, sizes and constants look alike."""
    crates = collections.defaultdict(list)
    for path, name, parameters, rest in functions():
        words = shape(parameters, rest)
        if len(words) >= 60:
            crates[path.split('/')[1]].append((path, name, words))
    for members in crates.values():
        groups = []
        for member in members:
            for group in groups:
                match = difflib.SequenceMatcher(None, group[0][2], member[2], autojunk=False)
                if match.real_quick_ratio() >= 0.9 and match.quick_ratio() >= 0.9 and match.ratio() >= 0.9:
                    group.append(member)
                    break
            else:
                groups.append([member])
        for group in groups:
            if len(group) > 1:
                yield group[0][0], ' '.join(name for _, name, _ in group)


def lent():
    """Functions that are lent four tables or more, each as a parameter of its own."""
    for path, name, parameters, _ in functions():
        count = len(re.findall(r"&(?:'\w+ )?(?:mut )?\[", parameters))
        if count >= 4:
            yield path, '%s (%d)' % (name, count)


def facts():
    """Facts that stand in the `requires` of three functions of a crate or more."""
    groups = collections.defaultdict(list)
    for path, text, found in items(re.compile(r'^ *requires(?: \w+)? \{ (.*) \}$', re.M)):
        for fact in {part.strip() for part in found[1].split('×')}:
            groups[path.split('/')[1], fact.strip('()')].append(path)
    for (_, fact), paths in groups.items():
        if len(paths) >= 3:
            yield paths[0], '%s (%d)' % (fact, len(paths))


def widened():
    """Numbers widened, and cells read and written, by a function for each width."""
    for path, text, found in items(re.compile(r'\b(?:wide|from|at|put|held)(?:8|16|32)\(')):
        yield path, found[0][:-1]


KINDS = [
    ('1', 'own choices and flags', choices), ('2', 'twins', twins), ('2', 'functions by width, and their calls', widened),
    ('3', 'loops that count by hand', loops), ('5', 'functions lent four tables or more', lent), ('5', 'facts required three times or more', facts),
]
for point, title, find in KINDS:
    places = list(find())
    crates = collections.Counter(path.split('/')[1] for path, _ in places)
    print('%s  %s: %d  (%s)' % (point, title, len(places), ', '.join('%s %d' % pair for pair in sorted(crates.items()))))
    if '--list' in sys.argv:
        for path, what in places:
            print('     %s  %s' % (path, what))
