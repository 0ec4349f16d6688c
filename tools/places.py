#!/usr/bin/env python3
"""Lists the places in crates/*/src that an older form of the language may have left.

usage: tools/places.py [-v] [COMMIT]

Without a commit it reads the files that lie here. Each line is a kind of place and how often it stands; -v prints the places too.
It finds by form alone: whether a place that it finds can be said better is for a reader to judge.
"""
import collections
import re
import subprocess
import sys

args = [a for a in sys.argv[1:] if a != '-v']
verbose = '-v' in sys.argv[1:]
commit = args[0] if args else None


def run(*cmd):
    return subprocess.run(cmd, capture_output=True, text=True, check=True).stdout


def files():
    names = run('git', 'ls-tree', '-r', '--name-only', commit) if commit else run('git', 'ls-files', '-co', '--exclude-standard')
    for name in sorted(names.split('\n')):
        if re.match(r'crates/\w+/src/.*\.rt$', name):
            if commit:
                yield name, run('git', 'show', commit + ':' + name)
            else:
                try:
                    yield name, open(name).read()
                except FileNotFoundError:
                    pass


def bare(text):
    """Code without comments and ghost imports, lines kept."""
    text = re.sub(r'//[^\n]*', '', text)
    return re.sub(r'ghost use [^;]*;', lambda m: '\n' * m.group(0).count('\n'), text)


def closing(text, i):
    """The index after the bracket that closes the one at i."""
    pairs = {'(': ')', '{': '}', '[': ']'}
    depth = 0
    while i < len(text):
        if text[i] in pairs:
            depth += 1
        elif text[i] in pairs.values():
            depth -= 1
            if depth == 0:
                return i + 1
        i += 1
    return i


Function = collections.namedtuple('Function', 'file line name params clauses body')


def functions(file, text):
    for m in re.finditer(r'\bfn (\w+)', text):
        i = text.find('(', m.end())
        j = closing(text, i)
        params = text[i + 1:j - 1]
        clauses = []
        while True:
            c = re.compile(r'[^{;]*?\b(requires|ensures)\b[^{;]*').match(text, j)
            if not c or text[c.end():c.end() + 1] != '{':
                break
            k = closing(text, c.end())
            clauses.append((c.group(1), ' '.join(text[c.end() + 1:k - 1].split())))
            j = k
        k = re.compile(r'[^{;]*').match(text, j).end()
        body = text[k:closing(text, k)] if text[k:k + 1] == '{' else ''
        yield Function(file, text.count('\n', 0, m.start()) + 1, m.group(1), params, clauses, body)


found = collections.OrderedDict()


def note(kind, place):
    found.setdefault(kind, []).append(place)


LINES = [
    ('1 a number for a refusal', r'\brefusal\(\d+\)|\bfault\([^()]*(?:\([^()]*\))?[^()]*, \d+\)|\bSome\(\(?\d{1,2}(?:\)|, )|Said::Refused\(\d|\bwrong\(\d|Wrong::At\(\d|number: \d'),
    ('1 a field that holds a code', r'\b(?:number|sort|operator): u8\b'),
    ('1 a number for no value', r'\b9999\b|\b65535\b'),
    ('1 an arm over a code', r'^\s*\d+(?: \| \d+)* (?:if [^=]*)?=>'),
    ('1 an own enum with a variant for nothing or for want of memory', r'^\s*(?:Other|Lost|Memory|Missing|Nothing),$'),
    ('3 a loop over numbers', r'\bfor \w+ in [^{]*\.\.|\bwhile \w+ <'),
    ('3 an index counted by hand', r'^\s*\w+ \+= 1;|= \w+\.wrapping_add\(1\);'),
    ('4 a mask in place of a conversion', r'& (?:255|65535)\b'),
    ('6 a read with a value for what is past the end', r'\bat(?:32)?\(|\bbyte\(bytes'),
    ('6 an array with fewer in use', r'\[u8; 6\]|\[usize; \d+\]'),
    ('7 a flag among the parameters', r'\b(?:own|dual|joint|free): bool\b'),
]

by_shape = collections.defaultdict(list)
by_clause = collections.defaultdict(list)
by_pair = collections.defaultdict(list)
for file, whole in files():
    crate = file.split('/')[1]
    text = bare(whole)
    for n, line in enumerate(text.split('\n'), 1):
        for kind, pattern in LINES:
            for _ in re.findall(pattern, line):
                note(kind, '%s:%d: %s' % (file, n, line.strip()))
    for m in re.finditer(r'struct (\w+)[^{;]*\{([^}]*)\}', text):
        vecs = re.findall(r'(\w+): Vec<', m.group(2))
        if len(vecs) > 1:
            note('6 a struct of several lists', '%s: %s: %s' % (file, m.group(1), ', '.join(vecs)))
    for f in functions(file, text):
        place = '%s:%d: %s' % (f.file, f.line, f.name)
        shape = re.sub(r'"[^"]*"', 'S', re.sub(r'\b\d\w*\b', 'N', ' '.join(f.body.split())))
        shape = re.sub(r'\b(?!for|in|if|else|match|return|let|mut|while|fn|Ok|Err|Some|None|N|S)\w+', 'x', shape)
        if len(shape) > 60:
            by_shape[shape].append(place)
        for c in set(f.clauses):
            if c[0] == 'requires':
                by_clause[(crate, c[1])].append(place)
        names = [' '.join(p.split()) for p in re.split(r',(?![^<(\[]*[>)\]])', f.params) if ':' in p]
        names = [p for p in names if not p.startswith(('heap:', 'rt:'))]
        for a, b in zip(names, names[1:]):
            by_pair[(crate, a, b)].append(place)
        if re.match(r'(?:is_)?same|narrow|byte$|letter|kind_of|stop_of|condition_of|goal_of|word_of|goal_word', f.name):
            note('4 a comparison or a conversion by hand', place)
for file, whole in files():
    text = bare(whole)
    for m in re.finditer(r'\bfor (\w+) in [^{;]*\.\.[^{;]*\{|\bwhile (\w+) < [^{;]*\{', text):
        name = m.group(1) or m.group(2)
        body = text[m.end() - 1:closing(text, m.end() - 1)]
        if name != '_' and re.search(r'\w\[[^\]]*\b%s\b|\.(?:get|get_mut)\(&?\*?%s\b|\bat(?:32)?\([^()]*\b%s\b|\.has\([^()]*\b%s\)' % ((name,) * 4), body):
            note('3 a loop that reads or writes a list at its number', '%s:%d: %s' % (file, text.count('\n', 0, m.start()) + 1, m.group(0).strip()))
for shape, places in by_shape.items():
    if len(places) > 1:
        note('2 functions of one shape', ' = '.join(places))
for (crate, clause), places in by_clause.items():
    if len(places) > 2:
        note('5 what three or more functions require', '%s: { %s }: %d' % (crate, clause, len(places)))
for (crate, a, b), places in by_pair.items():
    if len(places) > 2:
        note('5 two parameters beside each other in three or more functions', '%s: %s, %s: %d' % (crate, a, b, len(places)))

for kind in sorted(found):
    print('%5d  %s' % (len(found[kind]), kind))
    if verbose:
        for place in found[kind]:
            print('         ' + place)
