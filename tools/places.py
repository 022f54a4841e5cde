#!/usr/bin/env python3
"""Lists places in crates/*/src that an older form of the language may have left: places.py [COMMIT], else the working tree.

A line is a place: its point, where it stands, and what was seen. Rules are by text, so they find candidates; a reader decides.
1 numbers for refusals or kinds, own enums shaped like Option, a value that stands for none
2 functions and types that are the same text but for names of types, variants, fields and numbers
3 loops that count an index, and sums kept by hand
4 equality, order, copying, conversion and printing written by hand
5 a clause that stands in three or more functions, and parameters that go together in three or more
6 vectors with a length beside them, parallel vectors
7 matches that only choose which function to call, enums without data that name a step
"""
import collections
import os
import re
import subprocess
import sys

TOP = subprocess.run(['git', 'rev-parse', '--show-toplevel'], capture_output=True, text=True).stdout.strip()


def sources(commit):
    if commit:
        names = subprocess.run(['git', '-C', TOP, 'ls-tree', '-r', '--name-only', commit], capture_output=True, text=True).stdout.split()
    else:
        names = subprocess.run(['git', '-C', TOP, 'ls-files', '--cached', '--others', '--exclude-standard'], capture_output=True, text=True).stdout.split()
    for name in sorted(n for n in names if re.fullmatch(r'crates/[^/]+/src/.*\.rt', n)):
        if commit:
            yield name, subprocess.run(['git', '-C', TOP, 'show', commit + ':' + name], capture_output=True, text=True).stdout
        elif os.path.exists(os.path.join(TOP, name)):
            yield name, open(os.path.join(TOP, name)).read()


def line_of(text, at):
    return text.count('\n', 0, at) + 1


def block(text, at):
    """The text from `at` to the brace that closes the first one opened after it, clauses left out."""
    depth, i, start = 0, at, None
    while i < len(text):
        clause = re.match(r'(requires|ensures)( \w+)? \{', text[i:])
        if depth == 0 and clause and text[i - 1] in ' \n':
            k, d = i + clause.end(), 1
            while d:
                d += {'{': 1, '}': -1}.get(text[k], 0)
                k += 1
            i = k
            continue
        if text[i] == '{':
            depth += 1
            start = i if start is None else start
        if text[i] == '}':
            depth -= 1
            if depth == 0:
                return text[start:i + 1], i + 1
        if text[i] == ';' and depth == 0:
            return '', i
        i += 1
    return '', len(text)


class Function:
    def __init__(self, name, text, m):
        self.where = '%s:%d' % (name, line_of(text, m.start()))
        self.name = m.group(2)
        self.body, end = block(text, m.end())
        head = text[m.start():end]
        self.clauses = re.findall(r'(?:requires|ensures)(?: \w+)? \{ (.*) \}\n', head)
        params, depth, k = '', 1, text.index('(', m.end() - 1) + 1
        while depth:
            depth += {'(': 1, ')': -1}.get(text[k], 0)
            params += text[k]
            k += 1
        self.params = re.findall(r'(\w+): (&?(?:mut )?[\w\[\]<>:]+(?:<[^>]*>)?)', params[:-1])


def functions(name, text):
    return [Function(name, text, m) for m in re.finditer(r'^ *(pub(?:\(crate\))? )?fn (\w+)(?:<[^(]*>)?\(', text, re.M)]


def shape(body):
    """The body with each name that is not a keyword, and each number, replaced by its place of first occurrence."""
    seen = {}
    words = re.findall(r'\w+|[^\w\s]', re.sub(r'//.*', '', body))
    kept = {'match', 'let', 'if', 'else', 'return', 'self', 'mut', 'for', 'in', 'while', 'Ok', 'Err', 'Some', 'None', 'as', 'true', 'false'}
    return ' '.join(w if w in kept or not re.match(r'\w', w) else '#%d' % seen.setdefault(w, len(seen)) for w in words if w != ',')


def main():
    commit = sys.argv[1] if len(sys.argv) > 1 else None
    found = []
    every = []
    for name, text in sources(commit):
        def see(point, at, what):
            found.append((point, '%s:%d' % (name, line_of(text, at)), what))

        own = functions(name, text)
        every += own
        for m in re.finditer(r'\b(?:number|code|kind): u(?:8|16|32|64)\b|const [A-Z_]*(?:UNDERSTOOD|REFUS)\w*: u\d+', text):
            see(1, m.start(), 'a number for a refusal or kind: ' + m.group())
        for m in re.finditer(r'Option<\(\)>|Place\(0\)|count: 0\b|count 0\b', text):
            see(1, m.start(), 'a value for none, or a flag: ' + m.group())
        for m in re.finditer(r'enum \w+ \{([^}]*)\}', text):
            variants = [v.strip() for v in re.sub(r'//.*', '', m.group(1)).split(',\n') if v.strip()]
            if len(variants) == 2 and sum('(' in v or '{' in v for v in variants) in (1,):
                see(1, m.start(), 'an enum of the shape of Option')
        for m in re.finditer(r'^ *while .*|for \w+ in [^{]*\.\.[^{]*|\w+ \+= 1;|\.enumerate\(\)', text, re.M):
            see(3, m.start(), m.group().strip())
        for m in re.finditer(r'fn (?:eq|ne|cmp|partial_cmp|clone|lt|le)\b|fn \w+\(self\) -> (?:u\d+|[A-Z]\w+)\b|fn (?:put|push)_(?:decimal|hex|digits|refusal|mark)\b|fn \w+(?:_value|_digit|_byte|_by)\b|-> Option<(?:Letter|Bad|DriveKind|u8)>\n    ensures \{ result', text):
            see(4, m.start(), m.group().split('\n')[0])
        for m in re.finditer(r'struct \w+ \{([^}]*(?:\{[^}]*\}[^}]*)*)\n\}', text):
            vecs = re.findall(r'(\w+): Vec<', m.group(1))
            sizes = re.findall(r'\b(len|zones|blocks|bytes|count): u(?:32|size)', m.group(1))
            if len(vecs) > 1:
                see(6, m.start(), 'parallel vectors: ' + ', '.join(vecs))
            if vecs and sizes:
                see(6, m.start(), 'a vector with sizes beside it: ' + ', '.join(vecs + sizes))
        for f in own:
            for m in re.finditer(r'match self \{((?:\s*\w+::\w+\(\w+\) => \w+\.\w+\([^)]*\),){2,})\s*\}', f.body):
                found.append((7, f.where, 'a match that hands the call on: ' + f.name))
        for m in re.finditer(r'enum (Letter|Step|Mode|Stage)\b', text):
            see(7, m.start(), 'an enum that names a step: ' + m.group(1))
    for name, text in sources(commit):
        if re.search(r'\bmatch letter\b', text):
            found.append((7, name, 'a match on a step'))
    shapes = collections.defaultdict(list)
    for f in every:
        if len(f.body) > 40:
            shapes[shape(f.body)].append(f)
    for group in shapes.values():
        if len(group) > 1 and not group[0].where.startswith('crates/drives_tests'):
            found.append((2, group[0].where, '%d alike: ' % len(group) + ', '.join('%s %s' % (f.where.split('/', 1)[1], f.name) for f in group)))
    clauses = collections.defaultdict(list)
    for f in every:
        for c in set(f.clauses):
            clauses[re.sub(r'\bself\.(old|new|now)\b', r'self', c)].append(f)
    for c, fs in clauses.items():
        if len(fs) > 2:
            found.append((5, fs[0].where, 'in %d functions: %s' % (len(fs), c)))
    together = collections.defaultdict(list)
    for f in every:
        for i, p in enumerate(f.params):
            for q in f.params[i + 1:]:
                together[(p, q)].append(f)
    for (p, q), fs in together.items():
        if len(fs) > 2:
            found.append((5, fs[0].where, 'together in %d functions: %s: %s and %s: %s' % ((len(fs),) + p + q)))
    for point in range(1, 8):
        mine = [x for x in found if x[0] == point]
        print('point %d: %d' % (point, len(mine)))
        for _, where, what in mine:
            print('  %s  %s' % (where, what))


main()
