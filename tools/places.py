#!/usr/bin/env python3
"""Lists the places in crates/*/src that docs/DESIGN-PASS.md counts, by point and crate.

    python3 tools/places.py [COMMIT] [--lines]

Without a commit it reads the files as they lie here. --lines prints each place.
Contracts, ghost lines and comments are left out but where a pattern says so; tests count as code.
"""
import collections
import re
import subprocess
import sys

args = [a for a in sys.argv[1:] if not a.startswith('--')]
show_lines = '--lines' in sys.argv
commit = args[0] if args else None


def git(*words):
    return subprocess.run(('git',) + words, capture_output=True, text=True, check=True).stdout


names = git('ls-tree', '-r', '--name-only', commit or 'HEAD', 'crates/').split('\n')
names = [n for n in names if re.fullmatch(r'crates/\w+/src/.*\.rt', n)]
if commit is None:
    names = [n for n in git('ls-files', '--cached', '--others', '--exclude-standard', 'crates/').split('\n')
             if re.fullmatch(r'crates/\w+/src/.*\.rt', n)]


def text(name):
    if commit:
        return git('show', f'{commit}:{name}')
    try:
        return open(name, encoding='utf-8').read()
    except FileNotFoundError:
        return ''


files = {n: text(n) for n in sorted(set(names))}
crate_of = lambda n: n.split('/')[1]
found = collections.defaultdict(list)  # (point, kind) -> [(name, line, text)]


def place(point, kind, name, line, what):
    found[(point, kind)].append((name, line, ' '.join(what.split())[:110]))


GHOST = re.compile(r'^\s*(ghost|requires|ensures|//)')
functions = []
for name, source in files.items():
    lines = source.split('\n')
    for i, line in enumerate(lines, 1):
        two = line + '\n' + (lines[i] if i < len(lines) else '')
        # 1: errors passed up by hand, results taken apart to be put together, faults as options, 0 for none, no more room as false
        if re.search(r'if let (Err|Some)\(\w+\) = .*\{\s*\n\s*return Err', two):
            place(1, 'an error passed up by hand', name, i, line)
        if re.search(r'^\s*(Ok|Err)\([\w()]*\) => (Ok|Err|\w+::\w+)\b', line) or re.search(r'^\s*None => 0,', line):
            place(1, 'a result taken apart and put together', name, i, line)
        if re.search(r'let (Some|Ok)\(.*\) = .* else \{\s*\n\s*return (Err|None|Ok\(Err)', two):
            place(1, 'an else that returns an error', name, i, line)
        if re.search(r'-> Option<Fault>', line):
            place(1, 'a fault as an option', name, i, line)
        if re.search(r'//.*(\b0 (if|where|for|without)\b|, or 0\b|or 0\.)', line) and 'at most' not in line:
            place(1, '0 for none', name, i, line)
        if re.search(r'//.*or false if', line):
            place(1, 'false for no room', name, i, line)
        m = re.match(r'^(pub(?:\(crate\))? )?enum (\w+)', line)
        if m:
            place(1, 'an enum of the repository', name, i, m.group(2))
        if GHOST.match(line):
            continue
        # 3: loops that are not over values
        if re.search(r'\bfor \w+ in [\w.()]*\.\.', line):
            place(3, 'a for over a range of numbers', name, i, line)
        if re.search(r'^\s*(while|loop)\b', line):
            place(3, 'a while or loop', name, i, line)
        if re.search(r'\.enumerate\(\)', line):
            place(3, 'an enumerate', name, i, line)
        # 6: arrays with a length of their own
        m = re.match(r'^\s+(?:pub(?:\(crate\))? )?(\w+): \[[\w ]+; \w+\],', line)
        if m:
            place(6, 'an array as a field', name, i, line)
        # 4: handwritten traits
        if re.match(r'^impl.*\b(PartialEq|Eq|PartialOrd|Ord|Clone|Copy|Debug|Display|From|TryFrom)\b.* for ', line):
            place(4, 'a trait by hand', name, i, line)
    # 7 and 4: matches
    for m in re.finditer(r'\n([ ]*)(?:[^\n]*[=( ])?match ([^\n{]*) \{\n(.*?)\n\1\}', source, re.S):
        arms = re.findall(r'^\s*([^\n/]*?) =>', m.group(3), re.M)
        calls = re.findall(r'=> (?:Some\(|Ok\()?(?:self\.)?(\w+)\(', m.group(3))
        at = source.count('\n', 0, m.start()) + 2
        consts = re.findall(r'=> (?:Some\()?(?:\d+|true|false|"\w+"|b\'.\'|\w+::\w+)\)?,', m.group(3))
        if len(arms) >= 3 and len(consts) >= len(arms) - 1:
            place(4, 'a conversion case by case', name, at, m.group(2))
        if len(arms) >= 3 and len([c for c in calls if c not in ('Some', 'Ok', 'Err')]) >= 3:
            place(7, 'a switch between functions', name, at, m.group(2))
    if re.search(r'\bdyn\b|\bfn\(', source):
        place(7, 'a function pointer or dyn', name, 0, '')
    # functions with their parameters, clauses and bodies
    for m in re.finditer(r'\n([ ]*)(?:pub(?:\(crate\))? )?fn (\w+)(<[^>]*>)?\(([^{]*?)\)([^{;]*?)\n((?:[ ]*(?:requires|ensures)[^\n]*\n)*)\1\{\n(.*?)\n\1\}', source, re.S):
        functions.append((name, source.count('\n', 0, m.start()) + 2, m.group(2), m.group(4), m.group(6), m.group(7)))

# 2: bodies that are the same but for names, numbers and literals
WORD = re.compile(r"b?\"[^\"]*\"|b?'[^']*'|\b\w+\b")
KEEP = {'if', 'else', 'match', 'for', 'in', 'while', 'let', 'mut', 'return', 'Some', 'None', 'Ok', 'Err', 'true', 'false', 'as'}


def shape(body):
    body = re.sub(r'//[^\n]*', '', body)
    return re.sub(r'\s+', ' ', WORD.sub(lambda w: w.group(0) if w.group(0) in KEEP else '_', body)).strip()


by_shape = collections.defaultdict(list)
for f in functions:
    s = shape(f[5])
    if len(s) > 45:
        by_shape[s].append(f)
for s, fs in by_shape.items():
    if len(fs) > 1 and not all('tests' in f[0] for f in fs):
        for f in fs:
            place(2, 'a function of the same shape as another', f[0], f[1], f[2] + ' ~ ' + ', '.join(g[2] for g in fs if g is not f))

# 5: clauses that stand in three contracts, and parameters that three functions of a crate have together
clauses = collections.defaultdict(set)
groups = collections.defaultdict(set)
for name, line, fn, params, contract, body in functions:
    for c in re.findall(r'(?:requires|ensures)(?: \w+)? \{ (.*) \}\n', contract):
        key = re.sub(r'\.(now|old|new|entry|exit)\b', '', c)
        clauses[(crate_of(name), key)].add((name, line, fn))
    ps = [re.sub(r'\s+', ' ', p).strip() for p in re.split(r',(?![^<(\[]*[>)\]])', params)]
    ps = [p for p in ps if p and 'self' not in p and ':' in p]
    for i, a in enumerate(ps):
        for b in ps[i + 1:]:
            groups[(crate_of(name), a, b)].add((name, line, fn))
for (crate, key), fs in clauses.items():
    if len(fs) >= 3 and len(key) > 12:
        n, l, _ = sorted(fs)[0]
        place(5, 'a clause in three contracts or more', n, l, f'{len(fs)} times: {key}')
for (crate, a, b), fs in groups.items():
    if len(fs) >= 3:
        n, l, _ = sorted(fs)[0]
        place(5, 'two parameters that three functions or more have', n, l, f'{len(fs)} times: {a}, {b}')

total = collections.Counter()
for (point, kind), ps in sorted(found.items()):
    per = collections.Counter(crate_of(p[0]) for p in ps)
    total[point] += len(ps)
    print(f'{point}  {kind}: {len(ps)}  ' + ', '.join(f'{c} {n}' for c, n in sorted(per.items())))
    if show_lines:
        for p in ps:
            print(f'     {p[0][7:]}:{p[1]}  {p[2]}')
