#!/usr/bin/env python3
"""Lists the places of docs/DESIGN-PASS.md's points in crates/*/src, of the files as they are or of a commit.

    python3 tools/design_counts.py [COMMIT]            how many places each point has
    python3 tools/design_counts.py [COMMIT] --places   and where they are

1  enums of at most three cases, and refusals written as numbers
2  functions that are equal but for numbers, number types and names of their own; functions of one name and the same parameters in two
   crates; functions that are std's `min`, `max` or `saturating_sub`
3  `while` loops that step a variable of their condition, `for` loops over numbers whose variable indexes a slice, and those that step a
   place beside it
4  functions that only turn one type into another, or compare; `as` where From says the same
5  groups of parameters that three or more functions take together
6  functions that take a slice and, beside it, a length or a place in it; slices that run in parallel
7  functions that take a `bool` or a lane count and choose by it which code runs
8  answers of the proofs, by crate total
"""
import re, subprocess, sys, glob, itertools

args = [a for a in sys.argv[1:] if not a.startswith('--')]
show = '--places' in sys.argv

def files(pattern, ending):
    if args:
        names = subprocess.run(['git', 'ls-tree', '-r', '--name-only', args[0], 'crates'], capture_output=True, text=True, check=True).stdout.split('\n')
        for n in names:
            if re.fullmatch(pattern, n):
                yield n, subprocess.run(['git', 'show', f'{args[0]}:{n}'], capture_output=True, text=True, check=True).stdout
    else:
        for n in sorted(glob.glob('crates/**/*' + ending, recursive=True)):
            if re.fullmatch(pattern, n):
                yield n, open(n).read()

def balanced(text, i, open_, close):
    depth = 0
    for j in range(i, len(text)):
        depth += (text[j] == open_) - (text[j] == close)
        if depth == 0:
            return j
    return len(text)

class Fn:
    pass

source = {n: re.sub(r'//[^\n]*', lambda m: ' ' * len(m.group()), t) for n, t in files(r'crates/[^/]+/src/.*\.rt', '.rt')}
functions = []
for name, text in source.items():
    for m in re.finditer(r'\bfn (\w+)', text):
        f = Fn()
        f.file, f.name, f.line = name, m.group(1), text.count('\n', 0, m.start()) + 1
        p = text.index('(', m.end())
        q = balanced(text, p, '(', ')')
        f.params = [a.strip() for a in re.split(r',(?![^<(\[]*[>)\]])', re.sub(r'\s+', ' ', text[p + 1:q])) if a.strip()]
        f.names = [re.sub(r'^(mut |&mut |&)', '', a.split(':')[0].strip()) for a in f.params]
        rest = text[q + 1:]
        # the body is the first brace that no clause opens
        i = 0
        while True:
            c = re.compile(r'\b(requires|ensures|ghost)\b[^{]*|(\{)|(;)(?![^\[]*\])').search(rest, i)
            if c is None or c.group(3):
                f.body = ''
                break
            if c.group(2):
                e = balanced(rest, c.start(), '{', '}')
                f.body = rest[c.start():e + 1]
                break
            b = rest.index('{', c.start())
            i = balanced(rest, b, '{', '}') + 1
        f.result = (re.match(r'\s*->\s*([^{]*?)(?=\s*(requires|ensures|where|\{))', rest) or [None, ''])[1].strip()
        f.at = f'{name}:{f.line} {f.name}'
        functions.append(f)

places = {k: [] for k in range(1, 9)}

for name, text in source.items():
    for m in re.finditer(r'\benum (\w+)[^{]*\{', text):
        cases = re.sub(r'\{[^}]*\}|\([^)]*\)', '', text[m.end():balanced(text, m.end() - 1, '{', '}')])
        if len(re.findall(r'\w+', cases)) > 3:
            continue
        places[1].append(f'{name}:{text.count(chr(10), 0, m.start()) + 1} enum {m.group(1)}')
    for m in re.finditer(r'number: ([1-9]\d*),\s*place', text):
        places[1].append(f'{name}:{text.count(chr(10), 0, m.start()) + 1} refusal {m.group(1)}')

def skeleton(f):
    t = f.body
    t = re.sub(r'\b[ui](8|16|32|64|size)\b', 'T', t)
    t = re.sub(r'\b\d[\d_]*\b|\b[A-Z][A-Z_]+\b', 'N', t)
    for k, n in enumerate(f.names):
        t = re.sub(rf'\b{re.escape(n)}\b', f'p{k}', t)
    locals_ = re.findall(r'\b(?:let|for)\s+(?:mut\s+)?(\w+)', t)
    for k, n in enumerate(dict.fromkeys(locals_)):
        t = re.sub(rf'\b{n}\b', f'v{k}', t)
    return re.sub(r'\s+', ' ', t)

groups = {}
for f in functions:
    if len(re.findall(r'\w+', f.body)) >= 5:
        groups.setdefault(skeleton(f), []).append(f)
twins = [g for g in groups.values() if len(g) > 1]
same = {}
for f in functions:
    if len(f.params) > 2:
        same.setdefault((f.name, tuple(f.params)), []).append(f)
twins += [g for g in same.values() if len({f.file.split('/')[1] for f in g}) > 1 and not any(all(f in h for f in g) for h in twins)]
for g in twins:
    places[2].append('twins: ' + ', '.join(f.at for f in g))
for f in functions:
    if re.fullmatch(r'\{\s*if (\w+) [<>] (\w+) \{ (\1|\2) \} else \{ (\1|\2) \}\s*\}', f.body.strip()) or re.fullmatch(r'\{\s*if (\w+) < (\w+) \{ \2 - \1 \} else \{ 0 \}\s*\}', f.body.strip()):
        places[2].append('std: ' + f.at)

for f in functions:
    for m in re.finditer(r'\bwhile\b([^{]*)\{', f.body):
        body = f.body[m.end():balanced(f.body, m.end() - 1, '{', '}')]
        if any(re.search(rf'\b{v} \+= ', body) or re.search(rf'\b{v} = {v} \+', body) for v in re.findall(r'\w+', m.group(1))):
            places[3].append(f'{f.at}: while{m.group(1).rstrip()}')
    for m in re.finditer(r'\bfor (\w+) in ([^{]*\.\.[^{]*)\{', f.body):
        body = f.body[m.end():balanced(f.body, m.end() - 1, '{', '}')]
        if re.search(rf'\[[^\]]*\b{m.group(1)}\b[^\]]*\]', body) or re.search(r'\b\w+ [+-]= \w+;', body):
            places[3].append(f'{f.at}: for {m.group(1)} in {m.group(2).strip()}')

for f in functions:
    only = re.fullmatch(r'\{\s*(match .*|\w[\w:]* \{.*\}|\(?\(?.* as [ui]\w+\)?)\s*\}', f.body.strip(), re.S)
    if only and len(f.params) == 1 and f.result and not f.file.endswith('main.rt') and ';' not in f.body:
        places[4].append('turns: ' + f.at)
for name, text in source.items():
    for m in re.finditer(r'(\w+)(?:\[[^\]]*\])? as (usize|u64|i64|i32)\b', text):
        line = text.count('\n', 0, m.start()) + 1
        owner = [f for f in functions if f.file == name and f.line <= line]
        kind = next((re.search(r'\b([ui]\d+|usize)\b', p.split(':', 1)[1]) for p in (owner[-1].params if owner else []) if p.split(':')[0].strip() == m.group(1) and ':' in p), None)
        if kind and (kind.group(1), m.group(2)) in {('u8', 'usize'), ('u16', 'usize'), ('u8', 'u64'), ('u16', 'u64'), ('u32', 'u64'), ('i32', 'i64'), ('i16', 'i32'), ('u16', 'i32'), ('u32', 'i64')}:
            places[4].append(f'as: {name}:{line} {m.group(0)}')

for group in (('left', 'top', 'right', 'bottom'), ('ring', 'body'), ('width', 'height', 'cells'), ('indices', 'ends'), ('states', 'queue', 'parents', 'ranks'), ('parents', 'ranks'),
              ('over', 'down', 'steps'), ('lanes', 'walk', 'rows'), ('versions', 'pulled_down', 'pulled_up'), ('lanes', 'flags', 'gates'), ('lane_count', 'stride', 'height'), ('lane_count', 'stride'),
              ('page', 'at'), ('text', 'at'), ('sources', 'targets'), ('states', 'width', 'height')):
    takers = [f for f in functions if set(group) <= set(f.names)]
    if len(takers) >= 3:
        places[5] += [f'{", ".join(group)}: {f.at}' for f in takers]

beside = {'count', 'used', 'tail', 'at', 'from', 'place', 'length', 'size'}
for f in functions:
    slices = [p for p in f.params if re.search(r'&(\'\w+ )?(mut )?\[', p)]
    if slices and beside & {n for n, p in zip(f.names, f.params) if re.search(r': usize$', p)}:
        places[6].append(f.at)

for f in functions:
    flags = [n for n, p in zip(f.names, f.params) if p.endswith(': bool')] + [n for n in f.names if n == 'lane_count']
    if any(re.search(rf'\bif {n}\b( == \d+)? \{{', f.body) for n in flags):
        places[7].append(f.at)

for name, text in files(r'crates/[^/]+/proofs/.*Answers\.antt', '.antt'):
    places[8] += [f'{name} {m.group(1)}' for m in re.finditer(r'^(?:abbrev )?pub ([\w-]+) : goal\.', text, re.M)]

for k, found in places.items():
    print(f'{k}: {len(found)}')
    if show and k != 8:
        for p in found:
            print('   ', p)
