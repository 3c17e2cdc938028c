#!/usr/bin/env python3
"""Counts, in crates/*/src, the places of the points of docs/DESIGN-PASS.md.
Usage: forms.py [POINT] [ROOT]      (POINT 1 to 8, all where it is missing; ROOT is the checkout, this folder where it is missing)"""
import collections, pathlib, re, sys

args = sys.argv[1:]
only = int(args.pop(0)) if args and args[0].isdigit() else 0
root = pathlib.Path(args[0] if args else '.')
files = {p: p.read_text(encoding='utf-8') for p in sorted(root.glob('crates/*/src/**/*.rt'))}


def at(path, text, offset):
    return f'{path.relative_to(root)}:{text.count(chr(10), 0, offset) + 1}'


def lines(pattern):
    """Each line that matches, comments aside."""
    for path, text in files.items():
        for n, line in enumerate(text.split('\n'), 1):
            if not line.lstrip().startswith('//') and re.search(pattern, line):
                yield f'{path.relative_to(root)}:{n}', line.strip()


def functions():
    """Each function: place, name, parameters, clauses, body."""
    for path, text in files.items():
        for m in re.finditer(r'^( *)(?:pub(?:\(crate\))? )?(?:unsafe )?(?:extern "C" )?fn (\w+)(?:<[^>(]*>)?\((.*?)\)(.*?)^\1\{(.*?)^\1\}|^( *)(?:pub )?fn (\w+)\((.*?)\)([^{}]*)\{\}', text, re.M | re.S):
            g = m.groups()
            name, params, head, body = (g[1], g[2], g[3], g[4]) if g[1] else (g[6], g[7], g[8], '')
            yield at(path, text, m.start()), name, params, head, body


def point_1():
    for place, line in lines(r'^(pub(\(crate\))? )?enum \w+'):
        yield 'enum', place, line
    for place, line in lines(r'^ +(pub )?(failed|found|valid|done|ok|is_\w+): bool,$'):
        yield 'flag beside a value', place, line
    for place, line in lines(r'^(pub )?const [A-Z_]+: u(8|32) ='):
        yield 'named number', place, line
    for place, line in lines(r'\b(kind|operation|command|number|value) == \d'):
        yield 'number tested', place, line


KEYWORDS = set('fn pub let mut if else match while for in return as true false ref self crate u8 u16 u32 u64 usize bool Some None Ok Err Result Option'.split())


def shape(body):
    out = []
    for token in re.findall(r'\w+|[^\w\s]', re.sub(r'//.*', '', body)):
        out.append('N' if re.match(r'\d', token) else token if token in KEYWORDS or not re.match(r'\w', token) else 'I')
    return ' '.join(out)


def point_2():
    groups = collections.defaultdict(list)
    for place, name, params, head, body in functions():
        s = shape(body)
        if len(s.split()) >= 8:
            groups[(s, len(params.split(',')))].append((place, name))
    for (s, _), members in groups.items():
        if len(members) > 1:
            for place, name in members:
                yield f'shape of {len(members)}: ' + ', '.join(n for _, n in members), place, name


def point_3():
    for place, line in lines(r'^ *(while|loop|for)\b'):
        yield ('counted by hand' if line.startswith(('while', 'loop')) else 'for'), place, line


def point_4():
    for place, line in lines(r'^ *(\w+): \1,$'):
        yield 'field named twice', place, line
    for place, line in lines(r'^ *let (mut )?\w+ = \w+(\.\w+)+;$'):
        yield 'field copied first', place, line
    for place, line in lines(r'[/*] (256|65536|16777216)\b|% 256\b'):
        yield 'bytes of a word by arithmetic', place, line
    for place, line in lines(r'^ *(pub )?fn (text|decimal|hex|number|print_\w+|meaning|tell\w*|refused|place)\(rt'):
        yield 'printing function', place, line
    for place, line in lines(r'return false;$'):
        yield 'test returned by hand', place, line
    for place, line in lines(r'_ ?\} => false|: _,$'):
        yield 'variant tested by hand', place, line


def point_5():
    facts = collections.defaultdict(list)
    groups = collections.defaultdict(list)
    for place, name, params, head, body in functions():
        for clause in re.findall(r'requires(?: \w+)? \{(.*)\}$', head, re.M):
            for fact in re.split(r' × ', clause):
                fact = re.sub(r'\b\w+\.(now|old)\b', 'x.now', fact.strip().strip('()'))
                facts[re.sub(r'\d+', 'N', fact)].append((place, name))
        ps = [re.sub(r'\s+', ' ', p).strip() for p in re.split(r',(?![^<(]*[>)])', params) if ':' in p]
        if len(ps) >= 6:
            yield 'six parameters or more', place, f'{name}: {len(ps)}'
        for i in range(len(ps)):
            for j in range(i + 1, len(ps)):
                groups[(ps[i], ps[j])].append((place, name))
    for fact, where in facts.items():
        if len(where) >= 3:
            for place, name in where:
                yield f'fact `{fact}`, {len(where)} times', place, name
    for pair, where in sorted(groups.items(), key=lambda x: -len(x[1])):
        if len(where) >= 10:
            yield f'pair ({pair[0]}, {pair[1]}), {len(where)} functions', where[0][0], ', '.join(sorted({n for _, n in where}))


def point_6():
    for place, line in lines(r'\[(u8|u16|u32|Part|\w+); ?\w+\]|\[0\w*; \w+\]'):
        yield 'array of fixed length', place, line


def point_7():
    for place, name, params, head, body in functions():
        arms = re.findall(r'=> (?:\{\s*)?(?:return )?((?:\w+::)*[a-z_]\w*)\(', body)
        if len(arms) >= 4 and len(set(arms)) >= 4:
            yield 'arms that call', place, f'{name}: {len(arms)} arms'
    for place, line in lines(r'\bdyn \w|impl Fn|: fn\('):
        yield 'closure, dyn or function type', place, line


def point_8():
    for crate in sorted(root.glob('crates/*')):
        for kind in ('Answers', 'Invariants', 'Proof'):
            n = len(list((crate / 'proofs').rglob(f'{kind}.antt'))) if (crate / 'proofs').is_dir() else 0
            for _ in range(n):
                yield f'{kind}.antt of {crate.name}', '', ''


for k, point in enumerate((point_1, point_2, point_3, point_4, point_5, point_6, point_7, point_8), 1):
    if only in (0, k):
        rows = list(point())
        print(f'point {k}: {len(rows)}')
        for kind, n in sorted(collections.Counter(r[0] for r in rows).items()):
            print(f'  {n:4} {kind}')
        if only:
            for kind, place, line in rows:
                if place: print(f'    {place}: {line[:110]}')
