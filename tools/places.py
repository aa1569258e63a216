#!/usr/bin/env python3
"""Lists the places in crates/*/src that an older style of Rattle left, point by point.

Usage: tools/places.py [POINT] [--list]      at the top of the repository
Without --list it prints a count for each crate. It goes by text: it names candidates, and a person reads them.
"""
import re
import sys
from difflib import SequenceMatcher
from pathlib import Path

TOP = Path(__file__).resolve().parent.parent
FN = re.compile(r'^( *)(?:pub(?:\(crate\))? )?fn (\w+)')


def sources():
    return sorted((TOP / 'crates').glob('*/src/**/*.rt'))


def crate(path):
    return path.relative_to(TOP).parts[1]


def code(line):
    return re.sub(r'//.*', '', line)


def functions():
    """Each function as (path, first line's number, name, contract lines, body lines)."""
    for path in sources():
        lines = path.read_text().split('\n')
        i = 0
        while i < len(lines):
            m = FN.match(lines[i])
            if not m:
                i += 1
                continue
            j, begun = i, False
            while j < len(lines) - 1:
                line = lines[j].rstrip()
                if line.startswith(m[1] + '}') or line.endswith('{}') or (line.endswith(';') and not begun):
                    break
                begun = begun or line == m[1] + '{' or (line.endswith('{') and not re.match(r'\s*(requires|ensures)\b', line))
                j += 1
            part = lines[i:j + 1]
            clauses = [x.strip() for x in part if re.match(r'\s*(requires|ensures)\b', x)]
            body = [code(x) for x in part if not re.match(r'\s*(requires|ensures)\b', x)]
            yield path, i + 1, m[2], clauses, body
            i = j + 1


def found(pattern):
    """Lines of code outside clauses that have the pattern."""
    for path in sources():
        for n, line in enumerate(path.read_text().split('\n'), 1):
            if not re.match(r'\s*(requires|ensures|ghost)\b', line) and re.search(pattern, code(line)):
                yield path, n, line.strip()


def point1():
    """Flags as fields and parameters, codes as results, stand-ins for nothing, and exits that `?` could say."""
    yield from found(r'\b\w+: bool\b')
    yield from found(r'-> (u8|u16)\b')
    yield from found(r'^const \w+: u(8|16) = 9+;')
    yield from found(r'^(pub )?enum ')
    for path, n, line in found(r'else \{$|else \{ return'):
        nxt = path.read_text().split('\n')[n].strip()
        if 'let ' in line and re.match(r'return (Err|None|false)', nxt):
            yield path, n, line
    yield from found(r'=> return (Err|None|refusal)|Err\(\w+\) => return')


def shape(body):
    words = re.findall(r'\w+|[^\w\s]', ' '.join(body[1:]))
    return [w if not w[0].isalpha() or w in ('for', 'in', 'if', 'else', 'match', 'let', 'return', 'while', 'mut') else 'x' for w in words]


def point2():
    """Pairs of functions whose bodies have nearly one shape."""
    all_ = [(p, n, name, shape(body)) for p, n, name, _, body in functions()]
    all_ = [f for f in all_ if len(f[3]) >= 18]
    for a in range(len(all_)):
        for b in range(a + 1, len(all_)):
            x, y = all_[a], all_[b]
            if min(len(x[3]), len(y[3])) / max(len(x[3]), len(y[3])) < 0.8:
                continue
            if SequenceMatcher(None, x[3], y[3], autojunk=False).ratio() >= 0.9:
                yield x[0], x[1], f'{x[2]} ~ {y[2]} ({y[0].relative_to(TOP / "crates")}:{y[1]})'


def point3():
    """Loops over a range, `while`, `enumerate`, and counters and offsets kept by hand."""
    yield from found(r'\bfor \w+ in [^{]*\.\.')
    yield from found(r'\bwhile\b')
    yield from found(r'\.enumerate\(\)')
    yield from found(r'^\s*(\w+) (\+|-)= |^\s*(\w+) = \3\b|^\s*low = |^\s*(last|start) = ')
    for path, n, name, _, body in functions():
        text = '\n'.join(body)
        if re.search(r'for [^{]*\{[^{}]*(if [^{]*\{\s*return (true|false|Some[^;]*|Ok[^;]*);\s*\})\s*\}', text) or re.search(r'for [^{]*\{\s*\w+ = \w+ != [^;]*;\s*\}', text):
            yield path, n, name + ': a loop that looks for one element or folds a flag'


def point4():
    """Casts by `as`, flags turned to numbers, and what is printed, compared or converted by hand."""
    yield from found(r'\bas (u8|u16|u32|u64|usize|i32|i64)\b')
    yield from found(r'if \w+ \{ 1 \} else \{ 0 \}')
    yield from found(r'\bfn (fmt|show|from|from_word|of|eq|cmp|clone|number|sentence)\b')
    yield from found(r'!\w+(\.\w+)*\.below\(.*&& !|\.below\(.*\|\| ')


def clause_key(c):
    c = re.sub(r'^(requires|ensures)\s*\w*\s*\{', '', c)
    return re.sub(r'\s+', ' ', c.rstrip('}')).strip()


def point5():
    """A fact in the contracts of three or more functions, and pairs of parameters in three or more."""
    facts, pairs = {}, {}
    for path, n, name, clauses, body in functions():
        for c in set(clause_key(c) for c in clauses if c.startswith('requires')):
            facts.setdefault(c, []).append((path, n, name))
        head = ' '.join(body).split('{')[0]
        names = sorted(n for n in set(re.findall(r"(\w+): &?(?:'\w+ )?(?:mut )?[\w\[\]<>]+", head)) if len(n) > 1)
        for a in range(len(names)):
            for b in range(a + 1, len(names)):
                pairs.setdefault((crate(path), names[a], names[b]), []).append((path, n, name))
    for c, where in sorted(facts.items()):
        if len(where) >= 3:
            for p, n, name in where:
                yield p, n, f'{name}: {c}'
    for k, where in sorted(pairs.items()):
        where = [w for w in where if 'tests' not in str(w[0])]
        if len(where) >= 3:
            yield where[0][0], where[0][1], f'{k[1]}, {k[2]}: ' + ', '.join(w[2] for w in where)


def point6():
    """Arrays of a fixed size, places kept beside a slice, and tables searched by hand."""
    yield from found(r'\[[^\]]*; ?(\w+|\d[\d_]*)\]')
    yield from found(r'^\s*(at|rows|len|count|starts|ends): ')
    yield from found(r'^(pub )?static ')


def point7():
    """Matches of three or more arms that each call something, and function pointers."""
    for path, n, name, _, body in functions():
        arms = [x for x in body if re.search(r'=> .*\w\(.*\)', x)]
        if len(arms) >= 3:
            yield path, n, f'{name}: {len(arms)} arms'
    yield from found(r': fn\(|dyn ')


def point8():
    """Answers in the files of proofs/, and lemma files."""
    for path in sorted((TOP / 'crates').glob('*/proofs/**/*.antt')):
        for n, line in enumerate(path.read_text().split('\n'), 1):
            if re.match(r'pub [\w-]+ :', line):
                yield path, n, line.split(' :')[0]


POINTS = {str(i): f for i, f in enumerate([point1, point2, point3, point4, point5, point6, point7, point8], 1)}


def main():
    wanted = [a for a in sys.argv[1:] if a in POINTS] or list(POINTS)
    for p in wanted:
        places = list(POINTS[p]())
        by = {}
        for path, *_ in places:
            by[crate(path)] = by.get(crate(path), 0) + 1
        print(f'{p}. {POINTS[p].__doc__} {len(places)}: ' + ', '.join(f'{k} {v}' for k, v in sorted(by.items())))
        if '--list' in sys.argv:
            for path, n, what in places:
                print(f'   {path.relative_to(TOP)}:{n}: {what}')


main()
