#!/usr/bin/env python3
"""Counts what repeats in the crates of a checkout, for docs/DESIGN-PASS.md: `python3 tools/repeats.py [-l] [DIR]`; with -l it lists it too.

2   functions of one crate whose bodies are the same but for constants, literals and the functions that they call (twins)
5a  requires clauses that stand in three or more functions of a crate
5b  three or more parameters that stand together, by name and type, in three or more functions of a crate
"""
import collections
import pathlib
import re
import sys

FN = re.compile(r'^\s*(?:pub )?(?:extern "C" )?fn (\w+)[^(\n]*\(', re.M)


def matching(text, at, left, right):
    depth = 0
    for i in range(at, len(text)):
        if text[i] == left:
            depth += 1
        elif text[i] == right:
            depth -= 1
            if depth == 0:
                return i
    return len(text)


def functions(text):
    text = re.sub(r'//[^\n]*', '', text)
    for m in FN.finditer(text):
        end = matching(text, m.end() - 1, '(', ')')
        params = [' '.join(p.split()) for p in split(text[m.end():end])]
        clauses, at = [], end + 1
        while True:
            c = re.compile(r'\s*(requires|ensures)\s+(\w+\s+)?\{').match(text, at) or re.compile(r'[^{;]*?\n\s*(requires|ensures)\s+(\w+\s+)?\{').match(text, at)
            if not c:
                break
            stop = matching(text, c.end() - 1, '{', '}')
            if c.group(1) == 'requires':
                clauses.append(' '.join(text[c.end():stop].split()))
            at = stop + 1
        body = text.find('{', at)
        if body < 0:
            continue
        yield m.group(1), params, clauses, text[body:matching(text, body, '{', '}') + 1]


def split(text):
    parts, depth, last = [], 0, 0
    for i, c in enumerate(text):
        if c in '([<':
            depth += 1
        elif c in ')]>':
            depth -= 1
        elif c == ',' and depth == 0:
            parts.append(text[last:i])
            last = i + 1
    parts.append(text[last:])
    return [p for p in parts if p.strip()]


def shape(body, params):
    names = {p.split(':')[0].strip().lstrip('&').replace('mut ', '') for p in params if ':' in p}
    body = ' '.join(body.split())
    body = re.sub(r'b?"[^"]*"|b?\'[^\']\'', 'L', body)
    body = re.sub(r'\b(?:[a-z_]+::)*[A-Z][A-Z0-9_]+\b', 'L', body)
    body = re.sub(r'\b[0-9]+\b', 'L', body)
    body = re.sub(r'\b((?:\w+::)*\w+)\(', lambda m: m.group(0) if m.group(1) in ('Some', 'Ok', 'Err') else 'f(', body)
    return re.sub(r',? ([)}\]])', r'\1', body)


def main():
    args = sys.argv[1:]
    listed = '-l' in args
    args = [a for a in args if a != '-l']
    root = pathlib.Path(args[0] if args else pathlib.Path(__file__).resolve().parent.parent) / 'crates'
    twins, facts, groups = [], [], []
    for crate in sorted(root.iterdir()):
        shapes, clauses, runs = collections.defaultdict(list), collections.defaultdict(set), collections.defaultdict(set)
        for path in sorted((crate / 'src').rglob('*.rt')) if (crate / 'src').is_dir() else []:
            for name, params, required, body in functions(path.read_text()):
                shapes[shape(body, params)].append(name)
                for part in required:
                    clauses[part].add(name)
                for i in range(len(params)):
                    for j in range(i + 3, len(params) + 1):
                        runs[tuple(params[i:j])].add(name)
        twins += [(crate.name, names) for names in shapes.values() if len(names) > 1]
        facts += [(crate.name, c, names) for c, names in clauses.items() if len(names) > 2]
        many = {r: n for r, n in runs.items() if len(n) > 2}
        for r, n in many.items():
            if not any(len(o) > len(r) and n <= many[o] and ' | '.join(r) in ' | '.join(o) for o in many):
                groups.append((crate.name, r, n))
    print(f"2  groups of twins {len(twins)}, functions in them {sum(len(n) for _, n in twins)}")
    for crate, names in twins if listed else []:
        print(f"    {crate}: {', '.join(names)}")
    print(f"5a clauses that repeat {len(facts)}, functions with one {sum(len(n) for _, _, n in facts)}")
    for crate, c, names in facts if listed else []:
        print(f"    {crate}: {c} ({len(names)})")
    print(f"5b parameters that travel together {len(groups)}")
    for crate, r, names in groups if listed else []:
        print(f"    {crate}: {', '.join(r)} ({len(names)})")


main()
