#!/usr/bin/env python3
"""Spells the definitions and lemmas of this repository as today's Rattle does; run once, behind the kit's port.py, at the top.

Words are joined by _, and types and facts are in camel case. A dash stays in a lemma's name between names of definitions,
as in length-append, and in the names that Rattle makes. A middle dot becomes _. The text of the must-fail edits follows the
files that they change: each old line is looked up in the commit that the edit was written for, LANDED, and read where it
stands now.

usage: tools/respell.py [--table]     --table prints the rows, old and new, and changes nothing
"""
import collections
import difflib
import glob
import os
import re
import subprocess
import sys

LANDED = '982f7155826fd288a2c99bbe38d04311c6c865aa'
WORD = r'[^\s(){}.;,@"«»\[\]|]+'
LIBRARY = set(
    'length map take drop set suc zero get_or replicate all any sum max min some none append reverse filter fold'.split()
)
# Facts, which are spelled as types.
FACTS = {
    'is-impl': 'IsImpl',
    'is-written': 'IsWritten',
    'is-done': 'IsDone',
    'is_stop': 'IsStop',
    'is-success': 'IsSuccess',
}
# Names that would fall together with another one when a dash or a dot becomes _. A lemma that would have the name of a
# definition gets _lem, and the place of a record's word that would have the name of what it holds gets _word.
APART = {
    'bit-or': 'bit-bit_or',
    'cell-type': 'type_in_cell',
    'member-id': 'is_member_id',
} | {
    name: name.replace('-', '_') + '_lem'
    for name in (
        'definition-bindings definition-implicit definition-named flex-both impl-param-args kind-param member-import'
        ' node-inverted node-kind question-table row-length rows_end slot-trees table-length trees-length'
    ).split()
} | {
    name: name.replace('·', '_').replace('-', '_') + '_word'
    for name in 'generics·table impl·args impl·generics impl·table impl·trait trait·arity'.split()
}
DECLARED = re.compile(
    r'(?m)^ *((?:(?:pub|abbrev|unfoldable|opaque|data|record) +)*)'
    rf'({WORD})((?: *(?:\{{[^{{}}\n]*\}}|\([^()\n]*\)))*) :(?=[ \n])'
)
CLAUSE = re.compile(r'(?:requires|ensures)\s*\*?\s*(?:\w+\s*)?\{|ghost\s*\w+\s*[:=]\s*\{')


def read(path):
    with open(path, encoding='utf-8') as f:
        return f.read()


def laws():
    """The files of definitions and lemmas: specs/ and what stands in proofs/ itself."""
    return sorted(glob.glob('crates/*/specs/**/*.antt', recursive=True)) + sorted(glob.glob('crates/*/proofs/*.antt'))


def bare(text):
    return re.sub(r'(?m)(^|\s)--.*', r'\1', text)


def spelled(name, definitions, flats):
    """The new spelling of a name, by the rule that the head of this file gives."""
    if name in FACTS:
        return FACTS[name]
    if name in APART:
        return APART[name]
    flat = name.replace('·', '_').replace('′', "'")
    if name in definitions:
        return flat.replace('-', '_')
    parts, found, i = flat.split('-'), [], 0
    while i < len(parts):
        for j in range(len(parts), i, -1):
            run = '_'.join(parts[i:j])
            if run in LIBRARY or run in flats:
                found.append(run)
                i = j
                break
        else:
            return '_'.join(parts)
    return '-'.join(found)


def table():
    """The rows: each declared name whose spelling changes, with the new one."""
    declared, definitions, flats, tokens = set(), set(), set(), set()
    for path in laws():
        text = bare(read(path))
        tokens.update(re.findall(WORD, text))
        for words, name, _ in DECLARED.findall(text):
            declared.add(name)
            if re.search('abbrev|unfoldable|data|record', words):
                definitions.add(name)
                if len(name) > 2:
                    flats.add(name.replace('·', '_').replace('-', '_'))
    rows = {n: spelled(n, definitions, flats) for n in sorted(declared)}
    rows = {a: b for a, b in rows.items() if a != b}
    back = collections.defaultdict(set)
    for n in declared | tokens:
        back[rows.get(n, n)].add(n)
    together = {b: sorted(a) for b, a in back.items() if len(a) > 1 and any(x in rows for x in a)}
    return rows, together


def turned(text, rows):
    """The text with each whole word that has a row turned; a comment turns in its code spans alone."""

    def word(m):
        return rows.get(m[0], m[0])

    out = []
    for line in text.split('\n'):
        m = re.search(r'(^|\s)(--|//) ', line)
        code, said = (line[: m.start()], line[m.start() :]) if m else (line, '')
        code = re.sub(WORD, word, code)
        said = re.sub(r'`[^`]*`', lambda s: '`' + re.sub(WORD, word, s[0][1:-1]) + '`', said)
        out.append(code + said)
    return '\n'.join(out)


def own(text, rows):
    """The rows for a file: not those of a name that it brings from a library, and those of the names that it gives itself."""
    brought = set()
    for module, items in re.findall(r'use (\S+?)\.\{([^}]*)\}', text):
        crate = re.match(r'Rattle\.(\w+)', module)
        if not crate or not os.path.isdir(f'crates/{crate[1]}'):
            brought.update(item.strip().split(' as ')[0] for item in items.split(','))
    rows = {a: b for a, b in rows.items() if a not in brought}
    for items in re.findall(r'use \S+?\.\{([^}]*)\}', text):
        for alias in re.findall(rf' as ({WORD})', items):
            if '-' in alias:
                rows[alias] = alias.replace('-', '_')
    return rows


def source(text, rows):
    """A source file: its ghost imports, clauses and ghost members alone."""
    spans = []
    for m in re.finditer(r'ghost use [^;]*;', text):
        spans.append((m.start(), m.end()))
    for m in CLAUSE.finditer(text):
        depth, i = 1, m.end()
        while depth:
            depth += {'{': 1, '}': -1}.get(text[i], 0)
            i += 1
        spans.append((m.start(), i))
    for a, b in sorted(spans, reverse=True):
        text = text[:a] + turned(text[a:b], rows) + text[b:]
    return text


def landed(path):
    return subprocess.run(['git', 'show', f'{LANDED}:{path}'], capture_output=True, text=True, check=True).stdout


def edits(rows):
    """The text of each must-fail edit, read anew where its line stands now. What can't be placed is printed."""
    for path in sorted(glob.glob('crates/*/must-fail/*.edit')):
        crate = path.split('/')[1]
        file, out = None, []
        lines = read(path).rstrip('\n').split('\n')
        for i, line in enumerate(lines):
            key, _, said = line.partition(':')
            said = said[1:]
            if key == 'file':
                file = f'crates/{crate}/{said}'
                before, after = landed(file).split('\n'), read(file).split('\n')
                pairs = list(lined_up(before, after))
            if key == 'old':
                at = [k for k, l in enumerate(before) if said in l]
                if len(at) != 1:
                    print(f'{path}: {len(at)} lines for: {said}')
                else:
                    now = [after[b] for a, b in pairs if a == at[0]]
                    new = now[0] if now else None
                    whole = before[at[0]]
                    if new is None or whole.count(said) != 1:
                        print(f'{path}: not placed: {said}')
                    else:
                        words = swaps(whole, new)
                        said = turned(swapped(said, words), rows)
                        if said not in new:
                            print(f'{path}: not in its line: {said}')
            if key == 'new':
                said = turned(swapped(said, words), rows)
            out.append(f'{key}: {said}')
        with open(path, 'w', encoding='utf-8') as f:
            f.write('\n'.join(out) + '\n')


def lined_up(before, after):
    for tag, a, b, c, d in difflib.SequenceMatcher(None, before, after, autojunk=False).get_opcodes():
        if tag == 'equal' or b - a == d - c:
            yield from zip(range(a, b), range(c, d))
        elif tag == 'replace':
            for i in range(a, b):
                best = difflib.get_close_matches(before[i], after[c:d], 1, 0.5)
                if best:
                    yield i, c + after[c:d].index(best[0])


def tight(m):
    return m[1] + m[2].replace(' ', '')


SIGNS = [
    (r'λ _\. ⌜ (.*) ⌝', r'\1'),
    (r'λ r\. ⌜ (.*) ⌝', lambda m: re.sub(r'(?<![\w.])r(?![\w])', 'result', m[1])),
    (r'\(now \((\w+) \.entry\)\)|(?<![.\w])now \((\w+) \.entry\)', lambda m: (m[1] or m[2]) + '.now'),
    (r'\(now \((\w+)((?: \.\w+)+)\)\)', lambda m: tight(m) + '.now'),
    (r'(?<![.\w])now \((\w+)((?: \.\w+)+)\)', lambda m: tight(m) + '.now'),
    (r'now result', 'result.now'),
    (r"\(([\w']+)((?: \.[\w']+)+)\)", tight),
    (r' \.(\w)', r'.\1'),
    (r'\bgetD\b', 'get_or'),
]


def swaps(old, new):
    """The words of a line that another script turned, old and new."""
    a, b = re.findall(WORD, signed(old)), re.findall(WORD, new)
    return dict(zip(a, b)) if len(a) == len(b) else {}


def signed(text):
    for old, new in SIGNS:
        text = re.sub(old, new, text)
    return text


def swapped(text, words):
    return re.sub(WORD, lambda m: words.get(m[0], m[0]), signed(text))


def main():
    os.chdir(os.path.join(os.path.dirname(os.path.abspath(__file__)), '..'))
    rows, together = table()
    if '--table' in sys.argv:
        for a, b in sorted(rows.items()):
            print(f'{a}\t{b}')
        for b, a in sorted(together.items()):
            print(f'together: {b}: {", ".join(a)}', file=sys.stderr)
        return
    if together:
        raise SystemExit(f'names fall together: {together}')
    for path in sorted(glob.glob('crates/*/specs/**/*.antt', recursive=True)) + sorted(
        glob.glob('crates/*/proofs/**/*.antt', recursive=True)
    ):
        text = read(path)
        new = turned(text, own(text, rows))
        if new != text:
            with open(path, 'w', encoding='utf-8') as f:
                f.write(new)
    for path in sorted(glob.glob('crates/*/src/**/*.rt', recursive=True)):
        text = read(path)
        new = source(text, own(text, rows))
        if new != text:
            with open(path, 'w', encoding='utf-8') as f:
                f.write(new)
    edits(rows)


if __name__ == '__main__':
    main()
