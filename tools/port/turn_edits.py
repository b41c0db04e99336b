#!/usr/bin/env python3
"""Turns the must-fail edits to today's spelling: turn_edits.py OLD-TREE, the tree of the commit before port.py ran.

Run once, at the top, after move_theorems.py. Each text of an edit is spelled as today's file spells the old file's
line: names by how the old file and today's differ there, then by all files, then by respelled.txt; projections tight.
Where the `old:` text then stands other than once, the edit is left as it was, and printed. `--look` writes nothing,
`--check` prints the edits whose text does not stand once and does nothing else.
"""
import collections
import difflib
import re
import sys
from pathlib import Path

TOP = Path('.')
SEG = r"(?:«[^»\n]*»|[^ \n\t\r(){}.;,@\"«»\[\]])+"
TOKEN = re.compile(rf'(?P<ws>\s+)|(?P<text>"(?:[^"\\\n]|\\.)*")|(?P<name>{SEG}(?:\.{SEG})*)|(?P<proj>(?:\.{SEG})+)|(?P<sign>.)', re.S)
OPERATORS = set('= → × : ∷ ++ + - * / % =? <? ≤? & && || and then else if let in λ ≡ ≤ < ≢ when ⌜ ⌝ ⊕ ∨ , . elim'.split())


def parse(text):
    """The lines of an edit: ('c', comment), ('file', path), ('pair', path, old, new)."""
    out, path, old = [], None, None
    for line in text.split('\n'):
        if line.startswith('file: '):
            path = line[6:].strip()
            out.append(('file', path))
        elif line.startswith('old: '):
            old = line[5:]
        elif line.startswith('new: ') or line == 'new:':
            out.append(('pair', path, old, line[5:]))
        elif line.strip():
            out.append(('c', line))
    return out


def spell(items):
    lines = []
    for it in items:
        lines += [it[1]] if it[0] == 'c' else [f'file: {it[1]}'] if it[0] == 'file' else [f'old: {it[2]}', f'new: {it[3]}'.rstrip(' ') if not it[3] else f'new: {it[3]}']
    return '\n'.join(lines) + '\n'


def wrong(crate, items):
    """The pairs that do not apply in the folder of a crate."""
    texts, bad = {}, []
    for it in items:
        if it[0] != 'pair':
            continue
        _, path, old, new = it
        p = crate / path
        if path not in texts:
            texts[path] = p.read_text() if p.exists() else None
        n = texts[path].count(old) if texts[path] is not None else 'no file'
        if n == 1:
            texts[path] = texts[path].replace(old, new)
        else:
            bad.append((n, path, old))
    return bad


def tokens(text):
    return [(m.lastgroup, m.group(0)) for m in TOKEN.finditer(text)]


def tight(text):
    """`f x .a .b` as `(f x).a.b`, `(x .a)` as `x.a`."""
    toks = tokens(text)

    def group(i, closer):
        out, items, start = [], [], 0      # items: the words of the application at hand; out: what is done
        pend = []
        while i < len(toks):
            kind, t = toks[i]
            if t in ')}]' and kind == 'sign':
                out += pend
                return out, i
            if kind == 'ws':
                pend.append(('ws', t))
            elif kind == 'sign' and t in '({[':
                inner, j = group(i + 1, t)
                if j < len(toks):
                    body = ''.join(x for _, x in inner)
                    mark = toks[j][1]
                    words = [x for x in inner if x[0] != 'ws']
                    if t == '(' and len(words) == 1 and words[0][0] == 'tight':
                        pend.append(('tight', body))
                    else:
                        pend.append(('atom', t + body + mark))
                    i = j
                else:
                    pend.append(('op', t))
                    pend += inner
                    i = j
            elif kind == 'proj' or (kind == 'name' and False):
                t = re.sub(r"«(?!(?:data|open)»)([^»]*)»", r"\1", t)
                while pend and pend[-1][0] == 'ws':
                    pend.pop()
                k = len(pend)
                while k and pend[k - 1][0] != 'op':
                    k -= 1
                while k < len(pend) and pend[k][0] == 'ws':
                    k += 1
                words = pend[k:]
                if not words:
                    pend.append(('atom', t) if not pend else ('atom', ' ' + t))
                elif len([x for x in words if x[0] != 'ws']) == 1 and not re.match(r"^[A-Za-z]\w*\.", words[0][1]) or (len(words) == 1 and words[0][0] == 'tight'):
                    pend[k:] = [('tight', words[0][1] + t)]
                else:
                    pend[k:] = [('tight', '(' + ''.join(x for _, x in words) + ')' + t)]
            elif t in OPERATORS or kind == 'sign' or re.match(r"^[^\w«'-]+$", t) and t not in ('_',):
                if kind == 'sign' and t == '.' :
                    pend.append(('op', t))
                else:
                    pend.append(('op', t))
            else:
                pend.append(('atom', re.sub(r"«(?!(?:data|open)»)([^»]*)»", r"\1", t) if kind == 'name' else t))
            i += 1
        out += pend
        return out, i

    done, i = [], 0
    while i < len(toks):
        part, i = group(i, None)
        done += part
        if i < len(toks):
            done.append(('op', toks[i][1]))
            i += 1
    return ''.join(x for _, x in done)


WORD = re.compile(r"[^\s(){}\[\];,.«»\"|·]+")


def words(text, antt):
    text = re.sub(r"(?m)^\s*(--|//).*$", '', text)
    return WORD.findall(text)


def learned(old, new):
    a, b = words(old, True), words(new, True)
    table = collections.defaultdict(collections.Counter)
    for tag, i, j, k, m in difflib.SequenceMatcher(None, a, b, autojunk=False).get_opcodes():
        if tag == 'equal':
            for x in a[i:j]:
                table[x][x] += 1
        elif tag == 'replace' and j - i == m - k:
            for x, y in zip(a[i:j], b[k:m]):
                table[x][y] += 1
    return table


def today_path(crate, path, moved):
    name = f"Rattle.{crate}.{path.removesuffix('.antt').replace('/', '.')}"
    return moved[name].split('.', 2)[2].replace('.', '/') + '.antt' if name in moved else path


def main():
    edits = sorted(TOP.glob('crates/*/must-fail/*.edit'))
    if '--check' in sys.argv:
        n = 0
        for e in edits:
            for count, path, old in wrong(e.parent.parent, parse(e.read_text())):
                n += 1
                print(f'{e}: {count} times in {path}: {old}')
        print(f'{len(edits)} edits, {n} texts that do not stand once')
        return
    look = '--look' in sys.argv
    before = Path(next(a for a in sys.argv[1:] if not a.startswith('--')))
    respelled = dict(line.split(' ') for line in Path('tools/port/respelled.txt').read_text().splitlines())
    moved = dict(line.split(' ') for line in Path('tools/port/moved.txt').read_text().splitlines())
    moved = {a: b for a, b in moved.items()}
    tables, everywhere = {}, collections.defaultdict(collections.Counter)
    files = {(e.parts[1], it[1]) for e in edits for it in parse((before / e).read_text()) if it[0] == 'file'}
    for crate, path in sorted(files):
        new = TOP / 'crates' / crate / today_path(crate, path, moved)
        tables[crate, path] = learned((before / 'crates' / crate / path).read_text(), new.read_text())
        for a, c in tables[crate, path].items():
            everywhere[a].update(c)
    left = 0
    same = turned = 0
    for e in edits:
        crate = e.parts[1]
        items, out = parse((before / e).read_text()), []
        for it in items:
            if it[0] == 'c':
                text = re.sub(r"`([^`]*)`", lambda m: '`' + WORD.sub(lambda w: respelled.get(w.group(0), w.group(0)), m.group(1)) + '`', it[1])
                out.append(('c', text))
                continue
            if it[0] == 'file':
                out.append(('file', today_path(crate, it[1], moved)))
                continue
            _, path, old, new = it
            table = tables[crate, path]

            def turn(m):
                w = m.group(0)
                for t in (table, everywhere):
                    if w in t:
                        best, n = t[w].most_common(1)[0]
                        return best
                return respelled.get(w, w)

            def respell(text):
                if path.endswith('.rt'):
                    return text if not re.search(r"Rattle·|⌜|⌝|≡|×", text) else WORD.sub(turn, tight(text))
                return WORD.sub(turn, tight(text))

            out.append(('pair', today_path(crate, path, moved), respell(old), respell(new)))
        bad = wrong(TOP / 'crates' / crate, out)
        was = (before / e).read_text()
        if bad:
            left += 1
            print(f'left: {e}')
            for count, path, old in bad:
                print(f'    {count} times in {path}: {old}')
        else:
            text = spell(out)
            if text == was:
                same += 1
            else:
                turned += 1
            if not look and text != e.read_text():
                e.write_text(text)
    print(f'{len(edits)} edits: {same} stand, {turned} turned, {left} left')


main()
