#!/usr/bin/env python3
"""Spells the repository's own definitions and lemmas as today's Rattle spells words: snake case.

Run once, at the top, after the kit's port.py: respell.py COMMIT, the commit before it. A name that a file declares (`name :`, a field, a constructor, a lemma
in a `where`) and that has a dash or a capital inside turns to snake case wherever the repository's own name is meant:
a name that a file takes from a library of the kit stays. Functions of src/, exported names, strings, types, modules
and constructors keep their spelling. `--look` changes nothing and prints the names that would fall together.
"""
import collections
import re
import subprocess
import sys
from pathlib import Path

TOP = Path('.')
OLD = next((a for a in sys.argv[1:] if not a.startswith('--')), 'HEAD')
CRATES = {p.name for p in (TOP / 'crates').iterdir()}
TOKEN = re.compile(r"[^\s(){}\[\];,.«»\"|]+")
DECLARED = re.compile(r"^\s*(?:(?:pub|abbrev|unfoldable|private) )*([^\s(){}\[\];,.«»\"|:]+(?: [^\s(){}\[\];,.«»\"|:→=]+)*) :(?= |$)")
LET = re.compile(r"\blet ([^\s(){}\[\];,.«»\"|:]+) (?:: |= )")
USE = re.compile(r"^\s*(?:pub )?(?:ghost )?use ([^\s;{]+?)(?:\.\{(.*?)\}|;|$)", re.S)
# Names with a dash that would fall together with a definition's: what they are called instead. Where a name is not
# listed here and a definition (a capital inside) turns to the same word, the lemma (a dash) takes `_lem` at its end.
BY_HAND = {
    'err-ended': 'err_ended_same',
    'is-taken': 'slot_taken',
    'is-nan': 'nan_only',
    'out-ended': 'out_ended_same',
    'in-turn': 'in_its_turn',
    'role-number': 'role_number_back',
    'id-of': 'id_of_slot',
    'in-pieces': 'in_pieces_joined',
    'shape-of': 'shape_of_lem',
    'slots-of': 'slots_of_lem',
    'target-of': 'target_of_lem',
}
# Names that port.py itself turned, from a dash, to the word that a definition turns to now.
TURNED_BEFORE = """after_finish all_known as_before by_field first_says front_length goes_on held_after held_up is_digit
is_found is_same item_back key_below last_word lent_rows no_room of_one of_three of_two one_byte one_more part_bytes
past_pairs put_both put_count put_front reads_on same_bytes second_run takes_told target_fits told_of two_bytes
whole_parts with_item written_as""".split()


def before_port(path):
    """The file as it stood in the commit before port.py ran."""
    done = subprocess.run(['git', 'show', f'{OLD}:{path}'], capture_output=True, text=True)
    return done.stdout if done.returncode == 0 else ''


def snake(name):
    if '◌' in name or not re.search(r"-|[a-z0-9][A-Z]", name):
        return name
    if name[0] == '-' or name.endswith('-'):
        return name
    if re.search(r"[→≡×∷]", name):
        return name
    new = name.replace('-', '_')
    if new[0].islower():
        new = re.sub(r"([a-z0-9₀-₉])([A-Z])", lambda m: m.group(1) + '_' + m.group(2).lower(), new)
        new = new if new.isupper() else re.sub(r"[A-Z]", lambda m: m.group(0).lower(), new) if re.match(r"^[a-z0-9_'₀-₉A-Z]+$", new) else new
    return new


def proofs_of_functions(path):
    return path.name in ('Proof.antt', 'Answers.antt', 'Invariants.antt')


def uncommented(text):
    return '\n'.join(line.split('--')[0] if re.match(r"^\s*-- ", line) else re.sub(r" -- .*$", '', line) for line in text.split('\n'))


def names_declared(files):
    names = set()
    for path, text in files.items():
        body = uncommented(text)
        for line in body.split('\n'):
            m = DECLARED.match(line)
            if m and not line.lstrip().startswith(('let ', '→', 'use ')):
                for name in m.group(1).split():
                    if proofs_of_functions(path):
                        continue
                    names.add(name)
    return names


def from_kit(text):
    """The names that a file takes from the kit."""
    taken = set()
    for line in re.findall(r"^\s*(?:pub )?(?:ghost )?use [^\n]*", text, re.M):
        m = re.match(r"\s*(?:pub )?(?:ghost )?use ([^\s;{]+?)\.\{(.*)\}", line)
        if not m:
            continue
        parts = m.group(1).split('.')
        own = parts[0] == 'Rattle' and len(parts) > 1 and parts[1] in CRATES
        if not own:
            for item in m.group(2).split(','):
                item = item.strip()
                if ' as ' in item:
                    item = item.split(' as ')[0]
                taken.add(item)
    return taken


def main():
    look = '--look' in sys.argv
    antt = {p: p.read_text() for p in sorted(TOP.glob('crates/*/specs/**/*.antt')) + sorted(TOP.glob('crates/*/proofs/**/*.antt'))}
    rust = {p: p.read_text() for p in sorted(TOP.glob('crates/*/src/**/*.rt'))}
    declared = names_declared(antt)
    table = {n: BY_HAND.get(n, snake(n)) for n in declared}
    table = {a: b for a, b in table.items() if a != b}
    camel = {b for a, b in table.items() if '-' not in a}
    for a, b in table.items():
        if '-' in a and a not in BY_HAND and b in camel:
            table[a] = b + '_lem'
    print(f'{len(declared)} declared, {len(table)} turned')
    inverse = collections.defaultdict(set)
    for a, b in table.items():
        inverse[b].add(a)
    for b, a in sorted(inverse.items()):
        if len(a) > 1 or b in declared:
            print('together:', b, sorted(a), 'declared' if b in declared else '')
    clashes = 0
    for path, text in {**antt, **rust}.items():
        kit = from_kit(text)
        mine = {a: b for a, b in table.items() if a not in kit}
        old = None
        for name in TURNED_BEFORE:
            if re.search(r"(?<![\w'-])" + name + r"(?![\w'-])", text) and name not in kit:
                old = before_port(path) if old is None else old
                was = set(TOKEN.findall(old.replace('.', ' ')))
                if name.replace('_', '-') in was and name not in was:
                    mine[name] = name + '_lem'
                elif name.replace('_', '-') in was:
                    print('both:', path, name)
        body = uncommented(text) if path.suffix == '.antt' else re.sub(r"//.*", '', text)
        here = set(TOKEN.findall(body))
        for a in sorted(here & mine.keys()):
            b = mine[a]
            if b in here:
                clashes += 1
                print('clash:', path, a, b)
        if look:
            continue

        def turn(m):
            return mine.get(m.group(0), m.group(0))

        lines = []
        for line in text.split('\n'):
            mark = '--' if path.suffix == '.antt' else '//'
            if line.lstrip().startswith(mark):
                line = re.sub(r"`([^`]*)`", lambda q: '`' + TOKEN.sub(turn, q.group(1)) + '`', line)
            elif path.suffix == '.rt' and '"' in line:
                pieces = re.split(r'("(?:[^"\\]|\\.)*")', line)
                line = ''.join(p if i % 2 else TOKEN.sub(turn, p) for i, p in enumerate(pieces))
            else:
                line = TOKEN.sub(turn, line)
            lines.append(line)
        new = '\n'.join(lines)
        if new != text:
            path.write_text(new)
    for path in sorted(TOP.glob('*.md')) + sorted(TOP.glob('docs/**/*.md')):
        text = path.read_text()
        new = re.sub(r"`([^`\n]*)`", lambda q: '`' + TOKEN.sub(lambda m: table.get(m.group(0), m.group(0)), q.group(1)) + '`', text)
        if new != text and not look:
            path.write_text(new)
    print(f'{clashes} clashes')
    if not look:
        Path('tools/port/respelled.txt').write_text(''.join(f'{a} {b}\n' for a, b in sorted(table.items())))


main()
