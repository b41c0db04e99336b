#!/usr/bin/env python3
"""Moves theorems from specs/ to proofs/, so that an edit of a definition is refused by the theorems that rest on it.

Run once, at the top, after respell.py. Today's Rattle reads specs/ before it tries an edit, and takes an edit that
makes a file of specs/ fail for one that cannot be read. A file stays in specs/ if a contract cites it, if it holds
definitions alone, or if a file that stays imports it; every other file of specs/ moves to proofs/ under its name. Five
files that held both are taken apart first. Statements are not changed.
"""
import re
import subprocess
import sys
from pathlib import Path

sys.path.insert(0, str(Path(__file__).resolve().parent))
TOP = Path('.')
CRATES = TOP / 'crates'
USE = re.compile(r"^(\s*(?:pub )?(?:ghost )?use )(Rattle\.[\w.'+-]+?)(?:\.\{([^}]*)\}|( as \w+)?)(;?)$", re.M)


def module_of(path):
    return '.'.join(['Rattle', *path.relative_to(CRATES).parts]).removesuffix('.antt')


def all_files():
    return sorted(CRATES.glob('*/src/**/*.rt')) + sorted(CRATES.glob('*/specs/**/*.antt')) + sorted(CRATES.glob('*/proofs/**/*.antt'))


def write(path, text):
    path.parent.mkdir(parents=True, exist_ok=True)
    path.write_text(text)


# ---- files that hold both
def imports(text):
    return [line for line in text.split('\n') if re.match(r"(pub )?use ", line)]


def blocks(text):
    """The text as its comment at the top, its imports, and its declarations with the comments above them."""
    lines = text.split('\n')
    first = next(i for i, line in enumerate(lines) if line.startswith('use '))
    last = max(i for i, line in enumerate(lines) if line.startswith('use '))
    body = '\n'.join(lines[last + 1:]).strip('\n')
    return '\n'.join(lines[:first]), lines[first:last + 1], body


def redirect(moves):
    """moves: name of a module -> {name of an item: name of the module that has it now}."""
    for path in all_files():
        text = path.read_text()

        def turn(m):
            table = moves.get(m.group(2))
            if not table or m.group(3) is None:
                return m.group(0)
            groups = {}
            for item in [x.strip() for x in m.group(3).split(',') if x.strip()]:
                groups.setdefault(table.get(item.split(' as ')[0], m.group(2)), []).append(item)
            return '\n'.join(f"{m.group(1)}{name}.{{{', '.join(items)}}}{m.group(5)}" for name, items in groups.items())

        new = USE.sub(turn, text)
        if new != text:
            path.write_text(new)


def add_module(crate, folder, name, after=None):
    lib = CRATES / crate / folder / 'Lib.antt'
    text = lib.read_text() if lib.exists() else ''
    if f'pub mod {name}\n' not in text:
        if after and f'pub mod {after}\n' in text:
            text = text.replace(f'pub mod {after}\n', f'pub mod {after}\npub mod {name}\n')
        else:
            text += f'pub mod {name}\n'
        write(lib, text)


def take_apart():
    c = CRATES / 'connection/specs'
    # what the contracts of functions ask of a frame and a target
    head, uses, body = blocks((c / 'Laws/ShapeLaws.antt').read_text())
    start = body.index('-- A slot that is not free.')
    end = body.index('-- A state in shape.')
    fits = body[start:end]
    head2, uses2, body2 = blocks((c / 'Laws/PieceLaws.antt').read_text())
    start2 = body2.index('-- A header with content of at most')
    end2 = body2.index('-- A header read from bytes is one.')
    header = body2[start2:end2]
    write(c / 'Fits.antt', """-- What contracts ask of a header, and of what content is for.
use Rattle.std.specs.Prelude.{◌≡◌, ℕ, ◌+◌, ◌≤◌, ◌<◌, Bool, true, get_or}
use Rattle.slot_word.specs.Word.{taken}
use Rattle.record.specs.declared.header.Header.{Header}
use Rattle.connection.specs.declared.state.Table.{Table}
use Rattle.connection.specs.declared.state.Slot.{Slot}
use Rattle.connection.specs.declared.state.Target.{Target}
use Rattle.connection.specs.Sizes.{SLOTS, AREA, QUERY}
use Rattle.connection.specs.Slots.{find}

""" + header + fits.rstrip() + '\n')
    text = (c / 'Laws/ShapeLaws.antt').read_text().replace(fits, '')
    text = text.replace('use Rattle.connection.specs.Sizes.', 'use Rattle.connection.specs.Fits.{InUse, Begins, Grows, Aimed}\nuse Rattle.connection.specs.Sizes.', 1)
    write(c / 'Laws/ShapeLaws.antt', text)
    text = (c / 'Laws/PieceLaws.antt').read_text().replace(header, '')
    text = text.rstrip('\n') + '\n'
    lines = text.split('\n')
    last = max(i for i, line in enumerate(lines) if line.startswith('use '))
    lines.insert(last + 1, 'use Rattle.connection.specs.Fits.{HeaderFits}')
    write(c / 'Laws/PieceLaws.antt', '\n'.join(lines))
    add_module('connection', 'specs', 'Fits', 'Shape')
    shape, piece, here = 'Rattle.connection.specs.Laws.ShapeLaws', 'Rattle.connection.specs.Laws.PieceLaws', 'Rattle.connection.specs.Fits'
    moves = {shape: {x: here for x in ('InUse', 'Begins', 'Grows', 'Aimed')}, piece: {'HeaderFits': here}}

    # call_step/Beside: the definition stays
    p = CRATES / 'call_step/specs/Beside.antt'
    head, uses, body = blocks(p.read_text())
    cut = body.index('-- Where it fits, all is as without a queue.')
    write(CRATES / 'call_step/specs/Beside.antt', head + '\n' + """use Rattle.std.specs.Prelude.{ℕ, Bool, List, length}
use Rattle.wire.specs.Test.{if◌then◌else◌, ◌=?◌}
use Rattle.connection.specs.Sizes.{STORE}
use Rattle.connection.specs.Step.{State, Stepped, stays}
use Rattle.call_step.specs.Next.{steps_by}

""" + body[:cut].rstrip() + '\n')
    rest = body[cut:]
    write(CRATES / 'call_step/specs/BesideLaws.antt', '-- What holds of the calls that read with what waits lent beside the state.\n' + '\n'.join(uses) + '\nuse Rattle.call_step.specs.Beside.{steps_beside}\n\n' + rest.rstrip() + '\n')
    add_module('call_step', 'specs', 'BesideLaws', 'Beside')
    names = re.findall(r"^(?:  )?pub (?:record )?([^\s(:]+)", rest, re.M)
    moves['Rattle.call_step.specs.Beside'] = {n: 'Rattle.call_step.specs.BesideLaws' for n in names}

    # record/Body
    p = CRATES / 'record/specs/Body.antt'
    head, uses, body = blocks(p.read_text())
    cut = body.index('-- What is written reads back.')
    write(p, head + '\n' + """use Rattle.std.specs.Prelude.{ℕ, ◌%◌, Bool, List, ◌∷◌, ◌++◌}
use Rattle.wire.specs.Test.{if◌then◌else◌, ◌=?◌}
use Rattle.wire.specs.Number.{number2, number4, bytes2, bytes4}
use Rattle.wire.specs.Buffer.{byte_at, zeros}
use Rattle.record.specs.Names.{KEEP_CONN}
use Rattle.record.specs.declared.body.BeginBody.{BeginBody}
use Rattle.record.specs.declared.body.EndBody.{EndBody}

""" + body[:cut].rstrip() + '\n')
    rest = body[cut:]
    write(CRATES / 'record/specs/BodyLaws.antt', '-- What holds of the bodies of eight bytes.\n' + '\n'.join(uses) + '\nuse Rattle.record.specs.Body.{begin_body_of, end_body_of, unknown_type_of, begin_body_bytes, end_body_bytes, unknown_type_bytes}\n\n' + rest.rstrip() + '\n')
    add_module('record', 'specs', 'BodyLaws', 'Body')
    moves['Rattle.record.specs.Body'] = {n: 'Rattle.record.specs.BodyLaws' for n in re.findall(r"^pub ([^\s(:]+) :", rest, re.M)}

    # machine_queue/Pump: going round stays, turns and fairness move
    p = CRATES / 'machine_queue/specs/Pump.antt'
    head, uses, body = blocks(p.read_text())
    cut = body.index('  -- they are fewer than all')
    write(p, """-- Going round: slots are served in turn.
use Rattle.std.specs.Prelude.{ℕ, zero, suc, ◌+◌, ◌-◌, Bool}
use Rattle.std.proofs.Math.Option.{Option, none, some}
use Rattle.wire.specs.Test.{if◌then◌else◌, ◌<?◌, ◌≤?◌}

""" + body[:cut].rstrip() + '\n')
    rest = body[cut:]
    second = rest.index('-- ---- turns')
    first_half = re.sub(r"(?<![\w.'{])(slot_after|next_waiting|distance)(?![\w'])", r"\1 N", rest[:second])
    first_half = re.sub(r"(unfolding [^\n]*)", lambda m: m.group(1).replace(' N', ''), first_half)
    write(CRATES / 'machine_queue/specs/Pumping.antt', head + '\n' + '\n'.join(uses) + '\nuse Rattle.machine_queue.specs.Pump.{slot_after, next_waiting, distance}\n\n-- ---- going round\nmodule _ (N : ℕ) where\n' + first_half + rest[second:].rstrip() + '\n')
    add_module('machine_queue', 'specs', 'Pumping', 'Pump')
    names = re.findall(r"^  (?:abbrev |unfoldable )?pub (?:record |data )?([^\s(:]+)", rest, re.M)
    moves['Rattle.machine_queue.specs.Pump'] = {n: 'Rattle.machine_queue.specs.Pumping' for n in names}
    redirect(moves)


# ---- what stays and what moves
def plan():
    spec = {module_of(p): p for p in CRATES.glob('*/specs/**/*.antt') if p.name != 'Lib.antt'}
    text = {m: p.read_text() for m, p in spec.items()}

    def uses(t):
        found = set()
        for m in re.finditer(r"^\s*(?:pub )?(?:ghost )?use (Rattle\.[\w.'+-]+)", t, re.M):
            parts = m.group(1).rstrip('.').split('.')
            for k in range(len(parts), 0, -1):
                if '.'.join(parts[:k]) in spec:
                    found.add('.'.join(parts[:k]))
                    break
        return found

    def lemmas(t):
        count, inside = 0, None
        for line in t.split('\n'):
            depth = len(line) - len(line.lstrip())
            if inside is not None:
                if line.strip() and depth <= inside:
                    inside = None
                else:
                    continue
            if re.match(r" *(pub )?(record|data) ", line):
                inside = depth
            elif re.match(r" {0,4}(pub )?(?!abbrev |unfoldable |module |use )[^\s(:-][^\s(:]* : ", line):
                count += 1
        return count

    containers = {m for m, t in text.items() if re.search(r"^pub mod ", t, re.M)}
    roots = set()
    for p in CRATES.glob('*/src/**/*.rt'):
        roots |= uses(p.read_text())
    roots |= {m for m in spec if lemmas(text[m]) == 0 and m not in containers}
    stay, todo = set(), list(roots)
    while todo:
        m = todo.pop()
        if m not in stay:
            stay.add(m)
            todo += [u for u in uses(text[m]) if u.split('.')[1] == m.split('.')[1]]
    return spec, containers, stay


def move():
    spec, containers, stay = plan()
    moved = {m: m.replace('.specs.', '.proofs.', 1) for m in spec if m not in stay and m not in containers}
    for m, to in moved.items():
        p = spec[m]
        q = CRATES / '/'.join(to.split('.')[1:])
        q = q.with_name(q.name + '.antt')
        q.parent.mkdir(parents=True, exist_ok=True)
        subprocess.run(['git', 'mv', str(p), str(q)], check=True)
    # lists of modules
    lists = [p for p in CRATES.glob('*/specs/**/*.antt') if p.name == 'Lib.antt' or module_of(p) in containers]
    for p in lists:
        prefix = module_of(p).removesuffix('.Lib')
        lines, kept, gone = p.read_text().split('\n'), [], []
        comment = []
        for line in lines:
            m = re.match(r"(pub )?mod (\S+)$", line)
            if not m:
                if line.strip():
                    comment.append(line)
                continue
            name = f'{prefix}.{m.group(2)}'
            if name in containers:
                inner = [x for x in spec if x.startswith(name + '.')]
                if any(x in stay for x in inner):
                    kept.append(line)
                if any(x in moved for x in inner):
                    gone.append(line)
            elif name in moved:
                gone.append(line)
            else:
                kept.append(line)
        q = Path(str(p).replace('/specs/', '/proofs/', 1))
        if gone:
            old = q.read_text() if q.exists() else ''
            write(q, ('' if old else '\n'.join(comment) + ('\n' if comment else '')) + old + '\n'.join(gone) + '\n')
        if kept or p.name == 'Lib.antt':
            write(p, '\n'.join(comment + kept) + '\n')
        else:
            p.unlink()
    # names of modules
    longest = sorted(moved, key=len, reverse=True)
    table = {m: moved[m] for m in longest}
    for path in all_files():
        text = path.read_text()

        def turn(m):
            name = m.group(2)
            if name in table:
                return m.group(0).replace(name, table[name], 1)
            return m.group(0)

        new = USE.sub(turn, text)
        if new != text:
            path.write_text(new)
    for edit in CRATES.glob('*/must-fail/*.edit'):
        text = edit.read_text()
        m = re.search(r"^file: specs/(\S+)\.antt$", text, re.M)
        if m and f"Rattle.{edit.parts[1]}.specs.{m.group(1).replace('/', '.')}" in moved:
            edit.write_text(text.replace(f'file: specs/{m.group(1)}.antt', f'file: proofs/{m.group(1)}.antt'))
    Path('tools/port/moved.txt').write_text(''.join(f'{m} {to}\n' for m, to in sorted(moved.items())))
    print(f'{len(stay)} files stay, {len(moved)} move')


take_apart()
subprocess.run(['git', 'add', '-A'], check=True)
move()
