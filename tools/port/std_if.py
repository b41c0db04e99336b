#!/usr/bin/env python3
"""Takes `if◌then◌else◌` from the library, in place of the repository's own in wire/specs/Test.

Run once, at the top, after move_theorems.py. rt ci refuses another operator of that name.
"""
import re
from pathlib import Path

NAME = 'if◌then◌else◌'
for path in sorted(Path('crates').glob('*/src/**/*.rt')) + sorted(Path('crates').glob('*/specs/**/*.antt')) + sorted(Path('crates').glob('*/proofs/**/*.antt')):
    text = path.read_text()
    found = re.search(r"^((?:ghost )?use Rattle\.wire\.specs\.Test\.\{)([^}]*)(\};?)\n", text, re.M)
    if not found or NAME not in found.group(2):
        continue
    rest = [x.strip() for x in found.group(2).split(',') if x.strip() != NAME]
    line = f"{found.group(1)}{', '.join(rest)}{found.group(3)}\n" if rest else ''
    text = text.replace(found.group(0), line, 1)
    ghost = 'ghost ' if path.suffix == '.rt' else ''
    semi = ';' if path.suffix == '.rt' else ''
    prelude = re.search(rf"^{ghost}use Rattle\.std\.specs\.Prelude\.\{{([^}}]*)\}}{semi}\n", text, re.M)
    if prelude:
        text = text.replace(prelude.group(0), f"{ghost}use Rattle.std.specs.Prelude.{{{prelude.group(1)}, {NAME}}}{semi}\n", 1)
    else:
        first = re.search(rf"^{ghost}use ", text, re.M)
        text = text[:first.start()] + f"{ghost}use Rattle.std.specs.Prelude.{{{NAME}}}{semi}\n" + text[first.start():]
    path.write_text(text)
test = Path('crates/wire/specs/Test.antt')
text = test.read_text()
text = text.replace("infix 4 if◌then◌else◌\n", '').replace("""abbrev pub if◌then◌else◌ {ℓ} : {A : Type ℓ} → Bool → A → A → A
if◌then◌else◌ true a b = a
if◌then◌else◌ false a b = b

""", '\n')
test.write_text(text)
