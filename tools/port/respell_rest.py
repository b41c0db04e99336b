#!/usr/bin/env python3
"""Spells the names that respell.py passed over: those declared with an implicit argument, as `name {A} :`.

Run once, at the top, after std_if.py.
"""
import re
from pathlib import Path

TABLE = {
    'onSlot': 'on_slot', 'onSaid': 'on_said', 'onRole': 'on_role', 'onRead': 'on_read', 'onFound': 'on_found',
    'byTest': 'by_test', 'byStanding': 'by_standing', 'mapped-length': 'mapped_length', 'as-alone': 'as_alone',
}
TOKEN = re.compile(r"[^\s(){}\[\];,.«»\"|`]+")
FILES = ['crates/*/src/**/*.rt', 'crates/*/specs/**/*.antt', 'crates/*/proofs/**/*.antt', 'crates/*/must-fail/*.edit', 'docs/**/*.md']
for path in [p for files in FILES for p in sorted(Path('.').glob(files))]:
    text = path.read_text()
    new = TOKEN.sub(lambda m: TABLE.get(m.group(0), m.group(0)), text)
    if new != text:
        path.write_text(new)
