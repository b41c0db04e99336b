#!/usr/bin/env python3
"""usage: tools/skeleton.py CRATE    wrote the proof files that the older rt offered; today it only says this

`rt check --start F --allow-holes`, in the crate's folder, writes the proof files of the function F (Invariants.antt and
Answers.antt in proofs/F), or adds what they lack, and prints their goals. A function that the check proves by itself
needs none.

`rt check` names the functions that are not proved; `python3 tools/goals.py CRATE` shows them alone.
"""
import sys

print(__doc__.rstrip('\n'), file=sys.stderr)
sys.exit(2)
