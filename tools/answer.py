#!/usr/bin/env python3
"""usage: tools/answer.py CRATE FUNCTION < ANSWERS    put answers into a Proof.antt; today it only says this

A function's answers are proofs/F/Answers.antt today, a short file with a line or two for each goal, and what its loops
keep is proofs/F/Invariants.antt. `rt check --start F --allow-holes`, in the crate's folder, writes both with a hole
for each goal; they are edited by hand.

A Proof.antt that is still there is read as before.
"""
import sys

print(__doc__.rstrip('\n'), file=sys.stderr)
sys.exit(2)
