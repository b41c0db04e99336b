#!/usr/bin/env python3
"""usage: tools/goals.py CRATE [-g REGEX]    checks a crate with `rt check` and shows only what is left to do

Run it at the top of the repository. Shown are errors, what a function still has to prove, cut to a readable length, and
functions that are not proved. With -g holes are allowed, and the goals whose first line matches REGEX (a file, or the
name of a goal) are shown whole. All that rt said is kept in target/last-CRATE.out.
"""
import os
import re
import subprocess
import sys

from usage import arguments, need_crate, stop

args = arguments(__doc__)
if len(args) not in (1, 3) or len(args) == 3 and args[1] != '-g':
    stop(__doc__, 'it takes a crate, and -g with what to look for')
crate, wanted = args[0], args[2] if len(args) == 3 else None
need_crate(__doc__, crate)
words = ['--allow-holes'] if wanted else []
ran = subprocess.run(['rt', 'check'] + words, cwd='crates/' + crate, capture_output=True, text=True, stdin=subprocess.DEVNULL)
out = ran.stdout + ran.stderr
os.makedirs('target', exist_ok=True)
with open('target/last-%s.out' % crate, 'w') as file:
    file.write(out)

blocks = []
for line in out.split('\n'):
    if line[:1] in ('', ' ') and blocks:
        blocks[-1].append(line)
    else:
        blocks.append([line])
# What says how rt works, and what need not be read again.
DULL = re.compile(r'(rt: chose|rt: rt |checked |library |statements |crate |axioms |logic /|help: |only=|empty contracts: 0'
                  r'|note: a goal may be false|note: to see how far)|.*has-holes')
for block in blocks:
    head, text = block[0], '\n'.join(block).rstrip()
    if not head or DULL.match(head):
        continue
    if re.match(r'(fn|struct|enum|impl|trait) ', head):
        if not re.search(r': (proved|no holes)$', head):
            print(head[:300])
    elif re.search(r': goal \? in |must prove: ', head):
        if wanted and re.search(wanted, head):
            print(text[:6000])
        elif not wanted:
            print(text.split('\n')[0][:300])
    else:
        print(text[:1800])
sys.exit(ran.returncode)
