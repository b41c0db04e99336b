#!/usr/bin/env python3
"""usage: tools/prune.py FILE..    drops the names of `use M.{..}` lines that an antt file does not mention

For files of a crate that is not proved yet; in one that is, `rt tidy` does it. An operator is named by its parts, `◌<?◌`.
"""
import os
import re

from usage import arguments, stop

paths = arguments(__doc__)
missing = [path for path in paths if not os.path.isfile(path)]
if missing or not paths:
    stop(__doc__, 'there is no file %s' % missing[0] if missing else 'it takes files')
for path in paths:
    text = open(path).read()
    lines = text.split('\n')
    body = '\n'.join(line for line in lines if not line.startswith('use '))
    body = re.sub(r'(?m)--.*$', '', body)
    words = set(re.split(r'[\s(){};,.@"]+', body))
    out = []
    for line in lines:
        use = re.match(r'^(use \S+?)\.\{(.*)\}$', line)
        if not use:
            out.append(line)
            continue
        kept = []
        for item in [x.strip() for x in use.group(2).split(',')]:
            name = item.split(' as ')[-1].strip()
            parts = [x for x in name.split('◌') if x] or [name]
            if name in words or all(part in words for part in parts):
                kept.append(item)
        if kept:
            out.append('%s.{%s}' % (use.group(1), ', '.join(kept)))
    if '\n'.join(out) != text:
        open(path, 'w').write('\n'.join(out))
        print('pruned', path)
