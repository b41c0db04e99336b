#!/usr/bin/env python3
"""usage: tools/paths.py CRATE FUNCTION [NEED..]    showed the paths into `c` at each need; today it only says this

It read the modules that the older rt generated for a function, which had a record for each place of the code. Today a
goal is printed with the names that can be used there, step by step: `rt check --start F --allow-holes`, in the crate's
folder, prints those of the function F.

`python3 tools/goals.py CRATE -g REGEX` shows the goals of a crate whose first line matches.
"""
import sys

print(__doc__.rstrip('\n'), file=sys.stderr)
sys.exit(2)
