"""usage: python3 tools/timeline CAPTURE NAME < LINES > PAGE

Draws a capture. LINES is what `replay --offsets` prints for it; NAME is what the page calls it. Nothing is written if
the lines do not fit the capture. (./timeline calls this.)
"""
import sys
from capture import Capture, Disagreement
from page import page


def main(args):
    if len(args) != 2:
        print(__doc__.split('\n')[0], file=sys.stderr)
        return 2
    with open(args[0], 'rb') as file:
        data = file.read()
    name = ''.join(c if c.isprintable() else '\ufffd' for c in args[1])
    try:
        drawn = page(Capture(name, data, sys.stdin.buffer))
    except Disagreement as why:
        print('timeline: the lines of the replay do not fit the capture: %s' % why, file=sys.stderr)
        return 1
    sys.stdout.buffer.write(drawn.encode())
    return 0


sys.exit(main(sys.argv[1:]))
