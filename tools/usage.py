"""What the scripts beside it share: their arguments, and how they stop when called wrong."""
import os
import shutil
import sys


def stop(doc, why):
    """Says what is wrong, prints the usage line, which is the first of the script's own text, and exits with 2."""
    name = os.path.basename(sys.argv[0])
    print('%s: %s' % (name, why), doc.split('\n')[0], sep='\n', file=sys.stderr)
    sys.exit(2)


def arguments(doc):
    """The arguments; -h and --help print the script's own text."""
    args = sys.argv[1:]
    if args and args[0] in ('-h', '--help'):
        print(doc.rstrip('\n'))
        sys.exit()
    return args


def need_crate(doc, crate):
    """A crate of that name is here, and so is rt."""
    if not os.path.isdir('crates/' + crate):
        stop(doc, 'there is no crates/%s here' % crate)
    if not shutil.which('rt'):
        stop(doc, 'rt is not on the PATH')
