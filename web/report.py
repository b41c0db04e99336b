"""A line for each thing that is tried, and how many of them were as they have to be."""
import sys


def difference(got, wanted):
    """Where two byte strings differ, in a few words."""
    at = next((i for i, (a, b) in enumerate(zip(got, wanted)) if a != b), min(len(got), len(wanted)))
    return 'from byte %d on %r in place of %r (%d bytes, %d wanted)' % (
        at, got[at:at + 60], wanted[at:at + 60], len(got), len(wanted))


class Report:
    """What is tried of a server. The tally, `PASSED FAILED`, is in a file at any time."""

    def __init__(self, who, tally):
        self.who, self.tally, self.passed, self.failed = who, tally, 0, 0
        self.write()

    def write(self):
        with open(self.tally, 'w') as file:
            file.write('%d %d\n' % (self.passed, self.failed))

    def holds(self, what, ok, why=''):
        """Something has to be true."""
        if ok:
            self.passed += 1
        else:
            self.failed += 1
        self.write()
        self.note(what if ok or not why else what + ': ' + why, 'ok' if ok else 'FAILED')

    def equal(self, what, got, wanted):
        """Bytes, numbers or several of them have to be equal."""
        if isinstance(got, bytes) and isinstance(wanted, bytes):
            self.holds(what, got == wanted, difference(got, wanted))
        else:
            self.holds(what, got == wanted, '%.300r in place of %.300r' % (got, wanted))

    def answer(self, what, got, lines, status=200):
        """The answer to a request has to have that status, plain text, and those bytes."""
        self.holds(what, right(got, lines, status), wrong(got, lines, status))

    def answers(self, what, several):
        """The same of several answers together: (answer, lines) or (answer, lines, status)."""
        bad = [wrong(*one) for one in several if not right(*one)]
        why = '%d wrong, the first: %s' % (len(bad), bad[0]) if bad else ''
        self.holds('%s (%d)' % (what, len(several)), not bad, why)

    def note(self, what, kind='note'):
        """A line; by itself, of something to know that is neither right nor wrong."""
        print('%-10s %-6s %s' % (self.who, kind, what))
        sys.stdout.flush()

    def attempt(self, case, *args):
        """Tries a case; an error in it is a failure and does not stop the others."""
        try:
            case(self, *args)
        except Exception as trouble:
            self.holds(case.__name__, False, repr(trouble))


def right(got, lines, status=200):
    return (got.status, got.kind, got.body) == (status, 'text/plain', lines)


def wrong(got, lines, status=200):
    if got.status != status or got.kind != 'text/plain':
        return 'status %s %s (%d wanted), %.200r' % (got.status, got.kind, status, got.body)
    return difference(got.body, lines)
