#!/usr/bin/env python3
"""usage: web/session.py FOLDER    writes a session with the station: FOLDER/stdin is what a web server sends on one
                                   kept connection, and FOLDER/stdout what the station has to answer

The answers come from web/reference.py. The order in which they are written follows docs/RULES.md: section 1 says how
records are padded, and section 20 how much can wait for a request and whose turn it is. The station reads 65,536 bytes
at a time and goes round when a piece is read through. The session is longer than one piece, so that ids and slots are
used again in the second.
"""
import os
import sys

sys.dont_write_bytecode = True
import fcgi
import reference
from fcgi import ABORT, AUTHORIZER, DATA, END, FILTER, GET_VALUES, PARAMS, RESPONDER, STDERR, STDIN, STDOUT
from fcgi import UNKNOWN, VALUES, begin, opening, pairs, record, stream

PIECE = 65536
ROOM = 1024  # bytes that can wait for a request
RUN = 512  # the most content of a record that the pump writes
PART = 256  # the most that the station says in one call
SLOTS = 16


def written(kind, id, content=b''):
    """A record as the station writes it: padded to eight bytes."""
    return record(kind, id, content, -len(content) % 8)


def ended(id, application, status):
    return written(END, id, application.to_bytes(4, 'big') + bytes([status]) + bytes(3))


def parts(text):
    """The header and the lines of an answer, as many together as a part takes."""
    header, _, lines = text.partition(b'\r\n\r\n')
    found = [b'']
    for each in [header + b'\r\n\r\n'] + lines.splitlines(keepends=True):
        if len(found[-1]) + len(each) > PART:
            found.append(b'')
        found[-1] += each
    return found


class Answer:
    """What is still to be said to a request, and what waits for it."""

    def __init__(self, id, out, err=b'', status=0):
        self.id, self.status = id, status
        self.unsaid = [(STDOUT, part) for part in parts(out)] if out else []
        self.unsaid += [(STDERR, err)] if err else []
        self.ends = [STDOUT, STDERR] if err else [STDOUT]
        self.waiting, self.leaving = [], False

    def say(self):
        while self.unsaid and sum(len(text) for _, text in self.waiting) + len(self.unsaid[0][1]) <= ROOM:
            self.waiting.append(self.unsaid.pop(0))
        self.leaving = not self.unsaid

    def write(self):
        """The next record; None where nothing waits."""
        if self.waiting:
            kind, content = self.waiting[0][0], b''
            while self.waiting and self.waiting[0][0] == kind and len(content) < RUN:
                text = self.waiting.pop(0)[1]
                content, left = content + text[:RUN - len(content)], text[RUN - len(content):]
                if left:
                    self.waiting.insert(0, (kind, left))
            return written(kind, self.id, content)
        if self.leaving and self.ends:
            return written(self.ends.pop(0), self.id)
        if self.leaving:
            return ended(self.id, self.status, 0)
        return None


class Session:
    """Records that are sent, and what comes back."""

    def __init__(self):
        self.stdin, self.stdout = b'', b''
        self.slots, self.turn, self.ready = {}, 0, {}

    def send(self, data):
        self.stdin += data

    def reply(self, data):
        """A reply that is owed is written at once."""
        self.stdout += data

    def open(self, id):
        self.slots[id] = min(set(range(SLOTS)) - set(self.slots.values()))

    def answer(self, id, out, err=b'', status=0):
        self.ready[self.slots[id]] = Answer(id, out, err, status)

    def whole(self, id, body, parameters=(), cuts=None, role=RESPONDER):
        """A request with all its input, and its answer."""
        self.open(id)
        self.send(opening(id, parameters, role=role))
        if role != AUTHORIZER:
            self.send(stream(STDIN, id, cuts or [body]))
        if role == FILTER:
            self.send(stream(DATA, id, [b'the data of a filter']))
        self.answer(id, reference.answer(body, dict(parameters)))

    def fault(self, id, fault):
        self.answer(id, reference.faulted(fault), b'fault %s\n' % fault.encode(), 1)

    def go_round(self):
        """The piece is read through: rounds until nothing waits."""
        while self.ready:
            for each in self.ready.values():
                each.say()
            for _ in range(SLOTS):
                for step in range(SLOTS):
                    slot = (self.turn + step) % SLOTS
                    content = self.ready[slot].write() if slot in self.ready else None
                    if content:
                        self.stdout += content
                        self.turn = slot + 1
                        if content[1] == END:
                            id = self.ready.pop(slot).id
                            del self.slots[id]
                        break


def cards(thawed_offset, frozen_slope, frozen_offset):
    return list(zip(reference.CARDS, (thawed_offset, frozen_slope, frozen_offset)))


def length(n):
    return [('CONTENT_LENGTH', str(n))]


def first_piece(s):
    """Sixteen requests side by side, one too many, one of an unknown role, a query and an unknown type."""
    s.send(record(GET_VALUES, 0, pairs([('FCGI_MAX_REQS', ''), ('FCGI_MPXS_CONNS', '')])) + record(77, 0, b'?'))
    s.reply(written(VALUES, 0, pairs([('FCGI_MAX_REQS', '16'), ('FCGI_MPXS_CONNS', '1')])))
    s.reply(written(UNKNOWN, 0, bytes([77]) + bytes(7)))
    # -18.4 degrees is EF 02, cut between two records; records of two other requests come between them
    body = reference.body([(7, -184, 512), (8, -1, 9), (65535, 400, 65535), (9, 0, 0), (4294967295, -600, 70000)])
    given = cards('-2.5', '0.125', '4') + length(len(body))
    for id in (1, 2, 3):
        s.open(id)
    s.send(begin(1) + begin(2) + stream(PARAMS, 1, [pairs(given)]) + record(STDIN, 1, body[:2], 5))
    s.send(begin(3) + stream(PARAMS, 2, [pairs([('REQUEST_METHOD', 'GET')] + length(0))]))
    s.send(record(STDIN, 1, body[2:], 1))
    over = reference.body([(1, 200, 100), (2, -5, 3)])
    s.send(stream(PARAMS, 3, [pairs(length(len(over) - 1))]) + record(STDIN, 3, over) + record(STDIN, 2))
    s.send(record(STDIN, 3) + record(STDIN, 1))
    s.answer(1, reference.answer(body, dict(given)))
    s.answer(2, reference.answer(b'', dict(length(0))))
    s.answer(3, reference.answer(over, dict(length(len(over) - 1))))
    s.whole(4, over[:4], length(len(over)))
    s.whole(5, over, cards('0.0625', '1000.001', ''), role=FILTER)
    s.whole(6, b'', role=AUTHORIZER)
    for id, refused in ((7, b'\xff\xff\xff\xff\x10'), (8, b'\x80\x00'), (9, b'\x01\xb1\x09'), (10, b'\x01\x02')):
        s.whole(id, over + refused, cuts=[over[:4], over[4:] + refused[:1], refused[1:]])
    s.open(11)
    s.open(13)
    s.send(opening(12, role=4) + begin(11) + begin(13) + stream(PARAMS, 11, [b'\x01\x01ab\x09\x09x']))
    s.reply(ended(12, 0, 3))
    s.fault(11, '25 at 4')
    s.send(stream(PARAMS, 13, [pairs(length(20))]) + record(STDIN, 13, over) + record(ABORT, 13) + record(STDIN, 13))
    s.answer(13, b'', status=1)
    s.whole(14, over, [('REQUEST_METHOD', 'HEAD')] + length(len(over)))
    readings = [(log, log * 7 % 1001 - 600, log * 331 % 65536) for log in range(1, 121)]
    s.whole(15, reference.body(readings), cards('0.5', '-0.375', '-10'))
    s.open(16)
    s.open(17)
    s.send(opening(16, [('X', '1'), ('X', '2')]) + record(STDIN, 16, over))
    s.fault(16, '26')
    s.send(opening(17, length(3)) + opening(18) + record(STDIN, 18, over))
    s.reply(ended(18, 0, 2))


def second_piece(s):
    """Ids again: one of them for a request whose body came in both pieces."""
    s.send(record(STDIN, 17))
    s.answer(17, reference.answer(LONG, dict(length(3))))
    body = reference.body([(17, -184, 1200), (18, -5, 1187), (19, 215, 903)])
    s.whole(1, body, cuts=[body[:2], body[2:]])
    s.whole(16, b'', [('REQUEST_METHOD', 'HEAD')])
    s.whole(3, body, [('REQUEST_METHOD', 'head')] + length(len(body) + 1))
    s.open(65535)
    s.send(begin(65535) + record(DATA, 65535, b'?'))
    s.fault(65535, '22')
    s.send(record(STDIN, 3)[:5])


# A body that is refused at its third byte and goes on over the end of the first piece.
LONG = b'\x01\x91\x60' + bytes(PIECE)


def session():
    s = Session()
    first_piece(s)
    s.send(b''.join(record(STDIN, 17, part) for part in fcgi.cut(LONG, 30000)))
    assert len(s.stdin) > PIECE
    s.go_round()
    second_piece(s)
    assert len(s.stdin) < 2 * PIECE
    s.go_round()
    return s


if __name__ == '__main__':
    if len(sys.argv) != 2:
        sys.exit(__doc__)
    made = session()
    for name, data in (('stdin', made.stdin), ('stdout', made.stdout)):
        with open(os.path.join(sys.argv[1], name), 'wb') as file:
            file.write(data)
