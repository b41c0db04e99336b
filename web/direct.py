"""What is tried on the station itself, by a FastCGI client without a web server before it."""
import random
import time

import fcgi
import reference
from behind import BODIES, FIRST, REFUSED, long_body, some
from client import soon
from fcgi import ABORT, BEGIN, DATA, GET_VALUES, PARAMS, STDIN, UNKNOWN, VALUES
from fcgi import Connection, cut, opening, record, stream

DONE = (0, 0)  # application status and status of a request that was answered
BROKEN = (1, 0)  # of one with a fault, and of an aborted one


def whole(id, body, parameters=(), parts=None, keep=True, role=fcgi.RESPONDER):
    """A request from its BEGIN to the end of its input."""
    sent = opening(id, parameters, keep, role)
    if role != fcgi.AUTHORIZER:
        sent += stream(STDIN, id, parts if parts is not None else cut(body, 65535))
    return sent + (stream(DATA, id, [b'data']) if role == fcgi.FILTER else b'')


def answered(body, parameters=()):
    return reference.answer(body, dict(parameters)), b'', DONE


def broken(fault):
    return reference.faulted(fault), ('fault %s\n' % fault).encode(), BROKEN


def each(report, what, port, requests):
    """Requests one after another on one connection, and what comes back for each."""
    wrong, id = [], 0
    with Connection(port) as station:
        for number, (sent, wanted) in enumerate(requests):
            id = number % 65535 + 1
            station.send(sent(id))
            got = station.reply(id)
            if got != wanted:
                wrong.append('%.300r in place of %.300r' % (got, wanted))
    why = '%d wrong, the first: %s' % (len(wrong), ''.join(wrong[:1]))
    report.holds('%s (%d)' % (what, len(requests)), not wrong, why)


def bodies(report, port):
    """Readings, cut anywhere; refused bodies; lengths that do not fit."""
    at = FIRST.index(b'\xef\x02') + 1
    each(report, 'EF and 02 in two STDIN records', port, [
        (lambda id: whole(id, FIRST, parts=[FIRST[:at], FIRST[at:]]), answered(FIRST))])
    every = BODIES + [BODIES[3] + rest for rest in REFUSED] + REFUSED + [b'']
    for size in (1, 2, 3, 7, 65535):
        each(report, 'bodies in records of %d bytes' % size, port, [
            (lambda id, body=body: whole(id, body, parts=cut(body, size)), answered(body)) for body in every])
    lengths = []
    for body in (BODIES[3], b'', BODIES[1]):
        near = ['%s%d' % (before, n) for before in ('', '000', '+') for n in (len(body), len(body) + 1, len(body) - 1)]
        for text in near + ['0', '', ' 1', '4294967294', '4294967295', '12345678901']:
            lengths.append((body, [('CONTENT_LENGTH', text)]))
    lengths.append((REFUSED[3], [('CONTENT_LENGTH', '1')]))
    each(report, 'bodies short of and over CONTENT_LENGTH', port, [
        (lambda id, b=body, p=parameters: whole(id, b, p), answered(body, parameters)) for body, parameters in lengths])


def cards(report, port):
    """Calibration cards of all forms, and ties in the rounding."""
    body = reference.body([(log, tenths, raw) for log, tenths in enumerate((-600, -184, -10, -5, -3, -1, 0, 1, 400))
                           for raw in (0, 1, 2, 10, 65535, 65536)])
    good = ['0', '-0', '0.0', '7', '-7', '0.5', '-0.5', '0.125', '0.375', '0.625', '-0.125', '0.001', '-0.001',
            '999.999', '1000', '-1000', '1000.000', '0001.1', '12.34', '0.062', '0.063']
    bad = ['', '-', '.', '.5', '5.', '--1', '+1', '1e3', '12345', '00001', '1.2345', '1,5', ' 1', '1 ', '1000.001',
           '-1000.001', '9999.999', 'nan', '1.-5', '1.5.5', '0x10']
    some_cards = [[(name, text)] for name in reference.CARDS for text in good + bad]
    chance = random.Random(4)
    for _ in range(200):
        some_cards.append([(name, '%s%d.%03d' % (chance.choice(['', '-']), chance.choice([0, chance.randrange(1000)]),
                                                 chance.randrange(1000))) for name in reference.CARDS])
    each(report, 'cards', port, [(lambda id, p=p: whole(id, body, p), answered(body, p)) for p in some_cards])


def faults(report, port):
    """Faults 21 to 26, aborts, and the roles."""
    names = [('TEMP', '1'), ('temp', '2')]
    large = fcgi.pairs([('X', 'x' * 4090)])
    each(report, 'faults 21 to 26', port, [
        (lambda id: opening(id) + fcgi.begin(id), broken('21')),
        (lambda id: fcgi.begin(id) + record(STDIN, id, b'1'), broken('22')),
        (lambda id: opening(id) + record(DATA, id, b'1'), broken('22')),
        (lambda id: opening(id) + record(fcgi.STDOUT, id, b'1'), broken('23')),
        (lambda id: fcgi.begin(id) + record(PARAMS, id, large + b'1'), broken('24')),
        (lambda id: fcgi.begin(id) + stream(PARAMS, id, [b'\x01\x01ab\x09\x09x']), broken('25 at 4')),
        (lambda id: opening(id, names + [('TEMP', '1')]), broken('26')),
        (lambda id: whole(id, FIRST, names), answered(FIRST)),
        (lambda id: whole(id, FIRST, [('X', 'x' * 4090)]), answered(FIRST))])
    each(report, 'aborts', port, [
        (lambda id: fcgi.begin(id) + record(ABORT, id), (b'', b'', BROKEN)),
        (lambda id: opening(id) + record(STDIN, id, FIRST) + record(ABORT, id), (b'', b'', BROKEN)),
        (lambda id: whole(id, FIRST), answered(FIRST))])
    each(report, 'a filter, an authorizer, an unknown role', port, [
        (lambda id: whole(id, FIRST, role=fcgi.FILTER), answered(FIRST)),
        (lambda id: whole(id, b'', role=fcgi.AUTHORIZER), answered(b'')),
        (lambda id: opening(id, role=4), (b'', b'', (0, 3))),
        (lambda id: whole(id, FIRST), answered(FIRST))])


def early(report, port):
    """A fault while 1 MB of the body is still to come, on connections that are kept and on others (behind.early)."""
    rest = stream(STDIN, 1, cut(long_body(1024 * 1024), 65535))
    sent = [fcgi.begin(1, keep) + record(PARAMS, 1, bytes(5000)) + record(PARAMS, 1) + rest for keep in (True, False)]
    with Connection(port) as station:
        got = []
        for _ in range(10):
            station.send(sent[0])
            got.append(station.reply(1))
        report.equal('an early fault with a long body, kept', got, [broken('24')] * 10)
    arrived = 0
    for _ in range(10):
        with Connection(port) as station:
            station.send(sent[1])
            arrived += station.reply(1) == broken('24')
    report.note('an early fault with a long body, not kept: %d of 10 answers arrive' % arrived)


def connections(report, port, stations):
    """Kept and unkept connections, queries, unknown types, what closes."""
    before = stations.count()
    with Connection(port) as station:
        got = []
        for _ in range(50):
            station.send(whole(1, FIRST))
            got.append(station.reply(1))
        report.equal('50 requests with one id on a kept connection', got, [answered(FIRST)] * 50)
        report.equal('they have one process', (stations.count() - before, stations.alive()), (1, 1))
        station.send(record(GET_VALUES, 0, fcgi.pairs([('FCGI_MPXS_CONNS', ''), ('FCGI_MAX_REQS', ''), ('OTHER', ''),
                                                       ('FCGI_MAX_CONNS', '')])), record(77, 0, b'1234'))
        values = fcgi.pairs([('FCGI_MAX_CONNS', '1'), ('FCGI_MAX_REQS', '16'), ('FCGI_MPXS_CONNS', '1')])
        report.equal('a query and an unknown type', station.replied(2),
                     [(VALUES, values), (UNKNOWN, bytes([77]) + bytes(7))])
    report.holds('the process leaves when the client closes', soon(lambda: stations.alive() == 0))
    with Connection(port) as station:
        station.send(whole(1, FIRST, keep=False))
        report.equal('a request without KEEP_CONN', (station.reply(1), station.closed()), (answered(FIRST), True))
    for what, sent in (('a record of version 2', record(BEGIN, 1, bytes(8), version=2)),
                       ('a BEGIN of 7 bytes', record(BEGIN, 1, bytes(7)))):
        with Connection(port) as station:
            station.send(sent)
            report.holds('%s closes the connection' % what, station.closed())
    with Connection(port) as station:
        station.send(opening(1), record(STDIN, 1, FIRST)[:10])
        time.sleep(0.2)
    report.holds('the process leaves when its input ends inside a record', soon(lambda: stations.alive() == 0))
    with Connection(port) as station:
        station.send(whole(1, long_body(1024 * 1024)))
        station.until(lambda: 1 in station.replies)
    report.holds('the process leaves when nobody reads its answer', soon(lambda: stations.alive() == 0))


def at_once(report, port):
    """Sixteen requests at once, a seventeenth, and a long answer beside short ones."""
    chance = random.Random(5)
    all_bodies = {id: reference.body(some(chance, 60)) for id in range(1, 17)}
    rests = {id: cut(body, chance.randint(1, 9)) for id, body in all_bodies.items()}
    with Connection(port) as station:
        station.send(*(opening(id) for id in all_bodies))
        station.send(opening(17))
        report.equal('a seventeenth request at once is refused', station.reply(17), (b'', b'', (0, 2)))
        while any(rests.values()):
            id = chance.choice([id for id in rests if rests[id]])
            station.send(record(STDIN, id, rests[id].pop(0)))
        station.send(*(record(STDIN, id) for id in all_bodies))
        report.equal('16 requests at once, their bodies shuffled', [station.reply(id) for id in all_bodies],
                     [answered(body) for body in all_bodies.values()])
    body = long_body(100000)
    with Connection(port) as station:
        station.send(*(opening(id) for id in range(1, 6)), *(record(STDIN, 1, part) for part in cut(body, 50000)))
        station.send(*(record(STDIN, id, FIRST) for id in range(2, 6)))
        time.sleep(0.3)  # so that the five ends come to the station in one piece
        station.send(b''.join(record(STDIN, id) for id in range(1, 6)))
        got = [station.reply(id) for id in range(1, 6)]
        report.equal('a long answer beside short ones', got, [answered(body)] + [answered(FIRST)] * 4)
        report.equal('the long one ends last', station.order[-1], 1)


def long(report, port):
    """Bodies that are just held and just not held, and those that share the room."""
    body = long_body(reference.ROOM - 2)
    body += bytes(reference.ROOM - len(body))
    each(report, 'a body of 4 MiB', port, [(lambda id: whole(id, body), answered(body))])
    each(report, 'a body of 4 MiB and one byte is too long', port, [
        (lambda id: whole(id, body + b'1'), (reference.answer(body + b'1'), b'', DONE)),
        (lambda id: whole(id, FIRST), answered(FIRST))])
    half = reference.ROOM // 2
    with Connection(port) as station:
        station.send(*(opening(id) for id in (1, 2, 3)), *(record(STDIN, 1, part) for part in cut(body[:half], 65535)))
        station.send(*(record(STDIN, 2, part) for part in cut(bytes(half + 1), 65535)))
        station.send(record(STDIN, 2), record(STDIN, 1))
        got = [station.reply(2), station.reply(1)]
        report.equal('of two bodies of 2 MiB the one that is over is too long', got,
                     [(reference.answer(bytes(reference.ROOM + 1)), b'', DONE), answered(body[:half])])
        station.send(*(record(STDIN, 3, part) for part in cut(body[:half], 65535)), record(STDIN, 3))
        report.equal('its room is given back', station.reply(3), answered(body[:half]))
    short = reference.ROOM // 16
    with Connection(port) as station:
        station.send(*(opening(id) for id in range(1, 17)))
        for part in cut(body[:short], 10000):
            station.send(*(record(STDIN, id, part) for id in range(1, 17)))
        station.send(*(record(STDIN, id) for id in range(1, 17)))
        got = [station.reply(id) for id in range(1, 17)]
        report.equal('16 bodies of 256 KiB at once', got, [answered(body[:short])] * 16)


def run(report, port, stations):
    """All that is tried on the station itself."""
    report.attempt(bodies, port)
    report.attempt(cards, port)
    report.attempt(faults, port)
    report.attempt(early, port)
    report.attempt(connections, port, stations)
    report.attempt(at_once, port)
    report.attempt(long, port)
