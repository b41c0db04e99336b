"""What is tried through a web server."""
import random
import subprocess
from concurrent.futures import ThreadPoolExecutor

import fcgi
import reference
from client import ask, soon, stop_halfway, stop_reading
from report import right

CARDS = {'THAWED_OFFSET': '-2.5', 'FROZEN_SLOPE': '0.125', 'FROZEN_OFFSET': '4'}

# The paths of each server's configuration: one on which connections are kept, one on which the body goes to the station
# as it comes, one that leads to two stations.
PATHS = {
    'nginx': {'keep': '/keep', 'stream': '/stream', 'both': '/both'},
    'apache': {'keep': '/keep', 'stream': '/'},
    'lighttpd': {'stream': '/stream'},
    'haproxy': {'keep': '/', 'stream': '/', 'both': '/both'},
}

# -18.4 degrees as EF 02, and bodies at the edges of what a reading can be.
FIRST = reference.body([(1, -184, 1200)])
BODIES = [reference.body(readings) for readings in (
    [(1, -184, 1200)],
    [(0, 0, 0)],
    [(1, -5, 7), (2, -1, 7), (3, 1, 7), (4, 9, 7), (5, 10, 7), (6, -10, 7), (7, -9, 7)],
    [(4294967295, -600, 65535), (4294967295, 400, 65535), (128, -184, 128), (16384, -64, 16383)],
    [(1, 0, 65536), (2, -1, 4294967295), (3, 0, 65535)],
)]
REFUSED = [  # what goes before, and the rest that is refused
    b'\xff\xff\xff\xff\x10', b'\x01\xff\xff\xff\xff\x80', b'\x01\x02\xff\xff\xff\xff\x1f\x01\x02\x03',
    b'\x80\x00', b'\x01\x80\x80\x00\x05', b'\x01\x02\xff\xff\xff\xff\x00',
    b'\x01' + reference.number(802) + b'\x05', b'\x01' + reference.number(1201) + b'\x05',
    b'\x05', b'\x05\xef', b'\x05\xef\x02', b'\x05\xef\x02\xb0',
]


def some(chance, most):
    """Readings by chance."""
    return [(chance.choice([chance.randrange(200), chance.randrange(2 ** 32)]), chance.randint(-600, 400),
             chance.choice([chance.randrange(300), chance.randrange(65536), chance.randrange(2 ** 32)]))
            for _ in range(chance.randint(0, most))]


def long_body(size):
    """Readings of at most so many bytes in all, as many as fit."""
    chance, parts, length = random.Random(1), [], 0
    while True:
        part = reference.reading(chance.randrange(2 ** 14), chance.randint(-600, 400), chance.randrange(65536))
        if length + len(part) > size:
            return b''.join(parts)
        parts.append(part)
        length += len(part)


def posted(port, path, bodies, parameters=None):
    """Bodies posted one after another: each answer, and the lines that it has to have."""
    return [(ask(port, path, body), reference.lines(body, parameters)) for body in bodies]


def room(report, port, stations):
    """How many of the 4,096 bytes of parameters a server takes for a request with Host and Content-Length alone."""
    start = stations.size()
    ask(port, '/', FIRST)
    size = sum(len(content) for kind, _, content in stations.records(start) if kind == fcgi.PARAMS)
    report.note('a plain request has %d bytes of parameters' % size)


def plain(report, port, name, sample):
    """Readings, empty bodies, refused bodies, cards."""
    told = subprocess.run(['curl', '--silent', '--max-time', '30', '--data-binary', '@' + sample,
                           'http://127.0.0.1:%d/' % port], stdout=subprocess.PIPE, check=False).stdout
    with open(sample, 'rb') as file:
        report.equal('samples/bodies/readings.bin by curl', told, reference.lines(file.read()))
    report.answer('-18.4 degrees as EF 02', ask(port, '/', FIRST), b'1 -18.4 1200 1200.000\nclean\n')
    report.answers('readings', posted(port, '/', BODIES))
    report.answer('an empty GET', ask(port), b'clean\n')
    report.answer('an empty POST', ask(port, '/', b''), b'clean\n')
    if name == 'haproxy':
        report.equal('a HEAD is refused by HAProxy', ask(port, method='HEAD').status, 405)
    else:
        report.answer('a HEAD', ask(port, method='HEAD'), b'')
    refused = [before + rest for before in (b'', BODIES[3]) for rest in REFUSED]
    report.answers('refused bodies, 31 to 34', posted(port, '/', refused))
    cards = BODIES + [reference.body([(log, tenths, log) for log, tenths in enumerate(range(-12, 12))])]
    report.answers('cards by parameters', posted(port, '/cards', cards, CARDS))


def cuts(report, port, path, chunked, stations):
    """The body comes in two parts, with EF at the end of the first and 02 at the start of the second. A first part of
    20 KB is more than HAProxy gathers before it begins to send. HAProxy and lighttpd do not send on a chunked body
    before they have all of it: such a body may have 16 KB behind HAProxy, and lighttpd answers 411 on /stream."""
    body = long_body(20000) + FIRST + BODIES[2]
    at = body.rindex(FIRST) + FIRST.index(b'\xef') + 1
    for kind in ['with its length'] + (['chunked'] if chunked else []):
        start = stations.size()
        got = ask(port, path, parts=[body[:at], body[at:]], chunked=kind == 'chunked')
        report.answer('a slow upload %s' % kind, got, reference.lines(body))
        parts = [content for type, _, content in stations.records(start) if type == fcgi.STDIN and content]
        ends = [sum(map(len, parts[:n])) for n in range(len(parts))]
        report.holds('its bytes EF and 02 come to the station in two STDIN records',
                     b''.join(parts) == body and at in ends, 'records of %s bytes' % list(map(len, parts)))
    body = BODIES[1] + FIRST + BODIES[2]
    got = [ask(port, '/', parts=[body[:n], body[n:]], chunked=True, pause=0.05) for n in (1, 4, 5, 9)]
    report.answers('short chunked uploads', [(answer, reference.lines(body)) for answer in got])


def kept(report, port, path, stations):
    """Twenty requests, one after another, on one kept connection."""
    ask(port, path, FIRST)
    before = stations.count()
    report.answers('kept connections', posted(port, path, [FIRST] * 20))
    report.equal('20 requests on a kept connection start no process', stations.count() - before, 0)


def one_each(report, port, stations):
    """Without kept connections each request has a process, which leaves."""
    before = stations.count()
    report.answers('a connection for each request', posted(port, '/', [FIRST] * 10))
    report.equal('10 requests start 10 processes', stations.count() - before, 10)


def stopped(report, port, name, stations):
    """Clients that go away in the middle of an upload, and in the middle of an answer."""
    path, allowed, start = PATHS[name]['stream'], stations.alive(), stations.size()
    body = long_body(20000)
    for length in (len(body) + 1, 2 * len(body), 2 * 1024 * 1024):
        stop_halfway(port, path, body, length)
    report.answer('the request after aborted uploads', ask(port, path, body), reference.lines(body))
    kinds = [kind for kind, _, _ in stations.records(start)]
    if name == 'haproxy':
        report.equal('the station is told of them', kinds.count(fcgi.ABORT), 3)
    report.equal('the station had begun to get them', kinds.count(fcgi.BEGIN), 4)
    stop_reading(port, path, long_body(500000))
    report.answer('the request after a client that does not read', ask(port, path, body), reference.lines(body))
    report.holds('clients that go away leave no process behind', soon(lambda: stations.alive() <= allowed, 10),
                 '%d are running, %d before' % (stations.alive(), allowed))


def long(report, port):
    """A body of 1 MB, and one that no station holds."""
    body = long_body(1024 * 1024)
    report.answer('a body of %d bytes' % len(body), ask(port, '/', body), reference.lines(body))
    for more in (3, 2 * 1024 * 1024):
        large = bytes(reference.ROOM + more)
        report.answer('a body of %d bytes is too long' % len(large), ask(port, '/', large), b'too long\n', 413)
    report.answer('the request after it', ask(port, '/', FIRST), reference.lines(FIRST))


def headers(report, port, name):
    """Headers that fit into the 4,096 bytes of parameters and ones that do not, and headers that come twice."""
    fits, large = [('X-Certificate', 'c' * 3000)], [('X-Certificate', 'c' * 5000)]
    report.answer('a header of 3 KB', ask(port, '/', FIRST, headers=fits), reference.lines(FIRST))
    report.answer('a header of 5 KB is fault 24', ask(port, headers=large), b'fault 24\n', 400)
    report.answer('the same with a body', ask(port, '/', FIRST, headers=large), b'fault 24\n', 400)
    report.answer('the request after it', ask(port, '/', FIRST), reference.lines(FIRST))
    twice = [('X-Twice', 'one'), ('X-Twice', 'two')]
    report.answer('a header that comes twice', ask(port, '/', FIRST, headers=twice), reference.lines(FIRST))
    if name == 'nginx':
        report.answer('a parameter set twice is fault 26', ask(port, '/twice', FIRST), b'fault 26\n', 400)
    if name == 'haproxy':
        other = [('X-Other', 'one'), ('X-Other', 'two')]
        got = ask(port, '/', FIRST, headers=other)
        report.answer('a header without a rule twice is fault 26', got, b'fault 26\n', 400)


def early(report, port, keep):
    """A fault while 1 MB of the body is still to come. On a kept connection the station reads on, and its answer
    arrives. On another one it leaves; the rest of the body is met by a reset then, which can overtake the answer."""
    body, large = long_body(1024 * 1024), [('X-Certificate', 'c' * 5000)]
    if keep:
        report.answers('an early fault with a long body, kept', [
            (ask(port, keep, body, headers=large), b'fault 24\n', 400) for _ in range(10)])
    if keep != '/':
        got = [ask(port, '/', body, headers=large) for _ in range(10)]
        report.note('an early fault with a long body, not kept: %d of 10 answers arrive' % sum(
            right(answer, b'fault 24\n', 400) for answer in got))
    report.answer('the request after them', ask(port, '/', FIRST), reference.lines(FIRST))


def many(report, port, path):
    """400 requests, eight at a time, with bodies by chance."""
    chance = random.Random(2)
    bodies = [reference.body(some(chance, 40)) for _ in range(400)]
    with ThreadPoolExecutor(8) as pool:
        got = list(pool.map(lambda body: ask(port, path, body), bodies))
    report.answers('requests, eight at a time, on %s' % path, [(a, reference.lines(b)) for a, b in zip(got, bodies)])


def shared(report, port, stations):
    """Slow uploads at once: six share one connection. A connection takes 16 requests, so 20 take more than one; while
    the second one is being opened each of the others may open one too."""
    report.answer('the first request', ask(port, '/', FIRST), reference.lines(FIRST))
    for number, least, most in ((6, 0, 0), (20, 1, 4)):
        before, start = stations.count(), stations.size()
        bodies = [reference.body([(log, -184, 1200 + log)]) + long_body(20000 + log) for log in range(number)]
        with ThreadPoolExecutor(number) as pool:
            got = list(pool.map(lambda body: ask(port, '/', parts=[body[:19000], body[19000:]], pause=1), bodies))
        report.answers('slow uploads at once', [(a, reference.lines(b)) for a, b in zip(got, bodies)])
        begun = stations.count() - before
        report.holds('they start %d to %d processes' % (least, most), least <= begun <= most, '%d' % begun)
        if number == 6:
            ids = [id for kind, id, _ in stations.records(start) if kind == fcgi.STDIN]
            turns = sum(a != b for a, b in zip(ids, ids[1:]))
            report.holds('their STDIN records are interleaved', turns >= 6, '%d changes' % turns)


def both(report, port, path, stations):
    """Two stations take turns."""
    sizes = [station.size() for station in stations]
    chance = random.Random(3)
    bodies = [reference.body(some(chance, 10)) for _ in range(40)]
    report.answers('requests to two stations', posted(port, path, bodies))
    begun = [[kind for kind, _, _ in s.records(size)].count(fcgi.BEGIN) for s, size in zip(stations, sizes)]
    report.equal('each of the two had half of them', begun, [20, 20])


def run(report, name, port, sample, first, second):
    """All that is tried through one server."""
    paths = PATHS[name]
    if name == 'haproxy':
        report.attempt(shared, port, first)
    report.attempt(room, port, first)
    report.attempt(plain, port, name, sample)
    report.attempt(cuts, port, paths['stream'], name in ('nginx', 'apache'), first)
    if 'keep' in paths:
        report.attempt(kept, port, paths['keep'], first)
    if name != 'haproxy':
        report.attempt(one_each, port, first)
    report.attempt(stopped, port, name, first)
    report.attempt(headers, port, name)
    report.attempt(early, port, paths.get('keep'))
    report.attempt(many, port, '/')
    if 'keep' in paths and paths['keep'] != '/':
        report.attempt(many, port, paths['keep'])
    if 'both' in paths:
        report.attempt(both, port, paths['both'], (first, second))
    report.attempt(long, port)
