"""A FastCGI client for one connection: it writes the records that it is told to, and gathers what comes back."""
import socket
import threading
import time

BEGIN, ABORT, END, PARAMS, STDIN, STDOUT, STDERR, DATA, GET_VALUES, VALUES, UNKNOWN = range(1, 12)
RESPONDER, AUTHORIZER, FILTER = 1, 2, 3
WAIT = 30  # seconds for an answer


def record(kind, id, content=b'', padding=0, version=1):
    """One record."""
    return (bytes([version, kind]) + id.to_bytes(2, 'big') + len(content).to_bytes(2, 'big') + bytes([padding, 0])
            + content + bytes(padding))


def stream(kind, id, parts):
    """A record for each part, then the empty one that ends the stream."""
    return b''.join(record(kind, id, part, len(part) % 3) for part in parts if part) + record(kind, id)


def length(n):
    return bytes([n]) if n < 128 else (n + 2 ** 31).to_bytes(4, 'big')


def pairs(parameters):
    """A list of names and values."""
    listed = b''
    for name, value in parameters:
        name, value = name.encode(), value.encode()
        listed += length(len(name)) + length(len(value)) + name + value
    return listed


def begin(id, keep=True, role=RESPONDER):
    return record(BEGIN, id, role.to_bytes(2, 'big') + bytes([1 if keep else 0]) + bytes(5))


def opening(id, parameters=(), keep=True, role=RESPONDER):
    """BEGIN and PARAMS of a request."""
    return begin(id, keep, role) + stream(PARAMS, id, [pairs(parameters)])


def cut(data, size):
    """Parts of at most so many bytes."""
    return [data[at:at + size] for at in range(0, len(data), size)]


def split(data):
    """The whole records of some bytes, as (kind, id, content)."""
    found, at = [], 0
    while len(data) - at >= 8:
        size = int.from_bytes(data[at + 4:at + 6], 'big')
        if len(data) - at < 8 + size + data[at + 6]:
            break
        found.append((data[at + 1], int.from_bytes(data[at + 2:at + 4], 'big'), data[at + 8:at + 8 + size]))
        at += 8 + size + data[at + 6]
    return found, data[at:]


class Reply:
    """What came back for a request: both streams, and (application status, status) once it has ended."""

    def __init__(self):
        self.out, self.err, self.end = b'', b'', None
        self.parts, self.first = [], None

    def told(self):
        return self.out, self.err, self.end


class Connection:
    """A connection to a station, read by a thread so that writing never waits for reading."""

    def __init__(self, port):
        self.socket = socket.create_connection(('127.0.0.1', port), timeout=WAIT)
        self.news = threading.Condition()
        self.replies, self.management, self.order, self.over, self.rest = {}, [], [], False, b''
        threading.Thread(target=self.listen, daemon=True).start()

    def listen(self):
        while True:
            try:
                got = self.socket.recv(65536)
            except OSError:
                got = b''
            with self.news:
                if got:
                    records, self.rest = split(self.rest + got)
                    for kind, id, content in records:
                        self.hear(kind, id, content)
                else:
                    self.over = True
                self.news.notify_all()
            if not got:
                return

    def hear(self, kind, id, content):
        if id == 0:
            self.management.append((kind, content))
            return
        reply = self.replies.setdefault(id, Reply())
        if kind == STDOUT and content:
            reply.parts.append(content)
        elif kind == STDERR:
            reply.err += content
        elif kind == END:
            reply.end = int.from_bytes(content[:4], 'big'), content[4]
            reply.out = b''.join(reply.parts)
            self.order.append(id)

    def send(self, *some):
        try:
            for data in some:
                self.socket.sendall(data)
        except (BrokenPipeError, ConnectionResetError):
            pass  # the station has left; what it said before is compared

    def until(self, done):
        """Waits until that holds, and answers whether it does."""
        end = time.monotonic() + WAIT
        with self.news:
            while not done() and not self.over and time.monotonic() < end:
                self.news.wait(end - time.monotonic())
            return done()

    def reply(self, id):
        """What came back for a request once it ended; it is forgotten then, and the id can be used again."""
        self.until(lambda: id in self.replies and self.replies[id].end is not None)
        with self.news:
            return self.replies.pop(id, Reply()).told()

    def replied(self, count):
        """The next management records."""
        self.until(lambda: len(self.management) >= count)
        with self.news:
            told, self.management = self.management, []
            return told

    def closed(self):
        """Whether the station's side is closed."""
        self.until(lambda: self.over)
        return self.over

    def close(self):
        try:
            self.socket.shutdown(socket.SHUT_RDWR)
        except OSError:
            pass
        self.socket.close()

    def __enter__(self):
        return self

    def __exit__(self, *_):
        self.close()
