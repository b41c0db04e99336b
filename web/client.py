"""HTTP requests to a server on loopback, and what is known of the stations behind it."""
import http.client
import os
import socket
import time

import fcgi

WAIT = 30  # seconds for an answer


class Answer:
    """Status, content type and body of an answer."""

    def __init__(self, status, kind, body):
        self.status, self.kind, self.body = status, kind, body


def ask(port, path='/', data=None, method=None, headers=(), parts=None, chunked=False, pause=0.3):
    """Sends a request and reads its answer. With parts the body goes out part by part, with a pause after each."""
    connection = http.client.HTTPConnection('127.0.0.1', port, timeout=WAIT)
    try:
        send(connection, path, data, method, headers, parts, chunked, pause)
        got = connection.getresponse()
        return Answer(got.status, (got.getheader('Content-Type') or '').split(';')[0], got.read())
    except (OSError, http.client.HTTPException) as trouble:
        return Answer(0, '', repr(trouble).encode())
    finally:
        connection.close()


def send(connection, path, data, method, headers, parts, chunked, pause):
    slow = parts is not None
    parts = parts if slow else ([] if data is None else [data])
    connection.putrequest(method or ('POST' if slow or data is not None else 'GET'), path)
    for name, value in headers:
        connection.putheader(name, value)
    if chunked:
        connection.putheader('Transfer-Encoding', 'chunked')
    elif slow or data is not None:
        connection.putheader('Content-Length', str(sum(len(part) for part in parts)))
    connection.endheaders()
    try:
        for part in parts:
            connection.send(b'%x\r\n%s\r\n' % (len(part), part) if chunked else part)
            if slow:
                time.sleep(pause)
        if chunked:
            connection.send(b'0\r\n\r\n')
    except (BrokenPipeError, ConnectionResetError):
        pass  # the server answered before it had all; what it said is compared


def post_by_hand(port, path, length):
    """A connection on which the header of a POST was sent."""
    connection = socket.create_connection(('127.0.0.1', port), timeout=WAIT)
    connection.sendall(b'POST %s HTTP/1.1\r\nHost: 127.0.0.1\r\nContent-Length: %d\r\n\r\n' % (path.encode(), length))
    return connection


def stop_halfway(port, path, part, length):
    """A client that states a length, sends a part and goes away."""
    with post_by_hand(port, path, length) as connection:
        time.sleep(0.1)
        connection.sendall(part)
        time.sleep(0.3)


def stop_reading(port, path, body):
    """A client that reads the beginning of its answer and goes away."""
    with post_by_hand(port, path, len(body)) as connection:
        connection.sendall(body)
        connection.recv(100)
        time.sleep(0.2)


def soon(holds, seconds=5):
    """Whether that comes to hold within so many seconds."""
    end = time.monotonic() + seconds
    while not holds():
        if time.monotonic() > end:
            return False
        time.sleep(0.05)
    return True


class Stations:
    """The processes that socat started for one port. Each wrote a line with its number before it began."""

    def __init__(self, folder, name):
        self.started, self.heard = os.path.join(folder, name + '.started'), os.path.join(folder, name + '.heard')

    def numbers(self):
        with open(self.started) as file:
            return file.read().split()

    def count(self):
        """How many were started."""
        return len(self.numbers())

    def alive(self):
        """How many of them are running; one that has ended but was not waited for counts as ended."""
        return sum(running(number) for number in self.numbers())

    def size(self):
        return os.path.getsize(self.heard)

    def records(self, start):
        """The records that the stations were sent since the dump had that size."""
        with open(self.heard, 'rb') as file:
            file.seek(start)
            return fcgi.split(file.read())[0]


def running(number):
    try:
        with open('/proc/%s/stat' % number) as file:
            return file.read().rpartition(')')[2].split()[0] not in 'ZX'
    except OSError:
        return False
