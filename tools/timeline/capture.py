"""A capture as records, and what the replay tells of them.

The eight bytes of each header are read here, to know where a record begins and ends. Everything that is a judgement is
taken from the lines of `replay --offsets`: which requests are opened, what is shown, faults, closes, replies owed.
"""
import bisect

HEADER = 8
BEGIN, ABORT, PARAMS, STDIN, DATA, GET_VALUES = 1, 2, 4, 5, 8, 9
NAMES = {
    BEGIN: 'BEGIN', ABORT: 'ABORT', 3: 'END', PARAMS: 'PARAMS', STDIN: 'STDIN', 6: 'STDOUT', 7: 'STDERR', DATA: 'DATA',
    GET_VALUES: 'GET_VALUES', 10: 'GET_VALUES_RESULT', 11: 'UNKNOWN_TYPE',
}


class Disagreement(Exception):
    """The lines of the replay do not fit the capture, so there is nothing that could be drawn."""


class Event:
    """A line of the replay that is neither a byte nor the last one."""

    def __init__(self, offset, words):
        self.offset = offset
        self.name = words[0]
        self.words = words
        self.id = int(words[1]) if self.name not in ('query', 'unknown', 'closed') else None
        self.lane = None
        self.shown = 0

    def line(self):
        return ' '.join(self.words)


class Run:
    """Bytes of data that were shown one after another: lines `byte` of one request and stream."""

    def __init__(self, last, id, stream):
        self.first = self.last = last
        self.id = id
        self.stream = stream

    def count(self):
        return self.last - self.first + 1


class Record:
    """A record of the capture, of which `have` bytes are there. Of a header that is cut nothing is known, and the type
    of one whose version is not 1 means nothing."""

    def __init__(self, start, bytes_left):
        self.start = start
        self.known = len(bytes_left) >= HEADER
        header = bytes_left[:HEADER] if self.known else bytes(HEADER)
        self.version = header[0]
        self.type = header[1] if self.version == 1 else None
        self.id = header[2] * 256 + header[3]
        self.content = header[4] * 256 + header[5]
        self.padding = header[6]
        self.size = HEADER + self.content + self.padding
        self.have = min(self.size, len(bytes_left))
        self.event = None
        self.shown = 0
        self.lane = None
        self.skipped = False

    def end(self):
        return self.start + self.have

    def is_cut(self):
        return not self.known or self.have < self.size

    def name(self):
        if self.type is None:
            return 'version %d' % self.version if self.known else 'header, cut'
        return NAMES.get(self.type, 'type %d' % self.type)


class Lane:
    """A request, from the event that opened it on. A request that faulted or was aborted is spent."""

    def __init__(self, opened):
        self.id = opened.id
        self.role = opened.words[2]
        self.keep = opened.words[3]
        self.opened = opened.offset
        self.spent = None
        self.shown = {STDIN: 0, DATA: 0}


class Capture:
    """The records in their order, each with its event and its lane. Lane None has what belongs to no request."""

    def __init__(self, name, data, lines):
        self.name = name
        self.size = len(data)
        self.events, self.runs, self.used, self.stop = read_lines(lines)
        closes = [event.offset for event in self.events if event.name == 'closed']
        if closes != ([self.used] if self.stop == 'closed' else []):
            raise Disagreement('it stops %s, and closes at %s' % (self.stop, closes))
        if self.used > self.size or not closes and self.used != self.size:
            raise Disagreement('the replay used %d of %d bytes' % (self.used, self.size))
        self.records = split(memoryview(data)[:self.used])
        self.starts = [record.start for record in self.records]
        self.lanes = []
        for event in self.events:
            self.attach(event)
        for run in self.runs:
            self.show(run)
        self.place()

    def record_at(self, offset):
        """The record that has the byte before this offset."""
        if not 0 < offset <= self.used:
            raise Disagreement('an event at %d is not inside the capture' % offset)
        return self.records[bisect.bisect_left(self.starts, offset) - 1]

    def attach(self, event):
        """An event falls at the end of a record's header or of its content, and a record has at most one."""
        record = self.record_at(event.offset)
        decided = (record.start + HEADER, record.start + HEADER + record.content)
        if event.offset not in decided or record.event or event.id not in (None, record.id):
            raise Disagreement("'%s' does not fit the record at %d" % (event.line(), record.start))
        record.event = event

    def show(self, run):
        """Bytes that were shown are content of a record of that request and stream."""
        record = self.record_at(run.first)
        first = record.start + HEADER + 1
        fits = first <= run.first and run.last < first + record.content
        if not fits or record.id != run.id or record.type != (STDIN if run.stream == 'stdin' else DATA):
            raise Disagreement('the bytes shown at %d do not fit the record at %d' % (run.first, record.start))
        record.shown += run.count()

    def place(self):
        """Gives each record its lane, and finds those whose content was skipped."""
        active = {}
        for record in self.records:
            event = record.event
            if event and event.name == 'open':
                active[record.id] = Lane(event)
                self.lanes.append(active[record.id])
            # What closes the connection is nobody's, whatever id its header has.
            ours = record.known and not (event and event.name == 'closed')
            record.lane = lane = active.get(record.id) if ours else None
            if event:
                event.lane = lane
            if lane:
                self.follow(lane, record)
            self.judge(record)

    def follow(self, lane, record):
        """What a record does to its request: bytes are shown, a stream has ended after so many, it is spent."""
        event = record.event
        if record.shown:
            lane.shown[record.type] += record.shown
        if event and event.name == 'end':
            event.shown = lane.shown[record.type]
        if event and event.name in ('fault', 'abort'):
            lane.spent = event.offset

    def judge(self, record):
        """Whether a record's content was skipped: its request is spent, or it has none and nothing was gathered of it.
        What is shown of STDIN and DATA has to fit that."""
        lane, event = record.lane, record.event
        if lane:
            record.skipped = lane.spent is not None
        elif event:
            record.skipped = event.name == 'unknown'
        else:
            record.skipped = not record.is_cut()
        there = min(record.content, record.have - HEADER)
        if lane and record.type in (STDIN, DATA) and record.shown != (0 if record.skipped else there):
            raise Disagreement('of the record at %d, %d bytes of %d are shown' % (record.start, record.shown, there))

    def unread(self):
        return self.size - self.used

    def count(self, *names):
        return sum(event.name in names for event in self.events)

    def owed(self):
        return self.count('refuse', 'query', 'unknown')


def split(data):
    """The records of these bytes; the last one may be cut."""
    records = []
    at = 0
    while at < len(data):
        records.append(Record(at, data[at:]))
        at += records[-1].size
    return records


def read_lines(lines):
    """The events, the runs of bytes that were shown, and at which offset and how the replay stopped."""
    events = []
    runs = []
    stop = None
    stream, last = b'', 0
    for line in lines:
        offset, is_byte, rest = line.partition(b' byte ')
        if is_byte:
            at = int(offset)
            if at != last + 1 or not rest.startswith(stream) or not runs:
                end_run(runs, last)
                id, name, _ = rest.split()
                stream = id + b' ' + name + b' '
                runs.append(Run(at, int(id), name.decode()))
            last = at
            continue
        if stop:
            raise Disagreement('the replay goes on after its last line')
        offset, *words = line.decode().split()
        if words[0] == 'stop':
            stop = (int(offset), words[1])
        else:
            events.append(Event(int(offset), words))
    end_run(runs, last)
    if not stop:
        raise Disagreement('the replay did not come to its end')
    return events, runs, stop[0], stop[1]


def end_run(runs, last):
    if runs:
        runs[-1].last = last
