"""Where everything stands on the page: records in columns, columns in rows.

All lanes have one scale: a column is a record, or a run of records where there are many, and lies at the same place in
every lane. Its width grows with the logarithm of its length, so that an empty record can still be read beside a long
one. Rows are filled from left to right, as lines of text are.
"""
import math
from capture import HEADER
from words import label, number, reply

LEFT = 134          # the names of the lanes
WIDTH = 1080        # the columns of a row
GAP = 3             # between two boxes
MANY = 150          # with more records than this, runs of quiet records are drawn as one
RUN = 2             # such a run has more records than this
MOST = 600          # columns that are drawn
STOP = 96           # what stands at the end


def text_width(text, size=11):
    """At most how wide a text is in the fonts of the page, in bold too."""
    return size * sum(0.75 if c.isupper() else 0.33 if c in ' .,' else 0.61 for c in text)


def growth(n):
    """The width of so many bytes of content."""
    return 13 + 7.3 * math.log2(1 + n) if n else 0


class Part:
    """A stretch of bytes of a column, in which the scale is even."""

    def __init__(self, name, first, last, width):
        self.name = name
        self.first = first
        self.last = last
        self.width = width


class Column:
    """A record, or a run of them. `boxes` has what is drawn in each lane."""

    def __init__(self, records):
        self.records = records
        self.x = 0
        self.event = records[0].event
        self.is_run = len(records) > 1
        self.boxes = run_boxes(records) if self.is_run else [Box(records)]
        self.parts = run_parts(self.boxes, records) if self.is_run else record_parts(self.boxes[0], records[0])
        self.widen()

    def widen(self):
        """Makes room for the event and the reply, in the content or else in the header."""
        event = self.event
        need = 0
        if event:
            need = max(text_width(label(event)) + 14, text_width(reply(event) or '', 10) + 24)
        part = self.parts[1] if len(self.parts) > 1 and self.parts[1].name == 'content' else self.parts[0]
        part.width += max(0, need - sum(p.width for p in self.parts))

    def width(self):
        return sum(part.width for part in self.parts) + GAP

    def place_of(self, offset):
        """Where so many bytes of the capture end."""
        x = self.x
        for part in self.parts:
            if offset <= part.last:
                return x + part.width * (offset - part.first) / (part.last - part.first)
            x += part.width
        return x


class Box:
    """What a column has in one lane: a record, or records of one kind."""

    def __init__(self, records):
        first = records[0]
        self.records = records
        self.lane = first.lane
        self.type = first.type if all(record.type == first.type for record in records) else None
        self.skipped = all(r.skipped for r in records)
        self.content = sum(r.content for r in records)
        self.head = self.heading()
        self.body = self.body_text()

    def heading(self):
        first = self.records[0]
        if len(self.records) > 1:
            return '%s \u00d7%s' % (first.name() if self.type is not None else 'records', number(len(self.records)))
        if first.lane or first.type is None or first.id == 0 and (first.type > 11 or first.type == 9):
            return first.name()
        return '%s id %d' % (first.name(), first.id)

    def body_text(self):
        record = self.records[-1]
        if len(self.records) == 1 and record.is_cut():
            there = max(0, min(record.content, record.have - HEADER))
            return '%s of %s' % (number(there), number(record.content)) if there else ''
        if not self.content:
            return ''
        return number(self.content) + (' skipped' if self.skipped else '')


def record_parts(box, record):
    """Header, content and padding, as far as they are there."""
    at, end = record.start, record.end()
    parts = []
    lengths = (HEADER if record.known else record.have, record.content, record.padding)
    widths = (text_width(box.head) + 11, max(growth(record.content), text_width(box.body) + 8),
              min(20, 5 + record.padding / 2))
    for name, length, width in zip(('header', 'content', 'padding'), lengths, widths):
        if length and at < end:
            parts.append(Part(name, at, min(at + length, end), width))
        at += length
    return parts


def run_parts(boxes, records):
    text = max(text_width(box.head) + text_width(box.body) + 24 for box in boxes)
    size = records[-1].end() - records[0].start
    return [Part('run', records[0].start, records[-1].end(), max(text, growth(size)))]


def run_boxes(records):
    """A box for each lane."""
    lanes = {}
    for record in records:
        lanes.setdefault(record.lane, []).append(record)
    return [Box(group) for group in lanes.values()]


def grouped(records):
    """Runs of records without an event, each lane with records of one kind, and all others one by one."""
    run, kinds = [], {}
    for record in records:
        quiet = record.event is None and not record.is_cut()
        kind = (record.type, record.skipped) if record.lane else None
        if not quiet or kinds.get(record.lane, kind) != kind:
            yield from closed(run)
            run, kinds = [], {}
        if quiet:
            run.append(record)
            kinds[record.lane] = kind
        else:
            yield [record]
    yield from closed(run)


def closed(run):
    return [run] if len(run) > RUN else [[record] for record in run]


class Row:
    """Columns side by side, from one byte of the capture to another."""

    def __init__(self):
        self.columns = []
        self.right = LEFT
        self.is_last = False
        self.left_out = 0

    def take(self, column):
        column.x = self.right
        self.columns.append(column)
        self.right += column.width()

    def lanes(self, capture):
        """The lanes with a record in this row; what belongs to no request comes first."""
        here = {box.lane for column in self.columns for box in column.boxes}
        return [lane for lane in [None] + capture.lanes if lane in here]

    def first(self):
        return self.columns[0].parts[0].first

    def last(self):
        return self.columns[-1].parts[-1].last

    def place_of(self, offset):
        """Where an offset lies, or the nearer end of the row."""
        if offset < self.first():
            return LEFT
        for column in self.columns:
            if offset <= column.parts[-1].last:
                return column.place_of(offset)
        return self.right


class Layout:
    """All rows, whether runs were drawn as one, and the records that were not drawn."""

    def __init__(self, capture):
        records = capture.records
        self.has_runs = len(records) > MANY
        groups = list(grouped(records)) if self.has_runs else [[record] for record in records]
        self.left_out = [record for group in groups[MOST:] for record in group]
        self.rows = [Row()]
        columns = [Column(group) for group in groups[:MOST]]
        for column in columns:
            right = LEFT + WIDTH - (STOP if column is columns[-1] else 0)
            if self.rows[-1].columns and self.rows[-1].right + column.width() > right:
                self.rows.append(Row())
            self.rows[-1].take(column)
        self.rows[-1].is_last = True
        self.rows[-1].left_out = len(self.left_out)
