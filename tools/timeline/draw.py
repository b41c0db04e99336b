"""The rows of the page as SVG."""
from html import escape
from capture import HEADER
from layout import GAP, LEFT, STOP, WIDTH, text_width
from words import TROUBLES, counted, label, meaning, number, reply, reply_in_full

RULER = 26          # the offsets above a row
MARKS = 20          # the events above a box
BOX = 26
REPLIES = 19        # the replies below a box
BETWEEN = 10        # two lanes
COLOURED = (1, 2, 4, 5, 8, 9)


def tag(name, inside='', **attributes):
    """An element. An attribute `of` is its class; numbers have one decimal."""
    text = ''
    for key, value in attributes.items():
        value = '%.1f' % value if isinstance(value, float) else str(value)
        text += ' %s="%s"' % ({'of': 'class'}.get(key, key.replace('_', '-')), escape(value, quote=True))
    return '<%s%s>%s</%s>' % (name, text, inside, name) if inside else '<%s%s/>' % (name, text)


def write(text, x, y, of, **more):
    return tag('text', escape(text), x=x, y=y, of=of, **more)


def hover(text):
    return tag('title', escape(text))


def rect(x, y, width, height, of, **more):
    return tag('rect', x=float(x), y=y, width=float(max(width, 0.5)), height=height, of=of, **more)


def line(x, y, to_x, to_y, of):
    return tag('line', x1=float(x), y1=y, x2=float(to_x), y2=to_y, of=of)


def colour(kind):
    return 't%d' % kind if kind in COLOURED else 'tx'


class Drawing:
    """A row: the ruler, and below it the lanes that have records in it."""

    def __init__(self, capture, row, numbers):
        self.capture = capture
        self.row = row
        self.numbers = numbers
        self.lanes = row.lanes(capture)
        self.tops = {}
        y = RULER
        for lane in self.lanes:
            events = [c.event for c in row.columns if c.event and c.event.lane is lane]
            y += MARKS if events else 0
            self.tops[lane] = y
            y += BOX + (REPLIES if any(map(reply, events)) else 0) + BETWEEN
        self.height = y

    def svg(self):
        inside = [self.ruler()]
        inside += [self.lane(lane) for lane in self.lanes]
        inside += [self.box(column, box) for column in self.row.columns for box in column.boxes]
        inside += [self.mark(column) for column in self.row.columns if column.event]
        if self.row.is_last:
            inside.append(self.stop())
        name = 'bytes %s to %s' % (number(self.row.first()), number(self.row.last()))
        return tag('svg', ''.join(inside), of='row', viewBox='0 0 %d %d' % (LEFT + WIDTH, self.height),
                   role='img', aria_label=name)

    def ruler(self):
        """Where the records begin, in bytes from the start of the capture, as far as the numbers have room."""
        drawn = [write('byte', LEFT - 8, 12, 'offset', text_anchor='end')]
        free = 0
        for column in self.row.columns:
            drawn.append(line(column.x, 16, column.x, self.height - 4, 'grid'))
            text = number(column.parts[0].first)
            if column.x >= free:
                drawn.append(write(text, column.x, 12, 'offset'))
                free = column.x + text_width(text, 10) + 6
        return ''.join(drawn)

    def lane(self, lane):
        """The name of a lane, and a band from where its request is opened; it is hatched from where it is spent."""
        y = self.tops[lane]
        if lane is None:
            name, more = 'no request', 'id 0, ids not active'
            opened, spent = self.row.first(), None
        else:
            name, more = 'request %d' % lane.id, '%s, %s' % (lane.role, lane.keep)
            opened, spent = lane.opened, lane.spent
        drawn = [write(name, 4, y + 11, 'lane'), write(more, 4, y + 24, 'more')]
        begin = self.row.place_of(opened)
        if lane is None:
            drawn.append(line(begin, y + BOX / 2, self.row.right, y + BOX / 2, 'grid'))
        else:
            drawn.append(rect(begin, y - 2, self.row.right - begin, BOX + 4, 'band'))
        if spent is not None and spent < self.row.last():
            begin = self.row.place_of(spent)
            drawn.append(rect(begin, y - 2, self.row.right - begin, BOX + 4, 'spent', fill='url(#hatch)'))
        return tag('g', ''.join(drawn), of='lane')

    def box(self, column, box):
        """A record: header, content, padding. A run of records is one box with a dotted edge. Of a record that gives an
        event the content alone can be skipped, of any other the whole record."""
        y = self.tops[box.lane]
        of = 'record %s' % colour(box.type)
        if column.is_run:
            of += ' run'
        if box.skipped and column.event is None:
            of += ' skipped'
        x = column.x
        drawn = [hover(tell_box(box, self.capture)), rect(x, y, column.width() - GAP, BOX, 'ground')]
        for part in column.parts:
            name = part.name + (' left' if part.name == 'content' and box.skipped else '')
            drawn.append(rect(x, y, part.width, BOX, name))
            x += part.width
        drawn.append(self.box_text(column, box, y + 17))
        return tag('g', ''.join(drawn), of=of)

    def box_text(self, column, box, y):
        drawn = write(box.head, column.x + 5, y, 'head')
        if not box.body:
            return drawn
        begin = column.x + (text_width(box.head) + 14 if column.is_run else column.parts[0].width + 5)
        return drawn + write(box.body, begin, y, 'count')

    def mark(self, column):
        """An event: a line at the byte that decided, and a label that ends there; below the box the reply it owes."""
        event = column.event
        y = self.tops[event.lane] - MARKS
        x = column.place_of(event.offset)
        text = label(event)
        width = text_width(text) + 10
        left = max(column.x, x - width)
        trouble = ' trouble' if event.name in TROUBLES else ''
        chip = hover('byte %s: %s\n%s' % (number(event.offset), event.line(), meaning(event)))
        chip += line(x, y + 1, x, y + MARKS + BOX, 'pin') + rect(left, y + 1, width, 16, 'chip', rx=3)
        chip += write(text, left + 5, y + 13, 'label')
        drawn = tag('a', tag('g', chip, of='mark %s%s' % (event.name, trouble)), href='#e%d' % self.numbers[event])
        owed = reply(event)
        if owed:
            y += MARKS + BOX + 3
            inside = hover('a reply is owed: ' + reply_in_full(event))
            inside += rect(column.x, y, text_width(owed, 10) + 22, 14, 'owed', rx=7)
            inside += write('\u2190 ' + owed, column.x + 6, y + 10.5, 'answer')
            drawn += tag('g', inside, of='reply')
        return drawn

    def stop(self):
        """How the replay stopped, and what it did not read; or that the picture ends before the capture."""
        capture, x = self.capture, self.row.right
        if self.row.left_out:
            return write('%s more' % counted(self.row.left_out, 'record'), x + 5, 12, 'stop')
        drawn = [line(x, 2, x, self.height - 4, 'stop'), write('stop ' + capture.stop, x + 5, 12, 'stop')]
        unread = capture.unread()
        if unread:
            drawn.append(rect(x + 4, RULER - 4, STOP - 8, self.height - RULER, 'unread', fill='url(#hatch)'))
            drawn.append(write(counted(unread, 'byte'), x + 10, RULER + 12, 'label'))
            drawn.append(write('not read', x + 10, RULER + 26, 'label'))
        return tag('g', ''.join(drawn), of='end')


def tell_box(box, capture):
    """What the pointer shows over a box."""
    first, last = box.records[0], box.records[-1]
    whose = 'id %d' % first.id if box.lane is None else 'request %d' % box.lane.id
    where = 'bytes %s to %s of the capture' % (number(first.start), number(last.end() - 1))
    if len(box.records) > 1:
        return '%s of %s, %s of content%s, among %s' % (
            counted(len(box.records), 'record'), whose if box.lane else 'ids that are not active',
            counted(box.content, 'byte'), ', skipped' if box.skipped else '', where)
    if not first.known:
        return 'a header that is cut after %s\n%s' % (counted(first.have, 'byte'), where)
    text = '%s of %s\n%s\nheader %d, content %s, padding %d' % (
        first.name(), whose, where, HEADER, number(first.content), first.padding)
    if box.skipped and first.content:
        text += '\nthe content is skipped'
    if first.is_cut():
        text += '\nthe capture is not read further' if capture.stop == 'closed' else '\nthe capture is cut here'
    return text


def overview(capture):
    """All bytes to scale, a thin line for each lane."""
    scale = WIDTH / max(capture.size, 1)
    order = [None] + capture.lanes if any(r.lane is None for r in capture.records) else capture.lanes
    rows = {lane: 2 + 9 * i for i, lane in enumerate(order)}
    height = max(2 + 9 * len(rows), 20)
    bars = {lane: [] for lane in rows}
    for record in capture.records:
        first, last = record.start * scale, record.end() * scale
        line_of = bars[record.lane]
        kind = colour(record.type) + (' skipped' if record.skipped else '')
        if line_of and line_of[-1][2] == kind and first - line_of[-1][1] < 0.4:
            line_of[-1][1] = last
        elif not line_of or last - line_of[-1][0] >= 0.4:
            line_of.append([first, last, kind])
    drawn = [write('to scale', 4, 13, 'lane')]
    for lane, line_of in bars.items():
        drawn.append(line(LEFT, rows[lane] + 3.5, LEFT + WIDTH, rows[lane] + 3.5, 'grid'))
        drawn += [rect(LEFT + a, rows[lane], b - a, 7, 'bar ' + kind) for a, b, kind in line_of]
    if capture.unread():
        used = capture.used * scale
        drawn.append(rect(LEFT + used, 0, WIDTH - used, height, 'unread', fill='url(#hatch)'))
    return tag('svg', ''.join(drawn), of='overview', viewBox='0 0 %d %d' % (LEFT + WIDTH, height), role='img',
               aria_label='all bytes to scale')
