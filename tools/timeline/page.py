"""The page: what the capture is, a legend, the rows, and a table of all that was told."""
import os
from html import escape
from draw import Drawing, overview, rect, tag, write
from layout import MANY, Layout
from words import TROUBLES, counted, meaning, number, reply_in_full

TABLE = 1000        # lines of the table
KINDS = (('t1', 'BEGIN'), ('t4', 'PARAMS'), ('t5', 'STDIN'), ('t8', 'DATA'), ('t2', 'ABORT'), ('t9', 'GET_VALUES'),
         ('tx', 'other types'))
HATCH = ('<svg width="0" height="0" style="position:absolute" aria-hidden="true"><defs><pattern id="hatch" width="6" '
         'height="6" patternUnits="userSpaceOnUse" patternTransform="rotate(45)"><rect width="6" height="6" '
         'fill="#fff"/><line x1="0" y1="0" x2="0" y2="6" stroke="#bbb" stroke-width="2"/></pattern></defs></svg>')


def facts(capture):
    """What stands below the title: sizes and counts, and how the capture ended."""
    plain = [counted(capture.size, 'byte'), counted(len(capture.records), 'record'),
             counted(len(capture.lanes), 'request')]
    bad = [(capture.count('fault'), 'fault', None), (capture.count('abort'), 'abort', None),
           (capture.count('refuse'), 'refused opening', None)]
    items = [tag('li', text) for text in plain]
    items += [tag('li', counted(*what), **({'of': 'trouble'} if what[0] else {})) for what in bad]
    items.append(tag('li', counted(capture.owed(), 'reply owed', 'replies owed')))
    items.append(tag('li', 'ends ' + ending(capture), **({'of': 'trouble'} if capture.stop != 'open' else {})))
    return tag('ul', ''.join(items), of='facts')


def ending(capture):
    if capture.stop == 'open':
        return 'open: the capture ends between two records'
    if capture.stop == 'cut':
        return 'cut: the capture ends inside a record'
    text = 'closed by %s at byte %s' % (capture.events[-1].words[1], number(capture.used))
    return text + (', %s not read' % counted(capture.unread(), 'byte') if capture.unread() else '')


def swatch(width, inside, text):
    drawn = tag('svg', inside, width=width, height=20, viewBox='0 0 %d 20' % width)
    return tag('li', drawn + tag('span', escape(text)))


def sample(of, *parts):
    """A small box with these parts."""
    x, drawn = 0, ''
    for name, width in parts:
        drawn += rect(x, 2, width, 16, name)
        x += width
    return tag('g', drawn, of=of)


def legend(layout):
    items = [swatch(22, sample('record ' + of, ('header', 22)), name) for of, name in KINDS]
    items.append(swatch(62, sample('record t5', ('header', 22), ('content', 26), ('padding', 14)),
                        'header, content with its bytes, padding'))
    items.append(swatch(40, sample('record t5', ('header', 16), ('content left', 24)), 'content skipped'))
    items.append(swatch(30, sample('record t5 skipped', ('header', 30)), 'record skipped'))
    chip = rect(0.5, 2, 36, 16, 'chip', rx=3)
    items.append(swatch(38, tag('g', chip + write('open', 6, 14, 'label')), 'event, at the byte that decides it'))
    items.append(swatch(50, tag('g', rect(0.5, 2, 48, 16, 'chip', rx=3) + write('fault 22', 5, 14, 'label'),
                                of='trouble'), 'abort, refusal, fault, close'))
    items.append(swatch(62, tag('g', rect(0.5, 2, 60, 16, 'owed', rx=8) + write('\u2190 reply', 9, 14, 'answer')),
                        'reply that is owed'))
    items.append(swatch(30, rect(0, 2, 30, 16, 'band'), 'request is active'))
    items.append(swatch(30, rect(0, 2, 30, 16, 'spent', fill='url(#hatch)'), 'spent, or not read'))
    if layout.has_runs:
        items.append(swatch(30, sample('record t5 run', ('run', 30)), '\u00d7n: n records drawn as one'))
    return tag('ul', ''.join(items), of='legend')


def notes(capture, layout):
    """What a reader has to know about the picture."""
    said = ['A box is a record, from its first byte to its last; in which pieces the bytes came does not show. All '
            'lanes share one scale, on which widths grow with the logarithm of the length; the strip below is to '
            'scale. A row has the lanes in which there are records.',
            'Events, faults, closes and what is skipped are told by the proved replay. It finishes no request, so an '
            'id that is used again shows fault 21, and a seventeenth request is refused.']
    if layout.has_runs:
        said.append('With over %s records, runs of records without an event are drawn as one box in each lane, also '
                    'if lanes alternate.' % number(MANY))
    if layout.left_out:
        first = layout.left_out[0].start
        told = sum(record.event is not None for record in layout.left_out)
        said.append('The picture stops at byte %s: %s with %s are not drawn.' % (
            number(first), counted(len(layout.left_out), 'record'), counted(told, 'event')))
    return ''.join(tag('p', escape(text)) for text in said)


def event_line(event, n):
    lane = 'request %d' % event.lane.id if event.lane else '' if event.id is None else 'id %d' % event.id
    cells = [tag('td', number(event.offset), of='n'), tag('td', lane or '\u2013'),
             tag('td', tag('code', escape(event.line()))), tag('td', escape(meaning(event))),
             tag('td', escape(reply_in_full(event) or '\u2013'))]
    of = {'of': 'trouble'} if event.name in TROUBLES else {}
    return tag('tr', ''.join(cells), id='e%d' % n, **of)


def table(capture, numbers):
    """All events in their order; the bytes of data, which have lines of their own, are left out."""
    lines = [event_line(event, numbers[event]) for event in capture.events[:TABLE]]
    names = ('at byte', 'request', 'line of the replay', 'what it means', 'reply owed')
    head = ''.join(tag('th', name, **({'of': 'n'} if name == 'at byte' else {})) for name in names)
    said = tag('h2', 'What the replay tells, but for the bytes of data')
    body = ''.join(lines) or tag('tr', tag('td', '\u2013'))
    said += tag('table', tag('thead', tag('tr', head)) + tag('tbody', body))
    more = len(capture.events) - TABLE
    return said + (tag('p', '%s more are not listed.' % counted(more, 'event')) if more > 0 else '')


def page(capture):
    layout = Layout(capture)
    numbers = {event: n + 1 for n, event in enumerate(capture.events)}
    with open(os.path.join(os.path.dirname(os.path.abspath(__file__)), 'style.css'), encoding='utf-8') as file:
        style = file.read()
    head = '<meta charset="utf-8"/><meta name="viewport" content="width=device-width"/>'
    head += tag('title', escape('Timeline of ' + capture.name)) + tag('style', style)
    body = HATCH + tag('h1', escape(capture.name)) + facts(capture) + legend(layout) + notes(capture, layout)
    if capture.records:
        body += overview(capture)
        body += ''.join(Drawing(capture, row, numbers).svg() for row in layout.rows)
    else:
        body += tag('p', 'The capture is empty.')
    body += table(capture, numbers)
    return '<!DOCTYPE html>\n<html lang="en"><head>%s</head>\n<body>%s</body></html>\n' % (head, body)
