#!/usr/bin/env python3
"""usage: tools/check-page.py CAPTURE LINES PAGE    holds a page of ./timeline to its capture and the replay's lines

LINES is what ./replay --offsets prints for the capture. The page has to be well formed, to need nothing from elsewhere,
and to have a box for each record, a mark for each event, and a reply for each that is owed, in the lanes where they
belong and in their order. What should be there is counted from the bytes and the lines, apart from tools/timeline.
Exit status: 1 if something is missing or too much, 2 if it is called wrong.
"""
import re
import sys
import xml.etree.ElementTree as ElementTree
from collections import namedtuple
from html.parser import HTMLParser
from usage import arguments, stop

wrong = []


def same(what, wanted, found):
    if wanted != found:
        wrong.append('%s: %s wanted, %s found' % (what, wanted, found))


Record = namedtuple('Record', 'start end type id content padding')


def records(data, used):
    """All records; of the last one the end, the content and the padding as far as they are there."""
    at = 0
    while at < used:
        header = data[at:at + 8] if used - at >= 8 else bytes(8)
        content, padding = header[4] * 256 + header[5], header[6]
        size = 8 + content + padding
        yield Record(at, min(at + size, used), header[1] if header[0] == 1 else 0, header[2] * 256 + header[3],
                     max(0, min(content, used - at - 8)), max(0, min(padding, used - at - 8 - content)))
        at += size


def of(element, name):
    return name in element.get('class', '').split()


def all_of(root, name):
    return [element for element in root.iter() if of(element, name)]


def texts(element):
    return [one.text for one in element.iter('text')]


def stands_for(box):
    """How many records a box stands for: a run says it."""
    _, _, times = texts(box)[0].partition('\u00d7')
    return int(times.replace(',', '')) if times else 1


def label(words):
    """What the mark of an event says."""
    if words[0] == 'end':
        return 'end' if words[3] == 'unstated' else 'end ' + words[3]
    if words[0] in ('fault', 'refuse'):
        return ' '.join([words[0]] + words[2:])
    if words[0] == 'closed':
        return ' '.join(['close'] + words[1:])
    return ' '.join(words[:2]) if words[0] == 'unknown' else words[0]


def check_alone(text):
    """One page, without scripts, that needs nothing else."""
    class Tags(HTMLParser):
        def handle_starttag(self, tag, attrs):
            for key, value in attrs:
                if key in ('src', 'href', 'xlink:href', 'action', 'srcset') and not value.startswith('#'):
                    wrong.append('<%s %s="%s"> is elsewhere' % (tag, key, value))
                if key.startswith('on'):
                    wrong.append('<%s %s> is a script' % (tag, key))
            if tag in ('script', 'link', 'iframe', 'img', 'object'):
                wrong.append('there is a <%s>' % tag)
    Tags().feed(text)
    if re.search(r'url\((?!#)|@import|https?:', text):
        wrong.append('something is fetched from elsewhere')


def check_counts(root, data, lines):
    """Boxes, marks and replies."""
    events = [line[1:] for line in lines if line[1] not in ('byte', 'stop')]
    used, ended = int(lines[-1][0]), lines[-1][2]
    there = list(records(data, used))
    boxes = [box for row in all_of(root, 'row') for box in all_of(row, 'record')]
    same('records in boxes', len(there), sum(map(stands_for, boxes)))
    if not any(of(box, 'run') for box in boxes):
        check_boxes(root, there, lines)
    marks = [texts(mark)[0] for mark in all_of(root, 'mark')]
    same('marks', [label(words) for words in events], marks)
    troubles = [words for words in events if words[0] in ('abort', 'fault', 'refuse', 'closed')]
    same('marks of trouble', len(troubles), sum(of(mark, 'trouble') for mark in all_of(root, 'mark')))
    owed = {'refuse': 'END_REQUEST', 'query': 'GET_VALUES_RESULT', 'unknown': 'UNKNOWN_TYPE'}
    same('replies', [owed[words[0]] for words in events if words[0] in owed],
         [texts(one)[0].split()[1] for one in all_of(root, 'reply')])
    opened = ['request ' + words[1] for words in events if words[0] == 'open']
    names = [texts(lane)[0] for row in all_of(root, 'row') for lane in row if of(lane, 'lane')]
    same('lanes', opened, [name for name in dict.fromkeys(names) if name != 'no request'])
    if there:
        same('how it stops', ['stop ' + ended], [t for one in all_of(root, 'end') for t in texts(one) if 'stop' in t])
    same('lines of the table', [' '.join(words) for words in events], [one.text for one in root.iter('code')])


def span(part):
    return float(part.get('x')), float(part.get('x')) + float(part.get('width'))


def check_boxes(root, there, lines):
    """Each record's box: its parts, its colour, its lane, and the mark of its event at the byte that decided."""
    opened = {int(line[2]): int(line[0]) for line in lines if line[1] == 'open'}
    spent = {int(line[2]): int(line[0]) for line in lines if line[1] in ('fault', 'abort')}
    told = {int(line[0]): line[1] for line in lines if line[1] not in ('byte', 'stop')}
    cut = lines[-1][2] == 'cut' and there[-1].start
    wanted = iter(there)
    for row in all_of(root, 'row'):
        tops = {float(lane.find('text').get('y')) - 11: lane.find('text').text for lane in row if of(lane, 'lane')}
        pins = [float(pin.get('x1')) for pin in all_of(row, 'pin')]
        for box, record in zip(all_of(row, 'record'), wanted):
            where = 'the box of the record at %d, ' % record.start
            parts = [part for part in box if part.tag == 'rect' and not of(part, 'ground')]
            names = [name for name, n in (('header', 1), ('content', record.content), ('padding', record.padding)) if n]
            same(where + 'parts', names, [part.get('class').split()[0] for part in parts])
            kind = 't%d' % record.type if record.type in (1, 2, 4, 5, 8, 9) else 'tx'
            same(where + 'colour', kind, box.get('class').split()[1])
            closes = 'closed' in (told.get(record.start + 8), told.get(record.end))
            ours = opened.get(record.id, record.end + 1) <= record.end and not closes and record.end - record.start >= 8
            lane = 'request %d' % record.id if ours else 'no request'
            same(where + 'lane', lane, tops.get(float(parts[0].get('y'))))
            silent = not any(record.start < offset <= record.end for offset in told)
            passed = spent.get(record.id, record.end) <= record.start if ours else silent and record.start != cut
            same(where + 'skipped', passed, of(box, 'skipped'))
            for offset, part in zip((record.start + 8, record.start + 8 + record.content), parts):
                if offset in told:
                    marked = any(abs(pin - span(part)[1]) < 0.2 for pin in pins)
                    same(where + 'a mark at its byte', True, marked)


def check_places(root):
    """The boxes of a row follow each other from left to right, each inside the page, and a mark is inside its box. (A
    run has boxes in several lanes, one below the other.)"""
    for row in all_of(root, 'row'):
        right = left = 0
        width = float(row.get('viewBox').split()[2])
        spans = []
        for box in all_of(row, 'record'):
            parts = [part for part in box if part.tag == 'rect' and not of(part, 'ground')]
            begin, end = span(parts[0])[0], span(parts[-1])[1]
            if begin < right and not (of(box, 'run') and begin == left) or end > width + 0.1:
                wrong.append('a box at %.1f overlaps, or is outside the page' % begin)
            right, left = end - 0.2, begin
            spans.append((begin, end, float(parts[0].get('y'))))
        for mark in all_of(row, 'mark'):
            pin = [one for one in mark if of(one, 'pin')][0]
            x, bottom = float(pin.get('x1')), float(pin.get('y2'))
            if not any(a < x <= b + 0.2 and y < bottom <= y + 40 for a, b, y in spans):
                wrong.append('the mark at %.1f is in no box' % x)


def check_facts(root, data, lines):
    facts = [''.join(item.itertext()) for item in all_of(root, 'facts')[0]]
    opened = sum(line[1] == 'open' for line in lines)
    faults = sum(line[1] == 'fault' for line in lines)
    same('size', '{:,} byte{}'.format(len(data), '' if len(data) == 1 else 's'), facts[0])
    same('requests', '{:,} request{}'.format(opened, '' if opened == 1 else 's'), facts[2])
    same('faults', '{:,} fault{}'.format(faults, '' if faults == 1 else 's'), facts[3])
    same('the end', lines[-1][2], re.split('[: ]', facts[-1])[1])


def main():
    args = arguments(__doc__)
    if len(args) != 3:
        stop(__doc__, 'it takes a capture, its lines and its page')
    with open(args[0], 'rb') as capture, open(args[1]) as told, open(args[2], encoding='utf-8') as page:
        data, lines, text = capture.read(), [line.split() for line in told], page.read()
    check_alone(text)
    root = ElementTree.fromstring(text)
    check_counts(root, data, lines)
    check_places(root)
    check_facts(root, data, lines)
    for line in wrong:
        print('%s: %s' % (args[2], line), file=sys.stderr)
    return 1 if wrong else 0


sys.exit(main())
