"""What stands on the page for an event: a short label, what it means, and the reply that it owes."""

FAULTS = {
    21: 'BEGIN for a request that is active',
    22: 'PARAMS, STDIN or DATA out of turn',
    23: 'a record of a type that no request may be sent',
    24: 'over 4,096 bytes of parameters',
    25: 'PARAMS ended with a malformed list',
    26: 'PARAMS ended with a list in which a name comes twice',
}
CLOSES = {
    11: 'a header whose version is not 1',
    12: 'a BEGIN whose content length is not 8',
    13: 'a query of over 512 bytes',
    14: 'a query whose pairs are malformed',
}
STATUSES = {2: 'overloaded', 3: 'unknown role'}
VARIABLES = ('FCGI_MAX_CONNS', 'FCGI_MAX_REQS', 'FCGI_MPXS_CONNS')
TROUBLES = ('abort', 'refuse', 'fault', 'closed')


def number(n):
    return '{:,}'.format(n)


def counted(n, one, many=None):
    return '%s %s' % (number(n), one if n == 1 else many or one + 's')


def label(event):
    """The event in a word or two, with the number of a fault, a close or a refusal."""
    words = event.words
    if event.name == 'end':
        return 'end' if words[3] == 'unstated' else 'end ' + words[3]
    if event.name == 'fault':
        return ' '.join(['fault'] + words[2:])
    if event.name == 'closed':
        return ' '.join(['close'] + words[1:])
    if event.name == 'refuse':
        return 'refuse ' + words[2]
    if event.name == 'unknown':
        return 'unknown ' + words[1]
    return event.name


def asked(event):
    return [name for name, digit in zip(VARIABLES, event.words[1]) if digit == '1']


def reply(event):
    """The reply that the event owes the web server, or nothing."""
    if event.name == 'refuse':
        return 'END_REQUEST %s' % event.words[2]
    if event.name == 'query':
        return 'GET_VALUES_RESULT'
    if event.name == 'unknown':
        return 'UNKNOWN_TYPE %s' % event.words[1]
    return None


def reply_in_full(event):
    if event.name == 'refuse':
        return 'END_REQUEST for id %d, status %s (%s)' % (event.id, event.words[2], STATUSES[int(event.words[2])])
    if event.name == 'query':
        return 'GET_VALUES_RESULT with ' + (', '.join(asked(event)) or 'no variables')
    if event.name == 'unknown':
        return 'UNKNOWN_TYPE for type ' + event.words[1]
    return None


def meaning(event):
    """What the event says, for somebody who does not know the lines of a replay."""
    words = event.words
    if event.name == 'open':
        kept = 'the connection is kept after it' if words[3] == 'keep' else 'the connection closes after it'
        return 'the request is opened: %s; %s' % (words[2], kept)
    if event.name == 'ready':
        return 'all parameters are in, %s' % counted(int(words[2]), 'byte')
    if event.name == 'end':
        stated = {'unstated': 'its length was not stated', 'exact': 'it has the length that was stated',
                  'short': 'it is shorter than was stated', 'over': 'it is longer than was stated'}
        return '%s has ended after %s; %s' % (words[2].upper(), counted(event.shown, 'byte'), stated[words[3]])
    if event.name == 'abort':
        return 'the web server aborts the request'
    if event.name == 'refuse':
        return 'the request is not taken: ' + STATUSES[int(words[2])]
    if event.name == 'fault':
        return with_place(FAULTS[int(words[2])], words[3:])
    if event.name == 'query':
        return 'the web server asks for ' + (', '.join(asked(event)) or 'no variable that is known')
    if event.name == 'unknown':
        return 'a management record of a type that is not known'
    return with_place('the connection closes: ' + CLOSES[int(words[1])], words[2:])


def with_place(text, place):
    return '%s, at byte %s of it' % (text, place[1]) if place else text
