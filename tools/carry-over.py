#!/usr/bin/env python3
"""usage: tools/carry-over.py FOLDER..    renames, in Rattle sources, what was renamed when crates got the names of layers

For sketches that were written against the older names. In every .rt, .antt and .edit file of the folders it renames
crates, functions that moved, types, and definitions, where a replacement of words is safe. Files and folders keep
their names. What depends on the place is left to the reader: the named fields of Event (Event::Abort { id }), patterns
on them, names that a crate uses twice after the change, and lines of `requires` and `ensures` that became longer.
"""
import os
import re
import sys

CRATES = {
    'writer': 'record_writer', 'reader': 'record_reader', 'lists': 'pair_list', 'occupancy': 'slot_word',
    'table': 'slot_table', 'slots': 'slot_check', 'shape': 'conn_check', 'numbers': 'codes',
    'marks': 'request_state', 'faults': 'request_fault', 'streams': 'request_input', 'ruling': 'request_header',
    'stream_output': 'request_output', 'management': 'conn_management', 'judge': 'conn_header',
    'opening': 'conn_begin', 'feed': 'conn_content', 'starting': 'call_start', 'receive': 'call_step',
    'admit': 'call_admit', 'listing': 'call_list', 'parameters': 'call_value', 'walk': 'call_walk',
    'output': 'call_output', 'finish': 'call_finish', 'reply': 'call_reply', 'drain': 'call_drain',
    'draft': 'event_text', 'lines': 'event_text',
}

# Functions and types that moved, their crates renamed already. Where the last word changes, calls change with it.
MOVED = {
    'call_step::step::frame_at': 'conn_frame::frame_at', 'call_step::step::step': 'call_step::step',
    'conn_check::find::find_from': 'slot_table::find_from', 'conn_check::fits::in_shape': 'conn_check::in_shape',
    'slot_check::number': 'wire::widen', 'slot_table::no_mark': 'slot_table::no_state',
    'conn_management::quiet': 'conn_frame::only_frame', 'conn_management::frame_behind': 'conn_frame::frame_after',
    'conn_management::target_if': 'conn_frame::target_if', 'conn_management::closing': 'conn_frame::closing',
    'conn_management::on_inactive': 'conn_header::on_inactive', 'conn_begin::frame_within': 'conn_frame::frame_within',
    'call_start::no_frame': 'conn_frame::no_frame', 'call_start::closed': 'conn_frame::closed',
    'call_start::no_requests': 'slot_table::no_requests', 'call_finish::free_request': 'slot_table::free_request',
    'call_list::is_faulted': 'request_state::is_faulted', 'call_admit::Count': 'call_count::Count',
    'call_admit::active_count': 'call_count::active_count', 'call_finish::end_request': 'call_finish::finish',
    'call_finish::Finish': 'call_finish::FinishResult', 'call_reply::reply': 'call_reply::owed_reply',
    'call_walk::moved': 'call_walk::moved_to', 'pairs::name::compare': 'wire::compare', 'pairs::name::same': 'wire::same',
    'pairs::name::Compared': 'wire::Compared', 'connection::moved::Moved': 'connection::decision::Decision',
    'connection::moved::Change': 'connection::decision::Change', 'pair_writer::Wrote': 'pair_writer::PairWrote',
    'connection::request::Mark': 'connection::request::RequestState',
    'connection::answer::Told': 'connection::answer::StepResult',
    'connection::answer::Start': 'connection::answer::StartResult',
}

# Modules of definitions and laws.
SPECS = [
    (r'\bRattle·pairs(·specs)?\.specs(\.specs)?\.NameLaws\b', 'Rattle·wire.specs.CompareLaws'),
    (r'\bRattle·pairs(·specs)?\.specs(\.specs)?\.Name\b', 'Rattle·wire.specs.Compare'),
    (r'\bRattle·pairs(·specs)?\.specs(\.specs)?\.declared\.name\.', 'Rattle·wire.specs.declared.'),
    (r'\bdeclared\.moved\.Moved\b', 'declared.decision.Decision'), (r'\bdeclared\.moved\.', 'declared.decision.'),
    (r'\bspecs\.Moved\b', 'specs.Decision'), (r'\bspecs\.Numbers\b', 'specs.Codes'),
    (r'\bLaws\.NumbersLaws\b', 'Laws.CodesLaws'), (r'\bdeclared\.request\.Mark\b', 'declared.request.RequestState'),
    (r'\bdeclared\.answer\.Told\b', 'declared.answer.StepResult'), (r'\bdeclared\.step\.', 'declared.'),
    (r'(pair_writer\S*\.declared)\.Wrote\.\{Wrote( as \w+)?\}', r'\1.PairWrote.{PairWrote\2}'),
]

# Words of code; comments keep theirs.
WORDS = [
    (r'\bMark\b', 'RequestState'), (r'\bnoMark\b', 'noState'), (r'\bno_mark\b', 'no_state'), (r'\bno-mark\b', 'no-state'),
    (r'\bwithMark\b', 'withState'), (r'\bmarks\b', 'states'), (r'\bmark\b', 'state'), (r'\bMoved\b', 'Decision'),
    (r'\bLeave\b', 'StepCheck'), (r'\bleaveOf\b', 'checkedStep'), (r'\bask_leave\b', 'check_step'),
    (r'\bask-leave\b', 'check-step'), (r'\bbyLeave\b', 'byCheck'), (r'\bby-leave\b', 'by-check'), (r'\bleave-given\b', 'check-read'),
    (r'\bStepCheck(::|\.)Given\b', r'StepCheck\1Read'),
    (r'(?<![\w.])Told(::|\.)(Event|Refused)\b', r'StepResult\1\2'), (r'(: |→ |-> |enum |\(|\{)Told\b', r'\1StepResult'),
    (r'(?<![\w-])Start(?![\w-])', 'StartResult'), (r'(?<![\w-])Finish(?![\w-])', 'FinishResult'),
    (r'\b(told|start|finish)( ?[:=] )(?=(Step|Start|Finish)Result(::|\.))', r'result\2'),
    (r'\bpub (told|start|finish): (?=(Step|Start|Finish)Result\b)', 'pub result: '),
    (r'\b((?:told|start|finish)[A-Z]\w* \(\w+) \.(told|start|finish)\)', r'\1 .result)'),
    (r'\bframe_behind\b', 'frame_after'), (r'\bframe-behind(?=\d|\b)', 'frame-after'), (r'\bbehindHeader\b', 'afterHeader'),
    (r'\bquietly\b', 'onlyFrame'), (r'\bquiet(?=-)|(?<= \.)quiet(?=\d|\b)', 'only-frame'), (r'\bend-request\b', 'finish'),
]
CODE_WORDS = [(r'(?<=\w)\.(told|start|finish)\b(?!\()', '.result'), (r'\bquiet\b', 'only_frame')]

# Definitions whose names are common words: renamed where a file brings them in from there.
BROUGHT_IN = [
    (r'Step', 'behind', 'frameAfter'), (r'Step', 'within', 'frameWithin'), (r'Step', 'moved', 'frameAt'),
    (r'RequestCalls', 'Wrote', 'Writing'), (r'(?:StreamLaws|(?:call_drain|export)·specs\.specs\.Laws)', 'Turn', 'LoopTurn'),
]


def carried(text, path):
    for old, new in CRATES.items():
        text = re.sub(r'\bRattle·%s(?=[.·])' % old, 'Rattle·' + new, text)
        text = re.sub(r'(?<![\w:.])%s::' % old, new + '::', text)
        text = re.sub(r'\bcalls-%s·' % old.replace('_', '-'), 'calls-%s·' % new.replace('_', '-'), text)
    words = WORDS + (CODE_WORDS if path.endswith('.rt') or 'file: src/' in text else [])
    if 'RequestCalls as Of' in text:
        words.append((r'\bOf\.Wrote\b', 'Of.Writing'))
    for old, new in MOVED.items():
        was, now = old.rsplit('::', 1)[-1], new.rsplit('::', 1)[-1]
        bare = re.search(r'\b%s\b(?! as )' % old, text)
        text = re.sub(r'\b%s\b' % old, new, text)
        if bare and was != now and not re.search(r'::%s;' % was, text):
            words.append((r'(?<![\w.:-])%s(?=\(|::)' % was, now))
            words.append((r'((?:->|: ) ?)%s\b' % was, r'\g<1>' + now))
    for old, new in SPECS:
        text = re.sub(old, new, text)
    for alias in re.findall(r'\bPairWrote as (\w+)', text):
        text = re.sub(r'\b%s\b' % alias, 'PairWrote', text.replace('PairWrote as ' + alias, 'PairWrote'))
    for file, old, new in BROUGHT_IN:
        if re.search(r'\b%s\.\{[^}]*(?<![-\w])%s(?![-\w])' % (file, old), text):
            words.append((r'(?<![-.\w])%s(?![-\w])' % old, new))
    in_runs = re.search(r'specs/Runs?\b|Runs/|specs\.Run\.\{[^}]*\bleftBy\b', path + text)
    words.append((r'\bleftBy\b', 'memoryAfter' if in_runs else 'applied'))
    lines = text.split('\n')
    for i, line in enumerate(lines):
        if not line.lstrip().startswith(('--', '//', '#')):
            for old, new in words:
                lines[i] = re.sub(old, new, lines[i])
    return '\n'.join(lines)


def main(tops):
    for top in tops:
        for folder, _, files in os.walk(top):
            for path in [os.path.join(folder, name) for name in files if name.endswith(('.rt', '.antt', '.edit'))]:
                old = open(path, encoding='utf-8').read()
                new = carried(old, path)
                if new != old:
                    open(path, 'w', encoding='utf-8').write(new)
                    print('carried over', path)


args = sys.argv[1:]
if args and args[0] in ('-h', '--help'):
    print(__doc__, end='')
    sys.exit()
missing = [arg for arg in args if not os.path.isdir(arg)]
if missing or not args:
    print('there is no folder ' + missing[0] if missing else 'no folder is named', __doc__.split('\n')[0], sep='\n', file=sys.stderr)
    sys.exit(2)
main(args)
