"""Compares this reader's answers with all rows of crates/rows/data/typing, crates/rows/data/plain, crates/rows/data/texts and
crates/rows/data/frames.rows, those of crates/rows/data/limits.rows that are about data, and with the examples of docs/TYPING.md.

    python3 tools/reader/run_rows.py [--only typing|plain|texts|frames|limits|examples|waiting]

Says what differs, and the number of rows; ends with status 1 where something does. The rows of tools/reader/waiting, of what isn't
built yet, are read with `--only waiting` alone.
"""
from __future__ import annotations

import argparse
import re
import sys
from typing import List, NamedTuple, Optional

import data
import frames
import heap_rows
from check import check
from heap import LARGEST_HEAP
from interp import run, with_deep_stack
from left_out import first_left_out
from rows import REPOSITORY, WAITING, Row, files_of, read
from scan import Refusal

UNITS = 5_000_000
"""Where a row says nothing of its steps."""

STEPS_WORD = '--steps='
HEAP_WORD = '--heap='
STEPS_SPENT = 'StepsSpent'
REFUSED = 'Refused'
SPENT_LINE = 'nimarc: steps spent\n'
SOURCE_FILE = 't.nim:'
LARGE_GLOBALS = 'array[65536, int]'
LEFT_OUT = 'E23'
LINE_END = '\u23ce'
"""How the page writes it."""


class Written(NamedTuple):
    """What a program does; `status` None: it has spent its units."""
    status: Optional[int]
    out: str
    err: str


def wanted_answer(row: Row, part: str) -> str:
    """The row has status and line, as `65 t.nim:1:5: E8 NotTyped`; the answer is `1:5: E8`."""
    given = row.parts[part].strip()
    return given if given == '0' else given.split(SOURCE_FILE)[1].rsplit(' ', 1)[0]


def typing_difference(row: Row) -> Optional[str]:
    """What differs in a row of the typing rules."""
    wanted = wanted_answer(row, 'check')
    got = frames.answer(row.parts['source'])
    return None if wanted == got else 'wanted %s, got %s' % (wanted, got)


def refused_call(row: Row) -> Optional[str]:
    """Of a call that is refused, `65 Refused E21 FrameTooLarge 2:1`, the answer `2:1: E21`."""
    call = row.parts.get('call', '').split()
    return '%s: %s' % (call[4], call[2]) if call[1:2] == [REFUSED] else None


def frames_difference(row: Row) -> Optional[str]:
    """What differs in a row of procedures that are too large."""
    wanted = wanted_answer(row, 'answer') if 'answer' in row.parts else refused_call(row)
    if wanted is None:
        return plain_difference(row)
    got = frames.answer(row.parts['source'])
    return None if wanted == got else 'wanted %s, got %s' % (wanted, got)


def is_about_data(row: Row) -> bool:
    """Its globals are about as large as they may be. What isn't built has no size."""
    return LARGE_GLOBALS in row.parts['source'] and LEFT_OUT not in row.parts.get('answer', LEFT_OUT)


def limits_difference(row: Row) -> Optional[str]:
    """What differs in a row of data that is about as large as it may be."""
    wanted, got = wanted_answer(row, 'answer'), data.answer(row.parts['source'])
    return None if wanted == got else 'wanted %s, got %s' % (wanted, got)


def wanted_run(row: Row) -> Written:
    out, err = row.parts.get('out', ''), row.parts.get('err', '')
    call = row.parts.get('call', '').split()
    if not call:
        return Written(int(row.parts.get('status', '0')), out, err)
    return Written(None if call[1] == STEPS_SPENT else int(call[0]), out, err)


def number_of(row: Row, flag: str, usual: int) -> int:
    """What a word of the row's command says behind the flag."""
    for word in row.parts.get('words', '').split('\n'):
        if word.startswith(flag):
            return int(word[len(flag):])
    return usual


def plain_difference(row: Row) -> Optional[str]:
    """What differs in a row of a program."""
    try:
        program = check(row.parts['source'])
    except Refusal as refusal:
        return 'wanted a program, got %s' % refusal
    left_out, wanted_refusal = first_left_out(program), refused_call(row)
    if left_out is not None or wanted_refusal is not None:
        got_refusal = '%d:%d: %s' % (*left_out, LEFT_OUT) if left_out is not None else None
        return None if wanted_refusal == got_refusal else 'wanted %s, got %s' % (wanted_refusal, got_refusal)
    if frames.frame_fault(program) is not None:
        return 'wanted a program, got one that is too large'
    units, heap = number_of(row, STEPS_WORD, UNITS), number_of(row, HEAP_WORD, LARGEST_HEAP)
    outcome = run(program, units, row.parts.get('input', '').encode('latin-1'), heap)
    err = outcome.err.decode('latin-1') + (SPENT_LINE if outcome.status is None else '')
    got = Written(outcome.status, outcome.out.decode('latin-1'), err)
    wanted = wanted_run(row)
    return None if wanted == got else 'wanted %r, got %r' % (tuple(wanted), tuple(got))


def examples() -> List[Row]:
    """Those of docs/TYPING.md, as rows of the typing rules. A line is ``| `SOURCE` | E8 1:5 | why |``."""
    page = REPOSITORY / 'docs' / 'TYPING.md'
    line = re.compile(r'\| (`+) ?(?P<source>.*?) ?\1 \| (?P<code>E\d+) (?P<place>\d+:\d+) \|')
    rows = []
    for number, text in enumerate(page.read_text(encoding='utf-8').split('\n'), 1):
        example = line.match(text)
        if example is not None:
            source = example['source'].replace(LINE_END, '\n')
            check_part = '65 %s%s: %s Name' % (SOURCE_FILE, example['place'], example['code'])
            rows.append(Row(page, number, {'source': source, 'check': check_part}))
    return rows


def waiting_difference(row: Row) -> Optional[str]:
    """What differs in a row of what isn't built yet."""
    return typing_difference(row) if 'check' in row.parts else heap_rows.difference(row)


DIFFERENCES = {'typing': typing_difference, 'plain': plain_difference, 'texts': plain_difference, 'frames': frames_difference,
               'limits': limits_difference, 'examples': typing_difference, 'waiting': waiting_difference}


def differing_rows(name: str) -> int:
    """Prints what differs in a folder or a file; gives the number of rows that do."""
    files = sorted(WAITING.glob('*.rows')) if name == 'waiting' else files_of(name)
    rows = examples() if name == 'examples' else [row for path in files for row in read(path)]
    if name == 'limits':
        rows = list(filter(is_about_data, rows))
    differing = 0
    for row in rows:
        difference = DIFFERENCES[name](row)
        if difference is not None:
            differing += 1
            print('%s: %s' % (row, difference))
    print('%s: %d rows, %d differ' % (name, len(rows), differing))
    return differing


def main() -> None:
    parser = argparse.ArgumentParser(description='Compares rows of the repository with the answers of this reader.')
    parser.add_argument('--only', choices=list(DIFFERENCES), help='all of them but those that wait, if it is not there')
    only = parser.parse_args().only
    names = [name for name in DIFFERENCES if name != 'waiting'] if only is None else [only]
    sys.exit(1 if with_deep_stack(lambda: sum(differing_rows(name) for name in names)) else 0)


if __name__ == '__main__':
    main()
