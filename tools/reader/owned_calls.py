"""Writes the rows of tools/reader/waiting as rows of calls, which crates/rows runs: by `mean` with the heap that a row says, by `run`
with exactly its demand, and by `run` with the largest heap that is too small, or, where a row has many of these, with each
(heap_rows.py says what they are). A source with a form that isn't built yet (left_out.py) is refused; when the form is built, the
row's other values are what it does. `mean` isn't asked with a heap of more than 1 MiB, which takes a second.

    python3 tools/reader/owned_calls.py crates/rows

Writes data/texts/NAME.rows for each file NAME.rows of `waiting` whose rows have a source and say nothing of `call`, and adds their names
to `args` and what is said of them to `stdout`. What is live at the end, and the order of blocks, no call tells: run_rows.py holds them
to this reader.
"""
from __future__ import annotations

import sys
from pathlib import Path
from typing import Iterator, List, NamedTuple

from check import check
from heap_rows import BALLAST, BALLAST_BYTES, NO_MEMORY, USUAL_HEAP, Short, Wanted, shorts_of, wanted_of
from interp import with_deep_stack
from left_out import first_left_out
from rows import WAITING, Row, read

FOLDER = 'texts'
FEW_SHORTS = 3
LARGEST_OF_MEAN = 1_048_576
COLUMNS = '--- words => source => input => call => out => err'
_ESCAPED = {'\n': '\\n', '\r': '\\r', '\t': '\\t', '\\': '\\\\', '}': '\\}'}


class Call(NamedTuple):
    heap: int
    source: str
    answer: str
    out: str
    err: str


def escaped(text: str) -> str:
    return ''.join(_ESCAPED.get(c, c if ' ' <= c <= '~' else '\\x%02x' % ord(c)) for c in text)


def ended(heap: int, source: str, status: int, out: str, err: str) -> Call:
    return Call(heap, source, '%d Ended' % status, out, err)


def with_heap(heap: int, source: str, status: int, out: str, err: str) -> Call:
    """A heap that is less than a command takes is made of one that is more, and a block that takes the rest."""
    if heap >= USUAL_HEAP:
        return ended(heap, source, status, out, err)
    return ended(heap + BALLAST_BYTES, BALLAST + source, status, out, err)


def shorts_to_run(row: Row) -> List[Short]:
    shorts = shorts_of(row.parts.get('short', ''))
    return shorts if len(shorts) > FEW_SHORTS else shorts[-1:]


def runs_of(row: Row, wanted: Wanted) -> Iterator[Call]:
    source = row.parts['source']
    if wanted.err == NO_MEMORY or wanted.demand == 0:
        yield ended(heap_of(row), source, wanted.status, wanted.out, wanted.err)
    else:
        yield with_heap(wanted.demand, source, wanted.status, wanted.out, wanted.err)
    for short in shorts_to_run(row):
        yield with_heap(short.heap, source, 1, wanted.out[:short.written], NO_MEMORY)


def heap_of(row: Row) -> int:
    return int(row.parts.get('heap') or USUAL_HEAP)


def line_of(row: Row, words: List[str], call: Call) -> str:
    return ' => '.join(['\\n'.join([*words, '--heap=%d' % call.heap]), escaped(call.source), escaped(row.parts.get('input', '')),
                        call.answer, escaped(call.out), escaped(call.err)])


def lines_of(row: Row) -> Iterator[str]:
    source, heap, steps = row.parts['source'], heap_of(row), row.parts.get('steps')
    left_out = first_left_out(check(source))
    if left_out is not None:
        place = '%d:%d' % tuple(left_out)
        yield line_of(row, ['run', 't.nim'], Call(heap, source, '65 Refused E23 LeftOut %s' % place, '', 't.nim:%s: E23 LeftOut\n' % place))
        return
    wanted = wanted_of(row)
    if heap <= LARGEST_OF_MEAN:
        words = ['mean', 't.nim'] + (['--steps=%s' % steps] if steps else [])
        yield line_of(row, words, ended(heap, source, wanted.status, wanted.out, wanted.err))
    for call in runs_of(row, wanted):
        yield line_of(row, ['run', 't.nim'], call)


def with_lines(path: Path, lines: List[str]) -> None:
    """What a file says of FOLDER gives way to these lines, at its end."""
    kept = [line for line in path.read_text('latin-1').splitlines() if not line.startswith(FOLDER + '/')]
    path.write_text('\n'.join(kept + lines) + '\n', 'latin-1')


def main(crate: Path) -> None:
    folder = crate / 'data' / FOLDER
    folder.mkdir(parents=True, exist_ok=True)
    counts = {}
    for path in sorted(WAITING.glob('*.rows')):
        rows: List[Row] = [row for row in read(path) if 'source' in row.parts and 'call' not in row.parts and 'check' not in row.parts]
        if rows:
            lines = [line for row in rows for line in lines_of(row)]
            text = ['From tools/reader/waiting/%s, by owned_calls.py.' % path.name, '', '=== by run and by mean', COLUMNS, *lines]
            (folder / path.name).write_bytes(('\n'.join(text) + '\n').encode('latin-1'))
            counts['%s/%s' % (FOLDER, path.name)] = len(lines)
            print(path.name, len(rows), 'rows,', len(lines), 'calls')
    with_lines(crate / 'args', list(counts))
    with_lines(crate / 'stdout', ['%s: %d rows' % item for item in counts.items()])


if __name__ == '__main__':
    with_deep_stack(lambda: [main(Path(sys.argv[1]))])
