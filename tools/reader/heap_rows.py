"""Rows of programs that own blocks: what is wanted of them beside what they write.

| Part | What it is |
|---|---|
| `heap` | the bytes of the heap; 4,096 |
| `demand` | the demand at the end, without the block for which there was no room; 0 |
| `live` | the blocks that are live at the end, as `2 of 16, 1 of 32`; `nothing` |
| `short` | heaps that are too small, on lines or with `;` between: `31 out 7 demand 16 live 1 of 16` says that the program wants memory
  with a heap of 31 bytes, where it has written the first 7 bytes of `out` |

Each row is run with a heap of exactly the demand too, where it does the same. A heap of less than 4,096 bytes is less than a
command takes: such a run is that of the source behind the lines BALLAST, which take one block of 4,096 bytes and keep it to the
end, with 4,096 bytes of heap more.
"""
from __future__ import annotations

import re
from typing import List, NamedTuple, Optional, Tuple

from check import Program, check
from frames import frame_fault
from interp import Outcome, run
from rows import Row
from scan import Refusal

BALLAST = 'var ballast: string\nballast.setLen(4088)\n'
BALLAST_BYTES = 4_096
USUAL_HEAP = 4_096
UNITS = 5_000_000
NO_MEMORY = 'Error: out of memory\n'
NOTHING = 'nothing'

_SHORT = re.compile(r'(\d+) out (\d+) demand (\d+) live (.+)')


class Wanted(NamedTuple):
    status: Optional[int]
    out: str
    err: str
    demand: int
    live: str


class Short(NamedTuple):
    heap: int
    written: int
    demand: int
    live: str

    def __str__(self) -> str:
        return '%d out %d demand %d live %s' % self


def live_text(blocks: List[Tuple[int, int]]) -> str:
    return ', '.join('%d of %d' % (count, size) for size, count in blocks) or NOTHING


def shorts_of(text: str) -> List[Short]:
    entries = [entry.strip() for entry in re.split('[;\n]', text) if entry.strip()]
    matches = [_SHORT.fullmatch(entry) for entry in entries]
    if None in matches:
        raise ValueError('no heaps that are too small: %r' % text)
    return [Short(int(match[1]), int(match[2]), int(match[3]), match[4]) for match in matches]


def done(outcome: Outcome) -> Wanted:
    return Wanted(outcome.status, outcome.out.decode('latin-1'), outcome.err.decode('latin-1'), outcome.demand,
                  live_text(outcome.live))


def run_with(program: Program, row: Row, heap: int) -> Wanted:
    return done(run(program, int(row.parts.get('steps', UNITS)), row.parts.get('input', '').encode('latin-1'), heap))


def wanted_of(row: Row) -> Wanted:
    parts = row.parts
    return Wanted(int(parts.get('status') or 0), parts.get('out', ''), parts.get('err', ''), int(parts.get('demand') or 0),
                  parts.get('live', '').strip() or NOTHING)


def difference(row: Row) -> Optional[str]:
    try:
        program = check(row.parts['source'])
        with_ballast = check(BALLAST + row.parts['source'])
    except Refusal as refusal:
        return 'wanted a program, got %s' % refusal
    if frame_fault(with_ballast) is not None:
        return 'wanted a program, got one that is too large'
    wanted = wanted_of(row)
    got = run_with(program, row, int(row.parts.get('heap') or USUAL_HEAP))
    if wanted != got:
        return 'wanted %r, got %r' % (tuple(wanted), tuple(got))
    exact = run_with(program, row, wanted.demand)
    if wanted.err != NO_MEMORY and exact != wanted:
        return 'with a heap of the demand wanted %r, got %r' % (tuple(wanted), tuple(exact))
    for short in shorts_of(row.parts.get('short', '')):
        got = run_with(program, row, short.heap)
        if got != Wanted(1, wanted.out[:short.written], NO_MEMORY, short.demand, short.live):
            return 'with a heap of %d got %r' % (short.heap, tuple(got))
        if short.heap >= USUAL_HEAP:
            continue
        behind = run_with(with_ballast, row, short.heap + BALLAST_BYTES)
        if behind[:3] != got[:3] or behind.demand != got.demand + BALLAST_BYTES:
            return 'behind ballast with a heap of %d got %r' % (short.heap, tuple(behind))
    return None
