"""Files of rows of calls of random programs, which crates/rows runs natively: thousands of runs by one process.

    python3 tools/reader/random_rows.py SEED COUNT FOLDER

Writes FOLDER/random_SEED_N.rows, each of PROGRAMS_OF_A_FILE programs of random_built.py. Each program is run by `mean` with a heap
that suffices, by `run` with exactly its demand, with a byte less, and with a byte less than some take on the way needs, by `run` or
by `mean`. What is wanted is what this reader says. One seed always gives the same programs. Counts go to standard output.
"""
from __future__ import annotations

import argparse
import collections
import random
import re
from pathlib import Path
from typing import Counter, Iterator, List, NamedTuple

from check import Program, check
from heap_rows import USUAL_HEAP
from interp import Outcome, run, with_deep_stack
from owned_calls import COLUMNS, Call, ended, escaped, with_heap
from random_built import maker, widen
from random_owned import demands, end_of, random_input
from scan import Refusal

UNITS = 200
LONGEST_SOURCE = 1_800
LONGEST_OUT = 1_500
PLAIN = re.compile('[\n -[\\]-|~]*')
"""Only line feeds are escaped in it."""
PROGRAMS_OF_A_FILE = 100
SPENT_LINE = 'nimarc: steps spent\n'


class Given(NamedTuple):
    source: str
    program: Program
    input: str


def cell(text: str) -> str:
    """A space at its ends would be lost."""
    made = text.replace('\n', '\\n') if PLAIN.fullmatch(text) else escaped(text)
    if made.startswith(' '):
        made = '\\x20' + made[1:]
    return made[:-1] + '\\x20' if made.endswith(' ') else made


def line_of(given: Given, words: List[str], call: Call) -> str:
    return ' => '.join(['\\n'.join([*words, '--heap=%d' % call.heap]), cell(call.source), cell(given.input), call.answer, cell(call.out),
                        cell(call.err)])


def programs(generator: random.Random, counts: Counter[str]) -> Iterator[Given]:
    """Those that are accepted, and aren't long."""
    while True:
        source = maker(generator).program()
        if len(source) > LONGEST_SOURCE:
            continue
        try:
            program = check(source)
        except Refusal:
            counts['not accepted'] += 1
            continue
        yield Given(source, program, random_input(generator).decode('latin-1') if 'readLine' in source else '')


def call_of(outcome: Outcome, heap: int, source: str) -> Call:
    status = outcome.status
    assert status is not None
    return with_heap(heap, source, status, outcome.out.decode('latin-1'), outcome.err.decode('latin-1'))


def lines_of(generator: random.Random, given: Given, counts: Counter[str]) -> Iterator[str]:
    standard_input = given.input.encode('latin-1')
    outcome = run(given.program, UNITS, standard_input)
    if len(outcome.out) > LONGEST_OUT:
        return
    counts[end_of(outcome)] += 1
    out = outcome.out.decode('latin-1')
    mean = ['mean', 't.nim', '--steps=%d' % UNITS]
    enough = max(USUAL_HEAP, outcome.demand)
    if outcome.status is None:
        yield line_of(given, mean, Call(enough, given.source, '124 StepsSpent %d' % UNITS, out, outcome.err.decode('latin-1') + SPENT_LINE))
        return
    yield line_of(given, mean, ended(enough, given.source, outcome.status, out, outcome.err.decode('latin-1')))
    yield line_of(given, ['run', 't.nim'], call_of(outcome, outcome.demand, given.source))
    reached = demands(outcome)
    for demand in reached[-1:] + generator.sample(reached, min(1, len(reached))):
        short = run(given.program, UNITS, standard_input, demand - 1)
        counts['short'] += 1
        yield line_of(given, generator.choice([['run', 't.nim'], mean]), call_of(short, demand - 1, given.source))


def write_rows(seed: int, count: int, folder: Path, counts: Counter[str]) -> Iterator[Path]:
    generator = random.Random(seed)
    given = programs(generator, counts)
    for number in range(-(-count // PROGRAMS_OF_A_FILE)):
        lines: List[str] = []
        for _ in range(min(PROGRAMS_OF_A_FILE, count - number * PROGRAMS_OF_A_FILE)):
            made: List[str] = []
            while not made:
                made = list(lines_of(generator, next(given), counts))
            counts['programs'] += 1
            counts['runs'] += len(made)
            lines += made
        path = folder / ('random_%d_%d.rows' % (seed, number))
        path.with_suffix('.part').write_bytes('\n'.join(['=== random programs', COLUMNS, *lines, '']).encode('latin-1'))
        path.with_suffix('.part').rename(path)
        yield path


def main() -> None:
    parser = argparse.ArgumentParser(description='Writes rows of random programs, with what they do.')
    parser.add_argument('seed', type=int)
    parser.add_argument('count', type=int)
    parser.add_argument('folder', type=Path)
    options = parser.parse_args()
    widen()
    counts: Counter[str] = collections.Counter()
    with_deep_stack(lambda: list(write_rows(options.seed, options.count, options.folder, counts)))
    for key in sorted(counts):
        print('%s: %d' % (key, counts[key]))


if __name__ == '__main__':
    main()
