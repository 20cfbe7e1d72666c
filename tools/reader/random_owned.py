"""Random programs of texts and sequences, with what this reader says that they do.

    python3 tools/reader/random_owned.py SEED COUNT > FILE

Each line is JSON: [source, input, heap, units, status, out, err, demand, live blocks as [size, number] ..], where status is null
if the units are spent. Every program comes with a large heap first, then with heaps near the demands that it reaches. One seed
always gives the same programs.
"""
from __future__ import annotations

import argparse
import collections
import json
import random
import sys
from typing import Counter, Iterator, List, NamedTuple, Optional, Tuple

from check import Program, check
from heap import LARGEST_HEAP
from interp import Outcome, run, with_deep_stack
from random_parts import HEAD
from random_statements import StatementMaker
from scan import Refusal

UNITS = 400
MOST_EVENTS = 60_000
HEAPS_NEAR = 3
"""How many heaps near a demand each program is run with."""


class Given(NamedTuple):
    source: str
    program: Program
    input: bytes


def random_input(generator: random.Random) -> bytes:
    ends = [b'\n', b'\n', b'\r\n', b'\r\r\n', b'\n\n']
    lines = [bytes([generator.choice(b'abcxyz ')]) * generator.choice([0, 1, 2, 7, 8, 9, 24, 25, 40]) + generator.choice(ends)
             for _ in range(generator.randrange(5))]
    whole = b''.join(lines)
    return whole[:-1] if generator.random() < .3 else whole


def random_source(generator: random.Random) -> str:
    maker = StatementMaker(generator)
    return HEAD + maker.program()


def programs(seed: int) -> Iterator[Given]:
    """Those that are accepted."""
    generator = random.Random(seed)
    while True:
        source = random_source(generator)
        try:
            yield Given(source, check(source), random_input(generator))
        except Refusal:
            continue


def demands(outcome: Outcome) -> List[int]:
    """The demand behind each take that raised it."""
    live: Counter[int] = collections.Counter()
    most: Counter[int] = collections.Counter()
    reached = []
    for kind, _, size in outcome.events:
        if kind == 'take':
            live[size] += 1
            if live[size] > most[size]:
                most[size] = live[size]
                reached.append(sum(key * value for key, value in most.items()))
        elif kind == 'give':
            live[size] -= 1
    return reached


def heaps_near(generator: random.Random, outcome: Outcome) -> List[int]:
    """The whole demand, and one byte less than some takes need."""
    reached = demands(outcome)
    if not reached:
        return []
    return [reached[-1]] + [generator.choice(reached) - 1 for _ in range(HEAPS_NEAR - 1)]


def runs(generator: random.Random, given: Given) -> Iterator[Tuple[int, Outcome]]:
    """Each heap with the outcome."""
    outcome = run(given.program, UNITS, given.input)
    yield LARGEST_HEAP, outcome
    for heap in heaps_near(generator, outcome):
        yield heap, run(given.program, UNITS, given.input, heap)


def end_of(outcome: Outcome) -> str:
    text = outcome.err.decode('latin-1').strip()
    status: Optional[int] = outcome.status
    return 'units spent' if status is None else text or 'status %d' % (status != 0)


def print_runs(seed: int, count: int) -> Counter[str]:
    generator = random.Random(seed)
    counts: Counter[str] = collections.Counter()
    for given in programs(seed):
        if count == 0:
            return counts
        count -= 1
        for heap, outcome in runs(generator, given):
            out, err = outcome.out.decode('latin-1'), outcome.err.decode('latin-1')
            print(json.dumps([given.source, given.input.decode('latin-1'), heap, UNITS, outcome.status, out, err,
                              outcome.demand, outcome.live]))
            counts[end_of(outcome)] += 1
    return counts


def main() -> None:
    parser = argparse.ArgumentParser(description='Prints random programs of texts and sequences, with what they do.')
    parser.add_argument('seed', type=int)
    parser.add_argument('count', type=int)
    options = parser.parse_args()
    counts = with_deep_stack(lambda: print_runs(options.seed, options.count))
    for key in sorted(counts):
        print('%s: %d' % (key, counts[key]), file=sys.stderr)


if __name__ == '__main__':
    main()
