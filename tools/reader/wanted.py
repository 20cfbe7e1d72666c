"""Prints a row of a program of texts and sequences, with what this reader says that is wanted (see heap_rows.py).

    python3 tools/reader/wanted.py FILE [--title TITLE] [--input FILE] [--heap N]
"""
from __future__ import annotations

import argparse
from pathlib import Path
from typing import List

from check import Program, check
from heap_rows import NOTHING, UNITS, USUAL_HEAP, Short, done, live_text
from interp import Outcome, run, with_deep_stack
from random_owned import demands

MOST_SHORT_HEAPS = 3


def short_heaps(program: Program, standard_input: bytes, outcome: Outcome) -> List[Short]:
    """Heaps of one byte less than the first take needs, one in the middle, and the last that raises the demand."""
    reached = demands(outcome)
    chosen = reached if len(reached) <= MOST_SHORT_HEAPS else [reached[0], reached[len(reached) // 2], reached[-1]]
    shorts = []
    for demand in chosen:
        short = run(program, UNITS, standard_input, demand - 1)
        shorts.append(Short(demand - 1, len(short.out), short.demand, live_text(short.live)))
    return shorts


def escape(char: str) -> str:
    if char == '\n':
        return '\\n\\\n'
    if char == '\\':
        return '\\\\'
    return char if ' ' <= char <= '~' else '\\x%02x' % ord(char)


def part(name: str, text: str) -> str:
    """As it is, or with escapes where an end or a byte would be lost."""
    has_plain_end = text.endswith('\n') and not text.endswith('\n\n') and text != '\n'
    has_title = any(line.startswith(('---', '===')) for line in text.split('\n'))
    if has_plain_end and not has_title and all(char == '\n' or ' ' <= char <= '~' for char in text):
        return '--- %s\n%s' % (name, text)
    escaped = ''.join(map(escape, text))
    return '--- escaped %s\n%s%s\n' % (name, escaped, '' if text.endswith('\n') else '\\')


def row(title: str, source: str, standard_input: str, heap: int) -> str:
    program = check(source)
    given = standard_input.encode('latin-1')
    outcome = run(program, UNITS, given, heap)
    wanted = done(outcome)
    shorts = ''.join('%s\n' % str(short) for short in short_heaps(program, given, outcome))
    parts = [('source', source), ('input', standard_input), ('heap', '' if heap == USUAL_HEAP else '%d\n' % heap),
             ('out', wanted.out), ('err', wanted.err), ('status', '%d\n' % wanted.status if wanted.status else ''),
             ('demand', '%d\n' % wanted.demand if wanted.demand else ''),
             ('live', '' if wanted.live == NOTHING else wanted.live + '\n'), ('short', shorts)]
    return '=== %s\n' % title + ''.join(part(name, text) for name, text in parts if text)


def main() -> None:
    parser = argparse.ArgumentParser(description='Prints a row of a program of texts and sequences.')
    parser.add_argument('file', type=Path)
    parser.add_argument('--title', default='a program')
    parser.add_argument('--input', type=Path)
    parser.add_argument('--heap', type=int, default=USUAL_HEAP)
    options = parser.parse_args()
    source = options.file.read_bytes().decode('latin-1')
    standard_input = '' if options.input is None else options.input.read_bytes().decode('latin-1')
    print(with_deep_stack(lambda: row(options.title, source, standard_input, options.heap)), end='')


if __name__ == '__main__':
    main()
