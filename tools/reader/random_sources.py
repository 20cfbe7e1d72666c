"""Random sources with this reader's answers: accepted rows of the repository in which a little is changed.

    python3 tools/reader/random_sources.py SEED COUNT [--refused] [--programs [--units N]] > FILE

Each line is JSON: of a source `[source, answer]`, as `1:5: E8` or `0`; with --programs of an accepted one
`[source, plain, units, status, out, err]`, where status is null if the units are spent. One seed always gives the same
sources, as long as the rows stay. What the reader itself gets wrong is told on standard error, with the counts.
"""
from __future__ import annotations

import argparse
import collections
import json
import random
import sys
from typing import Any, Callable, Counter, Iterator, List, Tuple

from check import Program, check
from frames import MODULE_CODE, answer, has_only_written_texts
from interp import run, with_deep_stack
from parse import parse
from rows import files_of, read
from scan import BYTE_ORDER_MARK, Kind, Refusal, Token, scan

LONGEST_TYPING_ROW = 800
LONGEST_PLAIN_ROW = 400
UNITS = 3_000
SEED_STEP = 1_000_003
SOURCES_OF_A_SEED = 1_000
"""With --programs the seed goes on by SEED_STEP behind so many sources."""

REFUSALS_TO_BEGIN_AT = ('E7 ', 'E9 ', 'E10', 'E11', 'E13', 'E15', 'E26')
"""With --refused rows of these codes are begun at too: random changes seldom lead there."""

WRITTEN_TYPES = ['int', 'bool', 'char', 'string', 'seq[int]', 'array[2, int]', 'tuple[a, b: int]', 'seq[string]',
                 'seq[seq[int]]', 'array[3, char]']
OPERATORS = ['+', '-', '*', 'div', 'mod', 'shl', 'shr', '&', '==', '!=', '<', '<=', '>', '>=', 'and', 'or', 'xor']
VALUES = ['0', '1', '5', "'a'", '"ab"', 'true', 'false', '@[]', '@[1]', '[1, 2]', '(1, 2)', '(a: 1, b: 2)', 'y',
          '2147483647', '[@[], @[1]]', '(if true: 1 else: 2)', '(case 1 of 1: 2 else: 3)', '1 div 0', '@["a"]',
          'default(int)', 'newSeq[int](2)', '(1)', 'high(int)', '-1']
CALLED = ['len', 'high', 'low', 'ord', 'chr', 'inc', 'dec', 'add', 'pop', 'move', 'swap', 'setLen', 'echo', 'quit',
          'default', 'f', 'g', 'int', 'string', 'newSeq']
STATEMENTS = [
    'let y = 1', 'var y = @[1]', 'echo y', 'discard y', 'type T = enum a, b', 'const n = 3', 'proc f()',
    'proc f(x: int) = discard', 'proc f(x: var int) = inc x', 'proc f(x: seq[int]): int = x.len', 'var g = 1', 'return',
    'break', 'inc g', 'f(@[])', 'proc `$`(x: int): string = "n"', 'type D = distinct int',
    'proc `==`(a, b: D): bool {.borrow.}', 'while true: break', 'for i in 1..3: echo i', 'case 1\nof 1: echo 1',
    'result = 1', 'readLine(stdin)', 'x = nil', 'type\n  P = object\n    a: Q\n  Q = seq[P]', 'let (z) = 1',
    'proc h(x: var int; y: int) = x = g', 'h(g, 1)', 'if true: echo 1\nelse: echo 2']

Test = Callable[[Token], bool]


class NothingToChange(Exception):
    """The kind of change that was drawn can't be made in this source."""


class Change:
    """One random change of a source."""

    def __init__(self, generator: random.Random, source: str):
        self.random = generator
        self.source = source
        self.tokens = [token for token in scan(source) if token.kind is not Kind.END]

    def made(self) -> str:
        """The changed source; the same where there is nothing to change."""
        if not self.tokens:
            return self.source
        kinds: List[Callable[[], str]] = [
            self.other_operator, self.other_type, self.other_name, self.other_name, self.other_literal,
            self.without_line, self.repeated_line, self.swapped_lines, self.further_line, self.swapped_operands,
            self.changed_arguments, self.other_word, self.other_mode, self.in_parentheses, self.other_value,
            self.in_call, self.before_method, self.before_index, self.other_callee, self.without_token,
            self.behind_sign, self.swapped_tokens]
        try:
            return self.random.choice(kinds)()
        except NothingToChange:
            return self.source

    # What a change is made of

    def drawn_of(self, choices: List[Any]) -> Any:
        if not choices:
            raise NothingToChange
        return self.random.choice(choices)

    def drawn(self, test: Test) -> Token:
        """A token for which the test is true."""
        return self.drawn_of([token for token in self.tokens if test(token)])

    def drawn_between(self, test: Test) -> Tuple[Token, Token]:
        """The operands on both sides of such a token."""
        pairs = [(left, right) for left, middle, right in zip(self.tokens, self.tokens[1:], self.tokens[2:])
                 if test(middle) and is_operand(left) and is_operand(right)]
        return self.drawn_of(pairs)

    def written(self, token: Token) -> str:
        return self.source[token.start:token.end]

    def replaced(self, token: Token, text: str) -> str:
        return self.source[:token.start] + text + self.source[token.end:]

    def swapped(self, left: Token, right: Token) -> str:
        between = self.source[left.end:right.start]
        return (self.source[:left.start] + self.written(right) + between + self.written(left)
                + self.source[right.end:])

    # Kinds of change

    def other_operator(self) -> str:
        token = self.drawn(is_operator)
        return self.replaced(token, self.random.choice(OPERATORS))

    def other_type(self) -> str:
        token = self.drawn(lambda token: token.kind is Kind.NAME and token.text in ('int', 'bool', 'char', 'string'))
        return self.replaced(token, self.random.choice(WRITTEN_TYPES))

    def other_name(self) -> str:
        token = self.drawn(is_name)
        names = sorted({other.value for other in self.tokens if is_name(other)}) + ['y', 'result']
        return self.replaced(token, self.random.choice(names))

    def other_literal(self) -> str:
        token = self.drawn(lambda token: token.kind in (Kind.INT, Kind.CHAR, Kind.TEXT))
        return self.replaced(token, self.random.choice(VALUES))

    def without_line(self) -> str:
        lines = self.source.split('\n')
        del lines[self.random.randrange(len(lines))]
        return '\n'.join(lines)

    def repeated_line(self) -> str:
        lines = self.source.split('\n')
        line = self.random.choice(lines)
        lines.insert(self.random.randrange(len(lines) + 1), line)
        return '\n'.join(lines)

    def swapped_lines(self) -> str:
        lines = self.source.split('\n')
        first, second = self.random.randrange(len(lines)), self.random.randrange(len(lines))
        lines[first], lines[second] = lines[second], lines[first]
        return '\n'.join(lines)

    def further_line(self) -> str:
        lines = self.source.split('\n')
        number = self.random.randrange(len(lines))
        indent = ' ' * (len(lines[number]) - len(lines[number].lstrip(' ')))
        lines[number:number] = [indent + line for line in self.random.choice(STATEMENTS).split('\n')]
        return '\n'.join(lines)

    def swapped_operands(self) -> str:
        return self.swapped(*self.drawn_between(is_operator))

    def changed_arguments(self) -> str:
        """One of two neighbours goes, or they change places."""
        left, right = self.drawn_between(lambda token: token.text == ',')
        if self.random.random() < .5:
            return self.source[:left.end] + self.source[right.end:]
        return self.swapped(left, right)

    def other_word(self) -> str:
        words = ['let', 'var', 'const']
        token = self.drawn(lambda token: token.kind is Kind.KEYWORD and token.text in words)
        return self.replaced(token, self.random.choice(words))

    def other_mode(self) -> str:
        """A mode behind a colon goes, or comes."""
        types = [second for first, second in zip(self.tokens, self.tokens[1:])
                 if first.text == ':' and second.kind in (Kind.NAME, Kind.KEYWORD)]
        token = self.drawn_of(types)
        if token.text in ('var', 'sink'):
            return self.source[:token.start] + self.source[token.end + 1:]
        return self.source[:token.start] + self.random.choice(['var ', 'sink ']) + self.source[token.start:]

    def in_parentheses(self) -> str:
        token = self.drawn(is_operand)
        return self.replaced(token, '(' + self.written(token) + ')')

    def other_value(self) -> str:
        token = self.drawn(is_operand)
        return self.replaced(token, self.random.choice(VALUES))

    def in_call(self) -> str:
        token = self.drawn(is_operand)
        return self.replaced(token, self.random.choice(CALLED) + '(' + self.written(token) + ')')

    def before_method(self) -> str:
        token = self.drawn(is_operand)
        return self.replaced(token, self.written(token) + '.' + self.random.choice(CALLED + ['a', 'b', 'x']))

    def before_index(self) -> str:
        token = self.drawn(is_name)
        index = self.random.choice(['0', '1', 'i', '5', 'true'])
        return self.replaced(token, self.written(token) + '[' + index + ']')

    def other_callee(self) -> str:
        token = self.drawn(is_name)
        return self.replaced(token, self.random.choice(CALLED))

    def without_token(self) -> str:
        token = self.drawn(lambda token: True)
        return self.replaced(token, '')

    def behind_sign(self) -> str:
        token = self.drawn(is_operand)
        return self.replaced(token, self.random.choice(['not ', '-', '$', '+']) + self.written(token))

    def swapped_tokens(self) -> str:
        first, second = self.drawn(is_operand), self.drawn(is_operand)
        if first is second:
            raise NothingToChange
        return self.swapped(*sorted((first, second), key=lambda token: token.start))


def is_name(token: Token) -> bool:
    return token.kind is Kind.NAME


def is_operand(token: Token) -> bool:
    return token.kind in (Kind.INT, Kind.CHAR, Kind.TEXT, Kind.NAME)


def is_operator(token: Token) -> bool:
    return token.kind in (Kind.OPERATOR, Kind.KEYWORD) and token.text in OPERATORS


def beginnings(with_refused: bool) -> List[str]:
    """The sources of the rows that are changed."""
    typing_rows = [row.parts for path in files_of('typing') for row in read(path)]
    plain_rows = [row.parts for path in files_of('plain') for row in read(path)]
    sources = [parts['source'] for parts in typing_rows
               if parts['check'].strip() == '0'
               or with_refused and any(code in parts['check'] for code in REFUSALS_TO_BEGIN_AT)]
    sources = [source for source in sources if len(source) < LONGEST_TYPING_ROW]
    return sources + [parts['source'] for parts in plain_rows if len(parts['source']) < LONGEST_PLAIN_ROW]


def random_sources(seed: int, count: int, with_refused: bool = False) -> Iterator[str]:
    """Sources that have a tree, each one to three changes away from a row."""
    generator = random.Random(seed)
    sources = beginnings(with_refused)
    while count > 0:
        source = generator.choice(sources)
        for _ in range(generator.choice([1, 1, 1, 2, 2, 3])):
            try:
                source = Change(generator, source).made()
            except Refusal:
                break
        try:
            parse(source)
        except Refusal as refusal:
            # Words that are left out have no tree; one in ten of these stays.
            if refusal.code != 'E23' or generator.random() < .9:
                continue
        count -= 1
        yield source


def faults(source: str, given: str) -> Iterator[str]:
    """What can't be right about an answer, whatever the rules say: its place has to be a token's, and it has to move
    with empty lines before the source."""
    if given == '0':
        return
    line, column = [int(number) for number in given.split(':')[:2]]
    if given == '%d:%d: E21' % MODULE_CODE:
        return
    if (line, column) not in {token.position for token in scan(source)}:
        yield 'no token at %s of %r' % (given, source)
    if not source.startswith(BYTE_ORDER_MARK):
        moved = answer('\n\n' + source + '\n# end\n')
        if moved != '%d:%s' % (line + 2, given.split(':', 1)[1]):
            yield '%s becomes %s behind two empty lines in %r' % (given, moved, source)


def print_answers(seed: int, count: int, with_refused: bool) -> Counter[str]:
    counts: Counter[str] = collections.Counter()
    for source in random_sources(seed, count, with_refused):
        given = answer(source)
        counts[given.split(' ')[-1]] += 1
        print(json.dumps([source, given]))
        for fault in faults(source, given):
            counts['faults'] += 1
            print(fault, file=sys.stderr)
    return counts


def accepted_programs(seed: int, count: int, with_refused: bool) -> Iterator[Tuple[str, Program]]:
    while True:
        for source in random_sources(seed, SOURCES_OF_A_SEED, with_refused):
            try:
                program = check(source)
            except Refusal:
                continue
            yield source, program
            count -= 1
            if count == 0:
                return
        seed += SEED_STEP


def print_programs(seed: int, count: int, with_refused: bool, units: int) -> Counter[str]:
    counts: Counter[str] = collections.Counter()
    for source, program in accepted_programs(seed, count, with_refused):
        outcome = run(program, units)
        out, err = outcome.out.decode('latin-1'), outcome.err.decode('latin-1')
        is_plain = has_only_written_texts(program)
        print(json.dumps([source, is_plain, units, outcome.status, out, err]))
        end = 'units spent' if outcome.status is None else err.strip() or 'end'
        counts[('plain, ' if is_plain else 'not plain, ') + end] += 1
    return counts


def main() -> None:
    parser = argparse.ArgumentParser(description='Prints random sources with the answers of this reader.')
    parser.add_argument('seed', type=int)
    parser.add_argument('count', type=int)
    parser.add_argument('--refused', action='store_true', help='begin at refused rows too')
    parser.add_argument('--programs', action='store_true', help='accepted programs alone, with what they do')
    parser.add_argument('--units', type=int, default=UNITS, help='passes of loops and calls that a program has')
    options = parser.parse_args()
    if options.programs:
        counts = with_deep_stack(
            lambda: print_programs(options.seed, options.count, options.refused, options.units))
    else:
        counts = with_deep_stack(lambda: print_answers(options.seed, options.count, options.refused))
    for key in sorted(counts):
        print('%s: %d' % (key, counts[key]), file=sys.stderr)


if __name__ == '__main__':
    main()
