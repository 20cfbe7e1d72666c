"""Whether a program's data is small enough (docs/LANGUAGE.md, E25).

    python3 tools/reader/data.py FILE
"""
from __future__ import annotations

import argparse
import sys
from typing import Any, Iterator, Set, Union

import frames
import tree
from check import RECURSION_LIMIT, Program, check
from evaluate import ConstantEvaluator
from meanings import Constant
from scan import Refusal
from tree import walk

MOST_BYTES = 1_040_384
WORD_BYTES = 4
HANDLE_BYTES = 8
"""A length and an address."""
FEW_TEXTS = 512
"""So many texts and constants count no word more."""
GIVEN_EXCEPTIONS = (b'CatchableError', b'ValueError', b'IOError', b'OSError', b'KeyError', b'EOFError')


def text_bytes(text: bytes) -> int:
    """Up to whole words, and a word more."""
    return WORD_BYTES + (len(text) + WORD_BYTES - 1) // WORD_BYTES * WORD_BYTES


def data_bytes(program: Program) -> int:
    names = [member.encode('latin-1') for declared in program.types.declared.values() for member in declared.members]
    counted = _Counted(program)
    further = WORD_BYTES * max(0, len(counted.texts) - FEW_TEXTS)
    return (_globals(program) + sum(map(text_bytes, [*GIVEN_EXCEPTIONS, *names])) + sum(map(text_bytes, counted.texts)) + further
            + counted.linked)


def _globals(program: Program) -> int:
    types = program.types
    definitions = (node for node in walk(program.statements) if isinstance(node, tree.Definition))
    return sum(types.size(types.resolved(variable.type))
               for definition in definitions for variable in definition.variables or [] if variable.is_global)


class _Counted(frames.Sums):
    """Texts and constants of all bodies, where they are used."""

    def __init__(self, program: Program):
        super().__init__(program.types)
        self.constants = ConstantEvaluator(program.types)
        self.texts: Set[bytes] = set()
        """The distinct texts, and the bytes of constants without texts or sequences in them that are read in place."""
        self.linked = 0
        """What those with texts or sequences in them have beside the texts, at each use, and twice where one is read in place."""
        self.block(program.statements)
        for procedure in program.procedures:
            if procedure.body is not None:
                self.body(procedure)

    def statement(self, statement: tree.Statement) -> int:
        if isinstance(statement, tree.Case):
            self.labels(statement)
        return super().statement(statement)

    def parts(self, inner: tree.Expression) -> int:
        if isinstance(inner, tree.TextLiteral):
            self.texts.add(inner.value)
        elif isinstance(inner, tree.Name) and isinstance(inner.declaration, Constant):
            self.used(inner.declaration, 1)
        elif isinstance(inner, tree.CaseExpression):
            self.labels(inner)
        return super().parts(inner)

    def constant(self, constant: Constant) -> int:
        self.used(constant, 2)
        if not self.types.owns_blocks(self.types.resolved(constant.type)):
            self.texts.add(_bytes_of(constant.value))
        return super().constant(constant)

    def labels(self, case: Union[tree.Case, tree.CaseExpression]) -> None:
        self.texts.update(value for ranges in case.ranges for values in ranges for value in values if isinstance(value, bytes))

    def used(self, constant: Constant, times: int) -> None:
        self.texts.update(_texts_of(constant.value))
        if self.types.owns_blocks(self.types.resolved(constant.type)) and not isinstance(constant.value, bytes):
            self.linked += times * (HANDLE_BYTES + self.linked_bytes(constant.value, constant.type))

    def linked_bytes(self, value: Any, type_number: int) -> int:
        """Of a part: its words, and those of the elements of a sequence, which stand behind a handle of their own."""
        type_number = self.types.resolved(type_number)
        while self.types.kind(type_number) == 'distinct':
            type_number = self.types.resolved(self.types.base(type_number))
        if isinstance(value, bytes):
            return HANDLE_BYTES
        if not isinstance(value, list):
            return WORD_BYTES
        part_types = self.constants.part_types(self.types.forms[type_number], value)
        parts = sum(map(self.linked_bytes, value, part_types))
        return 2 * HANDLE_BYTES + parts if self.types.kind(type_number) == 'seq' else parts or WORD_BYTES


def _texts_of(value: Any) -> Iterator[bytes]:
    if isinstance(value, bytes):
        yield value
    elif isinstance(value, list):
        for part in value:
            yield from _texts_of(part)


def _bytes_of(value: Any) -> bytes:
    """A word for each number, the lowest byte first, and for what has no parts."""
    if isinstance(value, list):
        return b''.join(map(_bytes_of, value)) if value else bytes(WORD_BYTES)
    return (int(value) % 2 ** (8 * WORD_BYTES)).to_bytes(WORD_BYTES, 'little')


def answer(source: str) -> str:
    """'0', or place and code of the refusal, as `1:1: E25`. Of the bytes of the code nothing is said."""
    before = frames.answer(source)
    if before != '0':
        return before
    return '0' if data_bytes(check(source)) <= MOST_BYTES else '1:1: E25'


def main() -> None:
    parser = argparse.ArgumentParser(description='Prints how many bytes of data a program has, or place and code of its refusal.')
    parser.add_argument('file', type=argparse.FileType('rb'))
    source = parser.parse_args().file.read().decode('latin-1')
    sys.setrecursionlimit(RECURSION_LIMIT)
    try:
        print(data_bytes(check(source)))
    except Refusal as refusal:
        print(refusal)


if __name__ == '__main__':
    main()
