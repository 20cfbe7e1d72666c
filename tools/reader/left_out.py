"""The first place of a typed program that has no code yet (docs/LANGUAGE.md: what is compiled, and E23).

    python3 tools/reader/left_out.py FILE

Prints its place, or nothing. What has no typing rule, as refs and exceptions, is refused before, by check.py.
"""
from __future__ import annotations

import argparse
import sys
from typing import Iterator, Optional

import tree
from check import RECURSION_LIMIT, Program, check
from meanings import READ_LINE, BuiltInCall
from scan import Position
from tree import place_of, walk


def first_left_out(program: Program) -> Optional[Position]:
    return min(_left_out(program), default=None)


def _left_out(program: Program) -> Iterator[Position]:
    outside = {id(node) for node in nodes_outside(program)}
    for node in walk(program.statements):
        if id(node) not in outside and is_left_out(node):
            yield place_of(node)


def nodes_outside(program: Program) -> Iterator[tree.Node]:
    """They are no nodes of the program: those of constants, of types, and of labels."""
    yield from nodes_of_constants(program)
    for node in walk(program.statements):
        if isinstance(node, (tree.TypeSection, tree.WrittenType)):
            yield from walk(node)
        elif isinstance(node, (tree.Case, tree.CaseExpression)):
            yield from walk([labels for labels, _ in node.branches])


def nodes_of_constants(program: Program) -> Iterator[tree.Node]:
    """They are no nodes of the program: only a constant's uses are."""
    for node in walk(program.statements):
        if isinstance(node, tree.Definitions) and node.word == 'const':
            yield from walk(node.definitions)


def is_left_out(node: tree.Node) -> bool:
    """Whether the form that the node is has no code, whatever its parts are."""
    meaning = node.meaning if isinstance(node, (tree.Call, tree.Dot)) else None
    return isinstance(meaning, BuiltInCall) and meaning.name == READ_LINE and len(meaning.arguments) == 1


def main() -> None:
    parser = argparse.ArgumentParser(description='Prints the first place of a typed program that has no code yet.')
    parser.add_argument('file', type=argparse.FileType('rb'))
    source = parser.parse_args().file.read().decode('latin-1')
    sys.setrecursionlimit(RECURSION_LIMIT)
    place = first_left_out(check(source))
    print('' if place is None else '%d:%d' % place)


if __name__ == '__main__':
    main()
