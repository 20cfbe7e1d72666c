"""Whether each procedure is small enough to be called (docs/LANGUAGE.md, E21): the sum of its bytes, and the levels of its types.

    python3 tools/reader/frames.py FILE
"""
from __future__ import annotations

import argparse
import sys
from typing import Iterator, List, Optional

import tree
from check import RECURSION_LIMIT, Program, check
from left_out import first_left_out, nodes_of_constants
from meanings import (READ_LINE, SET_LEN, BuiltInCall, Constant, Conversion, DollarCall, Meaning, Procedure, ProcedureCall,
                      Variable)
from scan import Position, Refusal
from tree import is_step, place_of, walk, without_parentheses
from type_table import TypeTable

MOST_BYTES = 16_384
MOST_LEVELS = 64

PATH_BYTES = 8
"""Of each node of a path that is written, or read in place, and of a constant that such a path begins with."""
LOOP_BYTES = 8
"""Of each `for`."""

PATHS_OF_OPERATIONS = {'swap': 2, 'len': 1, 'high': 1, 'inc': 1, 'dec': 1, 'move': 1, 'add': 1, 'pop': 1, SET_LEN: 1, READ_LINE: 1}
"""How many of its operands, the first ones, each writes or reads in place; `stdin` is none."""

MODULE_CODE = (1, 1)


def frame_fault(program: Program) -> Optional[Position]:
    """The place of E21, if there is one: that of the first body in order of text that is too large, or of the first place or
    expression whose type has too many levels."""
    return min(_faults(program), default=None)


def _faults(program: Program) -> Iterator[Position]:
    sums = Sums(program.types)
    if sums.block(program.statements) > MOST_BYTES:
        yield MODULE_CODE
    bodies = {id(procedure.body): procedure for procedure in program.procedures if procedure.body is not None}
    constant = {id(node) for node in nodes_of_constants(program)}
    for node in walk(program.statements):
        if id(node) in constant:
            continue
        if isinstance(node, tree.Proc) and node.body is not None:
            procedure = bodies[id(node.body)]
            if sums.body(procedure) > MOST_BYTES:
                yield node.position
            yield from _deep_head(program.types, node, procedure)
        elif isinstance(node, tree.Definition):
            for name, variable in zip(node.names, node.variables or []):
                if _is_deep(program.types, variable.type):
                    yield name.position
        elif isinstance(node, tree.Expression) and _is_deep(program.types, node.type):
            yield place_of(node)


def _deep_head(types: TypeTable, proc: tree.Proc, procedure: Procedure) -> Iterator[Position]:
    names = [name for group in proc.parameters for name in group.names]
    for name, variable in zip(names, procedure.variables):
        if _is_deep(types, variable.type):
            yield name.position
    if _is_deep(types, procedure.result_type):
        yield proc.result_type.position


def _is_deep(types: TypeTable, type_number: Optional[int]) -> bool:
    return type_number is not None and levels(types, type_number) > MOST_LEVELS


def levels(types: TypeTable, type_number: int) -> int:
    """One, and one more than the highest of the types that it is made of."""
    form = types.forms[types.resolved(type_number)]
    parts: List[int] = list(form.parts) if form.element is None else [form.element]
    if form.kind == 'object':
        parts = [field_type for _, field_type in types.fields(types.resolved(type_number))]
    elif form.kind == 'distinct':
        parts = [types.base(types.resolved(type_number))]
    return 1 + max((levels(types, part) for part in parts), default=0)


class Sums:
    """Bytes of declared places, and of expressions that give values; a path in place has some for each of its nodes."""

    def __init__(self, types: TypeTable):
        self.types = types

    def body(self, procedure: Procedure) -> int:
        places = sum(self.size(variable.type) for variable in procedure.variables)
        return places + self.size(procedure.result_type) + self.block(procedure.body)

    def size(self, type_number: Optional[int]) -> int:
        return 0 if type_number is None else self.types.size(self.types.resolved(type_number))

    def block(self, statements: Optional[tree.Block]) -> int:
        return sum(self.statement(statement) for statement in statements or [])

    def statement(self, statement: tree.Statement) -> int:
        if isinstance(statement, tree.ExpressionStatement):
            return self.value(statement.expression)
        if isinstance(statement, (tree.Discard, tree.Return)):
            return self.value(statement.value)
        if isinstance(statement, tree.Definitions):
            return sum(self.definition(definition) for definition in statement.definitions)
        if isinstance(statement, tree.Assignment):
            return self.in_place(statement.left) + self.value(statement.right)
        if isinstance(statement, tree.If):
            branches = sum(self.value(condition) + self.block(block) for condition, block in statement.branches)
            return branches + self.block(statement.otherwise)
        if isinstance(statement, tree.Case):
            branches = sum(self.block(block) for _, block in statement.branches)
            return self.in_place(statement.selector) + branches + self.block(statement.otherwise)
        if isinstance(statement, tree.While):
            return self.value(statement.condition) + self.block(statement.body)
        if isinstance(statement, tree.For):
            return LOOP_BYTES + self.size(statement.variable.type) + self.gone_over(statement) + self.block(statement.body)
        return 0

    def definition(self, definition: tree.Definition) -> int:
        """A global is no place of a body; a value stands there once for each name. A constant has no nodes."""
        return sum((0 if variable.is_global else self.size(variable.type)) + self.value(definition.value)
                   for variable in definition.variables or [])

    def gone_over(self, loop: tree.For) -> int:
        if loop.right is None:
            return self.begun(loop.left)
        return self.value(loop.left) + self.value(loop.right)

    # Expressions

    def in_place(self, expression: tree.Expression) -> int:
        """A path that is written, or read in place by what stands around it; else a value."""
        inner = without_parentheses(expression)
        if isinstance(inner, tree.Name) and isinstance(inner.declaration, Variable):
            return PATH_BYTES
        if is_step(inner):
            return PATH_BYTES + self.step(inner)
        return self.value(inner)

    def begun(self, expression: tree.Expression) -> int:
        """The same of what a step, a length or a `for` reads: a constant is read where it stands."""
        inner = without_parentheses(expression)
        if isinstance(inner, tree.Name) and isinstance(inner.declaration, Constant):
            return self.constant(inner.declaration)
        return self.in_place(inner)

    def constant(self, constant: Constant) -> int:
        return PATH_BYTES

    def step(self, step: tree.Expression) -> int:
        """What stands before the step, and its index."""
        index = self.value(step.arguments[0]) if isinstance(step, tree.Index) and step.part is None else 0
        return self.begun(step.left) + index

    def value(self, expression: Optional[tree.Expression]) -> int:
        if expression is None:
            return 0
        inner = without_parentheses(expression)
        return self.size(inner.type) + self.parts(inner)

    def parts(self, inner: tree.Expression) -> int:
        if isinstance(inner, (tree.ArrayLiteral, tree.SequenceLiteral)):
            return sum(map(self.value, inner.elements))
        if isinstance(inner, tree.TupleLiteral):
            return sum(map(self.value, inner.parts))
        if isinstance(inner, tree.Construction):
            return sum(self.value(value) for _, value in inner.fields)
        if is_step(inner):
            return self.step(inner)
        if isinstance(inner, (tree.Dot, tree.Call)):
            return self.operands(inner.meaning)
        if isinstance(inner, tree.Unary):
            return self.value(inner.operand)
        if isinstance(inner, tree.Binary):
            return self.value(inner.left) + self.value(inner.right)
        if isinstance(inner, tree.IfExpression):
            branches = sum(self.value(condition) + self.value(value) for condition, value in inner.branches)
            return branches + self.value(inner.otherwise)
        if isinstance(inner, tree.CaseExpression):
            branches = sum(self.value(value) for _, value in inner.branches)
            return self.in_place(inner.selector) + branches + self.value(inner.otherwise)
        return 0

    def operands(self, meaning: Meaning) -> int:
        if isinstance(meaning, ProcedureCall):
            return sum(self.in_place(argument) if mode == 'var' else self.value(argument)
                       for argument, mode in zip(meaning.arguments, meaning.procedure.modes))
        if isinstance(meaning, (Conversion, DollarCall)):
            return self.value(meaning.argument)
        if not isinstance(meaning, BuiltInCall) or meaning.name in ('low int', 'high int', 'default'):
            return 0
        arguments = list(meaning.arguments)
        if meaning.name == READ_LINE:
            arguments = arguments[1:]
        paths = PATHS_OF_OPERATIONS.get(meaning.name, 0)
        return sum(map(self.begun, arguments[:paths])) + sum(map(self.value, arguments[paths:]))


def answer(source: str) -> str:
    """'0', or place and code of the refusal, as `1:5: E21`. A program that isn't built has no size."""
    try:
        program = check(source)
    except Refusal as refusal:
        return str(refusal)
    fault = frame_fault(program) if first_left_out(program) is None else None
    return '0' if fault is None else '%d:%d: E21' % fault


def main() -> None:
    parser = argparse.ArgumentParser(
        description='Prints 0 for a program whose procedures can be called or that is not built, else place and code.')
    parser.add_argument('file', type=argparse.FileType('rb'))
    source = parser.parse_args().file.read().decode('latin-1')
    sys.setrecursionlimit(RECURSION_LIMIT)
    print(answer(source))


if __name__ == '__main__':
    main()
