"""The values of expressions without variables: what a constant is, and the part of the interpreter that is the same.

An int, char or member of an enum is an int, a bool a bool, a text the bytes, and everything else a list of its parts.
"""
from __future__ import annotations

import operator
from typing import Any, Optional, Tuple, Union

import tree
from meanings import (BUILT_IN_DOLLAR, BuiltInCall, Constant, Conversion, DollarCall, EmptyConstruction, Meaning,
                      Operation, Procedure)
from tree import without_parentheses
from type_table import BOOL, LARGEST_SIZE, WORD_SIZE, HANDLE_SIZE, Form, TypeTable

INT_BITS = 32
SMALLEST_INT = -2 ** (INT_BITS - 1)
LARGEST_INT = 2 ** (INT_BITS - 1) - 1
LARGEST_CHAR = 255
CONSTANT_OPERATIONS = frozenset(['ord', 'chr', 'len', 'high'])

COMPARISONS = {'==': operator.eq, '!=': operator.ne, '<': operator.lt, '<=': operator.le, '>': operator.gt,
                '>=': operator.ge}


class Trap(Exception):
    """A run ends with an error; its text is what the program says of it."""

    def __init__(self, text: str):
        super().__init__(text)
        self.text = text


def copy_of(value: Any) -> Any:
    """Lists are changed in place, so that each variable needs its own."""
    return [copy_of(part) for part in value] if isinstance(value, list) else value


def in_range(value: int) -> int:
    if not SMALLEST_INT <= value <= LARGEST_INT:
        raise Trap('overflow')
    return value


def wrapped(value: int) -> int:
    """The int of the same low bits."""
    return (value - SMALLEST_INT) % 2 ** INT_BITS + SMALLEST_INT


def quotient(dividend: int, divisor: int) -> int:
    """Towards zero."""
    if divisor == 0:
        raise Trap('division by zero')
    size = abs(dividend) // abs(divisor)
    return in_range(-size if (dividend < 0) != (divisor < 0) else size)


def remainder(dividend: int, divisor: int) -> int:
    """With the sign of the dividend."""
    if divisor == 0:
        raise Trap('division by zero')
    size = abs(dividend) % abs(divisor)
    return -size if dividend < 0 else size


def bytes_of(value: Union[int, bytes]) -> bytes:
    """Those of a char or text."""
    return value if isinstance(value, bytes) else bytes([value])


def is_constant(expression: tree.Expression) -> bool:
    """Of an expression that has been typed."""
    inner = without_parentheses(expression)
    if isinstance(inner, tree.Name):
        return isinstance(inner.declaration, Constant)
    if isinstance(inner, (tree.ArrayLiteral, tree.SequenceLiteral)):
        return all(is_constant(element) for element in inner.elements)
    if isinstance(inner, tree.TupleLiteral):
        return all(is_constant(part) for part in inner.parts)
    if isinstance(inner, tree.Construction):
        return all(is_constant(value) for _, value in inner.fields)
    if isinstance(inner, tree.Unary):
        return not isinstance(inner.shown, Procedure) and is_constant(inner.operand)
    if isinstance(inner, tree.Binary):
        return is_constant(inner.left) and is_constant(inner.right)
    if isinstance(inner, (tree.Call, tree.Dot)):
        return _is_constant_call(inner.meaning)
    return isinstance(inner, (tree.IntLiteral, tree.CharLiteral, tree.TextLiteral))


def _is_constant_call(meaning: Optional[Meaning]) -> bool:
    if isinstance(meaning, EmptyConstruction):
        return True
    if isinstance(meaning, Conversion):
        return is_constant(meaning.argument)
    if isinstance(meaning, DollarCall):
        return not isinstance(meaning.shown, Procedure) and is_constant(meaning.argument)
    if isinstance(meaning, BuiltInCall):
        if meaning.name in CONSTANT_OPERATIONS:
            return is_constant(meaning.arguments[0])
        return meaning.name in ('low int', 'high int')
    return False


class Evaluator:
    """Needs an expression that has been typed. What isn't constant goes to `other`, which interp.py overrides."""

    def __init__(self, types: TypeTable):
        self.types = types

    def evaluate(self, expression: tree.Expression) -> Any:
        if isinstance(expression, tree.Parentheses):
            return self.evaluate(expression.inner)
        if isinstance(expression, (tree.IntLiteral, tree.CharLiteral, tree.TextLiteral)):
            return expression.value
        if isinstance(expression, tree.Name):
            return self.name(expression)
        if isinstance(expression, (tree.ArrayLiteral, tree.SequenceLiteral)):
            return [self.evaluate(element) for element in expression.elements]
        if isinstance(expression, tree.TupleLiteral):
            return [self.evaluate(part) for part in expression.parts]
        if isinstance(expression, tree.Construction):
            return self.construction(expression)
        if isinstance(expression, tree.Unary):
            return self.unary(expression)
        if isinstance(expression, tree.Binary):
            return self.binary(expression)
        if isinstance(expression, (tree.Call, tree.Dot)) and expression.meaning is not None:
            return self.call(expression, expression.meaning)
        return self.other(expression)

    def other(self, expression: tree.Expression) -> Any:
        raise AssertionError('not constant: %r' % expression)

    def name(self, name: tree.Name) -> Any:
        assert isinstance(name.declaration, Constant)
        return copy_of(name.declaration.value)

    def construction(self, construction: tree.Construction) -> Any:
        names = [name for name, _ in self.types.fields(construction.type)]
        result = self.default(construction.type)
        for name, value in construction.fields:
            result[names.index(name)] = self.evaluate(value)
        return result

    def unary(self, unary: tree.Unary) -> Any:
        value = self.evaluate(unary.operand)
        if unary.operator == '-':
            return in_range(-value)
        if unary.operator == '+':
            return value
        if unary.operator == 'not':
            return not value if unary.type == BOOL else ~value
        return self.dollar(unary.shown, value, unary.operand.type)

    def binary(self, binary: tree.Binary) -> Any:
        sign = binary.operator
        left = self.evaluate(binary.left)
        if binary.type == BOOL and (sign == 'and' and not left or sign == 'or' and left):
            return left
        right = self.evaluate(binary.right)
        if sign in COMPARISONS:
            return COMPARISONS[sign](left, right)
        if sign == '&':
            return bytes_of(left) + bytes_of(right)
        if sign == 'div':
            return quotient(left, right)
        if sign == 'mod':
            return remainder(left, right)
        if sign == 'shl':
            return wrapped(left << right % INT_BITS)
        if sign == 'shr':
            return left >> right % INT_BITS
        bits = {'and': operator.and_, 'or': operator.or_, 'xor': operator.xor}
        if sign in bits:
            return bits[sign](left, right)
        return in_range({'+': operator.add, '-': operator.sub, '*': operator.mul}[sign](left, right))

    def call(self, expression: tree.Expression, meaning: Meaning) -> Any:
        if isinstance(meaning, EmptyConstruction):
            return self.default(expression.type)
        if isinstance(meaning, DollarCall):
            return self.dollar(meaning.shown, self.evaluate(meaning.argument), meaning.argument.type)
        if isinstance(meaning, Conversion):
            value = self.evaluate(meaning.argument)
            if meaning.to_enum and not 0 <= value < len(self.types.declaration(expression.type).members):
                raise Trap('value out of range')
            return value
        if isinstance(meaning, BuiltInCall):
            return self.built_in(expression, meaning)
        return self.other(expression)

    def built_in(self, expression: tree.Expression, meaning: BuiltInCall) -> Any:
        if meaning.name == 'low int':
            return SMALLEST_INT
        if meaning.name == 'high int':
            return LARGEST_INT
        if meaning.name not in ('ord', 'chr', 'len', 'high'):
            return self.other(expression)
        value = self.evaluate(meaning.arguments[0])
        if meaning.name == 'ord':
            return int(value)
        if meaning.name == 'chr':
            if not 0 <= value <= LARGEST_CHAR:
                raise Trap('value out of range')
            return value
        return len(value) if meaning.name == 'len' else len(value) - 1

    def dollar(self, shown: Union[Operation, Procedure], value: Any, type_number: int) -> bytes:
        """What `$` of a value gives, by what is called; of a type of a built-in `$`, or one that is borrowed."""
        assert shown is BUILT_IN_DOLLAR
        while self.types.kind(type_number) == 'distinct':
            type_number = self.types.base(type_number)
        kind = self.types.kind(type_number)
        if kind == 'int':
            return str(value).encode()
        if kind == 'bool':
            return b'true' if value else b'false'
        if kind == 'char':
            return bytes([value])
        if kind == 'enum':
            return self.types.declaration(type_number).members[value].encode('latin-1')
        return value

    def default(self, type_number: int) -> Any:
        form = self.types.forms[type_number]
        if form.kind == 'bool':
            return False
        if form.kind == 'string':
            return b''
        if form.kind == 'seq':
            return []
        if form.kind == 'array':
            return [self.default(form.element) for _ in range(form.length)]
        if form.kind == 'tuple':
            return [self.default(part) for part in form.parts]
        if form.kind == 'object':
            return [self.default(field_type) for _, field_type in self.types.fields(type_number)]
        if form.kind == 'distinct':
            return self.default(self.types.base(type_number))
        return 0


class ConstantEvaluator(Evaluator):
    """Of constants, none of which is larger than a type may be, nor any operand on the way to it."""

    def evaluate(self, expression: tree.Expression) -> Any:
        value = super().evaluate(expression)
        if self.size(value, expression.type) > LARGEST_SIZE:
            raise Trap('too large')
        return value

    def size(self, value: Any, type_number: int) -> int:
        """In bytes, by itself: a text has its own, and a sequence those of its elements."""
        is_list, size = self.counted(value, type_number)
        return size if is_list else size or WORD_SIZE

    def part_size(self, value: Any, type_number: int) -> int:
        """As a part of another value."""
        is_list, size = self.counted(value, type_number)
        return HANDLE_SIZE + size if is_list else size or WORD_SIZE

    def counted(self, value: Any, type_number: int) -> Tuple[bool, int]:
        """Whether it is a text or a sequence, and the size of what it is made of."""
        form = self.types.forms[type_number]
        while form.kind == 'distinct':
            type_number = self.types.base(type_number)
            form = self.types.forms[type_number]
        if isinstance(value, bytes):
            return True, len(value)
        if not isinstance(value, list):
            return False, WORD_SIZE
        return form.kind == 'seq', sum(self.part_size(part, part_type) for part, part_type in zip(value, self.part_types(form, value)))

    def part_types(self, form: Form, value: list) -> list:
        if form.element is not None:
            return [form.element] * len(value)
        return list(form.parts) if form.kind == 'tuple' else [part for _, part in self.types.fields(self.types.numbers[form])]
