"""The rules of docs/TYPING.md for names and written types: the part of the checker below expressions."""
from __future__ import annotations

from typing import Any, Callable, Dict, List, NoReturn, Optional, Set, Tuple

import tree
from meanings import (NEW_SEQ, READ_LINE, SET_LEN, Constant, Declaration, Operation, Overloads, PendingType, Procedure,
                      StandardInput, TypeName)
from scan import Position, Refusal
from tree import place_of, without_parentheses
from type_table import BOOL, CHAR, INT, LARGEST_LENGTH, LARGEST_SIZE, STRING, TypeTable

OPERATIONS = frozenset(['inc', 'dec', 'len', 'high', 'low', 'ord', 'chr', 'add', 'pop', 'default', 'move', 'swap',
                        'echo', 'quit', READ_LINE, NEW_SEQ, SET_LEN])

Scope = Dict[str, Declaration]


class Section:
    """The type section that is walked."""

    def __init__(self, scope: Scope):
        self.scope = scope
        self.pending: Set[str] = set()
        """Names of its types whose definitions come yet."""
        self.claimed: Set[str] = set()
        """Pending names that a member has been given before."""
        self.written: List[Tuple[int, Position]] = []
        """Arrays and tuples whose sizes are looked at behind it."""


def refuse(code: str, expression: tree.Expression) -> NoReturn:
    raise Refusal(code, place_of(expression))


class WrittenTypes:
    """Names and written types; lengths are expressions, which the checker of expressions adds."""

    def __init__(self) -> None:
        self.types = TypeTable()
        self.built_in: Scope = {
            'int': TypeName(INT), 'bool': TypeName(BOOL), 'char': TypeName(CHAR), 'string': TypeName(STRING),
            'seq': TypeName(None, 'seq'), 'array': TypeName(None, 'array'),
            'true': Constant(BOOL, True), 'false': Constant(BOOL, False), 'stdin': StandardInput(),
        }
        self.built_in.update((name, Operation(name)) for name in OPERATIONS)
        self.module: Scope = {}
        self.scopes = [self.built_in, self.module]
        self.procedure: Optional[Procedure] = None
        """Whose body is walked."""
        self.section: Optional[Section] = None
        self.in_length = False
        """In a length inside a section."""

    def value(self, expression: tree.Expression) -> int:
        """The type of an expression where a value is needed."""
        raise NotImplementedError

    def constant(self, expression: tree.Expression) -> Any:
        """The value of a constant expression, typed before; else E8."""
        raise NotImplementedError

    # Names

    def look_up(self, name: str) -> Optional[Declaration]:
        for scope in reversed(self.scopes):
            if name in scope:
                return self.as_known(scope[name])
        return None

    def as_known(self, declaration: Declaration) -> Declaration:
        """In a length inside a section, a type that isn't known yet is no type."""
        if self.in_length and isinstance(declaration, TypeName) and declaration.type is not None:
            return declaration if self.types.is_known(declaration.type) else PendingType()
        return declaration

    def type_named(self, declaration: TypeName) -> Optional[int]:
        return None if declaration.type is None else self.types.resolved(declaration.type)

    def overloads(self, name: str) -> Overloads:
        declaration = self.module.get(name)
        return declaration if isinstance(declaration, list) else []

    # Written types

    def written_type(self, written: tree.WrittenType) -> int:
        if isinstance(written, tree.NamedType):
            return self.named_type(written.name, written.position, written.arguments, self.written_type)
        if isinstance(written, tree.ArrayType):
            return self.array_type(written.position, written.length, written.element, self.written_type)
        assert isinstance(written, tree.TupleType)
        names: List[str] = []
        parts: List[int] = []
        for group in written.groups:
            for name in group.names:
                if name.name in names:
                    raise Refusal('E7', name.position)
                names.append(name.name)
            parts += [self.written_type(group.written_type)] * len(group.names)
        result = self.types.tuple(tuple(names), tuple(parts))
        self.refuse_too_large(result, written.position)
        return result

    def type_from_expression(self, expression: tree.Expression) -> int:
        """Of the operand of `default` and the bracket of `newSeq`, which are written as expressions."""
        inner = without_parentheses(expression)
        if isinstance(inner, tree.Name):
            return self.named_type(inner.name, inner.position, None, self.type_from_expression)
        if isinstance(inner, tree.Index) and isinstance(inner.left, tree.Name) and inner.arguments:
            if inner.left.name == 'array' and len(inner.arguments) == 2:
                length, element = inner.arguments
                return self.array_type(inner.position, length, element, self.type_from_expression)
            return self.named_type(inner.left.name, inner.position, inner.arguments, self.type_from_expression)
        refuse('E8', inner)

    def named_type(self, name: str, position: Position, arguments: Optional[list], read: Callable[..., int]) -> int:
        """`read` gives the type of an argument."""
        declaration = self.look_up(name)
        if declaration is None:
            raise Refusal('E6', position)
        types = None if arguments is None else [read(argument) for argument in arguments]
        if isinstance(declaration, TypeName):
            if declaration.constructor == 'seq' and types is not None and len(types) == 1:
                return self.types.sequence(types[0])
            if declaration.type is not None and types is None:
                return declaration.type if self.is_in_types() else self.types.resolved(declaration.type)
        raise Refusal('E8', position)

    def array_type(self, position: Position, length: tree.Expression, element: tree.Node,
                   read: Callable[..., int]) -> int:
        declaration = self.look_up('array')
        size = self.length(length)
        element_type = read(element)
        is_array = isinstance(declaration, TypeName) and declaration.constructor == 'array'
        if not is_array or not 1 <= size <= LARGEST_LENGTH:
            raise Refusal('E8', position)
        result = self.types.array(size, element_type)
        self.refuse_too_large(result, position)
        return result

    def length(self, length: tree.Expression) -> int:
        around = self.in_length
        self.in_length = self.section is not None
        if self.value(length) != INT:
            refuse('E8', length)
        result = self.constant(length)
        self.in_length = around
        return result

    def is_in_types(self) -> bool:
        """In a section, but not in its lengths."""
        return self.section is not None and not self.in_length

    def refuse_too_large(self, type_number: int, position: Position) -> None:
        """In a type section only behind it, since the size isn't known before."""
        if self.is_in_types():
            self.section.written.append((type_number, position))
        elif self.types.size(type_number) > LARGEST_SIZE:
            raise Refusal('E8', position)
