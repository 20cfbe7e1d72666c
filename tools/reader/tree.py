"""The trees of docs/GRAMMAR.md. Attributes that aren't parameters (`init=False`) are noted by the rules of typing."""
from __future__ import annotations

import functools
from dataclasses import dataclass, field, fields
from typing import TYPE_CHECKING, Any, Iterator, List, NamedTuple, Optional, Tuple, Union

from scan import Position

if TYPE_CHECKING:
    from meanings import Declaration, Meaning, Operation, Procedure, Variable


class DeclaredName(NamedTuple):
    name: str
    """In normal form."""
    position: Position
    spelling: str


class Group(NamedTuple):
    """Fields or parts with one type."""
    names: List[DeclaredName]
    written_type: WrittenType


class ParameterGroup(NamedTuple):
    names: List[DeclaredName]
    mode: str
    """'', 'var' or 'sink'."""
    written_type: WrittenType


@dataclass(eq=False)
class Node:
    position: Position
    """Of the first token."""


# Expressions


@dataclass(eq=False)
class Expression(Node):
    type: Optional[int] = field(default=None, init=False, repr=False)
    """None also of an expression that gives no value."""


@dataclass(eq=False)
class IntLiteral(Expression):
    value: int


@dataclass(eq=False)
class CharLiteral(Expression):
    value: int


@dataclass(eq=False)
class TextLiteral(Expression):
    value: bytes


@dataclass(eq=False)
class NilLiteral(Expression):
    pass


@dataclass(eq=False)
class Name(Expression):
    name: str
    declaration: Optional[Declaration] = field(default=None, init=False, repr=False)


@dataclass(eq=False)
class QuotedName(Expression):
    name: str


@dataclass(eq=False)
class ArrayLiteral(Expression):
    elements: List[Expression]


@dataclass(eq=False)
class SequenceLiteral(Expression):
    elements: List[Expression]


@dataclass(eq=False)
class TupleLiteral(Expression):
    names: Optional[List[str]]
    parts: List[Expression]


@dataclass(eq=False)
class Construction(Expression):
    """`T(f: a)`"""
    name: str
    fields: List[Tuple[str, Expression]]


@dataclass(eq=False)
class Dot(Expression):
    """`a.f`: a field or part, which has the number, else a call, which has the meaning."""
    left: Expression
    name: str
    field_number: Optional[int] = field(default=None, init=False, repr=False)
    meaning: Optional[Meaning] = field(default=None, init=False, repr=False)


@dataclass(eq=False)
class Index(Expression):
    left: Expression
    arguments: List[Expression]
    part: Optional[int] = field(default=None, init=False, repr=False)
    """Of a tuple the number of the part."""


@dataclass(eq=False)
class Call(Expression):
    callee: Expression
    arguments: List[Expression]
    meaning: Optional[Meaning] = field(default=None, init=False, repr=False)


@dataclass(eq=False)
class Unary(Expression):
    operator: str
    operand: Expression
    shown: Union[Operation, Procedure, None] = field(default=None, init=False, repr=False)
    """What is called by `$`."""


@dataclass(eq=False)
class Binary(Expression):
    operator: str
    left: Expression
    right: Expression


@dataclass(eq=False)
class IfExpression(Expression):
    branches: List[Tuple[Expression, Expression]]
    otherwise: Expression


Label = Tuple[Expression, Optional[Expression]]
"""A value, or the ends of a range."""

Ranges = List[Tuple[Any, Any]]
"""The first and the last value of each label of a branch."""


@dataclass(eq=False)
class CaseExpression(Expression):
    selector: Expression
    branches: List[Tuple[List[Label], Expression]]
    otherwise: Optional[Expression]
    ranges: Optional[List[Ranges]] = field(default=None, init=False, repr=False)
    """Those of each branch."""


@dataclass(eq=False)
class Parentheses(Expression):
    inner: Expression


# Written types


@dataclass(eq=False)
class WrittenType(Node):
    pass


@dataclass(eq=False)
class NamedType(WrittenType):
    name: str
    arguments: Optional[List[WrittenType]]


@dataclass(eq=False)
class ArrayType(WrittenType):
    length: Expression
    element: WrittenType


@dataclass(eq=False)
class TupleType(WrittenType):
    groups: List[Group]


@dataclass(eq=False)
class RefType(WrittenType):
    target: WrittenType


# Statements


@dataclass(eq=False)
class Statement(Node):
    pass


Block = List[Statement]


@dataclass(eq=False)
class ExpressionStatement(Statement):
    expression: Expression


@dataclass(eq=False)
class Discard(Statement):
    value: Optional[Expression]


@dataclass(eq=False)
class Return(Statement):
    value: Optional[Expression]


@dataclass(eq=False)
class Raise(Statement):
    value: Optional[Expression]


@dataclass(eq=False)
class Break(Statement):
    pass


@dataclass(eq=False)
class Continue(Statement):
    pass


@dataclass(eq=False)
class Import(Statement):
    pass


@dataclass(eq=False)
class Definition(Node):
    names: List[DeclaredName]
    pragmas: List[str]
    written_type: Optional[WrittenType]
    value: Optional[Expression]
    type: Optional[int] = field(default=None, init=False, repr=False)
    variables: Optional[List[Variable]] = field(default=None, init=False, repr=False)
    """One for each name; none of a constant."""


@dataclass(eq=False)
class Definitions(Statement):
    word: str
    """'let', 'var' or 'const'."""
    definitions: List[Definition]


@dataclass(eq=False)
class Assignment(Statement):
    operator: str
    left: Expression
    right: Expression


@dataclass(eq=False)
class If(Statement):
    branches: List[Tuple[Expression, Block]]
    otherwise: Optional[Block]


@dataclass(eq=False)
class Case(Statement):
    selector: Expression
    branches: List[Tuple[List[Label], Block]]
    otherwise: Optional[Block]
    ranges: Optional[List[Ranges]] = field(default=None, init=False, repr=False)
    """As of a CaseExpression."""


@dataclass(eq=False)
class While(Statement):
    condition: Expression
    body: Block


@dataclass(eq=False)
class For(Statement):
    name: str
    left: Expression
    operator: Optional[str]
    """'..' or '..<'; None where it is the elements of `left`."""
    right: Optional[Expression]
    body: Block
    variable: Optional[Variable] = field(default=None, init=False, repr=False)


@dataclass(eq=False)
class Try(Statement):
    blocks: List[Block]


@dataclass(eq=False)
class Defer(Statement):
    body: Block


@dataclass(eq=False)
class Proc(Statement):
    name: str
    is_quoted: bool
    has_type_parameters: bool
    parameters: List[ParameterGroup]
    result_type: Optional[WrittenType]
    pragmas: List[str]
    body: Optional[Block]


# Type sections


@dataclass(eq=False)
class AliasBody(Node):
    target: WrittenType


@dataclass(eq=False)
class DistinctBody(Node):
    base: WrittenType


@dataclass(eq=False)
class EnumBody(Node):
    members: List[DeclaredName]


@dataclass(eq=False)
class ObjectBody(Node):
    """Its position is that of `object`."""
    ref_position: Optional[Position]
    has_parent: bool
    groups: List[Group]


@dataclass(eq=False)
class TypeDefinition(Node):
    name: DeclaredName
    has_type_parameters: bool
    body: Union[AliasBody, DistinctBody, EnumBody, ObjectBody]


@dataclass(eq=False)
class TypeSection(Statement):
    definitions: List[TypeDefinition]


@functools.lru_cache(maxsize=None)
def _parts_of(kind: type) -> List[str]:
    """The names of its fields that are given, the last one first."""
    return [attribute.name for attribute in reversed(fields(kind)) if attribute.init]


def walk(part: Any) -> Iterator[Node]:
    """All nodes of a node, or of a list or tuple of nodes; a node before its parts, in order of text."""
    pending = [part]
    while pending:
        item = pending.pop()
        if isinstance(item, Node):
            yield item
            pending.extend(getattr(item, name) for name in _parts_of(type(item)))
        elif isinstance(item, (list, tuple)):
            pending.extend(reversed(item))


def without_parentheses(expression: Expression) -> Expression:
    while isinstance(expression, Parentheses):
        expression = expression.inner
    return expression


def place_of(expression: Expression) -> Position:
    """Where a refusal of the expression is told: a value in parentheses begins inside them."""
    return without_parentheses(expression).position


def is_step(expression: Expression) -> bool:
    """Whether it is a field, a part or an element of what stands before it."""
    return isinstance(expression, Index) or isinstance(expression, Dot) and expression.field_number is not None


def is_open(expression: Expression) -> bool:
    """Whether it is `@[]`, whose type follows from its place."""
    inner = without_parentheses(expression)
    return isinstance(inner, SequenceLiteral) and not inner.elements
