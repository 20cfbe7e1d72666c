"""The rules of docs/TYPING.md for expressions, constants and the parts of a `case`."""
from __future__ import annotations

from typing import Any, Callable, Dict, List, Optional, Tuple, Union

import tree
from calls import CallRules
from evaluate import ConstantEvaluator, Trap, is_constant
from meanings import Constant, TypeName, Variable
from scan import Refusal
from tree import is_open, without_parentheses
from type_table import BOOL, CHAR, INT, LARGEST_LENGTH, LARGEST_SIZE, ORDINALS_AND_STRING, STRING
from written_types import refuse

COMPARISONS = frozenset(['==', '!=', '<', '<=', '>', '>='])
ARITHMETIC = frozenset(['+', '-', '*', 'div', 'mod', 'shl', 'shr'])
VALUES_OF_ORDINALS = {'int': 2 ** 32, 'bool': 2, 'char': 256}

AnyCase = Union[tree.Case, tree.CaseExpression]


class ExpressionChecker(CallRules):
    """Methods that are named after a form check it and give its type, or None where it gives no value. `wanted` is the
    type that fills in what an expression leaves open."""

    def __init__(self) -> None:
        super().__init__()
        self.rules: Dict[type, Callable[..., Optional[int]]] = {
            tree.Construction: self.construction, tree.Dot: self.dot, tree.Index: self.index, tree.Call: self.call,
            tree.Unary: self.unary, tree.Binary: self.binary, tree.Name: self.name,
        }
        self.rules_with_wanted: Dict[type, Callable[..., Optional[int]]] = {
            tree.ArrayLiteral: self.array_literal, tree.SequenceLiteral: self.sequence_literal,
            tree.IfExpression: self.if_expression, tree.CaseExpression: self.case_expression,
        }

    # Expressions

    def value(self, expression: tree.Expression, wanted: Optional[int] = None, is_whole: bool = False) -> int:
        """The type of an expression where a value is needed; `is_whole` is as in `typed`."""
        result = self.typed(expression, wanted, is_whole)
        if result is None:
            refuse('E8', expression)
        return result

    def require(self, expression: tree.Expression, type_number: int, is_whole: bool = False) -> None:
        if self.value(expression, type_number, is_whole) != type_number:
            refuse('E8', expression)

    def typed(self, expression: tree.Expression, wanted: Optional[int] = None,
              is_whole: bool = False) -> Optional[int]:
        """`is_whole`: it is the whole value of a place that gives a tuple literal its names."""
        if isinstance(expression, tree.Parentheses):
            result = self.typed(expression.inner, wanted, is_whole)
        elif isinstance(expression, tree.IntLiteral):
            result = INT
        elif isinstance(expression, tree.CharLiteral):
            result = CHAR
        elif isinstance(expression, tree.TextLiteral):
            result = STRING
        elif isinstance(expression, tree.QuotedName):
            raise Refusal('E8', expression.position)
        elif isinstance(expression, tree.TupleLiteral):
            result = self.tuple_literal(expression, wanted, is_whole)
        elif type(expression) in self.rules_with_wanted:
            result = self.rules_with_wanted[type(expression)](expression, wanted)
        else:
            result = self.rules[type(expression)](expression)
        expression.type = result
        return result

    def name(self, name: tree.Name) -> int:
        declaration = self.look_up(name.name)
        if declaration is None:
            raise Refusal('E6', name.position)
        name.declaration = declaration
        if not isinstance(declaration, (Variable, Constant)):
            raise Refusal('E8', name.position)
        if isinstance(declaration, Variable) and declaration.is_global and self.procedure is not None:
            self.procedure.named_globals.add(declaration)
        return declaration.type

    def array_literal(self, literal: tree.ArrayLiteral, wanted: Optional[int]) -> int:
        if not literal.elements:
            raise Refusal('E8', literal.position)
        is_array = wanted is not None and self.types.kind(wanted) == 'array'
        element = self.elements(literal.elements, self.types.element(wanted) if is_array else None)
        result = self.types.array(len(literal.elements), element)
        if len(literal.elements) > LARGEST_LENGTH or self.types.size(result) > LARGEST_SIZE:
            raise Refusal('E8', literal.position)
        return result

    def sequence_literal(self, literal: tree.SequenceLiteral, wanted: Optional[int]) -> int:
        if not self.types.is_sequence(wanted):
            wanted = None
        if literal.elements:
            element = None if wanted is None else self.types.element(wanted)
            return self.types.sequence(self.elements(literal.elements, element))
        if wanted is None:
            raise Refusal('E8', literal.position)
        return wanted

    def elements(self, elements: List[tree.Expression], wanted: Optional[int]) -> int:
        """The type of the first, which all others have."""
        first = self.value(elements[0], wanted)
        for element in elements[1:]:
            if self.value(element, first if wanted is None else wanted) != first:
                refuse('E8', element)
        return first

    def tuple_literal(self, literal: tree.TupleLiteral, wanted: Optional[int], is_whole: bool) -> int:
        is_tuple = wanted is not None and self.types.kind(wanted) == 'tuple'
        wanted_parts = self.types.forms[wanted].parts if is_tuple else ()
        if len(wanted_parts) == len(literal.parts):
            parts = tuple(self.value(part, wanted_part) for part, wanted_part in zip(literal.parts, wanted_parts))
        else:
            parts = tuple(self.value(part) for part in literal.parts)
        if literal.names is not None:
            if len(set(literal.names)) != len(literal.names):
                raise Refusal('E8', literal.position)
            result = self.types.tuple(tuple(literal.names), parts)
        elif is_whole and is_tuple and wanted_parts == parts:
            result = wanted
        else:
            result = self.types.tuple(None, parts)
        if self.types.size(result) > LARGEST_SIZE:
            raise Refusal('E8', literal.position)
        return result

    def construction(self, construction: tree.Construction) -> int:
        declaration = self.look_up(construction.name)
        if declaration is None:
            raise Refusal('E6', construction.position)
        result = self.type_named(declaration) if isinstance(declaration, TypeName) else None
        fields = self.fields(result)
        if fields is None:
            raise Refusal('E8', construction.position)
        names = [name for name, _ in construction.fields]
        types = dict(fields)
        if any(name not in types for name in names):
            raise Refusal('E6', construction.position)
        if len(set(names)) != len(names):
            raise Refusal('E8', construction.position)
        for name, value in construction.fields:
            self.require(value, types[name])
        return result

    def fields(self, type_number: Optional[int]) -> Optional[List[Tuple[str, int]]]:
        """None where it is no object type."""
        if type_number is None or self.types.kind(type_number) != 'object':
            return None
        return self.types.fields(type_number)

    def if_expression(self, expression: tree.IfExpression, wanted: Optional[int]) -> Optional[int]:
        values = BranchValues(self, wanted)
        for condition, value in expression.branches:
            self.require(condition, BOOL)
            values.add(value)
        values.add(expression.otherwise)
        return values.type

    def case_expression(self, expression: tree.CaseExpression, wanted: Optional[int]) -> Optional[int]:
        values = BranchValues(self, wanted)
        self.case(expression, values.add, lambda: values.type is not None)
        return values.type

    # Fields and indexes

    def dot(self, dot: tree.Dot) -> Optional[int]:
        if dot.name == 'default':
            if self.is_read_as_type(dot.left):
                return self.call_of(dot, dot.name, [dot.left], True)
        elif self.has_operand_without_value(dot.name, [dot.left]):
            return self.call_of(dot, dot.name, [dot.left], True)
        if is_open(dot.left):
            return self.call_of(dot, dot.name, [dot.left], True)
        left = self.value(dot.left)
        form = self.types.forms[left]
        if form.kind == 'object':
            parts = self.types.fields(left) or []
        elif form.kind == 'tuple' and form.names is not None:
            parts = list(zip(form.names, form.parts))
        else:
            parts = []
        for number, (name, part_type) in enumerate(parts):
            if name == dot.name:
                dot.field_number = number
                return part_type
        if dot.name == 'default':
            refuse('E8', dot.left)
        return self.call_of(dot, dot.name, [dot.left], True)

    def is_read_as_type(self, left: tree.Expression) -> bool:
        """Whether what stands before `.default` is a type and not a value."""
        inner = without_parentheses(left)
        if isinstance(inner, tree.Name):
            return isinstance(self.look_up(inner.name), TypeName)
        if isinstance(inner, tree.Index) and isinstance(inner.left, tree.Name):
            declaration = self.look_up(inner.left.name)
            return declaration is None or isinstance(declaration, TypeName)
        return False

    def index(self, index: tree.Index) -> int:
        if len(index.arguments) != 1:
            refuse('E8', index)
        left = self.value(index.left)
        if self.value(index.arguments[0]) != INT:
            refuse('E8', index)
        form = self.types.forms[left]
        if form.kind == 'tuple':
            try:
                part = self.constant(index.arguments[0])
            except Refusal:
                refuse('E8', index)
            if not 0 <= part < len(form.parts):
                refuse('E8', index)
            index.part = part
            return form.parts[part]
        element = self.types.element(left)
        if element is None:
            refuse('E8', index)
        return element

    # Operators

    def unary(self, unary: tree.Unary) -> int:
        operand = self.value(unary.operand)
        if unary.operator == '$':
            shown = self.dollar_of(operand)
            if shown is None:
                refuse('E8', unary)
            unary.shown = shown
            self.note_call(shown)
            return STRING
        if operand == INT or operand == BOOL and unary.operator == 'not':
            return operand
        refuse('E8', unary)

    def binary(self, binary: tree.Binary) -> int:
        sign = binary.operator
        if sign in COMPARISONS and is_open(binary.left):
            if is_open(binary.right):
                refuse('E8', binary.left)
            right = self.value(binary.right)
            left = self.value(binary.left, right)
        else:
            left = self.value(binary.left)
            right = self.value(binary.right, left if sign in COMPARISONS and is_open(binary.right) else None)
        if sign in ARITHMETIC:
            if left == right == INT:
                return INT
        elif sign in ('and', 'or', 'xor'):
            if left == right and left in (INT, BOOL):
                return left
        elif sign == '&':
            if left in (STRING, CHAR) and right in (STRING, CHAR):
                return STRING
        elif left == right and (self.types.kind(left) in ORDINALS_AND_STRING or self.has_borrowed(sign, left)):
            return BOOL
        refuse('E8', binary)

    def has_borrowed(self, operator: str, type_number: int) -> bool:
        return any(procedure.is_borrowed and procedure.parameters[0] == type_number
                   for procedure in self.overloads(operator))

    # Constants

    def constant(self, expression: tree.Expression) -> Any:
        """The value of a constant expression, typed before; else E8."""
        if not is_constant(expression):
            refuse('E8', expression)
        try:
            return ConstantEvaluator(self.types).evaluate(expression)
        except Trap:
            refuse('E8', expression)

    # `case`, as statement and as expression

    def case(self, case: AnyCase, branch: Callable[..., None], gives_value: Callable[[], bool]) -> None:
        """`branch` checks the block or value of a branch; `gives_value` is asked behind all of them."""
        selector = self.value(case.selector)
        if self.types.kind(selector) not in ORDINALS_AND_STRING:
            refuse('E8', case.selector)
        case.ranges = []
        for labels, body in case.branches:
            case.ranges.append([])
            for label in labels:
                case.ranges[-1].append(self.label(label, selector, case.ranges))
            branch(body)
        if case.otherwise is not None:
            branch(case.otherwise)
        elif selector == STRING:
            if gives_value():
                raise Refusal('E11', case.position)
        else:
            covered = sum(last - first + 1 for ranges in case.ranges for first, last in ranges)
            if covered != self.number_of_values(selector):
                raise Refusal('E11', case.position)

    def label(self, label: tree.Label, selector: int, earlier: List[tree.Ranges]) -> Tuple[Any, Any]:
        """Its first and its last value."""
        first_end, last_end = label
        self.require(first_end, selector)
        first = last = self.constant(first_end)
        if last_end is not None:
            self.require(last_end, selector)
            last = self.constant(last_end)
            if selector == STRING or first > last:
                refuse('E8', first_end)
        for ranges in earlier:
            if any(first <= other_last and other_first <= last for other_first, other_last in ranges):
                refuse('E11', first_end)
        return first, last

    def number_of_values(self, ordinal: int) -> int:
        kind = self.types.kind(ordinal)
        return len(self.types.declaration(ordinal).members) if kind == 'enum' else VALUES_OF_ORDINALS[kind]


class BranchValues:
    """The values of an `if` or `case` expression, of which `type` is the first one's."""

    def __init__(self, checker: ExpressionChecker, wanted: Optional[int]):
        self.checker = checker
        self.wanted = wanted
        self.is_empty = True
        self.type: Optional[int] = None

    def add(self, value: tree.Expression) -> None:
        given = self.checker.typed(value, self.type if self.wanted is None else self.wanted)
        if self.is_empty:
            self.type = given
            self.is_empty = False
        elif given != self.type:
            refuse('E8', value)
