"""What expressions give in a running program, by how their value is used: kept, read, or looked at in place.

A value that is kept is one of its own: a path is copied, a literal text takes a block. To be read a path is copied too, but what
a literal says isn't, and what is made for it ends as a temporary. In place a path is read where it stands.
"""
from __future__ import annotations

from typing import Any, Callable, Dict, List, Optional, Tuple, Union

import tree
from evaluate import COMPARISONS, Trap, bytes_of, is_constant
from heap import Heap
from meanings import Constant, DollarCall, Meaning, Operation, Procedure, ProcedureCall, Variable
from owned import Location, Owner, Text, elements_of, plain
from tree import is_step, without_parentheses
from type_table import TypeTable

Lazy = Callable[[], Location]


class Frame:
    """The variables of a running procedure, or those of module code that aren't global."""

    def __init__(self, procedure: Optional[Procedure] = None):
        self.procedure = procedure
        self.locations: Dict[Variable, Location] = {}


def is_path(expression: tree.Expression) -> bool:
    """A variable, or what is reached from a variable or a value by fields, parts and elements."""
    inner = without_parentheses(expression)
    return is_step(inner) or isinstance(inner, tree.Name) and isinstance(inner.declaration, Variable)


class Operands(Owner):
    def __init__(self, types: TypeTable, heap: Heap):
        super().__init__(types, heap)
        self.globals: Dict[Variable, Location] = {}
        self.frame = Frame()
        self.temporaries: List[List[Tuple[Any, int]]] = [[]]
        """Of each statement, branch and condition that is carried out, with their types."""

    # Temporaries

    def group(self, action: Callable[[], Any]) -> Any:
        """Temporaries that the action makes end behind it, the last one first."""
        self.temporaries.append([])
        result = action()
        for value, type_number in reversed(self.temporaries.pop()):
            self.end(value, type_number)
        return result

    def temporary(self, value: Any, type_number: int) -> Any:
        if self.owns_blocks(type_number):
            self.temporaries[-1].append((value, type_number))
        return value

    # Uses

    def evaluate(self, expression: tree.Expression) -> Any:
        """A value of its own."""
        inner = without_parentheses(expression)
        if isinstance(inner, tree.TextLiteral):
            return self.new_text(inner.value)
        if isinstance(inner, tree.SequenceLiteral):
            return self.new_sequence(inner.type, [self.evaluate(element) for element in inner.elements])
        return super().evaluate(inner)

    def read(self, expression: tree.Expression) -> Any:
        """A value that is an operand or a plain argument, and isn't changed."""
        literal = self.literal(expression)
        return self.temporary(self.evaluate(expression), expression.type) if literal is None else literal

    def in_place(self, expression: tree.Expression) -> Any:
        """A value that is looked at and then no longer needed."""
        if is_path(expression):
            container, key = self.locate(expression)()
            return container[key]
        return self.read(expression)

    def literal(self, expression: tree.Expression) -> Optional[Text]:
        """A literal text, or a constant that is one, as it stands; None of another expression."""
        inner = without_parentheses(expression)
        if isinstance(inner, tree.TextLiteral):
            return Text(inner.value)
        if isinstance(inner, tree.Name) and isinstance(inner.declaration, Constant) and isinstance(inner.declaration.value, bytes):
            return Text(inner.declaration.value)
        return None

    def without_value(self, expression: tree.Expression) -> None:
        """An expression as a statement, or one that is discarded."""
        if expression.type is None:
            self.evaluate(expression)
        else:
            self.in_place(expression)

    # Paths

    def locations(self, variable: Variable) -> Dict[Variable, Location]:
        return self.globals if variable.is_global else self.frame.locations

    def start(self, variable: Variable, value: Any) -> None:
        """A variable begins anew, at a new place."""
        self.locations(variable)[variable] = ([value], 0)

    def locate(self, expression: tree.Expression) -> Lazy:
        """Evaluates at once the value that a path begins with, if it is no variable, and its indexes. Its steps are gone, and
        the indexes compared with the lengths, when the result is called, which for a place that is written is behind all
        operands."""
        inner = without_parentheses(expression)
        if isinstance(inner, tree.Name) and isinstance(inner.declaration, Variable):
            location = self.locations(inner.declaration)[inner.declaration]
            return lambda: location
        if isinstance(inner, tree.Dot) and inner.field_number is not None:
            return _part(self.locate(inner.left), inner.field_number)
        if isinstance(inner, tree.Index):
            left = self.locate(inner.left)
            if inner.part is not None:
                return _part(left, inner.part)
            return _element(left, self.evaluate(inner.arguments[0]))
        value = self.beginning(inner)
        return lambda: ([value], 0)

    def beginning(self, expression: tree.Expression) -> Any:
        """The value that a path begins with, or that a `for` goes over: a constant stands where it is."""
        inner = without_parentheses(expression)
        if isinstance(inner, tree.Name) and isinstance(inner.declaration, Constant):
            return self.standing(inner.declaration.value, inner.type)
        return self.read(inner)

    def measured(self, expression: tree.Expression) -> int:
        """The length of what stands at a path, or of a value."""
        value = self.in_place(expression) if is_path(expression) else self.beginning(expression)
        return len(elements_of(value))

    def is_same_path(self, path: tree.Expression, other: tree.Expression) -> bool:
        """Whether names, fields and indexes are equal, and the indexes known before the program runs."""
        left, right = without_parentheses(path), without_parentheses(other)
        if isinstance(left, tree.Name) or isinstance(right, tree.Name):
            return isinstance(left, tree.Name) and isinstance(right, tree.Name) and left.declaration is right.declaration
        if not is_step(left) or not is_step(right) or _part_number(left) != _part_number(right):
            return False
        if _part_number(left) is None:
            index = self.constant(left.arguments[0])
            if index is None or index != self.constant(right.arguments[0]):
                return False
        return self.is_same_path(left.left, right.left)

    def constant(self, expression: tree.Expression) -> Optional[int]:
        """The index that the text alone decides; none where it would trap."""
        try:
            return self.constants.evaluate(expression) if is_constant(expression) else None
        except Trap:
            return None

    # Expressions

    def name(self, name: tree.Name) -> Any:
        if isinstance(name.declaration, Constant):
            return self.copied(self.standing(name.declaration.value, name.type), name.type)
        container, key = self.locations(name.declaration)[name.declaration]
        return self.copied(container[key], name.type)

    def other(self, expression: tree.Expression) -> Any:
        if isinstance(expression, (tree.Dot, tree.Index)):
            container, key = self.locate(expression)()
            return self.copied(container[key], expression.type)
        if isinstance(expression, tree.IfExpression):
            for condition, value in expression.branches:
                if self.group(lambda: self.evaluate(condition)):
                    return self.branch(value)
            return self.branch(expression.otherwise)
        assert isinstance(expression, tree.CaseExpression)
        chosen = self.chosen(expression)
        return None if chosen is None else self.branch(chosen)

    def branch(self, value: tree.Expression) -> Any:
        return self.group(lambda: self.evaluate(value))

    def chosen(self, case: Union[tree.Case, tree.CaseExpression]) -> Any:
        """The block or value of the branch that has the selector's value, else the one of `else`."""
        selector = plain(self.in_place(case.selector))
        for (_, body), ranges in zip(case.branches, case.ranges):
            if any(first <= selector <= last for first, last in ranges):
                return body
        return case.otherwise

    def binary(self, binary: tree.Binary) -> Any:
        if binary.operator == '&':
            left, right = self.read(binary.left), self.read(binary.right)
            return self.new_text(bytes_of(plain(left)) + bytes_of(plain(right)))
        if binary.operator in COMPARISONS:
            left, right = self.read(binary.left), self.read(binary.right)
            return COMPARISONS[binary.operator](plain(left), plain(right))
        return super().binary(binary)

    def unary(self, unary: tree.Unary) -> Any:
        if unary.operator == '$':
            return self.dollar_of(unary.shown, unary.operand)
        return super().unary(unary)

    def dollar_of(self, shown: Union[Operation, Procedure], operand: tree.Expression) -> Text:
        """What `$` gives, as a text of its own."""
        if isinstance(shown, Procedure):
            return self.enter(shown, [self.argument(operand, shown.modes[0])], {})
        return self.new_text(self.dollar(shown, plain(self.in_place(operand)), operand.type))

    # Calls

    def call(self, expression: tree.Expression, meaning: Meaning) -> Any:
        if isinstance(meaning, DollarCall):
            return self.dollar_of(meaning.shown, meaning.argument)
        if not isinstance(meaning, ProcedureCall):
            return super().call(expression, meaning)
        values: List[Any] = []
        written: Dict[int, Lazy] = {}
        for number, (argument, mode) in enumerate(zip(meaning.arguments, meaning.procedure.modes)):
            if mode == 'var':
                values.append(None)
                written[number] = self.locate(argument)
            else:
                values.append(self.argument(argument, mode))
        return self.enter(meaning.procedure, values, {number: lazy() for number, lazy in written.items()})

    def argument(self, argument: tree.Expression, mode: str) -> Any:
        """Of a `sink` or plain parameter."""
        return self.evaluate(argument) if mode == 'sink' else self.read(argument)

    def enter(self, procedure: Procedure, values: List[Any], written: Dict[int, Location]) -> Any:
        """Calls it, see interp.py."""
        raise NotImplementedError


def _part_number(step: Union[tree.Dot, tree.Index]) -> Optional[int]:
    """Of a field or part; None of an element."""
    return step.field_number if isinstance(step, tree.Dot) else step.part


def _part(left: Lazy, number: int) -> Lazy:
    def location() -> Location:
        container, key = left()
        return container[key], number
    return location


def _element(left: Lazy, index: int) -> Lazy:
    def location() -> Location:
        container, key = left()
        elements = elements_of(container[key])
        if not 0 <= index < len(elements):
            raise Trap('index out of bounds')
        return elements, index
    return location
