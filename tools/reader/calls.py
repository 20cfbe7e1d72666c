"""The rules of docs/TYPING.md for calls, built-in operations, and what they write."""
from __future__ import annotations

from typing import List, NamedTuple, Optional, Sequence, Tuple, Union

import tree
from meanings import (BUILT_IN_DOLLAR, NEW_SEQ, READ_LINE, SET_LEN, BuiltInCall, Conversion, Declaration, DollarCall,
                      EmptyConstruction, Operation, Overloads, Procedure, ProcedureCall, StandardInput, TypeName, Variable)
from scan import Position
from tree import is_open, place_of, without_parentheses
from type_table import BOOL, CHAR, INT, ORDINALS_AND_STRING, STRING
from written_types import WrittenTypes, refuse

AnyCall = Union[tree.Call, tree.Dot]
ArgumentTypes = List[Optional[int]]
"""None stands for an open argument."""


class Fit(NamedTuple):
    """A built-in operation fits."""
    type: Optional[int] = None
    written: Sequence[tree.Expression] = ()
    shown: Sequence[Union[Operation, Procedure]] = ()
    """What `echo` calls."""

class CallRules(WrittenTypes):
    """Operands are expressions, which the checker of expressions adds."""

    def __init__(self) -> None:
        super().__init__()
        self.global_arguments: List[Tuple[Position, Variable, Procedure]] = []
        """Globals that are `var` arguments, and of which procedure."""

    def typed(self, expression: tree.Expression, wanted: Optional[int] = None) -> Optional[int]:
        """The type of an expression, or None where it gives no value."""
        raise NotImplementedError

    def fields(self, type_number: Optional[int]) -> Optional[List[Tuple[str, int]]]:
        """None where it is no object type."""
        raise NotImplementedError

    # What `$` calls

    def dollar_of(self, type_number: int) -> Union[Operation, Procedure, None]:
        """What `$` of a value of the type calls."""
        for procedure in self.overloads('$'):
            if procedure.parameters[0] == type_number:
                return BUILT_IN_DOLLAR if procedure.is_borrowed else procedure
        return BUILT_IN_DOLLAR if self.types.kind(type_number) in ORDINALS_AND_STRING else None

    def note_call(self, called: Union[Operation, Procedure]) -> None:
        if self.procedure is not None and isinstance(called, Procedure):
            self.procedure.called.add(called)

    # Calls

    def call(self, call: tree.Call) -> Optional[int]:
        callee = call.callee
        if isinstance(callee, tree.Name):
            return self.call_of(call, callee.name, call.arguments, False)
        if isinstance(callee, tree.Dot):
            return self.call_of(call, callee.name, [callee.left] + call.arguments, True)
        if isinstance(callee, tree.QuotedName) and callee.name == '$' and len(call.arguments) == 1:
            return self.quoted_dollar(call)
        if isinstance(callee, tree.Index) and isinstance(callee.left, tree.Name) and callee.left.name == NEW_SEQ:
            return self.new_seq(call, callee.arguments)
        if isinstance(callee, tree.Index) and isinstance(self.meaning_of(callee.left), TypeName):
            return self.written_conversion(call, callee)
        refuse('E8', call)

    def written_conversion(self, call: tree.Call, callee: tree.Index) -> int:
        """To a type with brackets, which is the base of a distinct type."""
        target = self.type_from_expression(callee)
        types, first_open = self.arguments(call.arguments)
        fits, result = self.conversion(call, target, call.arguments, types)
        if not fits or not call.arguments:
            refuse('E8', first_open or call)
        return result

    def quoted_dollar(self, call: tree.Call) -> int:
        argument = call.arguments[0]
        if is_open(argument):
            fitting = [procedure for procedure in self.overloads('$')
                       if self.types.is_sequence(procedure.parameters[0]) and not procedure.is_borrowed]
            if len(fitting) > 1:
                refuse('E9', call)
            if not fitting:
                refuse('E8', argument)
            self.typed(argument, fitting[0].parameters[0])
            shown: Union[Operation, Procedure, None] = fitting[0]
        else:
            shown = self.dollar_of(self.value(argument))
        if shown is None:
            refuse('E8', call)
        call.meaning = DollarCall(shown, argument)
        self.note_call(shown)
        return STRING

    def new_seq(self, call: tree.Call, written: List[tree.Expression]) -> int:
        if len(written) != 1:
            refuse('E8', call)
        element = self.type_from_expression(written[0])
        types, first_open = self.arguments(call.arguments)
        if types != [INT]:
            refuse('E8', first_open or call)
        call.meaning = BuiltInCall(NEW_SEQ, call.arguments)
        return self.types.sequence(element)

    def arguments(self, arguments: List[tree.Expression],
                  first_is_typed: bool = False) -> Tuple[ArgumentTypes, Optional[tree.Expression]]:
        """Their types, and the first that is open."""
        types: ArgumentTypes = []
        first_open = None
        for number, argument in enumerate(arguments):
            if is_open(argument):
                types.append(None)
                first_open = first_open or argument
            elif number == 0 and first_is_typed:
                types.append(argument.type)
            else:
                types.append(self.value(argument))
        return types, first_open

    def call_of(self, call: AnyCall, name: str, arguments: List[tree.Expression], is_method: bool) -> Optional[int]:
        """A call by a name; `is_method`: its first argument stands before a dot."""
        if name == 'default':
            if len(arguments) != 1:
                refuse('E8', call)
            call.meaning = BuiltInCall(name, arguments)
            return self.type_from_expression(arguments[0])
        if self.has_operand_without_value(name, arguments):
            return self.call_without_value(call, name, arguments)
        first_is_typed = is_method and not is_open(arguments[0])
        if first_is_typed and arguments[0].type is None:
            self.value(arguments[0])
        declaration = self.built_in['echo'] if name == 'echo' else self.look_up(name)
        if declaration is None:
            refuse('E6', call)
        types, first_open = self.arguments(arguments, first_is_typed)
        if isinstance(declaration, TypeName):
            fits, result = self.conversion(call, self.type_named(declaration), arguments, types)
        else:
            fits = False
            if isinstance(declaration, list):
                fits, result = self.choice(call, declaration, arguments, types)
            if not fits:
                fits, result = self.built_in_call(call, name, arguments, types)
        if not fits:
            refuse('E8', first_open or call)
        return result

    def conversion(self, call: AnyCall, target: Optional[int], arguments: List[tree.Expression],
                   types: ArgumentTypes) -> Tuple[bool, Optional[int]]:
        """Whether it fits, and its type; also of `T()`."""
        if target is None:
            return False, None
        if not arguments:
            call.meaning = EmptyConstruction()
            return self.fields(target) is not None, target
        if len(arguments) != 1:
            return False, None
        kind = self.types.kind(target)
        argument = types[0]
        call.meaning = Conversion(arguments[0], kind == 'enum' and argument == INT)
        if call.meaning.to_enum:
            return True, target
        if kind == 'distinct':
            base = self.types.base(target)
            if argument is None and self.types.is_sequence(base):
                self.typed(arguments[0], base)
                return True, target
            if argument is not None and argument == base:
                return True, target
        is_distinct = argument is not None and self.types.kind(argument) == 'distinct'
        return is_distinct and self.types.base(argument) == target, target

    def choice(self, call: AnyCall, overloads: Overloads, arguments: List[tree.Expression],
               types: ArgumentTypes) -> Tuple[bool, Optional[int]]:
        """Whether one of the procedures fits, and the type of its result."""
        fitting = [procedure for procedure in overloads if self.has_fitting_parameters(procedure, types)]
        if len(fitting) > 1:
            refuse('E9', call)
        if not fitting:
            return False, None
        procedure = fitting[0]
        call.meaning = ProcedureCall(procedure, arguments)
        for argument, parameter in zip(arguments, procedure.parameters):
            if is_open(argument):
                self.typed(argument, parameter)
        written: List[tree.Expression] = []
        for argument, mode in zip(arguments, procedure.modes):
            if mode == 'var':
                root = self.write(argument)
                if any(self.overlap(earlier, argument) for earlier in written):
                    refuse('E13', argument)
                written.append(argument)
                if root.is_global:
                    self.global_arguments.append((place_of(argument), root, procedure))
        self.note_call(procedure)
        return True, procedure.result_type

    def has_fitting_parameters(self, procedure: Procedure, types: ArgumentTypes) -> bool:
        return len(procedure.parameters) == len(types) and all(
            self.types.is_sequence(parameter) if argument is None else parameter == argument
            for parameter, argument in zip(procedure.parameters, types))

    # Built-in operations

    def has_operand_without_value(self, name: str, arguments: List[tree.Expression]) -> bool:
        """Whether it is a call of `low` or `high` with a type, or of `readLine` with `stdin`."""
        if name not in ('low', 'high', READ_LINE) or not arguments or isinstance(self.look_up(name), TypeName):
            return False
        first = self.meaning_of(arguments[0])
        if name == READ_LINE:
            return isinstance(first, StandardInput)
        return len(arguments) == 1 and isinstance(first, TypeName) and not first.constructor

    def meaning_of(self, operand: tree.Expression) -> Optional[Declaration]:
        """Of an operand that is a name."""
        inner = without_parentheses(operand)
        return self.look_up(inner.name) if isinstance(inner, tree.Name) else None

    def call_without_value(self, call: AnyCall, name: str, arguments: List[tree.Expression]) -> int:
        """A call of which `has_operand_without_value` is true."""
        call.meaning = BuiltInCall(name, arguments)
        if name != READ_LINE:
            operand = self.meaning_of(arguments[0])
            if not isinstance(operand, TypeName) or self.type_named(operand) != INT:
                refuse('E8', call)
            call.meaning = BuiltInCall(name + ' int', arguments)
            return INT
        types, first_open = self.arguments(arguments[1:])
        if not types:
            return STRING
        if types != [STRING]:
            refuse('E8', first_open or call)
        self.write(arguments[1])
        return BOOL

    def built_in_call(self, call: AnyCall, name: str, arguments: List[tree.Expression],
                      types: ArgumentTypes) -> Tuple[bool, Optional[int]]:
        """Whether the built-in operation of the name fits, and its type."""
        if not isinstance(self.built_in.get(name), Operation):
            return False, None
        if name == 'add':
            fit = self.addition(arguments, types)
        elif name == 'echo':
            fit = self.echo(types)
        else:
            fit = self.fitting_row(name, arguments, types)
        if fit is None:
            return False, None
        call.meaning = BuiltInCall(name, arguments, fit.shown)
        for argument in fit.written:
            self.write(argument)
        return True, fit.type

    def fitting_row(self, name: str, arguments: List[tree.Expression], types: ArgumentTypes) -> Optional[Fit]:
        first = types[0] if types else None
        kind = '' if first is None else self.types.kind(first)
        if name in ('inc', 'dec'):
            return Fit(written=arguments[:1]) if types in ([INT], [INT, INT]) else None
        if name == 'chr':
            return Fit(CHAR) if types == [INT] else None
        if name == 'quit':
            return Fit() if types in ([], [INT]) else None
        if name == SET_LEN:
            return Fit(written=arguments[:1]) if kind in ('string', 'seq') and types[1:] == [INT] else None
        if name == 'swap':
            return Fit(written=arguments) if first is not None and types == [first, first] else None
        if len(types) != 1 or first is None:
            return None
        if name in ('len', 'high') and kind in ('string', 'seq', 'array'):
            return Fit(INT)
        if name == 'ord' and kind in ('int', 'bool', 'char', 'enum'):
            return Fit(INT)
        if name == 'pop' and kind == 'seq':
            return Fit(self.types.element(first), arguments)
        if name == 'move':
            return Fit(first, arguments)
        return None

    def addition(self, arguments: List[tree.Expression], types: ArgumentTypes) -> Optional[Fit]:
        if len(types) != 2 or types[0] is None:
            return None
        fits = False
        if types[0] == STRING:
            fits = types[1] in (STRING, CHAR)
        elif self.types.is_sequence(types[0]):
            element = self.types.element(types[0])
            fits = types[1] == element
            if types[1] is None and self.types.is_sequence(element):
                self.typed(arguments[1], element)
                fits = True
        return Fit(written=arguments[:1]) if fits else None

    def echo(self, types: ArgumentTypes) -> Optional[Fit]:
        shown = [None if type_number is None else self.dollar_of(type_number) for type_number in types]
        if any(called is None for called in shown):
            return None
        for called in shown:
            self.note_call(called)
        return Fit(shown=shown)

    # What is written

    def root(self, expression: tree.Expression) -> Optional[Variable]:
        """The variable that a path begins with; None where it begins with a value."""
        inner = without_parentheses(expression)
        if isinstance(inner, tree.Name):
            return inner.declaration if isinstance(inner.declaration, Variable) else None
        if isinstance(inner, tree.Index) or isinstance(inner, tree.Dot) and inner.field_number is not None:
            return self.root(inner.left)
        return None

    def steps(self, expression: tree.Expression) -> List[Optional[int]]:
        """The numbers of the fields and parts of a path, None for an index."""
        inner = without_parentheses(expression)
        if isinstance(inner, tree.Dot) and inner.field_number is not None:
            return self.steps(inner.left) + [inner.field_number]
        if isinstance(inner, tree.Index):
            return self.steps(inner.left) + [inner.part]
        return []

    def write(self, expression: tree.Expression) -> Variable:
        """Its root; E10 where it can't be written."""
        root = self.root(expression)
        if root is None or not root.can_be_written():
            refuse('E10', expression)
        return root

    def overlap(self, left: tree.Expression, right: tree.Expression) -> bool:
        if self.root(left) is not self.root(right):
            return False
        return all(a is None or b is None or a == b for a, b in zip(self.steps(left), self.steps(right)))
