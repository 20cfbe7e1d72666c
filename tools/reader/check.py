"""The typing rules of docs/TYPING.md: whether a tree is a typed program, else its refusal.

    python3 tools/reader/check.py FILE

The rules for statements and declarations stand here, those for expressions in expressions.py.
"""
from __future__ import annotations

import argparse
import sys
from typing import AbstractSet, List, NamedTuple, Optional, Set, Tuple

import tree
from expressions import COMPARISONS, ExpressionChecker
from meanings import Constant, Procedure, TypeName, Variable
from parse import parse
from scan import Position, Refusal, normal_form
from type_table import BOOL, CHAR, INT, ORDINALS_AND_STRING, STRING, TypeTable
from written_types import Scope, Section, refuse

LEFT_OUT_OPERATIONS = frozenset([normal_form('isNil'), normal_form('newException')])

RECURSION_LIMIT = 100_000
"""Enough for the deepest trees of the rows."""


class Program(NamedTuple):
    types: TypeTable
    statements: tree.Block
    procedures: List[Procedure]


class Entry(NamedTuple):
    """A definition of a type section, walked: its type, the types it is built of, and the arrays and tuples in it."""
    definition: tree.TypeDefinition
    type: int
    parts: List[int]
    written: List[Tuple[int, Position]]


def check(source: str) -> Program:
    """The typed program; raises Refusal. A source is read as Latin-1, one character for a byte."""
    return Checker().check(parse(source))


def answer(source: str) -> str:
    """'0', or place and code of the refusal, as `1:5: E8`."""
    try:
        check(source)
    except Refusal as refusal:
        return str(refusal)
    return '0'


class Checker(ExpressionChecker):
    """One checks one source."""

    def __init__(self) -> None:
        super().__init__()
        self.procedures: List[Procedure] = []
        self.loops = 0
        """How many stand around the statement."""
        self.globals = 0
        """How many were declared so far."""

    def check(self, statements: tree.Block) -> Program:
        self.left_out(statements)
        for statement in statements:
            self.statement(statement)
        self.whole_text()
        return Program(self.types, statements, self.procedures)

    # Statements

    def block(self, statements: tree.Block) -> None:
        self.scopes.append({})
        for statement in statements:
            self.statement(statement)
        self.scopes.pop()

    def loop_body(self, statements: tree.Block) -> None:
        self.loops += 1
        self.block(statements)
        self.loops -= 1

    def statement(self, statement: tree.Statement, is_last: bool = False) -> None:
        """`is_last`: it is the last one of a procedure's body."""
        if isinstance(statement, tree.ExpressionStatement):
            self.expression_statement(statement.expression, is_last)
        elif isinstance(statement, tree.Discard):
            if statement.value is not None:
                self.value(statement.value)
        elif isinstance(statement, tree.Definitions):
            for definition in statement.definitions:
                self.definition(statement.word, definition)
        elif isinstance(statement, tree.Assignment):
            self.assignment(statement)
        elif isinstance(statement, tree.If):
            for condition, block in statement.branches:
                self.require(condition, BOOL)
                self.block(block)
            if statement.otherwise is not None:
                self.block(statement.otherwise)
        elif isinstance(statement, tree.Case):
            self.case(statement, self.block, lambda: False)
        elif isinstance(statement, tree.While):
            self.require(statement.condition, BOOL)
            self.loop_body(statement.body)
        elif isinstance(statement, tree.For):
            self.for_loop(statement)
        elif isinstance(statement, (tree.Break, tree.Continue)):
            if self.loops == 0:
                raise Refusal('E8', statement.position)
        elif isinstance(statement, tree.Return):
            self.return_statement(statement)
        elif isinstance(statement, tree.TypeSection):
            self.type_section(statement)
        else:
            assert isinstance(statement, tree.Proc)
            if len(self.scopes) != 2:
                raise Refusal('E8', statement.position)
            self.proc(statement)

    def expression_statement(self, expression: tree.Expression, is_last: bool) -> None:
        wanted = self.procedure.result_type if is_last and self.procedure is not None else None
        given = self.typed(expression, wanted, wanted is not None)
        if given is not None and given != wanted:
            refuse('E8', expression)

    def return_statement(self, statement: tree.Return) -> None:
        if self.procedure is None:
            raise Refusal('E8', statement.position)
        if statement.value is not None:
            wanted = self.procedure.result_type
            if self.value(statement.value, wanted, True) != wanted:
                refuse('E8', statement.value)

    def assignment(self, statement: tree.Assignment) -> None:
        left = self.value(statement.left)
        if statement.operator == '=':
            self.write(statement.left)
            self.require(statement.right, left, True)
            return
        if left != (STRING if statement.operator == '&=' else INT):
            refuse('E8', statement.left)
        self.write(statement.left)
        if statement.operator != '&=':
            self.require(statement.right, INT)
        elif self.value(statement.right) not in (STRING, CHAR):
            refuse('E8', statement.right)

    def for_loop(self, statement: tree.For) -> None:
        if statement.right is not None:
            self.require(statement.left, INT)
            self.require(statement.right, INT)
            element: Optional[int] = INT
        else:
            element = self.types.element(self.value(statement.left))
            if element is None:
                refuse('E8', statement.left)
        statement.variable = Variable(statement.name, 'for', element)
        self.scopes.append({statement.name: statement.variable})
        self.loop_body(statement.body)
        self.scopes.pop()

    def definition(self, word: str, definition: tree.Definition) -> None:
        scope = self.scopes[-1]
        names: List[str] = []
        lacks_value = definition.value is None and (word != 'var' or definition.written_type is None)
        has_wrong_pragma = 'error' in definition.pragmas or 'borrow' in definition.pragmas
        for name in definition.names:
            if name.name in scope or name.name in names:
                raise Refusal('E7', name.position)
            if lacks_value or has_wrong_pragma:
                raise Refusal('E8', name.position)
            names.append(name.name)
        if definition.written_type is not None:
            definition.type = self.written_type(definition.written_type)
            if definition.value is not None:
                self.require(definition.value, definition.type, True)
        else:
            definition.type = self.value(definition.value)
        if word == 'const':
            value = self.constant(definition.value)
            scope.update((name, Constant(definition.type, value)) for name in names)
            return
        is_global = len(self.scopes) == 2
        definition.variables = [Variable(name, word, definition.type, is_global) for name in names]
        scope.update(zip(names, definition.variables))
        if is_global:
            self.globals += len(names)

    # Type sections

    def type_section(self, statement: tree.TypeSection) -> None:
        section = self.section = Section(self.scopes[-1])
        types = [self.types.declare(_kind_of(definition.body)) for definition in statement.definitions]
        for definition, type_number in zip(statement.definitions, types):
            name = definition.name.name
            if name not in section.scope:
                section.scope[name] = TypeName(type_number)
                section.pending.add(name)
        entries = []
        for definition, type_number in zip(statement.definitions, types):
            name = definition.name.name
            if name not in section.pending or name in section.claimed:
                raise Refusal('E7', definition.name.position)
            section.pending.remove(name)
            before = len(section.written)
            parts = self.type_body(section, definition.body, type_number)
            entries.append(Entry(definition, type_number, parts, section.written[before:]))
        self.section = None
        self.refuse_endless(entries)
        self.types.forget_sizes()
        for entry in entries:
            self.make_known(section, entry)
        for entry in entries:
            for type_number, position in entry.written:
                self.refuse_too_large(self.types.resolved(type_number), position)
            if isinstance(entry.definition.body, tree.ObjectBody):
                self.refuse_too_large(entry.type, entry.definition.name.position)

    def type_body(self, section: Section, body: tree.Node, type_number: int) -> List[int]:
        """The types that it is built of."""
        declared = self.types.declaration(type_number)
        if isinstance(body, tree.AliasBody):
            declared.target = self.written_type(body.target)
            return [declared.target]
        if isinstance(body, tree.DistinctBody):
            declared.base = self.written_type(body.base)
            return [declared.base]
        if isinstance(body, tree.ObjectBody):
            fields: List[Tuple[str, int]] = []
            names: Set[str] = set()
            for group in body.groups:
                for name in group.names:
                    if name.name in names:
                        raise Refusal('E7', name.position)
                    names.add(name.name)
                field_type = self.written_type(group.written_type)
                fields += [(name.name, field_type) for name in group.names]
            declared.fields = fields
            return [field_type for _, field_type in fields]
        assert isinstance(body, tree.EnumBody)
        for number, member in enumerate(body.members):
            self.member(section, member, Constant(type_number, number))
            declared.members.append(member.spelling)
        return []

    def member(self, section: Section, member: tree.DeclaredName, constant: Constant) -> None:
        """A member may have the name of a type whose definition comes yet: the type is then the second."""
        if member.name in section.pending:
            if member.name in section.claimed:
                raise Refusal('E7', member.position)
            section.claimed.add(member.name)
        elif member.name in section.scope:
            raise Refusal('E7', member.position)
        else:
            section.scope[member.name] = constant

    def refuse_endless(self, entries: List[Entry]) -> None:
        """E8 at the first type of a section that contains itself."""
        within = {entry.type for entry in entries}
        contained = {entry.type: self.declared_parts(entry.parts) & within for entry in entries}
        for entry in entries:
            reached: Set[int] = set()
            pending = list(contained[entry.type])
            while pending:
                type_number = pending.pop()
                if type_number not in reached:
                    reached.add(type_number)
                    pending += contained[type_number]
            if entry.type in reached:
                raise Refusal('E8', entry.definition.name.position)

    def declared_parts(self, types: List[int]) -> Set[int]:
        """The declared types that these are built of, without what stands in their definitions."""
        declared: Set[int] = set()
        seen: Set[int] = set()
        pending = list(types)
        while pending:
            type_number = pending.pop()
            if type_number in seen:
                continue
            seen.add(type_number)
            form = self.types.forms[type_number]
            if form.declaration:
                declared.add(type_number)
            elif form.element is not None:
                pending.append(form.element)
            pending += form.parts
        return declared

    def make_known(self, section: Section, entry: Entry) -> None:
        """Behind the section an alias is what it names."""
        declared = self.types.declaration(entry.type)
        if isinstance(entry.definition.body, tree.AliasBody):
            section.scope[entry.definition.name.name] = TypeName(self.types.resolved(entry.type))
        elif declared.base is not None:
            declared.base = self.types.base(entry.type)
        elif declared.fields is not None:
            declared.fields = self.types.fields(entry.type)

    # Procedures

    def proc(self, proc: tree.Proc) -> None:
        scope: Scope = {}
        variables: List[Variable] = []
        modes: List[str] = []
        self.scopes.append(scope)
        for group in proc.parameters:
            self.parameter_names(proc, group, scope)
            parameter_type = self.written_type(group.written_type)
            for name in group.names:
                mode = group.mode + ' parameter' if group.mode else 'parameter'
                variable = Variable(name.name, mode, parameter_type)
                scope[name.name] = variable
                variables.append(variable)
                modes.append(group.mode)
        result_type = None if proc.result_type is None else self.written_type(proc.result_type)
        self.scopes.pop()
        head = Procedure([variable.type for variable in variables], modes, result_type, 'borrow' in proc.pragmas,
                         proc.position, self.globals)
        is_none = proc.is_quoted and proc.name != '$' and proc.name not in COMPARISONS
        procedure = None if is_none else self.completed(proc, head)
        if 'error' in proc.pragmas or not self.has_allowed_name(proc, head) or not self.may_borrow(proc, head):
            raise Refusal('E8', proc.position)
        if procedure is None:
            procedure = head
            self.procedures.append(procedure)
            self.module[proc.name] = [*self.overloads(proc.name), procedure]
        if proc.body is not None:
            procedure.variables = variables
            self.body(procedure, proc.body, scope)

    def parameter_names(self, proc: tree.Proc, group: tree.ParameterGroup, scope: Scope) -> None:
        names: Set[str] = set()
        for name in group.names:
            is_result = name.name == 'result' and proc.result_type is not None
            if name.name in scope or name.name in names or is_result:
                raise Refusal('E7', name.position)
            names.add(name.name)

    def completed(self, proc: tree.Proc, head: Procedure) -> Optional[Procedure]:
        """The procedure that was declared before and gets its body here; E7 where it is a second one."""
        declaration = self.module.get(proc.name)
        if declaration is not None and not isinstance(declaration, list):
            raise Refusal('E7', proc.position)
        for earlier in declaration or []:
            if earlier.parameters == head.parameters:
                lacks_body = earlier.body is None and not earlier.is_borrowed
                is_same = earlier.modes == head.modes and earlier.result_type == head.result_type
                if lacks_body and proc.body is not None and is_same:
                    return earlier
                raise Refusal('E7', proc.position)
        return None

    def has_allowed_name(self, proc: tree.Proc, head: Procedure) -> bool:
        if not proc.is_quoted:
            return True
        if proc.name == '$':
            return len(head.modes) == 1 and head.modes[0] != 'var' and head.result_type == STRING
        return head.is_borrowed and proc.name in COMPARISONS

    def may_borrow(self, proc: tree.Proc, head: Procedure) -> bool:
        """True also where nothing is borrowed."""
        if not head.is_borrowed:
            return True
        is_dollar = proc.name == '$'
        if not proc.is_quoted or proc.body is not None or any(head.modes):
            return False
        if len(head.parameters) != (1 if is_dollar else 2) or len(set(head.parameters)) != 1:
            return False
        if self.types.kind(head.parameters[0]) != 'distinct' or head.result_type != (STRING if is_dollar else BOOL):
            return False
        base = self.types.base(head.parameters[0])
        return self.types.kind(base) in ORDINALS_AND_STRING or self.has_borrowed(proc.name, base)

    def body(self, procedure: Procedure, body: tree.Block, scope: Scope) -> None:
        """`scope` has the parameters."""
        procedure.body = body
        procedure.globals_before_body = self.globals
        if procedure.result_type is not None:
            procedure.result = Variable('result', 'result', procedure.result_type)
            scope['result'] = procedure.result
        self.scopes += [scope, {}]
        self.procedure = procedure
        for number, statement in enumerate(body, 1):
            self.statement(statement, number == len(body))
        self.procedure = None
        del self.scopes[-2:]

    # The passes before and behind the walk

    def left_out(self, statements: tree.Block) -> None:
        """E23 at the first form without a typing rule."""
        declared = {node.name for node in tree.walk(statements) if isinstance(node, tree.Proc) and not node.is_quoted}
        declared |= {node.name.name for node in tree.walk(statements) if isinstance(node, tree.TypeDefinition)}
        operations = LEFT_OUT_OPERATIONS - declared
        found = [position for node in tree.walk(statements) for position in _left_out_at(node, operations)]
        if found:
            raise Refusal('E23', min(found))

    def whole_text(self) -> None:
        """E15 and E26."""
        found = []
        for procedure in self.procedures:
            has_body = procedure.body is not None and procedure.globals_before_body == procedure.globals_before
            if not has_body and not procedure.is_borrowed:
                found.append((procedure.position, 'E26'))
        found += [(position, 'E15') for position, variable, procedure in self.global_arguments
                  if _names_global(procedure, variable)]
        if found:
            position, code = min(found)
            raise Refusal(code, position)


def _kind_of(body: tree.Node) -> str:
    return {tree.AliasBody: 'alias', tree.DistinctBody: 'distinct', tree.ObjectBody: 'object',
            tree.EnumBody: 'enum'}[type(body)]


def _is_hook(name: str) -> bool:
    """Of a name in backticks: a `=` with a name behind it."""
    return len(name) > 1 and name[0] == '=' and name[1].isalpha()


def _left_out_at(node: tree.Node, operations: AbstractSet[str]) -> List[Position]:
    """The places of the forms without a rule that the node is, without its parts; `operations` are left out."""
    if isinstance(node, (tree.Import, tree.Raise, tree.Try, tree.Defer, tree.NilLiteral, tree.RefType)):
        return [node.position]
    if isinstance(node, tree.TypeDefinition):
        return [node.position] if node.has_type_parameters else []
    if isinstance(node, tree.ObjectBody):
        parent = [node.position] if node.has_parent else []
        return parent if node.ref_position is None else [node.ref_position]
    if isinstance(node, tree.Proc):
        is_left_out = (node.has_type_parameters or node.is_quoted and _is_hook(node.name) or 'cursor' in node.pragmas)
    elif isinstance(node, tree.Definition):
        is_left_out = 'cursor' in node.pragmas
    elif isinstance(node, tree.QuotedName):
        is_left_out = _is_hook(node.name)
    elif isinstance(node, tree.Call):
        is_left_out = isinstance(node.callee, tree.Name) and node.callee.name in operations
    else:
        is_left_out = isinstance(node, tree.Dot) and node.name in operations
    return [node.position] if is_left_out else []


def _names_global(procedure: Procedure, variable: Variable) -> bool:
    """Whether it or what it calls names the global."""
    reached: Set[Procedure] = set()
    pending = [procedure]
    while pending:
        called = pending.pop()
        if called not in reached:
            reached.add(called)
            if variable in called.named_globals:
                return True
            pending += called.called
    return False


def main() -> None:
    parser = argparse.ArgumentParser(description='Prints 0 for a typed program, else place and code of its refusal.')
    parser.add_argument('file', type=argparse.FileType('rb'))
    source = parser.parse_args().file.read().decode('latin-1')
    sys.setrecursionlimit(RECURSION_LIMIT)
    print(answer(source))


if __name__ == '__main__':
    main()
