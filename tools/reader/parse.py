"""The parser of docs/GRAMMAR.md: from a source to its tree.

Sources that have a tree get it. The limits on depth and size (E5) aren't looked at, and the place of a refusal is that
of the first token that can't go on, which isn't always worked out as closely as docs/GRAMMAR.md does.
"""
from __future__ import annotations

from typing import Any, Callable, List, Optional, Union

import tree
from parse_expressions import ASSIGNMENT_OPERATORS, LOWEST_PRECEDENCE, PRAGMAS, WORDS_BEHIND_BRANCHES, ExpressionParser
from scan import Kind, Refusal, Token


def parse(source: str) -> tree.Block:
    """The module's statements; raises Refusal."""
    return Parser(source).module()


class Parser(ExpressionParser):
    """Goes on with declarations and statements."""

    # Declarations

    def declared_names(self, may_begin_line: bool = False) -> List[tree.DeclaredName]:
        names = [self.declared_name(may_begin_line)]
        while self.accept(','):
            names.append(self.declared_name(True))
        return names

    def declared_name(self, may_begin_line: bool = False) -> tree.DeclaredName:
        name = self.take_name(may_begin_line)
        self.accept('*')
        return _declared(name)

    def pragmas(self) -> List[str]:
        result: List[str] = []
        if not self.accept('{.'):
            return result
        with self.inside_brackets():
            while True:
                name = self.take_name()
                if name.text not in PRAGMAS:
                    raise Refusal('E23', name.position)
                result.append(name.text)
                if not self.accept(','):
                    self.take('.}')
                    return result

    def type_parameters(self) -> bool:
        """Passes them; gives whether there are any."""
        if not self.accept('['):
            return False
        with self.inside_brackets():
            self.take_name()
            while self.accept(','):
                self.take_name()
            self.take(']')
        return True

    def definition(self, level: int, may_begin_line: bool) -> tree.Definition:
        names = self.declared_names(may_begin_line)
        pragmas = self.pragmas()
        written_type = self.written_type() if self.accept(':') else None
        value = self.expression(level) if self.accept('=') else None
        return tree.Definition(names[0].position, names, pragmas, written_type, value)

    def type_definition(self, level: int, may_begin_line: bool) -> tree.TypeDefinition:
        name = self.declared_name(may_begin_line)
        has_type_parameters = self.type_parameters()
        self.take('=')
        if not self.continues():
            self.fail()
        return tree.TypeDefinition(name.position, name, has_type_parameters, self.type_body(level))

    def type_body(self, level: int) -> Union[tree.AliasBody, tree.DistinctBody, tree.EnumBody, tree.ObjectBody]:
        position = self.token.position
        if self.accept('enum'):
            return tree.EnumBody(position, self.members(level))
        if self.accept('distinct'):
            return tree.DistinctBody(position, self.written_type())
        ref_position = None
        if self.is_keyword('ref') and self.ahead(1).kind is Kind.KEYWORD and self.ahead(1).text == 'object':
            ref_position = self.pass_token().position
        if self.is_at('object'):
            return self.object_body(level, ref_position)
        return tree.AliasBody(position, self.written_type())

    def members(self, level: int) -> List[tree.DeclaredName]:
        """Those of an enum: in the line, or on lines of their own, where commas between lines may lack."""
        if self.continues():
            names = [self.take_name()]
            while self.accept(','):
                names.append(self.take_name(True))
            return [_declared(name) for name in names]
        first = self.token
        if first.kind is not Kind.NAME or first.indent <= level:
            self.fail()
        names = [self.pass_token()]
        while True:
            if self.accept(','):
                if self.token.kind is Kind.END or self.token.begins_line and self.token.indent < first.indent:
                    self.fail()
                names.append(self.take_name(True))
            elif self.continues():
                names.append(self.take_name())
            elif self.token.kind is Kind.NAME and self.token.indent == first.indent:
                names.append(self.pass_token())
            elif self.token.kind is not Kind.END and self.token.indent > first.indent:
                self.fail()
            else:
                return [_declared(name) for name in names]

    def object_body(self, level: int, ref_position: Optional[tree.Position]) -> tree.ObjectBody:
        position = self.pass_token().position
        has_parent = self.accept('of')
        if has_parent:
            self.take_name()
        groups = []
        first = self.token
        if first.kind is not Kind.END and first.indent > level:
            while self.is_line_at(first.indent):
                groups.append(self.group(True))
                self.end_of_entry(first.indent)
        return tree.ObjectBody(position, ref_position, has_parent, groups)

    def is_line_at(self, indent: int) -> bool:
        return self.token.kind is not Kind.END and self.token.indent == indent

    def end_of_entry(self, indent: int) -> None:
        """Behind an entry of a section or a field, a line begins, and not a deeper one."""
        if self.token.kind is not Kind.END and (not self.token.begins_line or self.token.indent > indent):
            self.fail()

    # Statements

    def module(self) -> tree.Block:
        if self.token.kind is Kind.END:
            return []
        statements = self.statements(self.token.indent)
        if self.token.kind is not Kind.END:
            self.fail()
        return statements

    def statements(self, level: int) -> tree.Block:
        result: tree.Block = []
        while self.is_line_at(level):
            result += self.statement(level)
            if not self.ends_line():
                self.fail()
        if self.token.kind is not Kind.END and self.token.indent > level:
            self.fail()
        return result

    def block(self, level: int) -> tree.Block:
        first = self.token
        if first.kind is Kind.END:
            self.fail()
        if not first.begins_line:
            return self.line(level)
        if first.indent <= level:
            self.fail()
        return self.statements(first.indent)

    def line(self, level: int, may_begin_line: bool = False) -> tree.Block:
        """Simple statements with semicolons between them."""
        result = [self.simple_statement(level, may_begin_line)]
        while self.accept(';'):
            if not self.continues():
                self.fail()
            result.append(self.simple_statement(level, False))
        return result

    def statement(self, level: int) -> tree.Block:
        """What begins at a line's begin: one statement, or those of the line."""
        if self.is_keyword('if', 'case'):
            return [self.branches(level)]
        if self.is_keyword('while'):
            position = self.pass_token().position
            condition = self.expression(level)
            self.take(':')
            return [tree.While(position, condition, self.block(level))]
        if self.is_keyword('for'):
            return [self.for_statement(level)]
        if self.is_keyword('defer'):
            position = self.pass_token().position
            self.take(':')
            return [tree.Defer(position, self.block(level))]
        if self.is_keyword('try'):
            return [self.try_statement(level)]
        if self.is_keyword('proc'):
            return [self.proc(level)]
        if self.is_keyword('type'):
            return [self.type_section(level)]
        if self.is_keyword('let', 'var', 'const') and self.ahead(1).begins_line:
            word = self.pass_token()
            return [tree.Definitions(word.position, word.text, self.section(level, self.definition))]
        return self.line(level, True)

    def branches(self, level: int) -> tree.Statement:
        """An `if` or `case` at a line's begin: an expression where it can be read as one, else a statement."""
        start = self.at
        position = self.token.position
        try:
            expression = self.expression(level, True, True)
            goes_on = self.is_keyword('of', 'elif', 'else') and self.token.indent >= level
            if self.ends_line() and not goes_on:
                return tree.ExpressionStatement(position, expression)
        except Refusal:
            pass
        self.at = start
        return self.if_statement(level) if self.is_keyword('if') else self.case_statement(level)

    def if_statement(self, level: int) -> tree.Statement:
        position = self.token.position
        branches: List[Any] = []
        while not branches or self.follows('elif', level):
            self.at += 1
            condition = self.expression(level)
            self.take(':')
            branches.append((condition, self.block(level)))
        return tree.If(position, branches, self.else_block(level))

    def case_statement(self, level: int) -> tree.Statement:
        position = self.pass_token().position
        selector = self.expression(level)
        self.accept(':')
        branch_level = self.level_of_branches(level)
        branches = []
        while self.follows('of', branch_level):
            self.at += 1
            labels = self.labels(branch_level)
            branches.append((labels, self.block(branch_level)))
        return tree.Case(position, selector, branches, self.else_block(branch_level))

    def else_block(self, level: int) -> Optional[tree.Block]:
        if not self.follows('else', level):
            return None
        self.at += 1
        self.take(':')
        return self.block(level)

    def for_statement(self, level: int) -> tree.Statement:
        position = self.pass_token().position
        name = self.take_name().text
        self.take('in')
        left = self.expression(level)
        operator = right = None
        if self.is_at('..') or self.is_at('..<'):
            operator = self.pass_token().text
            right = self.expression(level)
        self.take(':')
        return tree.For(position, name, left, operator, right, self.block(level))

    def try_statement(self, level: int) -> tree.Statement:
        position = self.pass_token().position
        self.take(':')
        blocks = [self.block(level)]
        while self.follows('except', level):
            self.at += 1
            if not self.is_at(':'):
                self.take_name()
                while self.accept(','):
                    self.take_name()
                if self.accept('as'):
                    self.take_name()
            self.take(':')
            blocks.append(self.block(level))
        if self.follows('finally', level):
            self.at += 1
            self.take(':')
            blocks.append(self.block(level))
        elif len(blocks) == 1:
            self.fail()
        return tree.Try(position, blocks)

    def type_section(self, level: int) -> tree.Statement:
        position = self.pass_token().position
        if self.continues():
            return tree.TypeSection(position, [self.type_definition(level, False)])
        return tree.TypeSection(position, self.section(level, self.type_definition))

    def section(self, level: int, entry: Callable[[int, bool], Any]) -> List[Any]:
        """Entries on lines of their own."""
        indent = self.token.indent
        if self.token.kind is Kind.END or indent <= level:
            self.fail()
        result = []
        while self.is_line_at(indent):
            result.append(entry(indent, True))
            self.end_of_entry(indent)
        return result

    def proc(self, level: int) -> tree.Statement:
        position = self.pass_token().position
        if not self.continues() or self.token.kind not in (Kind.NAME, Kind.QUOTED):
            self.fail()
        name = self.pass_token()
        self.accept('*')
        has_type_parameters = self.type_parameters()
        parameters = self.parameters() if self.accept('(') else []
        result_type = self.written_type() if self.accept(':') else None
        pragmas = self.pragmas()
        body = self.block(level) if self.accept('=') else None
        return tree.Proc(position, name.text, name.kind is Kind.QUOTED, has_type_parameters, parameters, result_type,
                         pragmas, body)

    def parameters(self) -> List[tree.ParameterGroup]:
        """Behind the parenthesis, which is closed here."""
        groups: List[tree.ParameterGroup] = []
        with self.inside_brackets():
            if self.accept(')'):
                return groups
            while True:
                names = [_declared(self.take_name())]
                while self.accept(','):
                    names.append(_declared(self.take_name()))
                self.take(':')
                mode = ''
                is_sink = self.is_at('sink', (Kind.NAME,)) and self.ahead(1).kind in (Kind.NAME, Kind.KEYWORD)
                if self.is_at('var') or is_sink:
                    mode = self.pass_token().text
                groups.append(tree.ParameterGroup(names, mode, self.written_type()))
                if not (self.accept(',') or self.accept(';')):
                    self.take(')')
                    return groups

    def simple_statement(self, level: int, may_begin_line: bool) -> tree.Statement:
        token = self.token
        if token.kind is Kind.END or not (may_begin_line or self.continues()):
            self.fail()
        if self.is_keyword('discard', 'return', 'raise'):
            return self.statement_with_value(level)
        if self.is_keyword('break', 'continue'):
            self.at += 1
            return tree.Break(token.position) if token.text == 'break' else tree.Continue(token.position)
        if self.is_keyword('import'):
            return self.import_statement()
        if self.is_keyword('let', 'var', 'const'):
            self.at += 1
            return tree.Definitions(token.position, token.text, [self.definition(level, False)])
        if self.is_keyword('if', 'case'):
            return tree.ExpressionStatement(token.position, self.expression(level, may_begin_line))
        return self.command_or_assignment(level, may_begin_line)

    def statement_with_value(self, level: int) -> tree.Statement:
        word = self.pass_token()
        value = None
        if self.continues() and not self.is_at(';') and not self.is_keyword(*WORDS_BEHIND_BRANCHES):
            value = self.expression(level)
        statement = {'discard': tree.Discard, 'return': tree.Return, 'raise': tree.Raise}[word.text]
        return statement(word.position, value)

    def import_statement(self) -> tree.Statement:
        position = self.pass_token().position
        while True:
            name = self.take_name(True)
            if self.token.kind is Kind.OPERATOR and '/' in self.token.text and self.continues():
                raise Refusal('E23', name.position)
            if not self.accept(','):
                return tree.Import(position)

    def command_or_assignment(self, level: int, may_begin_line: bool) -> tree.Statement:
        position = self.token.position
        if self.begins_primary():
            first = self.primary(level, may_begin_line, True)
            if self.begins_operand():
                operands = [self.expression(level)]
                while self.accept(','):
                    operands.append(self.expression(level, True))
                return tree.ExpressionStatement(position, tree.Call(position, first, operands))
        else:
            first = self.unary(level, may_begin_line)
        left = self.binary(level, LOWEST_PRECEDENCE, first)
        if self.is_at('=') or any(self.is_at(operator) for operator in ASSIGNMENT_OPERATORS):
            operator = self.pass_token().text
            return tree.Assignment(position, operator, left, self.expression(level))
        return tree.ExpressionStatement(position, left)


def _declared(name: Token) -> tree.DeclaredName:
    return tree.DeclaredName(name.text, name.position, name.value)
