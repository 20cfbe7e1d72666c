"""The tokens of a source, its expressions and its written types: the part of the parser below statements."""
from __future__ import annotations

from contextlib import contextmanager
from typing import Any, Iterator, List, NoReturn, Optional, Tuple

import tree
from scan import LEFT_OUT_KEYWORDS, Kind, Refusal, Token, scan

PRECEDENCE = {
    '*': 7, 'div': 7, 'mod': 7, 'shl': 7, 'shr': 7,
    '+': 6, '-': 6,
    '&': 5,
    '==': 4, '!=': 4, '<': 4, '<=': 4, '>': 4, '>=': 4,
    'and': 3,
    'or': 2, 'xor': 2,
}
LOWEST_PRECEDENCE = 2
ASSIGNMENT_OPERATORS = frozenset(['+=', '-=', '*=', '&='])
PRAGMAS = frozenset(['error', 'borrow', 'cursor', 'inline'])
WORDS_BEHIND_BRANCHES = ('elif', 'else', 'of', 'except', 'finally')

_SIGNS = (Kind.OPERATOR, Kind.PUNCTUATION, Kind.KEYWORD)
_LITERALS_AND_NAMES = (Kind.INT, Kind.CHAR, Kind.TEXT, Kind.NAME, Kind.QUOTED)


class ExpressionParser:
    """Goes through the tokens by recursive descent.

    `level` is the indent of the statement that is read: what begins a line belongs to it only inside of brackets, or
    where a block or a branch may begin. `may_begin_line` says that the first token may stand anywhere.
    """

    def __init__(self, source: str):
        self.tokens = scan(source)
        self.at = 0
        self.brackets = 0

    # The tokens

    @property
    def token(self) -> Token:
        return self.tokens[self.at]

    def ahead(self, distance: int) -> Token:
        return self.tokens[min(self.at + distance, len(self.tokens) - 1)]

    def fail(self, token: Optional[Token] = None) -> NoReturn:
        token = token or self.token
        left_out = token.kind is Kind.KEYWORD and token.text in LEFT_OUT_KEYWORDS
        raise Refusal('E23' if left_out else 'E4', token.position)

    def continues(self) -> bool:
        """Whether the next token belongs to the same line, as all do inside of brackets."""
        return self.token.kind is not Kind.END and (not self.token.begins_line or self.brackets > 0)

    def is_at(self, text: str, kinds: Tuple[Kind, ...] = _SIGNS) -> bool:
        return self.token.kind in kinds and self.token.text == text and self.continues()

    def pass_token(self) -> Token:
        token = self.token
        self.at += 1
        return token

    def take(self, text: str) -> Token:
        if not self.is_at(text):
            self.fail()
        return self.pass_token()

    def accept(self, text: str) -> bool:
        if self.is_at(text):
            self.at += 1
            return True
        return False

    def take_name(self, may_begin_line: bool = False) -> Token:
        if self.token.kind is not Kind.NAME or not (may_begin_line or self.continues()):
            self.fail()
        return self.pass_token()

    def is_keyword(self, *words: str) -> bool:
        """Whether the next token is one of the keywords, wherever it stands."""
        return self.token.kind is Kind.KEYWORD and self.token.text in words

    def follows(self, word: str, level: int) -> bool:
        """Whether a further branch begins with the word, in the line or at the level."""
        at_level = not self.token.begins_line or self.brackets > 0 or self.token.indent == level
        return self.is_keyword(word) and at_level

    def ends_line(self) -> bool:
        return self.token.kind is Kind.END or self.token.begins_line

    @contextmanager
    def inside_brackets(self) -> Iterator[None]:
        self.brackets += 1
        try:
            yield
        finally:
            self.brackets -= 1

    # Expressions

    def expression(self, level: int, may_begin_line: bool = False, in_statement: bool = False) -> tree.Expression:
        """`in_statement`: it begins a statement, or it is a branch of an `if` or `case` that does."""
        if self.token.kind is Kind.END or not (may_begin_line or self.continues()):
            self.fail()
        if self.is_keyword('if'):
            return self.if_expression(level, in_statement)
        if self.is_keyword('case'):
            return self.case_expression(level, in_statement)
        if in_statement and self.begins_primary():
            # No command is a value, so a statement that begins with one isn't an expression.
            first = self.primary(level, may_begin_line, True)
            if self.begins_operand():
                self.fail()
            return self.binary(level, LOWEST_PRECEDENCE, first)
        return self.binary(level, LOWEST_PRECEDENCE, self.unary(level, may_begin_line))

    def begins_primary(self) -> bool:
        token = self.token
        return (token.kind in _LITERALS_AND_NAMES or self.is_keyword('nil')
                or token.kind is Kind.OPERATOR and token.text == '@'
                or token.kind is Kind.PUNCTUATION and token.text in ('(', '['))

    def begins_operand(self) -> bool:
        """Whether the next token is the first of a command's operands."""
        token = self.token
        if not self.continues():
            return False
        if token.kind in _LITERALS_AND_NAMES or self.is_keyword('nil', 'not', 'if', 'case'):
            return True
        if token.kind is Kind.PUNCTUATION:
            return token.text == '(' and token.space_before
        return (token.kind is Kind.OPERATOR and token.text in ('-', '+', '$', '@')
                and token.space_before and not token.space_behind)

    def binary(self, level: int, lowest: int, left: tree.Expression) -> tree.Expression:
        """Goes on behind a first operand with operators of this precedence or a higher one."""
        while self.precedence() >= lowest:
            operator = self.pass_token()
            right = self.unary(level, True)
            while self.precedence() > PRECEDENCE[operator.text]:
                right = self.binary(level, self.precedence(), right)
            left = tree.Binary(left.position, operator.text, left, right)
        return left

    def precedence(self) -> int:
        """That of the next token, 0 where it is no operator between operands."""
        if not self.continues() or self.token.kind not in (Kind.OPERATOR, Kind.KEYWORD):
            return 0
        return PRECEDENCE.get(self.token.text, 0)

    def unary(self, level: int, may_begin_line: bool) -> tree.Expression:
        token = self.token
        if not (may_begin_line or self.continues()):
            self.fail()
        if token.kind is Kind.OPERATOR and token.text in ('-', '+', '$') or self.is_keyword('not'):
            self.at += 1
            return tree.Unary(token.position, token.text, self.unary(level, False))
        return self.primary(level, may_begin_line, False)

    def primary(self, level: int, may_begin_line: bool, may_be_command: bool) -> tree.Expression:
        """`may_be_command`: a parenthesis behind a space isn't its call, but a command's operand."""
        result = self.atom(level, may_begin_line, may_be_command)
        while self.continues() and self.token.kind is Kind.PUNCTUATION:
            if self.accept('.'):
                result = tree.Dot(result.position, result, self.take_name().text)
            elif self.is_at('(') and not (may_be_command and self.token.space_before):
                result = tree.Call(result.position, result, self.bracketed(')', level))
            elif self.is_at('['):
                result = tree.Index(result.position, result, self.bracketed(']', level))
            else:
                break
        return result

    def bracketed(self, closing: str, level: int) -> List[tree.Expression]:
        """The expressions of a bracket that is next, maybe none."""
        self.at += 1
        with self.inside_brackets():
            result: List[tree.Expression] = []
            if self.accept(closing):
                return result
            while True:
                result.append(self.expression(level))
                if not self.accept(','):
                    self.take(closing)
                    return result

    def atom(self, level: int, may_begin_line: bool, may_be_command: bool) -> tree.Expression:
        token = self.token
        if token.kind is Kind.END or not (may_begin_line or self.continues()):
            self.fail()
        if token.kind is Kind.PUNCTUATION and token.text == '(':
            return self.parentheses(level)
        if token.kind is Kind.PUNCTUATION and token.text == '[':
            return tree.ArrayLiteral(token.position, self.bracketed(']', level))
        self.at += 1
        if token.kind is Kind.INT:
            return tree.IntLiteral(token.position, token.value)
        if token.kind is Kind.CHAR:
            return tree.CharLiteral(token.position, token.value)
        if token.kind is Kind.TEXT:
            return tree.TextLiteral(token.position, token.value)
        if token.kind is Kind.QUOTED:
            return tree.QuotedName(token.position, token.text)
        if token.kind is Kind.KEYWORD and token.text == 'nil':
            return tree.NilLiteral(token.position)
        if token.kind is Kind.OPERATOR and token.text == '@':
            if not self.is_at('['):
                self.fail()
            return tree.SequenceLiteral(token.position, self.bracketed(']', level))
        if token.kind is not Kind.NAME:
            self.fail(token)
        if self.is_at('(') and not (may_be_command and self.token.space_before) and self.has_label(1):
            self.at += 1
            return tree.Construction(token.position, token.text, self.named_values(level))
        return tree.Name(token.position, token.text)

    def has_label(self, distance: int) -> bool:
        """Whether a name with a colon stands so far ahead."""
        colon = self.ahead(distance + 1)
        return (self.ahead(distance).kind is Kind.NAME
                and colon.kind is Kind.PUNCTUATION and colon.text == ':')

    def parentheses(self, level: int) -> tree.Expression:
        position = self.pass_token().position
        if self.has_label(0):
            fields = self.named_values(level)
            return tree.TupleLiteral(position, [name for name, _ in fields], [value for _, value in fields])
        with self.inside_brackets():
            parts = [self.expression(level)]
            if not self.is_at(','):
                self.take(')')
                return tree.Parentheses(position, parts[0])
            while self.accept(','):
                parts.append(self.expression(level))
            self.take(')')
        return tree.TupleLiteral(position, None, parts)

    def named_values(self, level: int) -> List[Tuple[str, tree.Expression]]:
        """`f: a, g: b)`, behind the parenthesis."""
        result = []
        with self.inside_brackets():
            while True:
                name = self.take_name().text
                self.take(':')
                result.append((name, self.expression(level)))
                if not self.accept(','):
                    self.take(')')
                    return result

    # `if` and `case` as values

    def branch_value(self, level: int, in_statement: bool) -> tree.Expression:
        """The value behind the colon of a branch: in the line, or on lines of its own."""
        first = self.token
        if self.brackets > 0 or first.kind is Kind.END or not first.begins_line:
            return self.expression(level, in_statement=in_statement)
        if first.indent <= level:
            self.fail()
        value = self.expression(first.indent, True, in_statement)
        behind = self.token
        if behind.kind is not Kind.END and not (behind.begins_line and behind.indent < first.indent):
            self.fail()
        return value

    def if_expression(self, level: int, in_statement: bool) -> tree.Expression:
        position = self.token.position
        branches: List[Any] = []
        while not branches or self.follows('elif', level):
            self.at += 1
            condition = self.expression(level)
            self.take(':')
            branches.append((condition, self.branch_value(level, in_statement)))
        if not self.follows('else', level):
            self.fail()
        self.at += 1
        self.take(':')
        return tree.IfExpression(position, branches, self.branch_value(level, in_statement))

    def case_expression(self, level: int, in_statement: bool) -> tree.Expression:
        position = self.pass_token().position
        selector = self.expression(level)
        self.accept(':')
        branch_level = self.level_of_branches(level)
        branches = []
        while self.follows('of', branch_level):
            self.at += 1
            labels = self.labels(branch_level)
            branches.append((labels, self.branch_value(branch_level, in_statement)))
        otherwise = None
        if self.follows('else', branch_level):
            colon = self.ahead(1)
            if colon.kind is Kind.PUNCTUATION and colon.text == ':':
                self.at += 2
                otherwise = self.branch_value(branch_level, in_statement)
        return tree.CaseExpression(position, selector, branches, otherwise)

    def level_of_branches(self, level: int) -> int:
        """That of the first `of`, which must be next."""
        if not self.is_keyword('of'):
            self.fail()
        if not self.token.begins_line or self.brackets > 0:
            return level
        if self.token.indent < level:
            self.fail()
        return self.token.indent

    def labels(self, level: int) -> List[tree.Label]:
        """The labels of a branch, with its colon."""
        result: List[tree.Label] = []
        while True:
            first = self.expression(level, may_begin_line=bool(result))
            last = self.expression(level) if self.accept('..') else None
            result.append((first, last))
            if not self.accept(','):
                self.take(':')
                return result

    # Written types

    def written_type(self, may_begin_line: bool = False) -> tree.WrittenType:
        token = self.token
        if not (may_begin_line or self.continues()):
            self.fail()
        if self.is_keyword('ref'):
            self.at += 1
            return tree.RefType(token.position, self.written_type())
        if self.is_keyword('tuple'):
            self.at += 1
            return tree.TupleType(token.position, self.tuple_parts())
        if token.kind is not Kind.NAME:
            self.fail()
        self.at += 1
        if not self.is_at('['):
            return tree.NamedType(token.position, token.text, None)
        if token.text == 'array':
            length = self.array_length()
            if length is not None:
                with self.inside_brackets():
                    self.take(',')
                    element = self.written_type(True)
                    self.take(']')
                return tree.ArrayType(token.position, length, element)
        self.at += 1
        with self.inside_brackets():
            arguments = [self.written_type()]
            while self.accept(','):
                arguments.append(self.written_type())
            self.take(']')
        return tree.NamedType(token.position, token.text, arguments)

    def array_length(self) -> Optional[tree.Expression]:
        """The length behind the bracket, where a comma follows it; else nothing is passed."""
        bracket = self.at
        self.at += 1
        try:
            with self.inside_brackets():
                length = self.expression(0)
                if self.is_at(','):
                    return length
        except Refusal:
            pass
        first = self.tokens[bracket + 1]
        if not (first.kind is Kind.NAME or first.kind is Kind.KEYWORD and first.text in ('ref', 'tuple')):
            self.fail(first)
        self.at = bracket
        return None

    def tuple_parts(self) -> List[tree.Group]:
        self.take('[')
        groups = []
        with self.inside_brackets():
            if not self.is_at(']'):
                groups.append(self.group())
                while self.accept(','):
                    groups.append(self.group())
            self.take(']')
        return groups

    def group(self, may_begin_line: bool = False) -> tree.Group:
        names = self.declared_names(may_begin_line)
        self.take(':')
        return tree.Group(names, self.written_type())
