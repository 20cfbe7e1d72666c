"""The scanner of docs/GRAMMAR.md: from a source to its tokens.

A source is a text with one character for each byte (Latin-1), so that columns count bytes.
"""
from __future__ import annotations

import enum
import string
from dataclasses import dataclass
from typing import Any, List, NoReturn, Optional, Tuple

Position = Tuple[int, int]
"""Line and column, both from 1."""

INSIDE_LINE = -1
"""The indent of a token that isn't the first of its line."""

KEYWORDS = frozenset(
    'and as break case const continue defer discard distinct div elif else enum except finally for if import in let '
    'mod nil not object of or proc raise ref return shl shr try tuple type var while xor'.split())

LEFT_OUT_KEYWORDS = frozenset(
    'addr asm bind block cast concept converter do end export from func include interface is isnot iterator macro '
    'method mixin notin out ptr static template using when yield'.split())

BYTE_ORDER_MARK = '\xef\xbb\xbf'
LARGEST_INT = 2 ** 31 - 1

_LETTERS = frozenset(string.ascii_letters)
_DIGITS = frozenset(string.digits)
_WORD_CHARACTERS = _LETTERS | _DIGITS | {'_'}
_OPERATOR_CHARACTERS = frozenset('=+-*/<>@$~&%|!?^.:\\')
_BASES = {'x': (16, frozenset(string.hexdigits)), 'o': (8, frozenset(string.octdigits)), 'b': (2, frozenset('01'))}
_ESCAPES = {'n': 10, 'l': 10, 'r': 13, 'c': 13, 't': 9, 'e': 27, '\\': 92, '"': 34, "'": 39}


class Refusal(Exception):
    """The answer to a source that is no program: a code and the place that it is told at."""

    def __init__(self, code: str, position: Position):
        super().__init__(code, position)
        self.code = code
        self.position = position

    def __str__(self) -> str:
        return '%d:%d: %s' % (*self.position, self.code)


class Kind(enum.Enum):
    KEYWORD = enum.auto()
    NAME = enum.auto()
    INT = enum.auto()
    CHAR = enum.auto()
    TEXT = enum.auto()
    QUOTED = enum.auto()
    PUNCTUATION = enum.auto()
    OPERATOR = enum.auto()
    END = enum.auto()


@dataclass
class Token:
    kind: Kind
    text: str
    """As it is written; of a name and a keyword its normal form, of a name in backticks what stands in them."""
    value: Any
    """Of a literal its value, of a name and a keyword how it is written."""
    position: Position
    indent: int
    space_before: bool
    start: int
    end: int
    """The token's characters are those of the source from start up to end."""
    space_behind: bool = False

    @property
    def begins_line(self) -> bool:
        return self.indent != INSIDE_LINE


def normal_form(name: str) -> str:
    """Two names are the same where their normal forms are."""
    return name[0] + name[1:].replace('_', '').lower()


def scan(source: str) -> List[Token]:
    """All tokens, and one of the kind END behind them; raises Refusal (E1, E2, E3)."""
    return _Scanner(source).scan()


def _is_control(character: str) -> bool:
    return ord(character) < 32 or ord(character) == 127


class _Scanner:
    def __init__(self, source: str):
        self.source = source
        self.at = 0
        self.line = 1
        self.line_start = 0
        self.indent = 0
        self.begins_line = True
        self.last_end = -1
        self.tokens: List[Token] = []
        if source.startswith(BYTE_ORDER_MARK):
            self.at = self.line_start = len(BYTE_ORDER_MARK)

    def scan(self) -> List[Token]:
        while True:
            self._skip_blanks()
            if self.at >= len(self.source):
                break
            self._token()
        if self.tokens:
            self.tokens[-1].space_behind = True
        end = len(self.source)
        self.tokens.append(Token(Kind.END, '', None, self._position(end), 0, True, end, end))
        return self.tokens

    def _peek(self, distance: int = 0) -> str:
        """The character that is so far ahead, '' behind the end."""
        return self.source[self.at + distance:self.at + distance + 1]

    def _position(self, offset: int) -> Position:
        return self.line, offset - self.line_start + 1

    def _refuse(self, code: str, offset: Optional[int] = None) -> NoReturn:
        raise Refusal(code, self._position(self.at if offset is None else offset))

    # Blanks and comments

    def _skip_blanks(self) -> None:
        while True:
            character = self._peek()
            if character == ' ':
                self.at += 1
                if self.begins_line:
                    self.indent += 1
            elif character == '\n':
                self._line_end()
            elif character == '\r':
                if self._peek(1) != '\n':
                    self._refuse('E1')
                self.at += 1
            elif character == '#' and self._peek(1) == '[':
                self._block_comment()
            elif character == '#':
                while self._peek() not in ('', '\n'):
                    self._comment_character()
            else:
                return

    def _line_end(self) -> None:
        self.at += 1
        self.line += 1
        self.line_start = self.at
        self.begins_line = True
        self.indent = 0

    def _block_comment(self) -> None:
        start = self._position(self.at)
        self.at += 2
        depth = 1
        while depth:
            pair = self.source[self.at:self.at + 2]
            if not pair:
                raise Refusal('E2', start)
            if pair == '#[':
                depth += 1
                self.at += 2
            elif pair == ']#':
                depth -= 1
                self.at += 2
            elif pair[0] == '\n':
                self._line_end()
            else:
                self._comment_character()

    def _comment_character(self) -> None:
        character = self._peek()
        if character == '\r':
            if self._peek(1) != '\n':
                self._refuse('E1')
        elif character != '\t' and _is_control(character):
            self._refuse('E1')
        self.at += 1

    # Tokens

    def _token(self) -> None:
        start = self.at
        space = start != self.last_end
        if self.tokens:
            self.tokens[-1].space_behind = space
        kind, text, value = self._one()
        indent = self.indent if self.begins_line else INSIDE_LINE
        self.begins_line = False
        token = Token(kind, text, value, self._position(start), indent, space, start, self.at)
        self.tokens.append(token)
        if kind is Kind.OPERATOR and text == '*:':
            # A star behind a declared name, and the colon of its type.
            token.text, token.end = '*', start + 1
            self.tokens.append(Token(Kind.PUNCTUATION, ':', None, self._position(start + 1), INSIDE_LINE, False,
                                     start + 1, self.at))
        self.last_end = self.at

    def _one(self) -> Tuple[Kind, str, Any]:
        """Passes one token; gives its kind, text and value."""
        start = self.at
        character = self._peek()
        if character in _LETTERS:
            return self._word()
        if character in _DIGITS:
            value: Any = self._int()
            kind = Kind.INT
        elif character == '"':
            value = self._text()
            kind = Kind.TEXT
        elif character == "'":
            value = self._char()
            kind = Kind.CHAR
        elif character == '`':
            return Kind.QUOTED, self._quoted(), None
        else:
            value = None
            kind = self._sign()
        return kind, self.source[start:self.at], value

    def _word(self) -> Tuple[Kind, str, str]:
        start = self.at
        while self._peek() in _WORD_CHARACTERS:
            self.at += 1
        word = self.source[start:self.at]
        if '__' in word or word.endswith('_'):
            self._refuse('E1', start)
        if self._peek() == '"':
            self._refuse('E2')
        name = normal_form(word)
        is_keyword = name in KEYWORDS or name in LEFT_OUT_KEYWORDS
        return (Kind.KEYWORD if is_keyword else Kind.NAME), name, word

    def _int(self) -> int:
        start = self.at
        base, digits = 10, _DIGITS
        if self._peek() == '0' and self._peek(1) in _BASES:
            base, digits = _BASES[self._peek(1)]
            self.at += 2
        first_digit = self.at
        if self._peek() not in digits:
            self._refuse('E2', start)
        while self._peek() in digits or self._is_separator(digits):
            self.at += 1
        if self._peek() in _WORD_CHARACTERS or self._peek() == '.' and self._peek(1) in _DIGITS:
            self._refuse('E2', start)
        value = int(self.source[first_digit:self.at].replace('_', ''), base)
        if value > LARGEST_INT:
            self._refuse('E3', start)
        return value

    def _is_separator(self, digits: frozenset) -> bool:
        return self._peek() == '_' and self._peek(-1) in digits and self._peek(1) in digits

    def _text(self) -> bytes:
        start = self.at
        if self.source.startswith('"""', start):
            self._refuse('E2')
        self.at += 1
        content = bytearray()
        while self._peek() != '"':
            character = self._peek()
            if character in ('', '\n') or character == '\r' and self._peek(1) == '\n':
                self._refuse('E2', start)
            if character == '\\':
                content.append(self._escape(start))
            elif _is_control(character):
                self._refuse('E1')
            else:
                content.append(ord(character))
                self.at += 1
        self.at += 1
        return bytes(content)

    def _char(self) -> int:
        start = self.at
        self.at += 1
        character = self._peek()
        if character == '\\':
            value = self._escape(start)
        elif character == '\t':
            self._refuse('E1')
        elif character and 32 <= ord(character) <= 126 and character != "'":
            value = ord(character)
            self.at += 1
        else:
            self._refuse('E2', start)
        if self._peek() != "'":
            self._refuse('E2', start)
        self.at += 1
        return value

    def _escape(self, literal: int) -> int:
        """Passes a backslash and what belongs to it; E2 is told where the literal begins."""
        self.at += 1
        character = self._peek()
        if character and character in _ESCAPES:
            self.at += 1
            return _ESCAPES[character]
        if character == 'x':
            digits = self.source[self.at + 1:self.at + 3]
            if len(digits) == 2 and all(digit in string.hexdigits for digit in digits):
                self.at += 3
                return int(digits, 16)
        elif character in _DIGITS:
            first_digit = self.at
            while self._peek() in _DIGITS:
                self.at += 1
            value = int(self.source[first_digit:self.at])
            if value <= 255:
                return value
        self._refuse('E2', literal)

    def _quoted(self) -> str:
        start = self.at
        self.at += 1
        while self._peek() and 0x21 <= ord(self._peek()) <= 0x7e and self._peek() != '`':
            self.at += 1
        if self._peek() != '`' or self.at == start + 1:
            self._refuse('E2', start)
        self.at += 1
        return self.source[start + 1:self.at - 1]

    def _sign(self) -> Kind:
        start = self.at
        character, following = self._peek(), self._peek(1)
        if character == '{' and following == '.' and self._peek(2) != '.' or character == '.' and following == '}':
            self.at += 2
            return Kind.PUNCTUATION
        if character in '()[]{},;':
            self.at += 1
            return Kind.PUNCTUATION
        if character not in _OPERATOR_CHARACTERS:
            self._refuse('E1')
        while self._peek() in _OPERATOR_CHARACTERS:
            # `.}` ends an operator, but not where it stands behind a dot.
            if self._peek() == '.' and self._peek(1) == '}' and (self.at == start or self._peek(-1) != '.'):
                break
            self.at += 1
        return Kind.PUNCTUATION if self.source[start:self.at] in ('=', ':', '.') else Kind.OPERATOR
