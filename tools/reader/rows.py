"""Reads files of rows, as docs/ROWS.md describes them."""
from __future__ import annotations

import re
from pathlib import Path
from typing import Dict, Iterator, List, NamedTuple

REPOSITORY = Path(__file__).resolve().parents[2]
DATA = REPOSITORY / 'crates' / 'rows' / 'data'
WAITING = REPOSITORY / 'tools' / 'reader' / 'waiting'
"""Rows of what isn't built yet."""

_TITLE = '=== '
_PART = '--- '
_COLUMN = ' => '
_ESCAPES = {'n': '\n', 'r': '\r', 't': '\t', '\\': '\\', '}': '}', '\n': ''}


class Row(NamedTuple):
    path: Path
    line: int
    """Of a table the row's own line, else that of the title."""
    parts: Dict[str, str]

    def __str__(self) -> str:
        return '%s:%d' % (self.path.name, self.line)


def files_of(name: str) -> List[Path]:
    """The file of rows of that name, or those in the folder of that name, in order of their names."""
    file = DATA / (name + '.rows')
    return [file] if file.exists() else sorted((DATA / name).glob('*.rows'))


def read(path: Path) -> List[Row]:
    """All rows of a file, one character for a byte (Latin-1)."""
    return list(_Reader(path).rows())


def unescaped(text: str) -> str:
    result = []
    at = 0
    while at < len(text):
        escape = text[at + 1:at + 2]
        if text[at] != '\\' or not escape:
            result.append(text[at])
            at += 1
        elif escape == 'x':
            result.append(chr(int(text[at + 2:at + 4], 16)))
            at += 4
        elif escape == '*':
            times = re.compile(r'\d+').match(text, at + 2)
            first = times.end() + 1
            last = _end_of_braces(text, first)
            result += [unescaped(_repeated(text[first:last], time)) for time in range(int(times.group()))]
            at = last + 1
        elif escape in _ESCAPES:
            result.append(_ESCAPES[escape])
            at += 2
        else:
            result.append('\\')
            at += 1
    return ''.join(result)


def _end_of_braces(text: str, at: int) -> int:
    """Where the brace stands that ends a repeated text; such texts don't nest."""
    while text[at] != '}':
        at += 2 if text[at] == '\\' else 1
    return at


def _repeated(text: str, time: int) -> str:
    """What a repeated text is at this time, counted from 0; other escapes stay."""
    replaced = {'\\i': ' ' * time, '\\#': str(time)}
    return re.sub(r'\\.', lambda escape: replaced.get(escape.group(), escape.group()), text, flags=re.DOTALL)


class _Reader:
    def __init__(self, path: Path):
        self.path = path
        self.lines = path.read_bytes().decode('latin-1').split('\n')
        self.at = 0
        self.title_line = 0
        self.parts: Dict[str, str] = {}
        self.words: List[str] = []
        """Those of `each` that the next table is repeated for."""

    def rows(self) -> Iterator[Row]:
        while self.at < len(self.lines):
            line = self.lines[self.at]
            self.at += 1
            if line.startswith(_TITLE):
                yield from self.finished()
                self.title_line = self.at
                self.words = []
            elif line == _PART + 'each':
                self.words = ' '.join(self.body()).split()
            elif line.startswith(_PART) and _COLUMN in line:
                yield from self.table(line[len(_PART):].split(_COLUMN))
                self.words = []
            elif line.startswith(_PART):
                self.part(line[len(_PART):])
        yield from self.finished()

    def finished(self) -> Iterator[Row]:
        """The row of parts that ends here, if there is one."""
        if self.parts:
            yield Row(self.path, self.title_line, self.parts)
        self.parts = {}

    def body(self) -> List[str]:
        """The lines up to the next part or title."""
        first = self.at
        while self.at < len(self.lines) and not self.lines[self.at].startswith(('---', '===')):
            self.at += 1
        return self.lines[first:self.at]

    def table(self, columns: List[str]) -> Iterator[Row]:
        first_line = self.at + 1
        for number, line in enumerate(self.body(), first_line):
            if not line or line.startswith('#'):
                continue
            for word in self.words or ['\\w']:
                cells = [unescaped(cell.replace('\\w', word)) for cell in line.split(_COLUMN)]
                if len(cells) > len(columns):
                    raise ValueError('%s:%d: too many cells' % (self.path.name, number))
                cells += [''] * (len(columns) - len(cells))
                yield Row(self.path, number, dict(zip(columns, cells)))

    def part(self, name: str) -> None:
        body = self.body()
        while body and not body[-1]:
            body.pop()
        text = ''.join(line + '\n' for line in body)
        if name.startswith('escaped '):
            name = name[len('escaped '):]
            text = unescaped(text)
        self.parts[name] = text
