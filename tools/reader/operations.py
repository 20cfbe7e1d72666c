"""The built-in operations of a running program."""
from __future__ import annotations

from typing import Any, List

import tree
from evaluate import Trap, bytes_of, in_range
from meanings import BUILT_IN_DOLLAR, NEW_SEQ, READ_LINE, SET_LEN, BuiltInCall, Procedure
from operands import Operands
from owned import Sequence, Text, elements_of, plain
from tree import without_parentheses
from type_table import STRING

STATUS_MASK = 255
OUT = 1


class Quit(Exception):
    def __init__(self, status: int):
        super().__init__(status)
        self.status = status


class Operations(Operands):
    """Of a place that is written the indexes are evaluated in their turn, and it is looked up behind all operands."""

    input = b''
    """What is left of standard input."""

    def built_in(self, expression: tree.Expression, meaning: BuiltInCall) -> Any:
        arguments = meaning.arguments
        name = meaning.name
        if name in ('len', 'high'):
            return self.measured(arguments[0]) - (1 if name == 'high' else 0)
        if name in ('inc', 'dec'):
            return self.step(arguments, 1 if name == 'inc' else -1)
        if name == 'add':
            return self.add(*arguments)
        if name == SET_LEN:
            return self.set_length(*arguments)
        if name == NEW_SEQ:
            return self.sequence_of_defaults(expression.type, self.evaluate(arguments[0]))
        if name == READ_LINE:
            return self.read_line(arguments[1])
        if name == 'default':
            return self.default(expression.type)
        if name == 'pop':
            return self.pop(arguments[0])
        if name == 'move':
            container, key = self.locate(arguments[0])()
            value, container[key] = container[key], self.default(expression.type)
            return value
        if name == 'swap':
            return self.swap(*arguments)
        if name == 'quit':
            raise Quit(self.evaluate(arguments[0]) & STATUS_MASK if arguments else 0)
        if name == 'echo':
            return self.echo(meaning)
        return super().built_in(expression, meaning)

    def echo(self, meaning: BuiltInCall) -> None:
        """All arguments are evaluated before anything is written."""
        values = []
        for argument, shown in zip(meaning.arguments, meaning.shown):
            if isinstance(shown, Procedure):
                values.append((self.temporary(self.dollar_of(shown, argument), STRING), STRING))
            else:
                values.append((self.read(argument), argument.type))
        texts = [self.dollar(BUILT_IN_DOLLAR, plain(value), type_number) for value, type_number in values]
        self.heap.write(OUT, b''.join(texts) + b'\n')

    def step(self, arguments: List[tree.Expression], sign: int) -> None:
        lazy = self.locate(arguments[0])
        distance = self.evaluate(arguments[1]) if len(arguments) > 1 else 1
        container, key = lazy()
        container[key] = in_range(container[key] + sign * distance)

    def swap(self, left: tree.Expression, right: tree.Expression) -> None:
        first, second = self.locate(left), self.locate(right)
        (container, key), (other_container, other_key) = first(), second()
        value = container[key]
        container[key] = other_container[other_key]
        other_container[other_key] = value

    # Texts and sequences that grow and shrink

    def add(self, left: tree.Expression, right: tree.Expression) -> None:
        if left.type == STRING:
            self.add_text(left, right)
            return
        lazy = self.locate(left)
        value = self.evaluate(right)
        container, key = lazy()
        sequence: Sequence = container[key]
        elements = elements_of(sequence)
        self.make_room(sequence, self.bytes_of_elements(left.type, len(elements) + 1))
        elements.append(value)

    def add_text(self, left: tree.Expression, right: tree.Expression) -> None:
        """Also of `&=`."""
        lazy = self.locate(left)
        added = bytes_of(plain(self.read(right)))
        container, key = lazy()
        self.extend(container[key], added)

    def extend(self, text: Text, added: bytes) -> None:
        content = elements_of(text)
        self.make_room(text, len(content) + len(added))
        content.extend(added)

    def set_length(self, path: tree.Expression, length: tree.Expression) -> None:
        """The block stays where elements are removed."""
        lazy = self.locate(path)
        count = self.evaluate(length)
        container, key = lazy()
        if count < 0:
            raise Trap('value out of range')
        owner = container[key]
        elements = elements_of(owner)
        missing = count - len(elements)
        if path.type == STRING:
            self.make_room(owner, count if missing > 0 else 0)
            elements[count:] = bytes(max(missing, 0))
            return
        if missing > 0:
            self.make_room(owner, self.bytes_of_elements(path.type, count))
            elements.extend(self.defaults(self.element_of(path.type), missing))
            return
        removed = elements[count:]
        del elements[count:]
        for element in removed:
            self.end(element, self.element_of(path.type))

    def sequence_of_defaults(self, type_number: int, count: int) -> Sequence:
        if count < 0:
            raise Trap('value out of range')
        block = self.heap.take(self.bytes_of_elements(type_number, count))
        return Sequence(self.defaults(self.element_of(type_number), count), block)

    def pop(self, path: tree.Expression) -> Any:
        container, key = self.locate(path)()
        elements = elements_of(container[key])
        if not elements:
            raise Trap('index out of bounds')
        return elements.pop()

    # Input

    def read_line(self, path: tree.Expression) -> bool:
        """A new text is read character by character and then assigned."""
        place = self.locate(path)()
        if not self.input:
            return False
        line, line_end, self.input = self.input.partition(b'\n')
        if line_end and line.endswith(b'\r'):
            line = line[:-1]
        new = Text()
        for char in line:
            self.extend(new, bytes([char]))
        self.assign_moved(place, new, without_parentheses(path).type)
        return True
