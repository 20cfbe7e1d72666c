"""Values that own blocks: texts, sequences and what has them as parts; how they are copied, assigned and ended.

A text or sequence is its contents beside a block, which has a size alone. A value that is copied has new blocks. What a literal
says has none, as long as it is only read.
"""
from __future__ import annotations

from typing import Any, Dict, List, Optional, Tuple, Union

from evaluate import ConstantEvaluator, Evaluator, copy_of
from heap import Block, Heap
from type_table import TypeTable

Location = Tuple[Any, Any]
"""A list or the bytes of a text, and an index: the place of a value. A variable is a list of one."""


class Text:
    def __init__(self, content: bytes = b'', block: Optional[Block] = None):
        self.content = bytearray(content)
        self.block = block


class Sequence:
    def __init__(self, elements: List[Any], block: Optional[Block] = None):
        self.elements = elements
        self.block = block


Handle = Union[Text, Sequence]


def elements_of(value: Any) -> Any:
    """What can be indexed of a text, sequence or array."""
    if isinstance(value, (Text, Sequence)) and value.block is not None and not value.block.is_live:
        raise AssertionError('the contents of a block that was given back are read')
    if isinstance(value, Text):
        return value.content
    return value.elements if isinstance(value, Sequence) else value


def plain(value: Any) -> Any:
    """A text as bytes, as constants and labels have it; other values as they are."""
    return bytes(elements_of(value)) if isinstance(value, Text) else value


class Owner(Evaluator):
    """Acts on values by their types. Each takes and gives back blocks in the order of parts."""

    def __init__(self, types: TypeTable, heap: Heap):
        super().__init__(types)
        self.heap = heap
        self.constants = ConstantEvaluator(types)
        self.plain_defaults: Dict[int, Any] = {}

    # Types

    def stripped(self, type_number: int) -> int:
        """The type that a distinct one is made of."""
        type_number = self.types.resolved(type_number)
        while self.types.kind(type_number) == 'distinct':
            type_number = self.types.base(type_number)
        return type_number

    def is_handle(self, type_number: int) -> bool:
        return self.types.kind(self.stripped(type_number)) in ('string', 'seq')

    def part_types_of(self, type_number: int) -> List[int]:
        """Of an array, tuple or object."""
        type_number = self.stripped(type_number)
        form = self.types.forms[type_number]
        if form.kind == 'array':
            return [form.element] * form.length
        if form.kind == 'object':
            return [part for _, part in self.types.fields(type_number)]
        return list(form.parts)

    def owns_blocks(self, type_number: Optional[int]) -> bool:
        """Whether values of the type are, or have as parts, texts or sequences."""
        return type_number is not None and self.types.owns_blocks(self.stripped(type_number))

    def element_of(self, type_number: int) -> int:
        return self.types.element(self.stripped(type_number))

    def bytes_of_elements(self, type_number: int, count: int) -> int:
        """What so many elements of a sequence of this type take."""
        return count * self.types.size(self.types.resolved(self.element_of(type_number)))

    # New values

    def default(self, type_number: int) -> Any:
        type_number = self.stripped(type_number)
        kind = self.types.kind(type_number)
        if kind == 'string':
            return Text()
        if kind == 'seq':
            return Sequence([])
        if self.owns_blocks(type_number):
            return [self.default(part_type) for part_type in self.part_types_of(type_number)]
        if type_number not in self.plain_defaults:
            self.plain_defaults[type_number] = self.constants.default(type_number)
        return copy_of(self.plain_defaults[type_number])

    def defaults(self, type_number: int, count: int) -> List[Any]:
        first = self.default(type_number)
        if isinstance(first, int):
            return [first] * count
        return [self.default(type_number) for _ in range(count)]

    def new_text(self, content: bytes) -> Text:
        return Text(content, self.heap.take(len(content)))

    def new_sequence(self, type_number: int, elements: List[Any]) -> Sequence:
        """Of these elements, which it gets."""
        return Sequence(elements, self.heap.take(self.bytes_of_elements(type_number, len(elements))))

    def standing(self, value: Any, type_number: int) -> Any:
        """A constant where it is only read: it has no blocks."""
        type_number = self.stripped(type_number)
        kind = self.types.kind(type_number)
        if kind == 'string':
            return Text(value)
        if kind == 'seq':
            return Sequence([self.standing(part, self.element_of(type_number)) for part in value])
        if not self.owns_blocks(type_number):
            return copy_of(value)
        return [self.standing(part, part_type) for part, part_type in zip(value, self.part_types_of(type_number))]

    def copied(self, value: Any, type_number: int) -> Any:
        """A copy for a new place. A sequence takes its block before those of its elements."""
        type_number = self.stripped(type_number)
        kind = self.types.kind(type_number)
        if kind == 'string':
            return self.new_text(bytes(elements_of(value)))
        if kind == 'seq':
            element_type = self.element_of(type_number)
            new = self.new_sequence(type_number, list(elements_of(value)))
            new.elements = [self.copied(element, element_type) for element in new.elements]
            return new
        if not self.owns_blocks(type_number):
            return copy_of(value)
        return [self.copied(part, part_type) for part, part_type in zip(value, self.part_types_of(type_number))]

    # Places

    def assign_copy(self, place: Location, value: Any, type_number: int) -> None:
        """Each part is copied, put in its place, and what stood there ended, before the next part."""
        container, key = place
        if self.is_handle(type_number):
            old, container[key] = container[key], self.copied(value, type_number)
            self.end(old, type_number)
        elif not self.owns_blocks(type_number):
            container[key] = copy_of(value)
        else:
            for number, part_type in enumerate(self.part_types_of(type_number)):
                self.assign_copy((container[key], number), value[number], part_type)

    def assign_moved(self, place: Location, value: Any, type_number: int) -> None:
        """The same of a value that nobody else has: it goes into the place itself."""
        container, key = place
        if self.is_handle(type_number):
            old, container[key] = container[key], value
            self.end(old, type_number)
        elif not self.owns_blocks(type_number):
            container[key] = value
        else:
            for number, part_type in enumerate(self.part_types_of(type_number)):
                self.assign_moved((container[key], number), value[number], part_type)

    def end(self, value: Any, type_number: int) -> None:
        """Parts end in order, and a sequence gives its block back behind its elements."""
        type_number = self.stripped(type_number)
        if not self.owns_blocks(type_number):
            return
        if self.types.kind(type_number) == 'seq' and self.owns_blocks(self.element_of(type_number)):
            for element in value.elements:
                self.end(element, self.element_of(type_number))
        if self.is_handle(type_number):
            self.heap.give(value.block)
            return
        for part, part_type in zip(value, self.part_types_of(type_number)):
            self.end(part, part_type)

    def make_room(self, owner: Handle, payload: int) -> None:
        """A block that holds so many bytes. A new one is taken before the old one is given back."""
        if payload == 0 or owner.block is not None and owner.block.room() >= payload:
            return
        new = self.heap.take(payload)
        self.heap.give(owner.block)
        owner.block = new
