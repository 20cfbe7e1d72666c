"""The types of a program (docs/TYPING.md, "Types"). A type is a number, and equal types have equal numbers."""
from __future__ import annotations

from typing import Dict, FrozenSet, List, NamedTuple, Optional, Set, Tuple

LARGEST_SIZE = 1_048_576
LARGEST_LENGTH = 65_536
WORD_SIZE = 4
"""Of an int, and of what has no parts."""
HANDLE_SIZE = 8
"""Of a string or sequence, without what it is made of."""
ORDINALS_AND_STRING = frozenset(['int', 'bool', 'char', 'enum', 'string'])
"""The kinds of types that have a built-in `$`, comparisons and labels."""

INT, BOOL, CHAR, STRING = range(4)
"""The numbers of these types in every table."""


class Form(NamedTuple):
    """How a type is built of others."""
    kind: str
    """'int', 'bool', 'char', 'string', 'seq', 'array', 'tuple', 'enum', 'object', 'distinct', or 'alias': one whose
    section isn't at its end."""
    length: int = 0
    element: Optional[int] = None
    """Of a sequence or array."""
    names: Optional[Tuple[str, ...]] = None
    """Of a tuple whose parts have names; in normal form."""
    parts: Tuple[int, ...] = ()
    declaration: int = 0
    """Of an enum, object, distinct type or alias: its number in the table."""


class DeclaredType:
    """What a type definition says. What isn't known yet is None."""

    def __init__(self) -> None:
        self.members: List[str] = []
        """Of an enum, as they are written."""
        self.fields: Optional[List[Tuple[str, int]]] = None
        self.base: Optional[int] = None
        """Of a distinct type."""
        self.target: Optional[int] = None
        """Of an alias."""


class TypeTable:
    def __init__(self) -> None:
        self.forms = [Form('int'), Form('bool'), Form('char'), Form('string')]
        self.numbers = {form: number for number, form in enumerate(self.forms)}
        self.declared: Dict[int, DeclaredType] = {}
        self._sizes: Dict[int, int] = {}
        self._known: Set[int] = set()
        self._owns_blocks: Dict[int, bool] = {}
        """Asked of a whole program alone."""

    def make(self, form: Form) -> int:
        number = self.numbers.get(form)
        if number is None:
            number = len(self.forms)
            self.forms.append(form)
            self.numbers[form] = number
        return number

    def sequence(self, element: int) -> int:
        return self.make(Form('seq', element=element))

    def array(self, length: int, element: int) -> int:
        return self.make(Form('array', length=length, element=element))

    def tuple(self, names: Optional[Tuple[str, ...]], parts: Tuple[int, ...]) -> int:
        return self.make(Form('tuple', names=names, parts=parts))

    def declare(self, kind: str) -> int:
        """A new type of this kind, that is equal to no other."""
        number = len(self.declared) + 1
        self.declared[number] = DeclaredType()
        return self.make(Form(kind, declaration=number))

    def kind(self, type_number: int) -> str:
        return self.forms[type_number].kind

    def declaration(self, type_number: int) -> DeclaredType:
        return self.declared[self.forms[type_number].declaration]

    def is_sequence(self, type_number: Optional[int]) -> bool:
        return type_number is not None and self.kind(type_number) == 'seq'

    def element(self, type_number: int) -> Optional[int]:
        """That of a string, sequence or array; None of another type."""
        form = self.forms[type_number]
        return CHAR if form.kind == 'string' else form.element

    def base(self, distinct_type: int) -> Optional[int]:
        base = self.declaration(distinct_type).base
        return None if base is None else self.resolved(base)

    def fields(self, object_type: int) -> Optional[List[Tuple[str, int]]]:
        fields = self.declaration(object_type).fields
        return None if fields is None else [(name, self.resolved(field_type)) for name, field_type in fields]

    def is_known(self, type_number: int, within: FrozenSet[int] = frozenset()) -> bool:
        """Whether its definition stands before, and those of all types in it; `within` are the ones around it."""
        if type_number in self._known:
            return True
        form = self.forms[type_number]
        parts = list(form.parts) if form.element is None else [form.element]
        if form.declaration:
            if form.declaration in within:
                return False
            within |= {form.declaration}
            said = self._said_of(form)
            if said is None:
                return False
            parts = said
        if not all(self.is_known(part, within) for part in parts):
            return False
        self._known.add(type_number)
        return True

    def _said_of(self, form: Form) -> Optional[List[int]]:
        """The types that a declared one is made of; None before its definition."""
        declared = self.declared[form.declaration]
        if form.kind == 'enum':
            return [] if declared.members else None
        if form.kind == 'object':
            return None if declared.fields is None else [field_type for _, field_type in declared.fields]
        part = declared.base if form.kind == 'distinct' else declared.target
        return None if part is None else [part]

    def owns_blocks(self, type_number: int) -> bool:
        """Whether it is, or has as parts, strings or sequences."""
        if type_number not in self._owns_blocks:
            form = self.forms[self.resolved(type_number)]
            parts = list(form.parts)
            if form.kind == 'array':
                parts = [form.element]
            elif form.kind == 'object':
                parts = [field_type for _, field_type in self.fields(self.resolved(type_number))]
            elif form.kind == 'distinct':
                parts = [self.base(self.resolved(type_number))]
            self._owns_blocks[type_number] = form.kind in ('string', 'seq') or any(map(self.owns_blocks, parts))
        return self._owns_blocks[type_number]

    def resolved(self, type_number: int, within: Tuple[int, ...] = ()) -> int:
        """The type with each alias in it replaced by what it names, as far as that is known; `within` are the aliases
        that are being replaced, since one may reach itself."""
        form = self.forms[type_number]
        if form.kind == 'alias':
            target = self.declared[form.declaration].target
            if target is None or form.declaration in within:
                return type_number
            return self.resolved(target, within + (form.declaration,))
        if form.kind in ('seq', 'array'):
            return self.make(form._replace(element=self.resolved(form.element, within)))
        if form.kind == 'tuple':
            return self.make(form._replace(parts=tuple(self.resolved(part, within) for part in form.parts)))
        return type_number

    def size(self, type_number: int) -> int:
        """In bytes; that of a word for a type that isn't known yet."""
        if type_number not in self._sizes:
            size = self._known_size(type_number)
            if size is None:
                return WORD_SIZE
            self._sizes[type_number] = size
        return self._sizes[type_number]

    def forget_sizes(self) -> None:
        """At a section's end, where types become known."""
        self._sizes = {}

    def _known_size(self, type_number: int) -> Optional[int]:
        form = self.forms[type_number]
        if form.kind in ('int', 'bool', 'char', 'enum'):
            return WORD_SIZE
        if form.kind in ('string', 'seq'):
            return HANDLE_SIZE
        if form.kind == 'array':
            return form.length * self.size(form.element)
        if form.kind == 'tuple':
            return sum(self.size(part) for part in form.parts) or WORD_SIZE
        if form.kind == 'object':
            fields = self.fields(type_number)
            return None if fields is None else sum(self.size(field_type) for _, field_type in fields) or WORD_SIZE
        if form.kind == 'distinct':
            base = self.base(type_number)
            return None if base is None else self.size(base)
        target = self.resolved(type_number)
        return None if target == type_number else self.size(target)
