"""What names and calls mean: check.py notes it in the tree, evaluate.py and interp.py go by it."""
from __future__ import annotations

from typing import TYPE_CHECKING, Any, List, NamedTuple, Optional, Sequence, Set, Union

from scan import Position, normal_form

if TYPE_CHECKING:
    import tree


READ_LINE = normal_form('readLine')
NEW_SEQ = normal_form('newSeq')
SET_LEN = normal_form('setLen')


class Variable:
    """`mode` says what it was declared by: 'let', 'var', 'for', 'result', 'parameter', 'var parameter' or
    'sink parameter'."""

    def __init__(self, name: str, mode: str, type_number: int, is_global: bool = False):
        self.name = name
        self.mode = mode
        self.type = type_number
        self.is_global = is_global

    def can_be_written(self) -> bool:
        return self.mode in ('var', 'result', 'var parameter', 'sink parameter')


class Constant(NamedTuple):
    """Of a `const` or a member of an enum; the value is as evaluate.py says."""
    type: int
    value: Any


class TypeName(NamedTuple):
    type: Optional[int]
    """None of `seq` and `array`."""
    constructor: str = ''
    """'seq' or 'array'."""


class PendingType:
    """A type of a section that isn't known yet, in a length."""


class Operation(NamedTuple):
    """What is built in under a name, in normal form."""
    name: str


BUILT_IN_DOLLAR = Operation('$')


class StandardInput:
    """What `stdin` means."""


class Procedure:
    def __init__(self, parameters: List[int], modes: List[str], result_type: Optional[int], is_borrowed: bool,
                 position: Position, globals_before: int):
        self.parameters = parameters
        """Their types."""
        self.modes = modes
        """'', 'var' or 'sink', of each parameter."""
        self.result_type = result_type
        self.is_borrowed = is_borrowed
        self.position = position
        self.globals_before = globals_before
        """How many globals the module declares before the first declaration."""
        self.globals_before_body: Optional[int] = None
        self.body: Optional[tree.Block] = None
        self.variables: List[Variable] = []
        """The parameters."""
        self.result: Optional[Variable] = None
        self.named_globals: Set[Variable] = set()
        self.called: Set[Procedure] = set()
        """Both of its body, without what the called procedures name and call."""


Overloads = List[Procedure]
"""The visible procedures of one name."""

Declaration = Union[Variable, Constant, TypeName, PendingType, Operation, StandardInput, Overloads]


class ProcedureCall(NamedTuple):
    procedure: Procedure
    arguments: List[tree.Expression]


class BuiltInCall(NamedTuple):
    name: str
    """In normal form; of `low(int)` and `high(int)` 'low int' and 'high int'."""
    arguments: List[tree.Expression]
    shown: Sequence[Union[Operation, Procedure]] = ()
    """What `echo` calls for each argument."""


class DollarCall(NamedTuple):
    """`` `$`(x) ``"""
    shown: Union[Operation, Procedure]
    argument: tree.Expression


class Conversion(NamedTuple):
    argument: tree.Expression
    to_enum: bool


class EmptyConstruction:
    """`T()` of an object type."""


Meaning = Union[ProcedureCall, BuiltInCall, DollarCall, Conversion, EmptyConstruction]
