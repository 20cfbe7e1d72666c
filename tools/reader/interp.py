"""What a typed program does: its status, what it writes, what it takes of the heap, and how it ends."""
from __future__ import annotations

import enum
import sys
import threading
from typing import Any, Callable, Dict, Iterator, List, NamedTuple, Optional, Sequence as Listed, Tuple

import tree
from check import Program
from evaluate import Trap, in_range
from heap import LARGEST_HEAP, Event, Heap
from meanings import Procedure, Variable
from operands import Frame, is_path
from operations import OUT, Operations, Quit
from owned import Location, elements_of

CALL_DEPTH = 2_000
STATUS_OF_TRAP = 1
ERR = 2

RECURSION_LIMIT = 1_000_000
STACK_BYTES = 1 << 29


class Outcome(NamedTuple):
    status: Optional[int]
    """None where the units are spent."""
    out: bytes
    err: bytes
    demand: int
    live: List[Tuple[int, int]]
    """The sizes of the blocks that are live at the end, with their numbers; the smallest size first."""
    events: List[Event]
    refused: Optional[int]
    """The size of the block for which there was no room."""


class Flow(enum.Enum):
    """How a block ends, but by its end."""
    BREAK = enum.auto()
    CONTINUE = enum.auto()
    RETURN = enum.auto()


class UnitsSpent(Exception):
    pass


def run(program: Program, units: int = 10 ** 9, standard_input: bytes = b'', heap: int = LARGEST_HEAP) -> Outcome:
    """A unit is a pass of a loop or a call of a procedure. Needs a deep stack: see `with_deep_stack`."""
    return Interpreter(program, units, standard_input, heap).run()


def with_deep_stack(action: Callable[[], Any]) -> Any:
    """Carries it out in a thread whose stack is deep enough for the deepest calls."""
    results = []
    sys.setrecursionlimit(RECURSION_LIMIT)
    threading.stack_size(STACK_BYTES)
    thread = threading.Thread(target=lambda: results.append(action()))
    thread.start()
    thread.join()
    if not results:
        raise SystemExit('stopped by the error above')
    return results[0]


class Interpreter(Operations):
    def __init__(self, program: Program, units: int, standard_input: bytes, heap: int):
        super().__init__(program.types, Heap(heap))
        self.program = program
        self.units = units
        self.input = standard_input
        self.depth = 0
        self.globals_begun: List[Variable] = []
        self.scopes: List[List[Variable]] = []
        """Of each block that is carried out, the variables that it has to end."""

    def run(self) -> Outcome:
        """Globals end at a normal end alone."""
        status: Optional[int] = 0
        try:
            for statement in self.program.statements:
                self.group(lambda: self.statement(statement))
            self.end_variables(self.globals_begun)
        except Quit as end:
            status = end.status
        except Trap as trap:
            status = STATUS_OF_TRAP
            self.heap.write(ERR, b'Error: %s\n' % trap.text.encode())
        except UnitsSpent:
            status = None
        heap = self.heap
        return Outcome(status, self.written(OUT), self.written(ERR), heap.demand(), heap.live_blocks(), heap.events, heap.refused)

    def written(self, stream: int) -> bytes:
        return b''.join(event[2] for event in self.heap.events if event[0] == 'write' and event[1] == stream)

    def spend_unit(self) -> None:
        if self.units == 0:
            raise UnitsSpent
        self.units -= 1

    # Scopes

    def block(self, statements: tree.Block, begun: Listed[Variable] = ()) -> Optional[Flow]:
        """Its variables end behind it, however it is left, and then those that were begun for it."""
        self.scopes.append(list(begun))
        flow = None
        for statement in statements:
            flow = self.group(lambda: self.statement(statement))
            if flow is not None:
                break
        self.end_variables(self.scopes.pop())
        return flow

    def end_variables(self, variables: List[Variable]) -> None:
        """The last one first."""
        for variable in reversed(variables):
            container, key = self.locations(variable)[variable]
            self.end(container[key], variable.type)

    # Calls

    def enter(self, procedure: Procedure, values: List[Any], written: Dict[int, Location]) -> Any:
        """Calls it; of `var` parameters the locations stand in `written`. A `sink` parameter is ended here, a plain one by
        who calls."""
        self.spend_unit()
        if self.depth == CALL_DEPTH:
            raise Trap('call depth limit')
        self.depth += 1
        caller = self.frame
        self.frame = Frame(procedure)
        for number, variable in enumerate(procedure.variables):
            self.frame.locations[variable] = written[number] if number in written else ([values[number]], 0)
        if procedure.result is not None:
            self.start(procedure.result, self.default(procedure.result_type))
        self.block(procedure.body, [variable for variable in procedure.variables if variable.mode == 'sink parameter'])
        result = None
        if procedure.result is not None:
            container, key = self.frame.locations[procedure.result]
            result = container[key]
        self.frame = caller
        self.depth -= 1
        return result

    def give(self, value: tree.Expression) -> None:
        """The procedure's result is the value. One that is given as itself stays as it is."""
        inner = tree.without_parentheses(value)
        result = self.frame.procedure.result
        if not isinstance(inner, tree.Name) or inner.declaration is not result:
            place = self.frame.locations[result]
            self.assign(lambda: place, inner, result.type)

    # Statements

    def statement(self, statement: tree.Statement) -> Optional[Flow]:
        if isinstance(statement, tree.ExpressionStatement):
            if statement.expression.type is not None:
                self.give(statement.expression)
            else:
                self.without_value(statement.expression)
        elif isinstance(statement, tree.Discard):
            if statement.value is not None:
                self.without_value(statement.value)
        elif isinstance(statement, tree.Definitions):
            if statement.word != 'const':
                self.definitions(statement)
        elif isinstance(statement, tree.Assignment):
            self.assignment(statement)
        elif isinstance(statement, tree.If):
            return self.if_statement(statement)
        elif isinstance(statement, tree.Case):
            return self.block(self.chosen(statement) or [])
        elif isinstance(statement, tree.While):
            return self.while_loop(statement)
        elif isinstance(statement, tree.For):
            return self.for_loop(statement)
        elif isinstance(statement, tree.Break):
            return Flow.BREAK
        elif isinstance(statement, tree.Continue):
            return Flow.CONTINUE
        elif isinstance(statement, tree.Return):
            if statement.value is not None:
                self.give(statement.value)
            return Flow.RETURN
        return None

    def definitions(self, statement: tree.Definitions) -> None:
        for definition in statement.definitions:
            for variable in definition.variables:
                self.group(lambda: self.define(variable, definition.value))

    def define(self, variable: Variable, value: Optional[tree.Expression]) -> None:
        self.start(variable, self.default(variable.type) if value is None else self.evaluate(value))
        (self.globals_begun if variable.is_global else self.scopes[-1]).append(variable)

    def assignment(self, statement: tree.Assignment) -> None:
        if statement.operator == '&=':
            self.add_text(statement.left, statement.right)
            return
        if statement.operator == '=' and self.is_same_path(statement.left, statement.right):
            return
        lazy = self.locate(statement.left)
        if statement.operator == '=':
            self.assign(lazy, statement.right, statement.left.type)
            return
        value = self.evaluate(statement.right)
        container, key = lazy()
        if statement.operator == '+=':
            container[key] = in_range(container[key] + value)
        elif statement.operator == '-=':
            container[key] = in_range(container[key] - value)
        else:
            container[key] = in_range(container[key] * value)

    def assign(self, lazy: Callable[[], Location], value: tree.Expression, type_number: int) -> None:
        """A path is looked up, then the place, and then it is copied part by part into the place."""
        if is_path(value):
            container, key = self.locate(value)()
            self.assign_copy(lazy(), container[key], type_number)
        else:
            new = self.evaluate(value)
            self.assign_moved(lazy(), new, type_number)

    def if_statement(self, statement: tree.If) -> Optional[Flow]:
        for condition, block in statement.branches:
            if self.group(lambda: self.evaluate(condition)):
                return self.block(block)
        return self.block(statement.otherwise or [])

    def while_loop(self, statement: tree.While) -> Optional[Flow]:
        while self.group(lambda: self.evaluate(statement.condition)):
            flow = self.loop_pass(statement.body, [])
            if flow in (Flow.BREAK, Flow.RETURN):
                return _behind_loop(flow)
        return None

    def for_loop(self, statement: tree.For) -> Optional[Flow]:
        """`begun` is the variable where it owns what it has."""
        variable = statement.variable
        for place, begun in self.places_of(statement):
            self.frame.locations[variable] = place
            flow = self.loop_pass(statement.body, begun)
            if flow in (Flow.BREAK, Flow.RETURN):
                return _behind_loop(flow)
        return None

    def places_of(self, statement: tree.For) -> Iterator[Tuple[Location, List[Variable]]]:
        """The ints of a range, or the elements, each as it is when its pass begins: those of a path are copied for the pass,
        those of a value stay where they are."""
        variable = statement.variable
        if statement.right is not None:
            first = self.evaluate(statement.left)
            last = self.evaluate(statement.right)
            for number in range(first, last + 1 if statement.operator == '..' else last):
                yield ([number], 0), []
            return
        if not is_path(statement.left):
            elements = elements_of(self.beginning(statement.left))
            for number in range(len(elements)):
                yield (elements, number), []
            return
        lazy = self.locate(statement.left)
        container, key = lazy()
        length = len(elements_of(container[key]))
        for number in range(length):
            container, key = lazy()
            elements = elements_of(container[key])
            if len(elements) != length:
                raise Trap('length changed')
            yield ([self.copied(elements[number], variable.type)], 0), [variable]

    def loop_pass(self, body: tree.Block, begun: List[Variable]) -> Optional[Flow]:
        self.spend_unit()
        return self.block(body, begun)


def _behind_loop(flow: Flow) -> Optional[Flow]:
    """A `break` ends its loop alone."""
    return flow if flow is Flow.RETURN else None
