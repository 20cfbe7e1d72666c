"""The parts that random programs of texts and sequences are made of: random_owned.py puts them together."""
from __future__ import annotations

import random
from typing import Callable, Dict, List, NamedTuple, Optional, Tuple

HEAD = '''type
  Person = object
    name: string
    age: int
    tags: seq[string]
  Team = object
    lead: Person
    names: array[2, string]
  Mark = distinct string
  Row = distinct seq[int]
  Pair = tuple[text: string, number: int]
proc `==`(a, b: Mark): bool {.borrow.}
proc `$`(m: Mark): string {.borrow.}
proc `$`(p: Person): string = p.name & ":" & $p.age & "#" & $p.tags.len
const
  word = "const"
  list = ["p", "", "a longer constant text"]
  rows = @[@["u", "v"], @[]]
'''

FIELDS: Dict[str, List[Tuple[str, str]]] = {
    'Person': [('name', 'string'), ('age', 'int'), ('tags', 'seq[string]')],
    'Team': [('lead', 'Person'), ('names', 'array[2, string]')],
    'Pair': [('text', 'string'), ('number', 'int')],
}
ELEMENTS = {'string': 'char', 'seq[string]': 'string', 'seq[int]': 'int', 'seq[seq[string]]': 'seq[string]',
            'array[2, string]': 'string', 'seq[Person]': 'Person', 'seq[Pair]': 'Pair', 'seq[array[2, string]]': 'array[2, string]'}
DISTINCT = {'Mark': 'string', 'Row': 'seq[int]'}
SEQUENCES = [name for name in ELEMENTS if name.startswith('seq')]
OWNING = [*ELEMENTS, *FIELDS, *DISTINCT]
TYPES = OWNING + ['string'] * 6 + ['seq[string]'] * 4 + ['int', 'bool', 'char']
LENGTHS = [0, 0, 1, 1, 2, 3, 5, 7, 8, 9, 12, 24, 25, 56, 57]
COUNTS = [0, 1, 1, 2, 2, 3, 4, 6, 7]
TEXT_INDEXES = ['P.len - 1', 'P.len div 2']
WRONG_INDEXES = ['-1']
LARGEST_CHAR = 255
MOST_LEVELS = 4


class Variable(NamedTuple):
    name: str
    type: str
    is_written: bool


class Procedure(NamedTuple):
    name: str
    parameters: List[Tuple[str, str]]
    """Mode and type of each."""
    result: Optional[str]


class Scope:
    def __init__(self, variables: List[Variable], procedures: List[Procedure], result: Optional[str] = None,
                 in_loop: bool = False, in_procedure: bool = False):
        self.variables = list(variables)
        self.procedures = procedures
        self.result = result
        self.in_loop = in_loop
        self.in_procedure = in_procedure

    def inner(self, in_loop: bool = False) -> Scope:
        return Scope(self.variables, self.procedures, self.result, self.in_loop or in_loop, self.in_procedure)


class ExpressionMaker:
    """`level` is how many expressions stand around the one that is made."""

    def __init__(self, generator: random.Random):
        self.random = generator
        self.names = 0

    def new_name(self) -> str:
        self.names += 1
        return 'v%d' % self.names

    def text_literal(self) -> str:
        return '"%s"' % ''.join(self.random.choice('abcde ') for _ in range(self.random.choice(LENGTHS)))

    def literal(self, type_name: str) -> str:
        """A small value without variables."""
        if type_name == 'int':
            return str(self.random.choice([0, 1, 2, 3, 7, 40]))
        if type_name == 'bool':
            return self.random.choice(['true', 'false'])
        if type_name == 'char':
            return "'%s'" % self.random.choice('abcxyz')
        if type_name == 'string':
            return self.text_literal()
        if type_name in DISTINCT:
            return '%s(%s)' % (type_name, self.literal(DISTINCT[type_name]))
        return 'default(%s)' % type_name

    # Paths

    def paths(self, scope: Scope, wanted: str, is_written: bool) -> List[Tuple[str, List[str]]]:
        """Paths of the type, each with the conditions under which its indexes are in their bounds."""
        found = []
        for variable in scope.variables:
            if variable.is_written or not is_written:
                self.steps(variable.name, variable.type, wanted, [], found, 0)
        return found

    def steps(self, path: str, type_name: str, wanted: str, guards: List[str], found: list, depth: int) -> None:
        if type_name == wanted:
            found.append((path, guards))
        if depth == 3:
            return
        for field, field_type in FIELDS.get(type_name, []):
            self.steps('%s.%s' % (path, field), field_type, wanted, guards, found, depth + 1)
        if type_name in ELEMENTS and (wanted == 'char' or type_name != 'string'):
            index = self.random.choice(['0', '0', '1', '1', path + '.high'])
            if type_name == 'string':
                index = self.random.choice([index, index, *TEXT_INDEXES, *WRONG_INDEXES[:self.random.random() < .05]]).replace('P', path)
            guard = [] if index in WRONG_INDEXES or type_name.startswith('array') and index in '01' else \
                ['%s.len > %s' % (path, index if index in '01' else '0')]
            self.steps('%s[%s]' % (path, index), ELEMENTS[type_name], wanted, guards + guard, found, depth + 1)

    def path(self, scope: Scope, wanted: str, is_written: bool = False) -> Optional[Tuple[str, List[str]]]:
        found = self.paths(scope, wanted, is_written)
        if not found:
            return None
        path, guards = self.random.choice(found)
        return (path, []) if self.random.random() < .01 else (path, guards)

    # Values

    def value(self, scope: Scope, wanted: str, level: int = 0) -> str:
        """An expression of the type."""
        kinds: List[Callable[[Scope, str, int], Optional[str]]] = [self.from_path, self.from_path, self.from_path, self.fresh]
        if level < MOST_LEVELS:
            kinds += [self.fresh, self.fresh, self.from_call, self.from_branches, self.from_fresh_path, self.moved]
        for _ in range(4):
            made = self.random.choice(kinds)(scope, wanted, level + 1)
            if made is not None:
                return made
        return self.literal(wanted)

    def from_path(self, scope: Scope, wanted: str, level: int) -> Optional[str]:
        found = self.path(scope, wanted)
        if found is None:
            return None
        path, guards = found
        return path if not guards else '(if %s: %s else: %s)' % (' and '.join(guards), path, self.literal(wanted))

    def from_call(self, scope: Scope, wanted: str, level: int) -> Optional[str]:
        fitting = [procedure for procedure in scope.procedures if procedure.result == wanted]
        return self.call(scope, self.random.choice(fitting), level) if fitting else None

    def call(self, scope: Scope, procedure: Procedure, level: int) -> Optional[str]:
        arguments = []
        for mode, type_name in procedure.parameters:
            if mode == 'var':
                found = self.path(scope, type_name, True)
                if found is None or found[1]:
                    return None
                arguments.append(found[0])
            else:
                arguments.append(self.value(scope, type_name, level + 1))
        return '%s(%s)' % (procedure.name, ', '.join(arguments))

    def from_branches(self, scope: Scope, wanted: str, level: int) -> str:
        first, second = self.value(scope, wanted, level + 1), self.value(scope, wanted, level + 1)
        if self.random.random() < .3:
            selected, labels = self.random.choice([('string', '"", "a"'), ('char', "'a', 'x'..'z'")])
            return '(case %s of %s: %s else: %s)' % (self.value(scope, selected, level + 1), labels, first, second)
        return '(if %s: %s else: %s)' % (self.value(scope, 'bool', level + 1), first, second)

    def from_fresh_path(self, scope: Scope, wanted: str, level: int) -> Optional[str]:
        """A path that begins with a value which no variable holds."""
        if wanted == 'string':
            return self.random.choice([
                '%s.name' % self.person(scope, level), '(text: %s, n: 1).text' % self.value(scope, 'string', level + 1),
                'list[%d]' % self.random.randrange(3), 'rows[0][1]', '@[%s][0]' % self.value(scope, 'string', level + 1),
                '[%s, "z"][1]' % self.value(scope, 'string', level + 1)])
        if wanted == 'seq[string]':
            return self.random.choice(['rows[0]', '%s.tags' % self.person(scope, level)])
        return 'word[2]' if wanted == 'char' else None

    def moved(self, scope: Scope, wanted: str, level: int) -> Optional[str]:
        found = self.path(scope, wanted, True)
        if found is None:
            return None
        path, guards = found
        made = 'move(%s)' % path
        holder = 'seq[%s]' % wanted
        if holder in ELEMENTS and self.random.random() < .6:
            sequence = self.path(scope, holder, True)
            if sequence is not None:
                path, guards = sequence[0], sequence[1] + ['%s.len > 0' % sequence[0]]
                made = '%s.pop()' % path
        return made if not guards else '(if %s: %s else: %s)' % (' and '.join(guards), made, self.literal(wanted))

    def person(self, scope: Scope, level: int) -> str:
        fields = ['name: ' + self.value(scope, 'string', level + 1), 'age: ' + self.value(scope, 'int', level + 1),
                  'tags: ' + self.value(scope, 'seq[string]', level + 1)]
        self.random.shuffle(fields)
        return 'Person(%s)' % ', '.join(fields[:self.random.randrange(1, 4)])

    def fresh(self, scope: Scope, wanted: str, level: int) -> Optional[str]:
        inner = lambda type_name: self.value(scope, type_name, level + 1)
        if wanted == 'string':
            return self.random.choice([
                lambda: self.text_literal(), lambda: self.text_literal(), lambda: 'word',
                lambda: '(%s & %s)' % (inner('string'), inner(self.random.choice(['string', 'char']))),
                lambda: '$' + inner(self.random.choice(['int', 'bool', 'char'])), lambda: '$(%s)' % inner('string'),
                lambda: 'string(%s)' % inner('Mark'), lambda: '$(%s)' % inner('Person')])()
        if wanted in DISTINCT:
            return '%s(%s)' % (wanted, inner(DISTINCT[wanted]))
        if wanted == 'seq[int]' and self.random.random() < .2:
            return 'seq[int](%s)' % inner('Row')
        if wanted in SEQUENCES:
            if self.random.random() < .3:
                return 'newSeq[%s](%d)' % (ELEMENTS[wanted], self.random.choice(COUNTS))
            count = self.random.choice(COUNTS[1:5])
            return '@[%s]' % ', '.join(inner(ELEMENTS[wanted]) for _ in range(count))
        if wanted == 'array[2, string]':
            return '[%s, %s]' % (inner('string'), inner('string'))
        if wanted == 'Pair':
            return '(text: %s, number: %s)' % (inner('string'), inner('int'))
        if wanted == 'Person':
            return self.person(scope, level)
        if wanted == 'Team':
            return 'Team(lead: %s, names: %s)' % (inner('Person'), inner('array[2, string]'))
        if wanted == 'int':
            return self.random.choice([
                lambda: '%s.len' % self.measured(scope, level), lambda: '%s.high' % self.measured(scope, level),
                lambda: '(%s + 1)' % inner('int'), lambda: 'ord(%s)' % inner('char')])()
        if wanted == 'bool':
            return self.condition(scope, level)
        if wanted == 'char' and self.random.random() < .4:
            return 'chr(%d - ord(%s))' % (LARGEST_CHAR, inner('char'))
        return self.literal(wanted)

    def measured(self, scope: Scope, level: int) -> str:
        found = self.path(scope, self.random.choice(['string', 'seq[string]', 'seq[int]']))
        if found is not None and not found[1]:
            return found[0]
        return '(%s)' % self.value(scope, self.random.choice(['string', 'seq[string]']), level + 1)

    def condition(self, scope: Scope, level: int) -> str:
        inner = lambda type_name: self.value(scope, type_name, level + 1)
        return self.random.choice([
            lambda: '(%s %s %s)' % (inner('string'), self.random.choice(['==', '!=', '<', '<=', '>', '>=']), inner('string')),
            lambda: '(%s > %s)' % (inner('int'), inner('int')), lambda: '(%s == %s)' % (inner('Mark'), inner('Mark')),
            lambda: '(%s %s %s)' % (inner('char'), self.random.choice(['==', '<', '>=']), inner('char')),
            lambda: '(%s %s %s)' % (inner('bool'), self.random.choice(['and', 'or', 'xor']), inner('bool')),
            lambda: 'not ' + inner('bool')])()


def shown(type_name: str) -> bool:
    """Whether `echo` takes it."""
    return type_name in ('int', 'bool', 'char', 'string', 'Mark', 'Person')
