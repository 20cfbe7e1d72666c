"""Small random programs of the forms that are built, in which values are written while they are read."""
from __future__ import annotations

import random
from typing import Callable, Dict, List, Optional, Set, Tuple

import random_parts
from random_parts import DISTINCT, ELEMENTS, FIELDS, SEQUENCES, Procedure, Scope, Variable
from random_statements import INDENT, Lines, StatementMaker, indented

TYPES_DECLARED: Dict[str, str] = {
    'Person': 'object\n    name: string\n    age: int\n    tags: seq[string]',
    'Team': 'object\n    lead: Person\n    names: array[2, string]',
    'Mark': 'distinct string',
    'Row': 'distinct seq[int]',
    'Pair': 'tuple[text: string, number: int]',
    'Cell': 'tuple[letter: char, text: string]',
    'Book': 'tuple[lines: seq[string], by: Pair]',
    'Shelf': 'object\n    books: seq[Book]\n    marks: array[2, seq[int]]\n    last: Book',
}
"""Each stands behind those that it names."""

OBJECTS = [name for name, said in TYPES_DECLARED.items() if said.startswith('object')]
PROCEDURES_OF_TYPES = {
    'Mark': 'proc `==`(a, b: Mark): bool {.borrow.}\nproc `$`(m: Mark): string {.borrow.}\n',
    'Person': 'proc `$`(p: Person): string = p.name & ":" & $p.age & "#" & $p.tags.len\n',
}
CONSTANT = 'word'
CONSTANT_TEXT = 'const word = "const"\n'
WIDER_FIELDS = {'Book': [('lines', 'seq[string]'), ('by', 'Pair')],
                'Shelf': [('books', 'seq[Book]'), ('marks', 'array[2, seq[int]]'), ('last', 'Book')],
                'Cell': [('letter', 'char'), ('text', 'string')]}
WIDER_ELEMENTS = {'seq[Book]': 'Book', 'array[2, seq[int]]': 'seq[int]', 'seq[Team]': 'Team', 'seq[seq[int]]': 'seq[int]',
                  'seq[seq[seq[string]]]': 'seq[seq[string]]', 'array[2, Pair]': 'Pair', 'seq[array[2, seq[int]]]': 'array[2, seq[int]]',
                  'seq[Mark]': 'Mark', 'seq[char]': 'char', 'array[2, char]': 'char', 'seq[Cell]': 'Cell'}
DEPTH_PARAMETER = 'n'
MOST_CALLS_DEEP = 4
WRITTEN_IN_LOOP = .7
OFTEN_PARAMETERS = [(('var', 'char'), .4), (('', 'string'), .5), (('sink', 'string'), .2)]
LITERAL_ARGUMENT = .5
LITERAL_LOOP = .3
NOTHING = 'discard'
CONSTANTS = [0, 1, 2, 2, 3]
"""How many constants with strings or sequences in them a program may have at its beginning."""
CONSTANT_IN_BLOCK = .05
EARLIER_CONSTANT = .25
COUNTS_IN_CONSTANTS = [0, 1, 1, 2, 2, 3]
NUMBERS_IN_CONSTANTS = ['0', '1', '2', '7', '-1', '40', 'low(int)', 'high(int)']
MOST_STATEMENTS = 12
"""Of a program, but for those that do nothing."""


def widen() -> None:
    """More types for all that is made."""
    for table, wider in ((FIELDS, WIDER_FIELDS), (ELEMENTS, WIDER_ELEMENTS)):
        table.update(wider)
        for name in wider:
            random_parts.OWNING.append(name)
            random_parts.TYPES.append(name)
            if name.startswith('seq'):
                SEQUENCES.append(name)
    random_parts.MOST_LEVELS = 2


def head(text: str) -> str:
    """The declarations that a program with this text needs."""
    needed: List[str] = []
    for name in reversed(TYPES_DECLARED):
        if name in text + ''.join(TYPES_DECLARED[other] for other in needed):
            needed.append(name)
    needed.reverse()
    lines = ''.join('  %s = %s\n' % (name, TYPES_DECLARED[name]) for name in needed)
    return ('type\n' + lines if lines else '') + ''.join(PROCEDURES_OF_TYPES.get(name, '') for name in needed) + (
        CONSTANT_TEXT if CONSTANT in text else '')


class BuiltMaker(StatementMaker):
    """Literals are handed over, measured, gone through and read by an index; constants with strings and sequences in them are read as
    variables are."""

    def __init__(self, generator: random.Random):
        super().__init__(generator)
        self.statements_left = MOST_STATEMENTS
        self.constants: Set[str] = set()

    def program(self) -> str:
        procedures: List[Procedure] = []
        constants: List[Variable] = []
        lines: Lines = []
        for _ in range(self.random.choice(CONSTANTS)):
            lines += self.constant(constants)
        variables = list(constants)
        for _ in range(self.random.randrange(1, 4)):
            lines += self.declaration(Scope(variables, procedures), variables)
        for _ in range(self.random.choice([0, 1, 1, 2])):
            lines += self.procedure(procedures, list(variables) if self.random.random() < .3 else list(constants))
        scope = Scope(variables, procedures)
        for _ in range(self.random.randrange(2, 6)):
            lines += self.statement(scope, 0)
        for procedure in procedures:
            lines += self.called(scope, procedure)
        for variable in self.random.sample(variables, min(3, len(variables))):
            lines += self.written(variable.name, variable.type)
        text = '\n'.join(line for line in lines if line != NOTHING) + '\n'
        return head(text) + text

    def called(self, scope: Scope, procedure: Procedure) -> Lines:
        """A call, behind places for what it writes."""
        lines: Lines = []
        for mode, type_name in procedure.parameters:
            if mode == 'var' and self.random.random() < .5 or not self.paths(scope, type_name, True):
                name = self.new_name()
                lines.append('var %s: %s = %s' % (name, type_name, self.value(scope, type_name)))
                scope.variables.append(Variable(name, type_name, True))
        made = self.call_with(scope, procedure, 0)
        if made is None:
            return lines
        call, guards = made
        if procedure.result is None:
            return lines + self.guarded(guards, call)
        if guards:
            return lines + self.guarded(guards, 'discard ' + call)
        name = self.new_name()
        scope.variables.append(Variable(name, procedure.result, True))
        return [*lines, 'var %s: %s = %s' % (name, procedure.result, call), *self.written(name, procedure.result)]

    def block(self, scope: Scope, depth: int, in_loop: bool = False) -> Lines:
        lines = super().block(scope, depth, in_loop)
        return [line for line in lines if line != INDENT + NOTHING] or lines[:1]

    def written(self, path: str, type_name: str, depth: int = 0) -> Lines:
        """Statements that write all that is in a place."""
        if type_name in FIELDS:
            return [line for field, field_type in FIELDS[type_name]
                    for line in self.written('%s.%s' % (path, field), field_type, depth)]
        if type_name in ELEMENTS and type_name != 'string':
            name = self.new_name()
            return ['echo %s.len' % path, 'for %s in %s:' % (name, path),
                    *indented(self.written(name, ELEMENTS[type_name], depth + 1))]
        shown = {'Mark': 'string(%s)', 'Row': 'seq[int](%s).len'}.get(type_name, '%s') % path
        return ['echo "%s", %s' % ('[' * (depth + 1), shown)]

    # Constants

    def constant(self, variables: List[Variable]) -> Lines:
        """A variable that nobody writes."""
        type_name = self.random.choice(random_parts.OWNING)
        value = self.constant_value(type_name, variables)
        name = self.new_name()
        self.constants.add(name)
        variables.append(Variable(name, type_name, False))
        return ['const %s: %s = %s' % (name, type_name, value)]

    def constant_value(self, wanted: str, variables: List[Variable]) -> str:
        """Made of literals, and of constants that stand before."""
        earlier = [variable.name for variable in variables if variable.type == wanted and variable.name in self.constants]
        if earlier and self.random.random() < EARLIER_CONSTANT:
            return self.random.choice(earlier)
        inner = lambda type_name: self.constant_value(type_name, variables)
        if wanted == 'int':
            return self.random.choice(NUMBERS_IN_CONSTANTS)
        if wanted in DISTINCT:
            return '%s(%s)' % (wanted, inner(DISTINCT[wanted]))
        if wanted == 'string':
            return self.random.choice([self.text_literal, self.text_literal, lambda: self.text_literal() + ' & "z"', lambda: '$' + inner('char')])()
        if wanted in FIELDS:
            fields = ['%s: %s' % (field, inner(field_type)) for field, field_type in FIELDS[wanted]]
            if wanted not in OBJECTS:
                return '(%s)' % ', '.join(fields)
            return '%s(%s)' % (wanted, ', '.join(self.random.sample(fields, self.random.randrange(1, len(fields) + 1))))
        if wanted.startswith('array'):
            return '[%s, %s]' % (inner(ELEMENTS[wanted]), inner(ELEMENTS[wanted]))
        if wanted in SEQUENCES:
            return '@[%s]' % ', '.join(inner(ELEMENTS[wanted]) for _ in range(self.random.choice(COUNTS_IN_CONSTANTS)))
        return self.literal(wanted)

    # Literals and calls

    def literal_text(self) -> str:
        return self.random.choice([self.text_literal(), self.text_literal(), '"\\xff\\x00"', CONSTANT])

    def call(self, scope: Scope, procedure: Procedure, level: int) -> Optional[str]:
        made = self.call_with(scope, procedure, level)
        return None if made is None or made[1] else made[0]

    def call_with(self, scope: Scope, procedure: Procedure, level: int, deeper: str = '') -> Optional[Tuple[str, List[str]]]:
        """A call, with the conditions under which it is in its bounds."""
        arguments: List[str] = []
        conditions: List[str] = []
        for mode, type_name in procedure.parameters:
            if mode == 'var':
                found = self.path(scope, type_name, True)
                if found is None:
                    return None
                arguments.append(found[0])
                conditions += found[1]
            elif mode == DEPTH_PARAMETER:
                arguments.append(deeper or str(self.random.randrange(MOST_CALLS_DEEP)))
            else:
                is_literal = type_name == 'string' and self.random.random() < LITERAL_ARGUMENT
                arguments.append(self.literal_text() if is_literal else self.value(scope, type_name, level + 1))
        return '%s(%s)' % (procedure.name, ', '.join(arguments)), conditions

    def from_fresh_path(self, scope: Scope, wanted: str, level: int) -> Optional[str]:
        inner = lambda type_name: self.value(scope, type_name, level + 1)
        if wanted == 'string':
            return self.random.choice([
                lambda: '%s.name' % self.person(scope, level), lambda: '(text: %s, n: 1).text' % inner('string'),
                lambda: '@[%s][0]' % inner('string'), lambda: '[%s, "z"][1]' % inner('string'),
                lambda: '@[%s, %s].pop()' % (inner('string'), inner('string'))])()
        if wanted == 'char':
            return self.random.choice([
                lambda: '(%s & %s)[0]' % (inner('char'), inner('string')), lambda: '($%s)[0]' % inner('int'),
                lambda: "(%s & 'z')[%s]" % (inner('string'), inner('int')), lambda: '(letter: %s, text: "a").letter' % inner('char')])()
        return '%s.tags' % self.person(scope, level) if wanted == 'seq[string]' else None

    def fresh(self, scope: Scope, wanted: str, level: int) -> Optional[str]:
        inner = lambda type_name: self.value(scope, type_name, level + 1)
        if wanted == 'Book':
            return '(lines: %s, by: %s)' % (inner('seq[string]'), inner('Pair'))
        if wanted == 'Shelf':
            return 'Shelf(%s: %s)' % self.random.choice([('books', inner('seq[Book]')), ('last', inner('Book'))])
        if wanted == 'Cell':
            return '(letter: %s, text: %s)' % (inner('char'), inner('string'))
        if wanted.startswith('array'):
            return '[%s, %s]' % (inner(ELEMENTS[wanted]), inner(ELEMENTS[wanted]))
        if wanted in SEQUENCES and self.random.random() < .15:
            return 'default(%s)' % wanted
        if wanted == 'char' and self.random.random() < .4:
            return self.letter_of_literal()
        return super().fresh(scope, wanted, level)

    def letter_of_literal(self) -> str:
        text = self.literal_text()
        if text == '""' and self.random.random() < .9:
            text = '"a"'
        return '%s[%s]' % (text, self.random.choice(['0', '%s.high' % text, '%s.len div 2' % text]))

    def measured(self, scope: Scope, level: int) -> str:
        return self.literal_text() if self.random.random() < .2 else super().measured(scope, level)

    def for_value(self, scope: Scope, depth: int) -> Lines:
        type_name = self.random.choice(list(ELEMENTS))
        is_literal = type_name == 'string' or self.random.random() < LITERAL_LOOP
        over, element = (self.literal_text(), 'char') if is_literal else (self.value(scope, type_name), ELEMENTS[type_name])
        return self.loop(scope, depth, over, element)

    # Procedures that call themselves

    def procedure(self, procedures: List[Procedure], globals_: List[Variable]) -> Lines:
        """Its last parameter, if it has one so named, says how deep it still calls itself."""
        name = 'f%d' % len(procedures)
        parameters = [(self.random.choice(['', '', 'var', 'sink']), self.random.choice(random_parts.TYPES))
                      for _ in range(self.random.randrange(4))]
        for parameter, likely in OFTEN_PARAMETERS:
            if self.random.random() < likely:
                parameters.insert(self.random.randrange(len(parameters) + 1), parameter)
        result = self.random.choice([None, *random_parts.OWNING, 'string', 'string', 'seq[string]', 'int', 'char'])
        variables = [Variable('p%d' % number, type_name, mode != '') for number, (mode, type_name) in enumerate(parameters)]
        heads = ['%s: %s' % (variable.name, (mode + ' ' + type_name).strip())
                 for variable, (mode, type_name) in zip(variables, parameters)]
        is_recursive = self.random.random() < .4
        made = Procedure(name, parameters + [(DEPTH_PARAMETER, 'int')] * is_recursive, result)
        scope = Scope(globals_ + variables, list(procedures), result, in_procedure=True)
        if result is not None:
            scope.variables.append(Variable('result', result, True))
        body: Lines = []
        for _ in range(self.random.randrange(1, 4)):
            body += self.statement(scope, 1)
        if is_recursive:
            body += self.deeper_call(scope, made)
            heads.append('%s: int' % DEPTH_PARAMETER)
        if result is not None and self.random.random() < .6:
            body.append(self.random.choice(['result = ', 'return ', '']) + self.value(scope, result))
        procedures.append(made)
        return ['proc %s(%s)%s =' % (name, '; '.join(heads), '' if result is None else ': ' + result), *indented(body)]

    def deeper_call(self, scope: Scope, procedure: Procedure) -> Lines:
        made = self.call_with(scope, procedure, 0, DEPTH_PARAMETER + ' - 1')
        if made is None:
            return []
        call, guards = made
        if procedure.result is not None:
            call = self.random.choice(['discard ', 'result = ', 'return ']) + call
        return ['if %s:' % ' and '.join([DEPTH_PARAMETER + ' > 0', *guards]), INDENT + call]

    def call_statement(self, scope: Scope) -> Optional[Lines]:
        """Places in blocks are handed over too."""
        if not scope.procedures:
            return None
        procedure = self.random.choice(scope.procedures)
        made = self.call_with(scope, procedure, 0)
        if made is None:
            return None
        call, guards = made
        found = self.path(scope, procedure.result, True) if procedure.result is not None and self.random.random() < .6 else None
        if procedure.result is None:
            return self.guarded(guards, call)
        return self.guarded(guards, 'discard ' + call) if found is None else self.guarded(guards + found[1], '%s = %s' % (found[0], call))

    # What is written while it is read

    def statement(self, scope: Scope, depth: int) -> Lines:
        self.statements_left -= 1
        if self.statements_left < 0:
            return [NOTHING]
        if self.random.random() < CONSTANT_IN_BLOCK:
            return self.constant(scope.variables)
        if self.random.random() < .5:
            kinds: List[Callable[[Scope, int], Optional[Lines]]] = [self.own_element, self.own_element, self.own_text, self.own_text,
                                                                    self.own_letters, self.own_letters, self.shrunk, self.written_loop]
            made = self.random.choice(kinds)(scope, depth)
            if made is not None:
                return made
        return super().statement(scope, depth)

    def own_element(self, scope: Scope, _: int) -> Optional[Lines]:
        """Of a sequence that is given its own elements."""
        sequence = self.random.choice(SEQUENCES)
        found = self.path(scope, sequence, True)
        if found is None:
            return None
        element = ELEMENTS[sequence]
        kinds = ['q.add(q[0])', 'q.add(q[q.high])', 'q[0] = q[q.high]', 'q.add(q.pop())', 'q = q', 'q[0] = q[0]', 'q[q.high] = q[q.high]',
                 'swap(q[0], q[q.high])', 'q = @[q[0]]', 'q = @[q[q.high], q[0]]', 'q.add(move(q[0]))', 'q[0] = move(q[q.high])',
                 'q[0] = q.pop()', 'q = move(q)', 'q.add((if q.len > 2: q[1] else: q[0]))', 'q = (if q.len > 1: q else: @[q[0]])']
        if element == 'string':
            kinds += ['q[0] &= q[0]', 'q[0].add(q[q.high])', 'q[0] = q[q.high] & q[0]', 'q[q.high] = $q.len & q[0]', 'q[0] = q[0] & "x"']
        if element in SEQUENCES:
            kinds += ['q[0].setLen(2)', 'q[0] = q[q.high]', 'q.add(@[])', 'swap(q[0], q[q.high])', 'q[q.high].setLen(0)', 'q.add(q[0])']
        if element in FIELDS:
            field, _ = self.random.choice(FIELDS[element])
            kinds += ['q[0].%s = q[q.high].%s' % (field, field), 'q[0] = q[q.high]']
        line = self.random.choice(kinds).replace('q', found[0])
        return self.guarded(found[1] + ['%s.len > 0' % found[0]], line)

    def own_text(self, scope: Scope, _: int) -> Optional[Lines]:
        found = self.path(scope, 'string', True)
        if found is None:
            return None
        line = self.random.choice([
            'q.add(q)', 'q &= q', 'q = q & q', 'q = q', 'q.add(q & $q.len)', 'q = (if q.len > 3: q else: q & "x")', 'q = move(q)',
            'q &= q & q', 'q.add((if q == q & "": q else: word))', 'q = $q', 'swap(q, q)', 'q = word', 'q = ""', 'q &= $(q < word)',
            'case q & "b"\nof "b": q = "ab"\nof "ab", "constb": q.add(q)\nelse: q.setLen(1)'])
        lines = line.replace('q', found[0]).split('\n')
        return lines if not found[1] else ['if %s:' % ' and '.join(found[1]), *indented(lines)]

    def own_letters(self, scope: Scope, _: int) -> Optional[Lines]:
        """Of a string that is given its own characters."""
        found = self.path(scope, 'string', True)
        if found is None:
            return None
        line = self.random.choice([
            'q[0] = q[q.high]', 'q[q.high] = q[0]', 'swap(q[0], q[q.high])', 'swap(q[0], q[0])', 'q[0] = q[0]', 'q[q.high] = q[q.high]',
            'q[q.len div 2] = move(q[0])', 'q.add(q[0])', 'q &= q[q.high]', 'q = q[0] & q', 'q = $q[q.high]', 'q[0] = (q & "x")[1]',
            'q[0] = chr(255 - ord(q[0]))', 'q[q.high] = chr(q.len mod 256)', "q[0] = (if q[0] < 'c': 'x' else: q[q.high])", 'q[1] = q[0]',
            'q[q.len] = q[0]', 'for i in 0..<q.len div 2: swap(q[i], q[q.high - i])',
            'for i in 1..q.high: q[i] = q[i - 1]', 'for i in 0..q.high: q[i] = chr((ord(q[i]) + i) mod 256)',
            'for i in 0..q.high: q[i] = (if q[i] < q[0]: q[i] else: q[q.high])',
            "case q[0]\nof 'a'..'c': q[0] = 'x'\nof 'x': q.setLen(1)\nelse: q[q.high] = 'a'"])
        lines = line.replace('q', found[0]).split('\n')
        return ['if %s:' % ' and '.join(found[1] + ['%s.len > 0' % found[0]]), *indented(lines)]

    def shrunk(self, scope: Scope, _: int) -> Optional[Lines]:
        """Shrinks a place and lets it grow back."""
        found = self.path(scope, self.random.choice(['string', *SEQUENCES]), True)
        if found is None:
            return None
        lengths = [self.random.choice(['q.len div 2', '0', '1', 'q.len']),
                   self.random.choice(['q.len + 1', '3', '7', 'q.len * 2', '9', '25'])]
        lines = ['q.setLen(%s)' % length for length in lengths]
        conditions = ' and '.join(found[1]) or 'true'
        return ['if %s:' % conditions, *indented([line.replace('q', found[0]) for line in lines])]

    def written_loop(self, scope: Scope, depth: int) -> Optional[Lines]:
        """A loop over a place that its body may write."""
        type_name = self.random.choice(['string', *ELEMENTS])
        found = self.path(scope, type_name, True)
        if found is None:
            return None
        path, element = found[0], ELEMENTS[type_name]
        name = self.new_name()
        writes = ['Q = Q', 'Q = %s' % self.value(scope, type_name), 'discard Q.len', 'Q = move(Q)']
        if not type_name.startswith('array'):
            writes += ['Q.setLen(Q.len)', 'Q.add(E)', 'Q.setLen(0)']
        writes += ['Q[0] = E', 'Q[0] = E', 'Q[Q.high] = E', 'Q[Q.high] = Q[0]']
        if element == 'string':
            writes += ['Q[0] &= E', 'Q[Q.high].add(E)']
        written = self.random.choice(writes).replace('Q', path).replace('E', name) if self.random.random() < WRITTEN_IN_LOOP else 'discard'
        inner = Scope([*scope.variables, Variable(name, element, False)], scope.procedures, scope.result, True, scope.in_procedure)
        loop = ['for %s in %s:' % (name, path), INDENT + written, *self.block(inner, depth)]
        return loop if not found[1] else ['if %s:' % ' and '.join(found[1]), *indented(loop)]


def maker(generator: random.Random) -> BuiltMaker:
    return BuiltMaker(generator)
