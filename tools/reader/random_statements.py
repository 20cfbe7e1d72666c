"""Random statements, procedures and whole programs of texts and sequences."""
from __future__ import annotations

from typing import Callable, List, Optional

from random_parts import ELEMENTS, LENGTHS, COUNTS, OWNING, TYPES, ExpressionMaker, Procedure, Scope, Variable, shown

INDENT = '  '
MOST_DEPTH = 3

Lines = List[str]


def indented(lines: Lines) -> Lines:
    return [INDENT + line for line in lines]


class StatementMaker(ExpressionMaker):
    def program(self) -> str:
        procedures: List[Procedure] = []
        lines: Lines = []
        globals_: List[Variable] = []
        for _ in range(self.random.randrange(1, 4)):
            lines += self.declaration(Scope(globals_, procedures), globals_)
        for _ in range(self.random.randrange(1, 5)):
            seen = globals_ if self.random.random() < .25 else []
            lines += self.procedure(procedures, seen)
        scope = Scope(globals_, procedures)
        for _ in range(self.random.randrange(3, 9)):
            lines += self.statement(scope, 0)
        return '\n'.join(lines) + '\n'

    def procedure(self, procedures: List[Procedure], globals_: List[Variable]) -> Lines:
        name = 'f%d' % len(procedures)
        parameters = [(self.random.choice(['', '', 'var', 'sink']), self.random.choice(TYPES))
                      for _ in range(self.random.randrange(4))]
        result = self.random.choice([None, *OWNING, 'string', 'string', 'seq[string]', 'int'])
        variables = [Variable('p%d' % number, type_name, mode != '') for number, (mode, type_name) in enumerate(parameters)]
        head = '; '.join('%s: %s' % (variable.name, (mode + ' ' + type_name).strip())
                         for variable, (mode, type_name) in zip(variables, parameters))
        scope = Scope(globals_ + variables, list(procedures), result, in_procedure=True)
        if result is not None:
            scope.variables.append(Variable('result', result, True))
        body: Lines = []
        for _ in range(self.random.randrange(1, 6)):
            body += self.statement(scope, 1)
        if result is not None and self.random.random() < .6:
            value = self.value(scope, result)
            body.append(self.random.choice(['result = ', 'return ', '']) + value)
        procedures.append(Procedure(name, parameters, result))
        return ['proc %s(%s)%s =' % (name, head, '' if result is None else ': ' + result), *indented(body)]

    # Statements

    def statement(self, scope: Scope, depth: int) -> Lines:
        simple: List[Callable[[Scope], Optional[Lines]]] = [
            self.assignment, self.assignment, self.assignment, self.addition, self.addition, self.addition, self.echo, self.echo,
            self.set_length, self.swap, self.call_statement, self.discard, self.pop, self.char, self.begin, self.begin]
        deep: List[Callable[[Scope, int], Optional[Lines]]] = [self.branches, self.for_path, self.for_value, self.for_range,
                                                               self.while_loop, self.case, self.read_lines]
        for _ in range(5):
            if depth < MOST_DEPTH and self.random.random() < .35:
                made = self.random.choice(deep)(scope, depth)
            else:
                made = self.random.choice(simple)(scope)
            if made is not None:
                return made
        return ['discard']

    def block(self, scope: Scope, depth: int, in_loop: bool = False) -> Lines:
        inner = scope.inner(in_loop)
        lines: Lines = []
        for _ in range(self.random.randrange(1, 4)):
            lines += self.statement(inner, depth + 1)
        if inner.in_loop and self.random.random() < .25:
            lines.append(self.random.choice(['break', 'continue']))
        elif inner.in_procedure and self.random.random() < .15:
            lines.append('return' if inner.result is None else 'return ' + self.value(inner, inner.result))
        return indented(lines)

    def guarded(self, guards: Lines, line: str) -> Lines:
        return [line] if not guards else ['if %s:' % ' and '.join(guards), INDENT + line]

    def begin(self, scope: Scope) -> Lines:
        return self.declaration(scope, scope.variables)

    def declaration(self, scope: Scope, variables: List[Variable]) -> Lines:
        type_name = self.random.choice(TYPES)
        name = self.new_name()
        word = self.random.choice(['var', 'var', 'let'])
        if word == 'var' and self.random.random() < .2:
            line = 'var %s: %s' % (name, type_name)
        elif self.random.random() < .1:
            name, other = name, self.new_name()
            line = '%s %s, %s: %s = %s' % (word, name, other, type_name, self.value(scope, type_name))
        else:
            line = '%s %s: %s = %s' % (word, name, type_name, self.value(scope, type_name))
        variables.append(Variable(name, type_name, word == 'var'))
        return [line]

    def assignment(self, scope: Scope) -> Optional[Lines]:
        type_name = self.random.choice(TYPES)
        found = self.path(scope, type_name, True)
        if found is None:
            return None
        path, guards = found
        value = path if self.random.random() < .05 else self.value(scope, type_name)
        return self.guarded(guards, '%s = %s' % (path, value))

    def addition(self, scope: Scope) -> Optional[Lines]:
        type_name = self.random.choice(['string', 'string', *[name for name in ELEMENTS if name.startswith('seq')]])
        found = self.path(scope, type_name, True)
        if found is None:
            return None
        path, guards = found
        if type_name == 'string':
            added = path if self.random.random() < .1 else self.value(scope, self.random.choice(['string', 'string', 'char']))
            return self.guarded(guards, self.random.choice(['%s.add(%s)', '%s &= %s']) % (path, added))
        return self.guarded(guards, '%s.add(%s)' % (path, self.value(scope, ELEMENTS[type_name])))

    def set_length(self, scope: Scope) -> Optional[Lines]:
        type_name = self.random.choice(['string', *[name for name in ELEMENTS if name.startswith('seq')]])
        found = self.path(scope, type_name, True)
        if found is None:
            return None
        count = str(self.random.choice(LENGTHS if type_name == 'string' else COUNTS))
        if self.random.random() < .3:
            count = self.value(scope, 'int')
        return self.guarded(found[1], '%s.setLen(%s)' % (found[0], count))

    def swap(self, scope: Scope) -> Optional[Lines]:
        type_name = self.random.choice(OWNING + ['char'] * 4)
        first, second = self.path(scope, type_name, True), self.path(scope, type_name, True)
        if first is None or second is None:
            return None
        return self.guarded(first[1] + second[1], 'swap(%s, %s)' % (first[0], second[0]))

    def echo(self, scope: Scope) -> Lines:
        types = [name for name in ('int', 'bool', 'char', 'string', 'string', 'string', 'Mark', 'Person') if shown(name)]
        values = [self.value(scope, self.random.choice(types)) for _ in range(self.random.randrange(1, 4))]
        return ['echo ' + ', "|", '.join(values)]

    def call_statement(self, scope: Scope) -> Optional[Lines]:
        if not scope.procedures:
            return None
        procedure = self.random.choice(scope.procedures)
        call = self.call(scope, procedure, 0)
        return None if call is None else [call if procedure.result is None else 'discard ' + call]

    def discard(self, scope: Scope) -> Lines:
        return ['discard ' + self.value(scope, self.random.choice(TYPES))]

    def pop(self, scope: Scope) -> Optional[Lines]:
        found = self.path(scope, self.random.choice([name for name in ELEMENTS if name.startswith('seq')]), True)
        if found is None:
            return None
        path, guards = found
        return self.guarded(guards + ['%s.len > 0' % path], 'discard %s.pop()' % path)

    def char(self, scope: Scope) -> Optional[Lines]:
        found = self.path(scope, 'char', True)
        return None if found is None else self.guarded(found[1], '%s = %s' % (found[0], self.value(scope, 'char')))

    def branches(self, scope: Scope, depth: int) -> Lines:
        lines = ['if %s:' % self.value(scope, 'bool'), *self.block(scope, depth)]
        if self.random.random() < .4:
            lines += ['elif %s:' % self.value(scope, 'bool'), *self.block(scope, depth)]
        return lines + (['else:', *self.block(scope, depth)] if self.random.random() < .6 else [])

    def case(self, scope: Scope, depth: int) -> Lines:
        type_name, first, second = self.random.choice([('string', '"", "a"', '"const", "ab"'), ('char', "'a'..'c', 'x'", "'d', 'e'")])
        lines = ['case %s' % self.value(scope, type_name), 'of %s:' % first, *self.block(scope, depth)]
        lines += ['of %s:' % second, *self.block(scope, depth)] if self.random.random() < .5 else []
        has_else = type_name == 'char' or self.random.random() < .7
        return lines + (['else:', *self.block(scope, depth)] if has_else else [])

    def loop(self, scope: Scope, depth: int, over: str, element: str) -> Lines:
        name = self.new_name()
        inner = Scope([*scope.variables, Variable(name, element, False)], scope.procedures, scope.result, True, scope.in_procedure)
        return ['for %s in %s:' % (name, over), *self.block(inner, depth)]

    def for_path(self, scope: Scope, depth: int) -> Optional[Lines]:
        type_name = self.random.choice(list(ELEMENTS) + ['string'])
        found = self.path(scope, type_name)
        if found is None:
            return None
        path, guards = found
        loop = self.loop(scope, depth, path, ELEMENTS.get(type_name, 'char'))
        return loop if not guards else ['if %s:' % ' and '.join(guards), *indented(loop)]

    def for_value(self, scope: Scope, depth: int) -> Lines:
        type_name = self.random.choice([name for name in ELEMENTS])
        over, element = self.value(scope, type_name), ELEMENTS[type_name]
        if self.random.random() < .2:
            over, element = self.random.choice([('list', 'string'), ('rows', 'seq[string]'), ('word', 'char')])
        return self.loop(scope, depth, over, element)

    def for_range(self, scope: Scope, depth: int) -> Lines:
        return self.loop(scope, depth, '0..<%d' % self.random.choice([1, 2, 3, 10]), 'int')

    def while_loop(self, scope: Scope, depth: int) -> Optional[Lines]:
        found = self.path(scope, self.random.choice(['string', 'seq[string]', 'seq[int]']), True)
        if found is None or found[1]:
            return None
        path = found[0]
        return ['while %s.len < %d and %s:' % (path, self.random.choice([2, 4, 9]), self.value(scope, 'bool')),
                *indented(['%s.setLen(%s.len + 1)' % (path, path)]), *self.block(scope, depth, True)]

    def read_lines(self, scope: Scope, depth: int) -> Optional[Lines]:
        found = self.path(scope, 'string', True)
        if found is None or found[1]:
            return None
        word = self.random.choice(['if', 'while', 'while'])
        return ['%s readLine(stdin, %s):' % (word, found[0]), *self.block(scope, depth, word == 'while')]
