#!/usr/bin/env python3
"""Compares the renderer with the model of the language on random programs.

    random_language.py RENDER [COUNT [SEED]]

It prints the programs on which they differ, and last 'N passed, M failed'. README.md says more.
"""
import random

import flow_operators  # It adds its operators to OPERATORS, as data_operators does.
from compare import Case, run
from data_operators import TYPES
from language import Ended, Machine, Unmodelled, is_procedure
from objects import Array, Boolean, Dictionary, Integer, Name, Operator, Real, String, array_of
from operators import (ARRAY, BOOLEAN, DICTIONARY, FORMS, INTEGER, KEY, NUMBER, OPERATORS, STRING)

NAMES = 'abcde'
DEFINITIONS = '/a 1 def /b { 2 1 } def /c { a b exch } def /d 3 dict def /e [ 1 2 3 ] def'
TWO_NUMBERS = ('add', 'sub', 'mul', 'div', 'idiv', 'mod', 'bitshift', 'and', 'or', 'xor', 'eq',
               'ne', 'gt', 'ge', 'lt', 'le')
ONE_NUMBER = ('neg', 'abs', 'ceiling', 'floor', 'round', 'truncate', 'sqrt', 'sin', 'cos', 'cvi',
              'cvr', 'not')
MOVERS = ('copy', 'index', 'roll', 'astore', 'aload', 'put', 'getinterval', 'putinterval', 'forall')
# Words beside the ends of what numbers can be.
EDGES = ('2147483647', '2147483648', '-2147483648', '-2147483649', '2147483647.99999',
         '2147483647.999993', '-2147483648.000007', '-2147483648.000008', '140737488355327e-16',
         '.0000076293945312', '.0000076293945313', '-.0000076293945312', '-.0000076293945313',
         '16#ffffffff', '16#100000000', '16#7fffffff', '36#1z141z3', '36#1z141z4', '1e0004',
         '1e00004', '000000000000000000000000000000.', '0000000000000000000000000000000.')
ROOM = 470
DEPTH = 3


class Maker:
    """Draws programs."""

    def __init__(self, seed):
        self.random = random.Random(seed)
        self.pick = self.random.choice

    def program(self):
        draw, = self.random.choices((self.structured, self.trials, self.arithmetic, self.words),
                                    (8, 4, 3, 1))
        return draw()

    def structured(self):
        """Statements of all kinds, mostly inside `stopped` and with some definitions before."""
        text = self.statements(0, self.random.randint(3, 12))
        if self.random.random() < 0.6:
            text = f'{{ {text} }} stopped'
        if self.random.random() < 0.85:
            text = f'{DEFINITIONS} {text}'
        if self.random.random() < 0.3:
            text = f'{text} {{ {self.statements(0, 5)} }} stopped'
        return text

    def trials(self):
        """Operators on operands that fit, each with its results or refusal left."""
        return ' '.join(f'{{ {self.fitted(DEPTH)} }} stopped' for _ in range(12))

    def arithmetic(self):
        """Operators on numbers of all sizes, each with its result or refusal left."""
        return ' '.join(self.sum() for _ in range(12))

    def sum(self):
        if self.random.random() < 0.65:
            return f'{{ {self.number()} {self.number()} {self.pick(TWO_NUMBERS)} }} stopped'
        return f'{{ {self.number()} {self.pick(ONE_NUMBER)} }} stopped'

    def number(self):
        """An integer or a real: small, of any size, or at the end of the range."""
        whole = self.pick((self.random.randint(-10, 10), self.random.randint(-10 ** 5, 10 ** 5),
                           self.random.randint(-2 ** 31, 2 ** 31 - 1), 2 ** 31 - 1, -2 ** 31))
        if self.random.random() < 0.5:
            return str(whole)
        digits = self.random.randint(1, 18)
        if whole == -2 ** 31:
            return f'{whole}.0'
        return f'{whole}.{self.random.randrange(10 ** digits):0{digits}d}'

    def words(self):
        """Runs of bytes that are numbers, or look like some."""
        return ' '.join(self.word() for _ in range(self.random.randint(1, 5)))

    def word(self):
        def some(letters, least, most):
            size = self.random.randint(least, most)
            return ''.join(self.pick(letters) for _ in range(size))
        digits = '0123456789'
        return self.pick((
            lambda: some('0123456789+-.eE#aF', 1, 8),
            lambda: some('+-', 0, 1) + some(digits, 0, 12) + self.pick('..e') + some(digits, 0, 20),
            lambda: (some(digits, 1, 9) + some('.', 0, 1) + 'e' + some('-+', 0, 1)
                     + some('0123', 1, 2)),
            lambda: f'{self.random.randint(0, 40)}#{some("0123456789abcdefzZ", 0, 7)}',
            lambda: self.pick(EDGES)))()

    def statements(self, depth, size=None):
        size = self.random.randint(2, 9) if size is None else size
        return ' '.join(self.statement(depth) for _ in range(size))

    def statement(self, depth):
        simple = ((self.operand, 28), (self.operator, 6), (self.fitted, 16))
        nested = ((self.array, 4), (self.dictionary, 3), (self.run, 11), (self.loop, 14),
                  (self.choice, 6), (self.definition, 7), (self.fill, 3))
        draws, weights = zip(*(simple if depth >= DEPTH else simple + nested))
        draw, = self.random.choices(draws, weights)
        return draw(depth)

    def operand(self, _depth):
        small = (0, 1, 2, 3, 1, 2, -1, 4, 5, self.random.randint(-3, 8))
        return self.pick((str(self.pick(small)), str(self.pick(small)), str(self.pick(small)),
                          f'{self.pick(small)}.5', '/' + self.pick(NAMES), self.pick(NAMES),
                          '//' + self.pick(('a', 'b', 'add', 'pop', 'exch')),
                          f'({self.pick(("", "a", "ab", "b", "abc"))})'))

    def operator(self, _depth):
        return self.pick([name for name in OPERATORS if name != 'quit'] * 8 + ['quit'])

    def fitted(self, depth):
        """An operator with operands of its types, perhaps on top of some more."""
        names = [name for name in OPERATORS if name not in ('quit', 'stop', 'exit', 'clear')]
        name = self.pick(self.pick((names, names, names, MOVERS)))
        drawn = {INTEGER: lambda _: str(self.random.randint(-1, 4)), NUMBER: self.plain_number,
                 BOOLEAN: lambda _: self.pick(('true', 'false')), STRING: self.string,
                 ARRAY: self.plain_array, DICTIONARY: self.dictionary, KEY: self.key,
                 is_procedure: self.body}
        operands = [drawn.get(kind, self.value)(depth) for kind in self.pick(FORMS[name])]
        more = [self.value(depth) for _ in range(self.pick((0, 0, 2, 4)))]
        return ' '.join([*more, *operands, name])

    def plain_number(self, _depth):
        return self.pick((str(self.random.randint(-3, 9)), f'{self.random.randint(-9, 9)}.25'))

    def string(self, _depth):
        return self.pick(('()', '(a)', '(ab)', '(b)', '(abc)', '3 string', '127 string',
                          '128 string', '(abc) 1 2 getinterval'))

    def plain_array(self, _depth):
        return self.pick(('[ ]', '[ 1 ]', '[ /a 2 ]', '[ 1 2 3 ]', '{ add 1 }', '2 array', 'e',
                          '[ 1 2 3 ] 1 2 getinterval', '[ 1 2 3 ] dup'))

    def key(self, _depth):
        return self.pick(('/a', '/b', '/add', '(a)', '(zz)', '1', '1.0', 'true', '128 string'))

    def value(self, depth):
        return self.pick((self.plain_number, self.string, self.plain_array, self.key,
                          self.dictionary))(depth)

    def body(self, depth):
        return f'{{ {self.statements(depth + 1)} }}'

    def array(self, depth):
        return f'[ {self.statements(depth + 1, self.random.randint(0, 4))} ]'

    def dictionary(self, _depth):
        pairs = (f'{self.pick(("/a", "(b)", "1", "1.0", "true", "/c"))} '
                 f'{self.pick(("1", "/x", "{ 2 }", "[ 3 4 ]"))}'
                 for _ in range(self.random.randint(0, 3)))
        return f'<< {" ".join(pairs)} >>'

    def run(self, depth):
        after = ('exec', 'stopped', 'stopped', 'loop', 'bind', 'bind exec', '', 'cvlit', 'dup exec')
        return f'{self.body(depth)} {self.pick(after)}'

    def loop(self, depth):
        wholes = ('[ 1 2 /a ]', '(abc)', '<< /a 1 /b 2 >>', '{ 1 a }')
        steps = ('-2', '-1', '0', '1', '1', '2', '.5')
        return self.pick((
            lambda: f'{self.random.randint(0, 4)} {self.body(depth)} repeat',
            lambda: (f'{self.random.randint(-2, 4)} {self.pick(steps)} '
                     f'{self.random.randint(-3, 6)} {self.body(depth)} for'),
            lambda: f'{self.pick(wholes)} {self.body(depth)} forall'))()

    def choice(self, depth):
        asked = self.pick(('true', 'false', '1 2 lt', '1 1 eq'))
        return (f'{asked} {self.body(depth)} if' if self.random.random() < 0.5
                else f'{asked} {self.body(depth)} {self.body(depth)} ifelse')

    def definition(self, depth):
        value = self.pick((self.body(depth), '/b cvx', '5', '[ 1 2 ]', '/add load', '/a cvx',
                           '/add cvx'))
        return f'/{self.pick(NAMES)} {value} def'

    def fill(self, depth):
        """Fills a stack to its end or nearly, or leaves a level."""
        return self.pick((
            f'{self.pick((499, 250, 248, 500))} {{ 1 }} repeat',
            f'{self.random.randint(17, 19)} {{ << >> begin }} repeat', '/w { w } def w',
            f'/n 0 def /w {{ /n n 1 add def n {self.random.randint(121, 125)} lt {{ w }} '
            f'{self.body(max(depth, DEPTH - 1))} ifelse }} def w',
            'exit', 'exit', 'stop', 'stop'))


def literal(value):
    """A number, boolean or text as PostScript."""
    if isinstance(value, Integer):
        return str(value.value)
    if isinstance(value, Real):
        whole, part = divmod(abs(value.raw), 65536)
        return f'{"-" if value.raw < 0 else ""}{whole}.{part * 10 ** 16 // 65536:016d}'
    if isinstance(value, Boolean):
        return str(value.value).lower()
    return f'<{value.text.hex()}>'


def check(value, depth=0):
    """PostScript that takes the top operand, and executes `wrong` where it is not this object."""
    parts = [f'dup type /{TYPES[type(value)]}type ne {{wrong}} if']
    if isinstance(value, (Name, Array)):
        parts.append(f'dup xcheck {str(value.executable).lower()} ne {{wrong}} if')
    if isinstance(value, (Integer, Real, Boolean, Name, String)):
        parts.append(f'{literal(value)} ne {{wrong}} if')
    elif isinstance(value, Operator):
        parts.append(f'systemdict <{value.name.encode().hex()}> get ne {{wrong}} if')
    elif isinstance(value, Array):
        parts.append(check_elements(value, depth))
    elif isinstance(value, Dictionary):
        parts.append(check_entries(value, depth))
    else:
        parts.append('pop')
    return ' '.join(parts)


def check_elements(value, depth):
    """Checks the length, and the first elements down to some depth."""
    parts = [f'dup length {value.length} ne {{wrong}} if']
    if depth < DEPTH:
        parts += [f'dup {place} get {check(element, depth + 1)}'
                  for place, element in enumerate(value.values()[:4 if depth else 40])]
    return ' '.join([*parts, 'pop'])


def check_entries(value, depth):
    """Checks the keys and values in their order."""
    if not value.writable:
        return 'systemdict ne {wrong} if'
    entries = [part for entry in value.entries.values() for part in entry]
    return (f'dup length {len(value.entries)} ne {{wrong}} if {{ }} forall {len(entries)} array '
            f'astore {check_elements(array_of(entries), depth)}')


def check_all(machine):
    """Checks the operands, the dictionary stack, and what the user's dictionary has."""
    parts, held = [], list(machine.operands)
    while len(held) > ROOM:
        parts.append('pop')
        held.pop()
    parts.append(f'count {len(held)} ne {{wrong}} if')
    parts += map(check, reversed(held))
    for dictionary in reversed(machine.dictionaries[2:]):
        parts += ['currentdict', check(dictionary), 'end']
    parts += ['{ end } stopped not {wrong} if userdict', check(machine.user), 'showpage']
    return ' '.join(parts)


def case(seed):
    """A random program with checks of what it leaves, and what the model makes of it."""
    text = Maker(seed).program()
    words = ['--size', '1x1']
    machine = Machine(text, OPERATORS)
    try:
        machine.run()
        return Case(f'{text} {check_all(machine)}', words, [[[(255, 255, 255)]]], 'ends')
    except Ended as end:
        return Case(text, words, [], str(end))
    except Unmodelled:
        return None


if __name__ == '__main__':
    run(case, 850)
