"""A model of the language: its stacks, procedures, loops, `stopped` and errors.

`Machine(text, operators).run()` runs a program; it raises `Ended` where an error or `quit` ends it
before its text does. Texts have no comments, and of strings only those of small letters in `( )`.
Sections are those of the PostScript Language Reference, third edition; how execution levels count,
and the command of an error, are own rules.
"""
import re

from geometry import Refusal, div_round
from objects import (ONE, Array, Boolean, Dictionary, Integer, Name, Operator, Real, array_of,
                     string_of)

MAX_OPERANDS, MAX_DICTIONARIES, MAX_LEVELS = 500, 20, 250
MAX_COUNT = 20000
TOKEN = re.compile(r'\([a-z]*\)|//?[^\s{}\[\]()<>/]*|<<|>>|[{}\[\]]|[^\s{}\[\]()<>/]+')
INTEGER = re.compile(r'[+-]?[0-9]+')
REAL = re.compile(r'(?=.*[.eE])(?P<sign>[+-]?)(?=\.?[0-9])(?P<whole>[0-9]*)(?:\.(?P<part>[0-9]*))?'
                  r'(?:[eE](?P<exponent>[+-]?[0-9]+))?')
RADIX = re.compile(r'(?P<base>[0-9]{1,2})#(?P<digits>[0-9a-zA-Z]+)')


class Failure(Exception):
    """An error with the command that raised it (3.11 Errors)."""

    def __init__(self, error, command):
        super().__init__(f'{error} in {command}')


class Ended(Exception):
    """The program ends: by an error outside of every `stopped`, or by `quit`."""


class Unmodelled(Exception):
    """The program does what the model does not say, or runs for long."""


def number_of(word):
    """The number that a word is, if it is one (3.2.2 Numbers; the limits are own rules)."""
    if INTEGER.fullmatch(word):
        return limited(Integer(int(word)))
    found = REAL.fullmatch(word)
    if found:
        return real_of(found['sign'], found['whole'], found['part'] or '', found['exponent'] or '0')
    found = RADIX.fullmatch(word)
    if found and 2 <= int(found['base']) <= 36:
        base = int(found['base'])
        if all(int(digit, 36) < base for digit in found['digits']):
            value = int(found['digits'], base)
            if value >= 2 ** 32:
                raise Failure('limitcheck', 'scan')
            return Integer(value - 2 ** 32 if value >= 2 ** 31 else value)
    return None


def real_of(sign, whole, part, exponent):
    """A real: exact, then rounded to 1/65536; at most 30 digits, and 4 of the exponent."""
    if len(whole + part) > 30 or len(exponent.lstrip('+-')) > 4:
        raise Failure('limitcheck', 'scan')
    raw = int(whole + part) * ONE * (-1 if sign == '-' else 1)
    scale = int(exponent) - len(part)
    return limited(Real(raw * 10 ** scale if scale >= 0 else div_round(raw, 10 ** -scale)))


def limited(number):
    """A number whose magnitude is below 2^31, or -2^31."""
    if not -2 ** 31 * ONE <= number.raw < 2 ** 31 * ONE:
        raise Failure('limitcheck', 'scan')
    return number


class Level:
    """A procedure that runs, a loop with its body, or a `stopped` with what it runs.

    A loop has its turns: what each of them pushes. A procedure that an operator called has what that
    does once it has ended. A level goes when the next object is asked for and nothing is left.
    """

    def __init__(self, kind, body=None, turns=None, returned=None):
        self.kind, self.body, self.turns, self.returned = kind, body, turns, returned
        self.next = 0 if turns is None and body else None

    def next_object(self):
        """The next element of the procedure, read while it runs."""
        if self.next is None or self.next >= self.body.length:
            return None
        self.next += 1
        return self.body.get(self.next - 1)


def is_procedure(value):
    return isinstance(value, Array) and value.executable


class Machine:
    """The stacks of a program that runs (3.4 Stacks), and what is left of its text."""

    def __init__(self, text, operators):
        self.tokens = iter(TOKEN.findall(text))
        self.operators = operators
        self.system = Dictionary(writable=False)
        for name in operators:
            self.system.define(Name(name.encode()), Operator(name))
        self.user = Dictionary()
        self.operands, self.dictionaries, self.levels = [], [self.system, self.user], []
        self.open_procedures = []
        self.pending = None
        self.count = 0

    def run(self):
        """Runs to the end of the text; raises `Ended` where the program ends before."""
        while True:
            try:
                if not self.step() and not self.read():
                    return
            except Failure as failure:
                self.catch(failure)
            if self.count > MAX_COUNT:
                raise Unmodelled('long')

    def step(self):
        """Executes the next object of the levels, if there is one (3.5 Execution)."""
        if self.pending is not None:
            value, self.pending = self.pending, None
            self.execute(value)
            return True
        while self.levels:
            level = self.levels[-1]
            value = level.next_object()
            if value is not None:
                self.count += 1
                self.execute(value)
                return True
            turn = None if level.turns is None else next(level.turns, None)
            if turn is not None:
                self.take_turn(level, turn)
                return True
            self.levels.pop()
            if level.kind == 'stopped':
                self.push(Boolean(False), 'stopped')
                return True
            if level.returned:
                level.returned(self)
                return True
        return False

    def take_turn(self, level, turn):
        self.count += 1
        level.next = 0
        if len(self.operands) + len(turn) > MAX_OPERANDS:
            raise Failure('stackoverflow', level.kind)
        self.operands += turn

    def read(self):
        """Executes the next object of the text, or adds it to an open procedure (3.5 Execution)."""
        token = next(self.tokens, None)
        if token is None:
            return False
        if token == '{':
            self.open_procedures.append([])
            return True
        value = self.object_of(token)
        if self.open_procedures:
            self.open_procedures[-1].append(value)
        else:
            self.count += 1
            self.execute(value)
        return True

    def object_of(self, token):
        if token == '}':
            return array_of(self.open_procedures.pop(), executable=True)
        if token.startswith('//'):
            return self.find(Name(token[2:].encode()))
        if token[0] == '/':
            return Name(token[1:].encode())
        if token[0] == '(':
            return string_of(token[1:-1].encode())
        number = number_of(token)
        return Name(token.encode(), True) if number is None else number

    def execute(self, value):
        """An executable name means what it is defined as, the rest is pushed.

        3.5.3 Execution of Specific Types.
        """
        if isinstance(value, Name) and value.executable:
            self.execute_found(value, self.find(value))
        elif isinstance(value, Operator):
            self.operate(value.name)
        else:
            self.push(value, 'push')

    def execute_found(self, name, value):
        if is_procedure(value):
            try:
                self.open(Level('procedure', value))
            except Refusal as refusal:
                raise Failure(str(refusal), name.text.decode('latin1')) from None
        elif isinstance(value, Name) and value.executable:
            self.count += 1
            self.pending = value
        else:
            self.execute(value)

    def operate(self, name):
        """Runs an operator; where it refuses, the operands are those before it."""
        before = list(self.operands)
        try:
            results = self.operators[name](self) or []
            if len(self.operands) + len(results) > MAX_OPERANDS:
                raise Refusal('stackoverflow')
            self.operands += results
        except Refusal as refusal:
            self.operands = before
            raise Failure(str(refusal), name) from None

    def look_up(self, key):
        """The value of a key from the top of the dictionary stack (3.4)."""
        values = (dictionary.look_up(key) for dictionary in reversed(self.dictionaries))
        return next((value for value in values if value is not None), None)

    def find(self, name):
        value = self.look_up(name)
        if value is None:
            raise Failure('undefined', name.text.decode('latin1'))
        return value

    def push(self, value, command):
        if len(self.operands) >= MAX_OPERANDS:
            raise Failure('stackoverflow', command)
        self.operands.append(value)

    def open(self, level):
        if len(self.levels) >= MAX_LEVELS:
            raise Refusal('execstackoverflow')
        self.levels.append(level)

    def cut_to_stopped(self):
        """Drops the levels down to the innermost `stopped`, and that too, if there is one."""
        while self.levels:
            if self.levels.pop().kind == 'stopped':
                return True
        return False

    def catch(self, failure):
        """The innermost `stopped` with room for its true catches an error (8.2 stopped)."""
        self.pending = None
        while self.cut_to_stopped():
            if len(self.operands) < MAX_OPERANDS:
                self.operands.append(Boolean(True))
                return
            failure = Failure('stackoverflow', 'stopped')
        raise Ended(str(failure))
