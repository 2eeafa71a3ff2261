"""What an operator of the language model is; the operators on the operand stack, and arithmetic.

They are those of the PostScript Language Reference, third edition, 8.2. An operator asks for enough
operands, for their types, and then for the conditions of its own, in that order (own rule). It is
given its operands, taken from the stack, and gives back its results.
"""
import arithmetic
from geometry import Refusal
from objects import Array, Boolean, Dictionary, Integer, Mark, Name, Null, Real, String, are_equal

OPERATORS, FORMS = {}, {}


def kind(*types):
    return lambda value: isinstance(value, types)


ANY = kind(object)
INTEGER, NUMBER, BOOLEAN = kind(Integer), kind(Integer, Real), kind(Boolean)
STRING, ARRAY, DICTIONARY = kind(String), kind(Array), kind(Dictionary)
KEY = kind(Name, String, Integer, Real, Boolean)


def refuse_if(condition, error):
    if condition:
        raise Refusal(error)


def operands_of(machine, forms):
    """Takes the operands of one of these forms; the top one says which form it is (own rule)."""
    held = machine.operands
    refuse_if(len(held) < min(map(len, forms)), 'stackunderflow')
    fitting = [form for form in forms if not form or form[-1](held[-1])]
    refuse_if(not fitting, 'typecheck')
    size = len(fitting[0])
    refuse_if(len(held) < size, 'stackunderflow')
    taken = held[len(held) - size:]
    refuse_if(not any(all(test(value) for test, value in zip(form, taken)) for form in fitting),
              'typecheck')
    del held[len(held) - size:]
    return taken


def operator(*forms, name=None):
    """Adds a function as an operator that takes operands of one of these forms."""
    def add(function):
        def run(machine):
            return function(machine, *operands_of(machine, forms))
        word = name or function.__name__.rstrip('_')
        OPERATORS[word], FORMS[word] = run, forms
        return function
    return add


def add_arithmetic():
    """The operators that are functions of their operands alone."""
    tables = ((((NUMBER, NUMBER),), arithmetic.TWO_NUMBERS),
              (((INTEGER, INTEGER),), arithmetic.TWO_INTEGERS),
              (((BOOLEAN, BOOLEAN), (INTEGER, INTEGER)), arithmetic.TWO_ALIKE),
              (((NUMBER,),), arithmetic.ONE_NUMBER),
              (((BOOLEAN,), (INTEGER,)), {'not': arithmetic.not_}))
    for forms, table in tables:
        for name, function in table.items():
            operator(*forms, name=name)(lambda _, *values, f=function: [f(*values)])
    for name, holds in arithmetic.COMPARISONS.items():
        operator((NUMBER, NUMBER), (STRING, STRING), name=name)(
            lambda _, one, other, f=holds: [Boolean(f(order_of(one), order_of(other)))])
    for name, value in (('true', Boolean(True)), ('false', Boolean(False)), ('null', Null()),
                        ('mark', Mark()), ('[', Mark()), ('<<', Mark())):
        operator((), name=name)(lambda _, v=value: [v])


def order_of(value):
    return value.text if isinstance(value, String) else value.raw


@operator((ANY,))
def pop(_, _value):
    return []


@operator((ANY, ANY))
def exch(_, one, other):
    return [other, one]


@operator((ANY,))
def dup(_, value):
    return [value, value]


@operator(())
def clear(machine):
    machine.operands.clear()


@operator(())
def count(machine):
    return [Integer(len(machine.operands))]


def top(machine, size):
    """So many operands from the top, which stay."""
    refuse_if(size < 0, 'rangecheck')
    refuse_if(size > len(machine.operands), 'stackunderflow')
    return machine.operands[len(machine.operands) - size:]


@operator((INTEGER,))
def index(machine, place):
    refuse_if(place.value < 0, 'rangecheck')
    return [top(machine, place.value + 1)[0]]


@operator((INTEGER, INTEGER))
def roll(machine, size, steps):
    values = top(machine, size.value)
    if values:
        del machine.operands[-len(values):]
        cut = -steps.value % len(values)
        return values[cut:] + values[:cut]
    return []


def above_mark(machine):
    """The operands above the topmost mark."""
    places = [at for at, value in enumerate(machine.operands) if isinstance(value, Mark)]
    refuse_if(not places, 'unmatchedmark')
    return machine.operands[places[-1] + 1:]


@operator(())
def cleartomark(machine):
    del machine.operands[-len(above_mark(machine)) - 1:]


@operator(())
def counttomark(machine):
    return [Integer(len(above_mark(machine)))]


@operator((ANY, ANY))
def eq(_, one, other):
    return [Boolean(are_equal(one, other))]


@operator((ANY, ANY))
def ne(_, one, other):
    return [Boolean(not are_equal(one, other))]


add_arithmetic()
