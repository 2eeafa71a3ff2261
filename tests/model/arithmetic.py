"""Arithmetic of the language model: integers of 32 bits, and reals with 16 binary places.

Operators are those of the PostScript Language Reference, third edition, 8.2; the range of reals and
their rounding are own rules.
"""
from math import isqrt

from geometry import Refusal, cosine, div_round, real, sine
from objects import ONE, Boolean, Integer, Real

BITS = 2 ** 32


def integer(value):
    """An integer in range, which never becomes a real."""
    if not -2 ** 31 <= value < 2 ** 31:
        raise Refusal('undefinedresult')
    return Integer(value)


def integer_of_bits(bits):
    bits %= BITS
    return Integer(bits - BITS if bits >= BITS // 2 else bits)


def truncated(number, divisor):
    """A quotient cut towards zero."""
    quotient = abs(number) // abs(divisor)
    return quotient if (number < 0) == (divisor < 0) else -quotient


def are_integers(one, other):
    return isinstance(one, Integer) and isinstance(other, Integer)


def add(one, other):
    if are_integers(one, other):
        return integer(one.value + other.value)
    return Real(real(one.raw + other.raw))


def sub(one, other):
    if are_integers(one, other):
        return integer(one.value - other.value)
    return Real(real(one.raw - other.raw))


def mul(one, other):
    if are_integers(one, other):
        return integer(one.value * other.value)
    return Real(real(div_round(one.raw * other.raw, ONE)))


def div(one, other):
    if other.raw == 0:
        raise Refusal('undefinedresult')
    return Real(real(div_round(one.raw * ONE, other.raw)))


def idiv(one, other):
    if other.value == 0:
        raise Refusal('undefinedresult')
    return integer(truncated(one.value, other.value))


def mod(one, other):
    """The rest that idiv leaves, with the sign of the dividend."""
    if other.value == 0:
        raise Refusal('undefinedresult')
    return integer(one.value - other.value * truncated(one.value, other.value))


def bitshift(one, other):
    """Left for a positive shift; zeros come in from both sides."""
    bits, shift = one.value % BITS, other.value
    if abs(shift) >= 32:
        return Integer(0)
    return integer_of_bits(bits << shift if shift >= 0 else bits >> -shift)


def of_bits(combine):
    """An operator on two booleans or on the bits of two integers."""
    def combined(one, other):
        if isinstance(one, Boolean):
            return Boolean(combine(one.value, other.value))
        return integer_of_bits(combine(one.value, other.value))
    return combined


def not_(one):
    return Boolean(not one.value) if isinstance(one, Boolean) else Integer(~one.value)


def neg(one):
    return integer(-one.value) if isinstance(one, Integer) else Real(real(-one.raw))


def abs_(one):
    return neg(one) if one.raw < 0 else one


def to_whole(whole_of):
    """An operator that takes a real to a whole one, and leaves an integer as it is."""
    def rounded(one):
        return one if isinstance(one, Integer) else Real(real(whole_of(one.raw) * ONE))
    return rounded


def sqrt(one):
    if one.raw < 0:
        raise Refusal('rangecheck')
    return Real(isqrt(one.raw * ONE))


def cvi(one):
    return Integer(truncated(one.raw, ONE))


TWO_NUMBERS = {'add': add, 'sub': sub, 'mul': mul, 'div': div}
TWO_INTEGERS = {'idiv': idiv, 'mod': mod, 'bitshift': bitshift}
TWO_ALIKE = {'and': of_bits(lambda p, q: p & q), 'or': of_bits(lambda p, q: p | q),
             'xor': of_bits(lambda p, q: p ^ q)}
ONE_NUMBER = {
    'neg': neg, 'abs': abs_, 'sqrt': sqrt, 'cvi': cvi,
    'ceiling': to_whole(lambda raw: -(-raw // ONE)), 'floor': to_whole(lambda raw: raw // ONE),
    'round': to_whole(lambda raw: div_round(raw, ONE)),
    'truncate': to_whole(lambda raw: truncated(raw, ONE)),
    'sin': lambda one: Real(sine(one.raw)), 'cos': lambda one: Real(cosine(one.raw)),
    'cvr': lambda one: Real(one.raw)}
COMPARISONS = {'gt': lambda p, q: p > q, 'ge': lambda p, q: p >= q, 'lt': lambda p, q: p < q,
               'le': lambda p, q: p <= q}
