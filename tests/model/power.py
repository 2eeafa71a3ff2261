"""The power curve, read from ICC.1:2010 (10.5 curveType, 10.16 parametricCurveType) and from the
project's own rules for whole numbers. Independent of the code: numbers without a bound."""

from math import isqrt

U = 1 << 32


def div_round(n, d):
    """n / d rounded to the nearest; a tie goes up."""
    return (2 * n + d) // (2 * d)


def log2(y):
    """log2(y / U) in 1/U, with 32 binary places, each rounded down."""
    n = y.bit_length() - 1
    m = (y * U) >> n
    result = (n - 32) * U
    for k in range(1, 33):
        t = m * m // U
        if t >= 2 * U:
            result += 1 << (32 - k)
            m = t // 2
        else:
            m = t
    return result


def power(y, g):
    """(y / U) ^ (g / 65536) in 1/U."""
    if y <= 0:
        return 0
    e = div_round(g * log2(y), 65536)
    q, fraction = divmod(e, U)
    s, r = 2 * U, U
    for k in range(1, 33):
        s = isqrt(s * U)
        if fraction >> (32 - k) & 1:
            r = r * s // U
    if q > 31:
        return 1 << 64
    return r << q if q >= 0 else r >> -q


def curve_value(kind, raw, v):
    """The value of 16 bits of a parametric curve at v."""
    g, a, b, c, d, e, f = (list(raw) + [0] * 7)[:7]
    if kind == 0:
        a = 65536
    if kind == 2:
        c, e = 0, c
    if kind in (3, 4) and v * 65536 < d * 65535:
        y = div_round(c * v * 65536, 65535) + f * 65536
    else:
        y = power(div_round(a * v * 65536, 65535) + b * 65536, g) + e * 65536
    return div_round(65535 * min(max(y, 0), U), U)
