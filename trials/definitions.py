"""The definitions of the circle and of plans, from the rules that docs/GUIDE.md states.

Every number here is a Python integer; nothing is shared with the crates.
"""

from fractions import Fraction
from functools import lru_cache
from math import gcd, isqrt


def nearest_root(x):
    """The whole number nearest to the square root of x (no whole number's root ends in exactly one half)."""
    low = isqrt(x)
    return low if x - low * low <= low else low + 1


def half_up(x):
    """The whole number nearest to the fraction x >= 0, halves upward."""
    return (x + Fraction(1, 2)).__floor__()


def circle():
    """c(v) and s(v) for v from 0 to 64, filled in the order in which the rules give them."""
    c, s = {0: 2**30}, {0: 0}
    while len(c) < 65:
        for v in range(33, 65):
            if v not in c and 64 - v in c:
                c[v], s[v] = s[64 - v], c[64 - v]
        for v in range(1, 33):
            if v not in c and 2 * v in c:
                c[v] = nearest_root(2**29 * (2**30 + c[2 * v]))
                s[v] = half_up(Fraction(2**29 * s[2 * v], c[v]))
    return c, s


C_TABLE, S_TABLE = circle()


def fine(u):
    """F(u)."""
    u %= 256
    if u < 64:
        return C_TABLE[u], -S_TABLE[u]
    a, b = fine(u - 64)
    return b, -a


def away(x):
    """The whole number nearest to the fraction x, halves away from zero."""
    return half_up(x) if x >= 0 else -half_up(-x)


@lru_cache(maxsize=4096)
def twiddle(scale, u):
    """C(u) at a twiddle scale."""
    return tuple(away(Fraction(scale * part, 2**30)) for part in fine(u))


def spread(scale):
    return 3 * scale // 2 + 1


METHODS = {"d": "direct", "2": "radix 2", "4": "radix 4"}


def plan_refusal(method, size, sample, scale):
    """The number and the word of the earliest refusal, or None."""
    powers = {"d": 2, "2": 2, "4": 4}
    if size not in [powers[method] ** t for t in range(9) if powers[method] ** t <= 256]:
        return "1 size"
    if not 1 <= sample <= 32767:
        return "2 sample scale"
    if not 1 <= scale <= 32768:
        return "3 twiddle scale"
    return None


def figures(method, size, sample, scale):
    """Scale, bound and distance."""
    spread_ = spread(scale)
    if method == "d":
        return scale, size * sample * spread_, size * sample
    radix = int(method)
    growth = scale + (radix - 1) * spread_
    reached = min(size, 4)
    d, b, e = 1, reached * sample, 0
    while reached < size:
        reached *= radix
        weight = reached if radix == 2 else Fraction(5 * reached, 4)
        d, b, e = scale * d, growth * b, growth * e + d * weight * sample
    return d, b, int(e)


def is_modulus(n):
    """A modulus is odd, from 3 to 2^62 - 1."""
    return n % 2 == 1 and 3 <= n < 2**62


def is_system(moduli):
    """Three odd moduli from 3 to 1,048,575, no two with a common factor."""
    return all(m % 2 == 1 and 3 <= m <= 1048575 for m in moduli) and all(
        gcd(moduli[i], moduli[j]) == 1 for i in range(3) for j in range(i)
    )


def meaning(residue, n):
    """The whole number that a residue modulo n means."""
    return residue if residue <= (n - 1) // 2 else residue - n


def seal_refusal(m, word_taken, n, limit=None):
    """The number and the word of the refusal to seal m, or None."""
    if abs(m) > (n - 1) // 2 or (limit is not None and abs(m) > limit):
        return "11 large"
    return None if word_taken else "12 mask"


def times(a, b):
    """The product of two complex whole numbers."""
    return a[0] * b[0] - a[1] * b[1], a[0] * b[1] + a[1] * b[0]


def plus(*numbers):
    return sum(x[0] for x in numbers), sum(x[1] for x in numbers)


def turn(x, quarters):
    """x times (-j)^quarters."""
    for _ in range(quarters % 4):
        x = x[1], -x[0]
    return x


def lines(method, scale, samples):
    """All lines of the samples, by the rules of the method."""
    size = len(samples)
    if method == "d":
        return [
            plus(*(times(twiddle(scale, n * k * 256 // size % 256), samples[n]) for n in range(size)))
            for k in range(size)
        ]
    if size == 1:
        return list(samples)
    radix = int(method)
    parts = [lines(method, scale, samples[i::radix]) for i in range(radix)]
    out = [None] * size
    for k in range(size // radix):
        weighted = []
        for i in range(radix):
            if size <= 4:
                weighted.append(turn(parts[i][k], i * k * 4 // size))
            elif i == 0:
                weighted.append((scale * parts[i][k][0], scale * parts[i][k][1]))
            else:
                weighted.append(times(twiddle(scale, i * k * 256 // size), parts[i][k]))
        for out_part in range(radix):
            turned = [turn(weighted[i], i * out_part * (4 // radix)) for i in range(radix)]
            out[k + out_part * (size // radix)] = plus(*turned)
    return out


def fine_lines(samples):
    """The fine transform."""
    size = len(samples)
    return [
        plus(*(times(fine(n * k * 256 // size), samples[n]) for n in range(size)))
        for k in range(size)
    ]
