#!/usr/bin/env python3
"""Makes crates/number_cases/stdin (the records that ask the number leaves) and crates/number_cases/stdout (what each answers, in bits).

No expected value comes from the code under test. Whole numbers, roots and the f64s of references are rounded here from exact fractions,
ties to even; roots come from whole-number square roots; sines and cosines are Taylor sums of 90 decimal digits; tick differences, the
ranges of counters and halving counts are the words of 01 and 02 in whole numbers and fractions. Of `math` only isqrt and floor are used,
which are exact. The evaluation of docs/SINCOS.md is that of tools/wheel_cases.py.

The list is fixed: its random part is a linear congruential generator that starts from the same number. Run it from anywhere, with no
arguments.
"""
import math
import sys
from decimal import Decimal, getcontext
from fractions import Fraction

sys.dont_write_bytecode = True
from parts import of_bits, write
from wheel_cases import sine_cosine

getcontext().prec = 90
INF, NAN, SIGN = 0x7FF0000000000000, 0x7FF8000000000000, 1 << 63
LARGEST, SMALLEST = INF - 1, 1 << 52  # the normal numbers' ends
# quiet, signalling and full, of both signs
NANS = [sign + bits for sign in (0, SIGN) for bits in (NAN, INF + 1, SIGN - 1)]


# ---- f64s as bit patterns


def nearest(a):
    """The bits of the f64 nearest to the fraction a, ties to even."""
    if a < 0:
        return SIGN + nearest(-a)
    if a == 0:
        return 0
    a = Fraction(a)
    e = a.numerator.bit_length() - a.denominator.bit_length()
    if a < power(e):
        e -= 1
    unit = max(e - 52, -1074)
    n, left = divmod(a, power(unit))
    if 2 * left > power(unit) or (2 * left == power(unit) and n % 2 == 1):
        n += 1
    # n has its leading digit where it is normal, which adds one to the exponent's field
    return min(((unit + 1074) << 52) + n, INF)


def power(k):
    return Fraction(2) ** k


def value(bits):
    """The fraction that the bits of a finite f64 stand for."""
    if bits & SIGN:
        return -value(bits - SIGN)
    field, digits = bits >> 52, bits % (1 << 52)
    return digits * power(-1074) if field == 0 else ((1 << 52) + digits) * power(field - 1075)


def around(bits, n):
    """A pattern and its neighbours, n to each side, none below zero."""
    return [b for b in range(bits - n, bits + n + 1) if b >= 0]


def both_signs(patterns):
    return [sign + b for b in patterns for sign in (0, SIGN)]


# ---- a fixed source of random numbers

seed = 1


def random_below(n):
    global seed
    r = 0
    for _ in range(2 + n.bit_length() // 32):
        seed = (seed * 6364136223846793005 + 1442695040888963407) % 2**64
        r = (r << 32) + (seed >> 32)
    return r % n


def random_from(low, high):
    return low + random_below(high - low + 1)


# ---- 1: whole numbers, each with the bits of the nearest f64. A case is its record and its line


def wholes():
    ns = [0, 1, 2, 3, 2**63 - 1, -(2**63), -(2**63) + 1]
    for k in range(52, 64):
        gap = 2 ** max(k - 52, 0)  # between the f64s above 2^k
        for odd in (1, 3):
            # the tie above an even f64, that above an odd one, and what lies beside them
            ns += [2**k + odd * gap // 2 + d for d in (-1, 0, 1)]
        # 2^k itself, and the tie below it, where the gap is half as wide
        ns += [2**k + d for d in (-2, -1, 0, 1, 2)] + [2**k - gap // 4 + d for d in (-1, 0, 1)]
    ns += [random_below(2 ** random_from(1, 63)) for _ in range(200)]
    ns = [n for m in ns for n in (m, -m)]
    return [([1, n], [nearest(n)]) for n in ns if -(2**63) <= n < 2**63]


# ---- 2: a counter width and tick counts, from and to, with the difference. 01: "taken modulo 2^64 as a signed number. From 2^63-1 to -2^63
# it is 1." 02, W-201: "the signed one modulo 2^width, from −2^(width−1) upward"; a width that is none reads as 64

OTHER_WIDTHS = [0, 65, 66, 128, 2**32, 2**32 + 16, 2**63 + 24, 2**64 - 1]


def ticks():
    ends = [0, 1, -1, 2, -2, 2**31, -(2**31), 2**62, -(2**62), 2**63 - 1, 2**63 - 2, -(2**63), -(2**63) + 1]
    pairs = [(64, a, b) for a in ends for b in ends]
    for _ in range(200):
        a, step = random_from(-(2**63), 2**63 - 1), random_from(-1000, 1000)
        pairs += [(64, a, signed(64, a + step)), (64, a, random_from(-(2**63), 2**63 - 1))]
        pairs += [(64, signed(64, 2**63 + step), signed(64, 2**63 - step))]  # across the wrap, either way
    for width in [*range(1, 65), *OTHER_WIDTHS]:
        w = width if width in range(1, 65) else 64
        half, base = 2 ** (w - 1), random_from(-(2**63), 2**63 - 1)
        # none, one either way, half the range and beside it, a whole turn and beside it, from where a counter begins and ends and from anywhere
        steps = [0, 1, -1, half - 1, half, half + 1, -half + 1, -half, -half - 1, 2 * half - 1, 2 * half, 2 * half + 1]
        pairs += [(width, a, signed(64, a + step)) for a in (0, 2 * half - 1, base) for step in steps if -(2**63) <= a < 2**63]
        pairs += [(width, base, random_from(-(2**63), 2**63 - 1)), (width, -(2**63), 2**63 - 1), (width, 2**63 - 1, -(2**63))]
    return [([2, width, a, b], [signed(width if width in range(1, 65) else 64, b - a)]) for width, a, b in pairs]


def signed(width, n):
    """The number from −2^(width−1) upward that is n modulo 2^width."""
    half = 2 ** (width - 1)
    return (n + half) % (2 * half) - half


# ---- 6: a counter width and a tick count, with whether it is in range. 02, W-201: "Below 64 a tick must lie in 0 to 2^width−1"


def ranges():
    cases = []
    for width in [*range(64), 64, *OTHER_WIDTHS[1:]]:
        end = 2 ** min(width, 64)
        counts = [0, 1, -1, end - 1, end, end + 1, -end, end // 2, 2**63 - 1, -(2**63), random_from(-(2**63), 2**63 - 1)]
        cases += [([6, width, n], [int(width >= 64 or 0 <= n < end)]) for n in counts if -(2**63) <= n < 2**63]
    return cases


# ---- 3: roots. 01: "0 keeps its sign, +infinity gives itself, negative or NaN is refused 2."


def roots():
    xs = [0, SIGN, INF, LARGEST, SMALLEST, nearest(1), nearest(2), nearest(4)]
    xs += [2**k for k in range(52)] + [3, SMALLEST - 2, SMALLEST - 1, SMALLEST + 1, LARGEST - 1]
    for _ in range(60):
        n = random_from(1, 2**26)
        xs += around(nearest(n * n), 1)
        n = random_from(2**52, 2**53 - 1)
        # beside the square of an f64, and beside that of the midpoint of two
        xs += around(nearest(n * n), 1) + around(nearest((n + Fraction(1, 2)) ** 2), 1)
    xs += [random_from(1, LARGEST) for _ in range(300)] + [random_from(1, SMALLEST) for _ in range(30)]
    # beside the powers of 4, where the root moves half as fast, near and less near
    for power_of_four in (1, 4, Fraction(1, 4), 4**400, Fraction(1, 4**400)):
        for d in (0, 1, 2, 3, 4, 5, 99, 100, 2**25 - 1, 2**25, 2**25 + 1, 2**26 - 1, 2**26, 2**26 + 1, 2**26 + 2, 2**27, 2**27 + 1):
            xs += [nearest(power_of_four) - d, nearest(power_of_four) + d]
    below = [SIGN + 1, SIGN + SMALLEST - 1, SIGN + SMALLEST, SIGN + nearest(1), SIGN + LARGEST, SIGN + INF]
    below += [SIGN + random_from(1, LARGEST) for _ in range(30)]
    return [([3, x], [0, root(x)]) for x in xs] + [([3, x], [2]) for x in below + NANS]


def root(bits):
    if bits in (0, SIGN, INF):
        return bits
    x = value(bits)
    # the root of x * 4^k has at least 60 digits before its point, so that where it has a fraction any will do to round it
    k = 60 - (x.numerator.bit_length() - x.denominator.bit_length()) // 2
    x *= power(2 * k)
    n = math.isqrt(math.floor(x))
    exact = n * n == x
    return nearest((n if exact else n + Fraction(1, 2)) * power(-k))


# ---- 4: sines and cosines


def taylor(x):
    """The sine and the cosine of the fraction x, |x| <= 4: 60 terms each, the last below 1e-110."""
    x = Decimal(x.numerator) / Decimal(x.denominator)
    sums, term = [Decimal(0), Decimal(0)], Decimal(1)
    for k in range(120):
        sums[1 - k % 2] += -term if k % 4 >= 2 else term
        term = term * x / (k + 1)
    assert abs(sums[0] ** 2 + sums[1] ** 2 - 1) < Decimal("1e-80")
    return sums


def arctangent(n, digits):
    """10^digits times the arctangent of 1/n, within a few units."""
    total, term, k = 0, 10**digits // n, 1
    while term:
        total += -(term // k) if k % 4 == 3 else term // k
        term //= n * n
        k += 2
    return total


# Machin's formula
REAL_PI = Fraction(16 * arctangent(5, 120) - 4 * arctangent(239, 120), 10**120)

# where the evaluation of docs/SINCOS.md passes from one form to the next
JOINS = [power(-5), REAL_PI / 4, 3 * REAL_PI / 4, 5 * REAL_PI / 4, 4]


def angles():
    xs = [0, 1, 2, SMALLEST - 1, SMALLEST, SMALLEST + 1]
    four = nearest(4)
    for join in JOINS:
        xs += [b for b in around(nearest(join), 3) if b <= four]
    for k in (1, 2):
        quarter = REAL_PI * k / 2
        xs += around(nearest(quarter), 5)
        xs += [nearest(quarter + side * power(-j)) for j in range(1, 52, 2) for side in (-1, 1)]
    xs += [nearest(power(-k)) for k in [*range(6, 60, 3), *range(60, 1074, 26), 1074]]
    xs = both_signs(xs)
    while len(xs) < 2000:
        # evenly over the range, and, for a third of them, evenly over the patterns from 2^-60 on
        x = nearest(Fraction(random_below(2**64), 2**62)) if len(xs) % 3 else random_from(nearest(power(-60)), four)
        xs += [x + SIGN * random_below(2)]
    assert len(xs) == 2000
    return xs


# 01: "Runs hold it within 2e-15 of Rust's." Here it is held so near to the true values, by the f64 that is nearest to each: that lies at most 2^-54 from it, and
# the difference of two f64s so close has no error that counts beside another 2^-54.
TOLERANCE = nearest(Fraction("2e-15") - power(-53))


def turns():
    """Each angle twice: by docs/SINCOS.md, bit for bit, and near the true values."""
    cases = []
    for x in angles():
        cases += [([4, x], [0, *sine_cosine(of_bits(x))])]
        sine, cosine = (nearest(Fraction(d)) for d in taylor(value(x)))
        cases += [([104, x, TOLERANCE, sine, TOLERANCE, cosine], [0, sine, cosine])]
    return cases


# ---- refused angles. 01: "not finite is refused 2, above 4 is refused 8."


def refused_angles():
    above = [nearest(4) + 1, nearest(4) + 2, nearest(5), nearest(2 * REAL_PI), nearest(10**300), LARGEST]
    above += [random_from(nearest(4) + 1, LARGEST) for _ in range(20)]
    return [([4, x], [8]) for x in both_signs(above)] + [([4, x], [2]) for x in [INF, SIGN + INF] + NANS]


# ---- 5: halving counts. 01: "At most 1+1e-9: 0 halvings. Otherwise the least k with 2^k not below the ratio, never more than 20;
# infinite gives 20, NaN 0." 1+1e-9 is the f64.


def halvings():
    limit = nearest(1 + Fraction(1, 10**9))
    xs = [0, SIGN, 1, SIGN + 1, SIGN + nearest(1), SIGN + nearest(1000), SIGN + LARGEST, SIGN + INF, nearest(Fraction(1, 2))]
    xs += around(limit, 2) + [nearest(3), nearest(1000), nearest(10**6), nearest(10**9), nearest(10**300), LARGEST, INF] + NANS
    for k in range(22):
        xs += around(nearest(2**k), 1)
    xs += [random_from(limit, nearest(2**22)) for _ in range(50)]
    return [([5, x], [count(x, limit), nearest(2 ** count(x, limit))]) for x in xs]


def count(bits, limit):
    if bits in NANS:
        return 0
    if bits in (INF, SIGN + INF):
        return 20 if bits == INF else 0
    if value(bits) <= value(limit):
        return 0
    return next((k for k in range(20) if 2**k >= value(bits)), 20)


write("number_cases", wholes() + ticks() + ranges() + roots() + turns() + refused_angles() + halvings())
