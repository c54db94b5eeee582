#!/usr/bin/env python3
"""Makes the first part of crates/factor_cases/stdin (the records that ask the wheel and still factors) and of crates/factor_cases/stdout
(what each answers, in bits). The layout of a record and of a line stands at the head of crates/factor_cases/src/main.rt.

No expected value comes from the code under test: this is document 01 once more, sentence by sentence, in Python's floats, which are IEEE
f64 and overflow and give NaN as IEEE says. A quotient of two floats is IEEE's too, except by zero, and `inverse` sees to that. Of `math`
only pi, tau, which are the f64 constants, factorial and sqrt are used: each root is held against 01's inequalities in exact fractions.
Where 01 leaves a point open, the reading is that of docs/DECISIONS.md.

The cases are fixed: their random part is a linear congruential generator that starts from the same number. Run it from anywhere, with no
arguments.
"""
import math
import sys
from fractions import Fraction
from itertools import combinations, product as pairs_of
from typing import NamedTuple

sys.dont_write_bytecode = True
from parts import of_bits, raw, write

INF, NAN = float("inf"), float("nan")
PI, TAU = math.pi, math.tau


# ---- bits


def beside(x, n):
    """The float n places further from zero than x, which is not zero."""
    return of_bits(raw(x) + n)


def finite(*xs):
    return all(-INF < x < INF for x in xs)


def positive(x):
    """Finite and above 0."""
    return finite(x) and x > 0


def inverse(x):
    """1/x, of an x that is +0, above 0 or NaN."""
    return INF if x == 0 else 1 / x


# ---- 01, Refusal numbers


class Refused(Exception):
    def __init__(self, number):
        self.number = number


def refuse(test, number):
    if test:
        raise Refused(number)


def above_four(x):
    """8: "a finite angle above 4 rad in size"."""
    return finite(x) and abs(x) > 4


# ---- 01, Square root, sine, cosine


# "0 keeps its sign, +infinity gives itself, negative or NaN is refused 2"
def root(x):
    refuse(x != x or x < 0, 2)
    if x in (0, INF):
        return x
    r = math.sqrt(x)
    assert is_root(r, x)
    return r


# "the one f64 for which x lies strictly between the squares of the midpoints to its neighbours"
def is_root(r, x):
    low, high = ((Fraction(r) + Fraction(beside(r, n))) / 2 for n in (-1, 1))
    return low * low < Fraction(x) < high * high


# docs/SINCOS.md: F[k] is the f64 nearest to 1/k!, H that nearest to π/2
F = [1 / math.factorial(k) for k in range(18)]
H, L = PI / 2, 6.123233995736766e-17
BOUNDS = [PI / 4, 3 * PI / 4, 5 * PI / 4]


def alternating(z, first, last):
    """F[first] − z·(F[first + 2] − z·(.. − z·F[last]))"""
    p = F[last]
    for k in range(last - 2, first - 1, -2):
        p = F[k] - z * p
    return p


def kernel(r, last):
    z = r * r
    return r - r * (z * alternating(z, 3, last)), 1 - z * alternating(z, 2, last - 1)


def sine_cosine(x):
    """docs/SINCOS.md, of |x| ≤ 4."""
    a = abs(x)
    assert a <= 4
    if a <= 0.03125:
        return kernel(x, 7)
    q = sum(a > bound for bound in BOUNDS)
    s, c = kernel((a - q * H) - q * L, 17)
    s, c = [(s, c), (c, -s), (-s, -c), (-c, s)][q]
    return (-s if x < 0 else s), c


# ---- 01, Composing planar motions: "Products add k = 0, 1, 2 in that order; a triple product goes left to right." A matrix is its rows.


def product(a, b):
    return [[a[i][0] * b[0][j] + a[i][1] * b[1][j] + a[i][2] * b[2][j] for j in range(3)] for i in range(3)]


def transpose(a):
    return [list(row) for row in zip(*a)]


def plus(a, b):
    return [[x + y for x, y in zip(p, q)] for p, q in zip(a, b)]


def times(a, x):
    return [[y * x for y in row] for row in a]


def carried(j, q):
    return product(product(j, q), transpose(j))


# "Yaw is rows (c, −s, 0), (s, c, 0), (0, 0, 1)."
def yaw(heading):
    s, c = sine_cosine(heading)
    return [[c, -s, 0.0], [s, c, 0.0], [0.0, 0.0, 1.0]]


# "The heading sum S is kept when −PI ≤ S ≤ PI, else TAU is taken off or added once."
def wrapped(s):
    if -PI <= s <= PI:
        return s
    return s - TAU if s > PI else s + TAU


# "Formulas as in `compose`." The third term of the turned translation, 0·0, is there. "The covariance is ((A+Aᵀ)+(B+Bᵀ))·0.5."
def planar_composed(first, second):
    ((x1, y1, heading1), covariance1), ((x2, y2, heading2), covariance2) = first, second
    turn = yaw(heading1)
    x, y, _ = [row[0] * x2 + row[1] * y2 + row[2] * 0.0 for row in turn]
    a = carried([[1.0, 0.0, -y], [0.0, 1.0, x], [0.0, 0.0, 1.0]], covariance1)
    b = carried(turn, covariance2)
    return [x1 + x, y1 + y, wrapped(heading1 + heading2)], times(plus(plus(a, transpose(a)), plus(b, transpose(b))), 0.5)


# ---- 01, Information of wheel factors


class Measurement(NamedTuple):
    delta: list
    covariance: list
    z: float
    tilt: float


class Factor(NamedTuple):
    """An extrinsic is twelve numbers: the rotation, column by column, and the translation. No limit is None."""

    start: int
    end: int
    measurement: Measurement
    first: list
    last: list
    limit: float


# "no matrix" is a blank value, every number +0
NO_MEASUREMENT = Measurement([0.0] * 3, [[0.0] * 3] * 3, 0.0, 0.0)
NO_FACTOR = Factor(0, 0, NO_MEASUREMENT, [0.0] * 12, [0.0] * 12, None)
NO_MATRIX = [[0.0] * 6] * 6


# "Default sigmas of the type are 0.01 and 0.01."
def with_defaults(delta, covariance):
    return Measurement(delta, covariance, 0.01, 0.01)


def finite_planar(m):
    return finite(*m.delta, *sum(m.covariance, []))


# i and j, of which i is the less
PAIRS = list(combinations(range(3), 2))


# "1e-9·sqrt(|cii·cjj|)"
def tolerance(c, i, j):
    return 1e-9 * root(abs(c[i][i] * c[j][j]))


def minor(c):
    return c[0][0] * c[1][1] - c[0][1] * c[1][0]


# "The determinant expands along row 0", left to right
def determinant(c):
    (a, b, d), (e, f, g), (h, i, j) = c
    return a * (f * j - g * i) - b * (e * j - g * h) + d * (e * i - f * h)


def cofactor(c, i, j):
    """A difference of two products; the odd ones have them exchanged, by counting rows and columns round."""
    (p, q), (r, s) = ((i + 1) % 3, (i + 2) % 3), ((j + 1) % 3, (j + 2) % 3)
    return c[p][r] * c[q][s] - c[p][s] * c[q][r]


# "the inverse is the adjugate times 1/det"
def inverse_matrix(c):
    adjugate = [[cofactor(c, j, i) for j in range(3)] for i in range(3)]
    return times(adjugate, inverse(determinant(c)))


# "Order of checks: .. failing any gives 9"
def check_information(m):
    c = m.covariance
    refuse(not (positive(m.z) and positive(m.tilt)), 9)
    refuse(not finite_planar(m), 9)
    refuse(any(abs(c[i][j] - c[j][i]) > tolerance(c, i, j) for i, j in PAIRS), 9)
    refuse(not c[0][0] > 0, 9)
    refuse(not minor(c) > 0, 9)
    refuse(not positive(determinant(c)), 9)


# "Then 8 for the heading, then 2 if an output is not finite (added)." "The planar block is Yᵀ·(inverse)·Y, Y the yaw of the heading. Its
# rows and columns sit at 0, 1, 5; 1/z² at 2; 1/tilt² at 3 and 4; the rest is 0."
def information(m):
    check_information(m)
    refuse(above_four(m.delta[2]), 8)
    y = yaw(m.delta[2])
    block = product(product(transpose(y), inverse_matrix(m.covariance)), y)
    matrix = [row[:] for row in NO_MATRIX]
    for i, j in pairs_of(range(3), range(3)):
        matrix[(0, 1, 5)[i]][(0, 1, 5)[j]] = block[i][j]
    matrix[2][2] = inverse(m.z * m.z)
    matrix[3][3] = matrix[4][4] = inverse(m.tilt * m.tilt)
    refuse(not finite(*sum(matrix, [])), 2)
    return matrix


# "Composed sigmas are the root of a·a+b·b."
def joined_sigma(a, b):
    return root(a * a + b * b)


# "A measurement's composition gives the planar refusals, the sigmas counted only in the result's 2, not in the input's": 2, 8, 2
def composed(a, b):
    refuse(not (finite_planar(a) and finite_planar(b)), 2)
    refuse(above_four(a.delta[2]) or above_four(b.delta[2]), 8)
    delta, covariance = planar_composed((a.delta, a.covariance), (b.delta, b.covariance))
    m = Measurement(delta, covariance, joined_sigma(a.z, b.z), joined_sigma(a.tilt, b.tilt))
    refuse(not (finite_planar(m) and finite(m.z, m.tilt)), 2)
    return m


# "The first Huber limit is kept unless it is absent, or a second is present and is below it, or is a number where the first is NaN."
def joined_limit(a, b):
    if a is None:
        return b
    return b if b is not None and (b < a or a != a and b == b) else a


def fit_limit(a):
    return a is None or positive(a)


# "`is_valid` follows the file, and is false wherever `information` refuses."
def fit_factor(f):
    try:
        information(f.measurement)
    except Refused:
        return False
    return f.start != f.end and fit_limit(f.limit) and finite(*f.first, *f.last)


# "a factor's gives 10 first, when the indices do not meet"
def factors_composed(a, b):
    refuse(a.end != b.start, 10)
    return Factor(a.start, b.end, composed(a.measurement, b.measurement), a.first, b.last, joined_limit(a.limit, b.limit))


# ---- 01, Still stretches


class Still(NamedTuple):
    """A gyro mean is x, y, z and the seconds behind it, or None. The calibration is the noise of gyro and accelerometer, and the walk of
    the biases of both. The sigmas are those of translation, rotation and velocity."""

    start: int
    end: int
    span: float
    gyro: list
    calibration: list
    sigmas: list
    limit: float


class Info(NamedTuple):
    pose: list
    velocity: float
    gyro_bias: float
    accel_bias: float
    row: list


NO_INFO = Info(NO_MATRIX, 0.0, 0.0, 0.0, None)


# the defaults of stationary.rs
def still_new(start, end, span, calibration):
    return Still(start, end, span, None, calibration, [0.002, 0.002, 0.01], 21.03)


# "`is_valid` as in stationary.rs."
def fit_still(f):
    noise, _, gyro_walk, accel_walk = f.calibration
    fit_gyro = f.gyro is None or positive(f.gyro[3]) and positive(noise) and finite(*f.gyro[:3])
    fit_numbers = all(positive(x) for x in (f.span, *f.sigmas, gyro_walk, accel_walk))
    return f.start != f.end and fit_numbers and fit_limit(f.limit) and fit_gyro


# "Means are weighted by covered seconds"
def joined_gyro(a, b):
    if a is None or b is None:
        return b if a is None else a
    s, t = a[3], b[3]
    return [(x * s + y * t) / (s + t) for x, y in zip(a[:3], b[:3])] + [s + t]


# "11, then 10 (indices do not meet, or the ends coincide), then 2 for the new span, mean or covered time. .. spans add, sigmas take the
# larger, the first calibration is kept, Huber limits join as for wheel factors."
def still_composed(a, b):
    refuse(not (fit_still(a) and fit_still(b)), 11)
    refuse(a.end != b.start or a.start == b.end, 10)
    sigmas = [max(x, y) for x, y in zip(a.sigmas, b.sigmas)]
    f = Still(a.start, b.end, a.span + b.span, joined_gyro(a.gyro, b.gyro), a.calibration, sigmas, joined_limit(a.limit, b.limit))
    refuse(not finite(f.span, *(f.gyro or [])), 2)
    return f


# "`information`: 11, then 2." The formulas are those of stationary.rs.
def still_information(f):
    refuse(not fit_still(f), 11)
    noise, _, gyro_walk, accel_walk = f.calibration
    translation, rotation, velocity = [inverse(x * x) for x in f.sigmas]
    pose = [[(translation if i < 3 else rotation) if i == j else 0.0 for j in range(6)] for i in range(6)]
    walk = gyro_walk * gyro_walk * f.span
    row = f.gyro and [*f.gyro, inverse(noise * noise / f.gyro[3] + walk / 12)]
    info = Info(pose, velocity, inverse(walk), inverse(accel_walk * accel_walk * f.span), row)
    refuse(not finite(translation, rotation, *info[1:4], *(row or [])), 2)
    return info


# ---- what goes in and comes out, as numbers


def columns(rows):
    """Column by column."""
    return sum(transpose(rows), [])


def numbers_of(m):
    return [*m.delta, *columns(m.covariance), m.z, m.tilt]


def limit_numbers(a, goes_in=False):
    """A flag and the limit. Of none, what stands behind the flag where it goes in does not count; so with the mean of a still factor."""
    return [1, a] if a is not None else [0, 1.0] if goes_in else [0]


def factor_numbers(f, goes_in=False):
    return [f.start, f.end, *numbers_of(f.measurement), *f.first, *f.last, *limit_numbers(f.limit, goes_in)]


def still_numbers(f, goes_in=False):
    gyro = [1, *f.gyro] if f.gyro else [0, 1, 2, 3, 4] if goes_in else [0]
    return [f.start, f.end, f.span, *gyro, *f.calibration, *f.sigmas, *limit_numbers(f.limit, goes_in)]


def info_numbers(info):
    return [*columns(info.pose), *info[1:4], *([1, *info.row] if info.row else [0])]


def answer(call, numbers, blank):
    """0 and the numbers of the value, or the number of the refusal and those of the blank value."""
    try:
        return [0, *numbers(call())]
    except Refused as why:
        return [why.number, *numbers(blank)]


# ---- a case: its record, which is its kind and what goes in, and its line behind the kind. A builder for each kind


def group(number):
    return [1, number], [number]


def made(m):
    plain = numbers_of(with_defaults(m.delta, m.covariance))
    return [2, *numbers_of(m)], [*plain, *numbers_of(m), *plain, *numbers_of(m)[:12]]


def informed(m):
    return [3, *numbers_of(m)], answer(lambda: information(m), columns, NO_MATRIX)


def measurements_joined(a, b):
    return [4, *numbers_of(a), *numbers_of(b)], answer(lambda: composed(a, b), numbers_of, NO_MEASUREMENT)


def factor_made(f):
    return [5, *factor_numbers(f, True)], factor_numbers(f)


def factor_judged(f):
    return [6, *factor_numbers(f, True)], [int(fit_factor(f))]


def factors_joined(a, b):
    line = answer(lambda: factors_composed(a, b), factor_numbers, NO_FACTOR)
    return [7, *factor_numbers(a, True), *factor_numbers(b, True)], line


def still_made(f):
    """Only its ends, span, calibration and gyro mean go in."""
    plain = still_new(f.start, f.end, f.span, f.calibration)
    line = still_numbers(plain) + still_numbers(plain._replace(gyro=f.gyro))
    return [8, f.start, f.end, f.span, *f.calibration, *f.gyro], line


def still_informed(f):
    return [9, *still_numbers(f, True)], [int(fit_still(f)), *answer(lambda: still_information(f), info_numbers, NO_INFO)]


def stills_joined(a, b):
    """A refusal has no factor beside it."""
    line = answer(lambda: still_composed(a, b), lambda f: still_numbers(f) if f else [], None)
    return [10, *still_numbers(a, True), *still_numbers(b, True)], line


def limits_joined(a, b):
    limit = joined_limit(a, b)
    return [11, *limit_numbers(a, True), *limit_numbers(b, True)], [*limit_numbers(limit), int(fit_limit(limit))]


# ---- numbers for the cases

LARGEST, LEAST = 1.7976931348623157e308, 5e-324
NOT_FINITE = (NAN, INF, -INF)
# quiet, signalling and full, of both signs
NANS = [of_bits(sign + word) for sign in (0, 2**63) for word in (0x7FF8000000000000, 0x7FF0000000000001, 2**63 - 1)]
# around what "finite and above 0" asks: seven that are not, and the two ends of those that are
EDGES = [*NOT_FINITE, 0.0, -0.0, -LEAST, -1.0, LEAST, LARGEST]
LAST = 2**64 - 1

SPREAD = [[0.5, 0.01, 0.02], [0.01, 0.25, 0.03], [0.02, 0.03, 0.125]]
BASE = Measurement([1.0, -2.0, 0.5], SPREAD, 0.01, 0.02)
NEXT = Measurement([0.25, 3.0, -1.25], [[2.0, 0.5, 0.25], [0.5, 1.0, -0.125], [0.25, -0.125, 4.0]], 0.03, 0.04)
# four extrinsics of which no number is another's
EXTRINSICS = [[i + k / 16 for k in range(12)] for i in (1, 2, 3, 4)]
FACTOR = Factor(3, 5, BASE, EXTRINSICS[0], EXTRINSICS[1], 12.59)
AFTER = Factor(5, 9, NEXT, EXTRINSICS[2], EXTRINSICS[3], 10.0)
STILL = Still(3, 5, 2.5, [0.01, -0.02, 0.03, 2.0], [0.001, 0.02, 0.0001, 0.003], [0.002, 0.004, 0.01], 21.03)
STILL_AFTER = Still(5, 9, 0.75, [0.04, 0.05, -0.06, 0.5], [0.003, 0.04, 0.0002, 0.005], [0.003, 0.001, 0.02], 20.0)


def with_one(xs, i, x):
    return [x if j == i else y for j, y in enumerate(xs)]


def with_entry(c, i, j, x):
    return with_one(c, i, with_one(c[i], j, x))


def diagonal(*xs):
    return [[x if i == j else 0.0 for j in range(3)] for i, x in enumerate(xs)]


def both_ways(xs):
    return [sign * x for x in xs for sign in (1, -1)]


def around(x):
    """A float that is not zero, between its neighbours."""
    return [beside(x, n) for n in (-1, 0, 1)]


def least_where(test, low, high):
    """The least float above low, up to high, that passes a test which all from some float on pass; low does not."""
    low, high = raw(low), raw(high)
    while high - low > 1:
        middle = (low + high) // 2
        low, high = (low, middle) if test(of_bits(middle)) else (middle, high)
    return of_bits(high)


def of_numbers(xs):
    """The measurement of fourteen numbers, as a record has them."""
    return Measurement(xs[:3], transpose([xs[3:6], xs[6:9], xs[9:12]]), *xs[12:])


def with_number(m, i, x):
    return of_numbers(with_one(numbers_of(m), i, x))


def with_covariance(c):
    return BASE._replace(covariance=c)


def turned(m, heading):
    return m._replace(delta=m.delta[:2] + [heading])


def with_extrinsic(f, i, x):
    both = with_one(f.first + f.last, i, x)
    return f._replace(first=both[:12], last=both[12:])


def still_of(f, xs):
    """The still factor of thirteen numbers."""
    return f._replace(span=xs[0], gyro=xs[1:5], calibration=xs[5:9], sigmas=xs[9:12], limit=xs[12])


def still_with(f, i, x):
    return still_of(f, with_one([f.span, *f.gyro, *f.calibration, *f.sigmas, f.limit], i, x))


def with_gyros(a, b):
    return STILL._replace(gyro=a), STILL_AFTER._replace(gyro=b)


def with_noise(f, x):
    return f._replace(calibration=with_one(f.calibration, 0, x))


# ---- a fixed source of random numbers

seed = 1


def random_below(n):
    global seed
    seed = (seed * 6364136223846793005 + 1442695040888963407) % 2**64
    return (seed >> 20) % n


def random_between(low, high):
    return low + (high - low) * (random_below(2**40) / 2**40)


def random_size(low=-19, high=19):
    """From 2^low to 2^high; by itself within 1e-6 and 1e6."""
    return random_between(1.0, 2.0) * 2.0 ** (random_below(high - low) + low)


def random_signed(low=-19, high=19):
    return random_size(low, high) * (1 - 2 * random_below(2))


def random_covariance():
    """A triangle times its transpose, exactly symmetric; then as far from it as may pass."""
    a, b, c = (random_signed(-3, 0) for _ in range(3))
    rows = [times([row], random_size(-7, 9))[0] for row in ([1.0, 0.0, 0.0], [a, 1.0, 0.0], [b, c, 1.0])]
    c = product(rows, transpose(rows))
    i, j = PAIRS[random_below(3)]
    return with_entry(c, i, j, c[i][j] + random_between(-0.9, 0.9) * tolerance(c, i, j))


def random_measurement():
    return Measurement([random_signed(), random_signed(), random_between(-4.0, 4.0)], random_covariance(), random_size(), random_size())


def random_limit():
    return random_size() if random_below(4) else None


def random_factor(start, end):
    extrinsics = [[random_signed() for _ in range(12)] for _ in range(2)]
    return Factor(start, end, random_measurement(), *extrinsics, random_limit())


def random_gyro():
    return [random_signed(), random_signed(), random_signed(), random_size()]


def random_still(start, end):
    gyro = random_gyro() if random_below(4) else None
    return Still(start, end, random_size(), gyro, [random_size() for _ in range(4)], [random_size() for _ in range(3)], random_limit())


# ---- wheel measurements


def makings():
    """Whatever the numbers are, they are kept, and the default sigmas are there."""
    odd = [-0.0, LEAST, -LEAST, LARGEST, -LARGEST, INF, -INF, 1e-310, *NANS]
    lists = [[float(i) for i in range(1, 15)], odd, odd[::-1], [0.0] * 14, [-0.0] * 14, [NAN] * 14]
    return [made(of_numbers(xs)) for xs in lists] + [made(random_measurement()) for _ in range(12)]


def unfit_numbers():
    """9 by each sigma and by each number of delta and covariance; and the largest that are no reason. The least sigma is one for 2."""
    sigmas = [with_number(BASE, i, x) for i in (12, 13) for x in EDGES]
    entries = [with_number(BASE, i, x) for i in range(12) for x in NOT_FINITE]
    large = [with_number(BASE, i, x) for i in range(3) for x in (LARGEST, -LARGEST)]
    return [informed(m) for m in [BASE, NEXT, NO_MEASUREMENT] + sigmas + entries + large]


def last_within(x, t):
    """The last float above x by no more than t, the difference being rounded."""
    return beside(least_where(lambda y: y - x > t, x, 2 * (x + t)), -1)


def with_pair(c, i, j, x, y):
    return with_entry(with_entry(c, i, j, x), j, i, y)


def asymmetries():
    """|cij − cji| at the tolerance and a place beside it: with one of the two 0, with neither, by the larger steps of a larger entry."""
    c, cases = diagonal(0.3, 0.7, 1.9), []
    for i, j in PAIRS:
        t = tolerance(c, i, j)
        cases += [with_entry(c, *place, x) for place in ((i, j), (j, i)) for x in both_ways(around(t))]
        last = last_within(0.125, t)
        assert 2 * t - t == t / 2 + t / 2 == t
        entries = [(x, t) for x in around(2 * t)] + [(x, -t / 2) for x in around(t / 2)] + [(last, 0.125), (beside(last, 1), 0.125)]
        cases += [with_pair(c, i, j, x, y) for x, y in entries] + [with_pair(c, i, j, y, x) for x, y in entries]
    for _ in range(8):
        c = diagonal(*(random_size() for _ in range(3)))
        cases += [with_entry(c, i, j, x) for i, j in PAIRS for x in around(tolerance(c, i, j))[1:]]
    return [informed(with_covariance(c)) for c in cases]


def odd_tolerances():
    """A tolerance of 0, where the product of the diagonal vanishes; an infinite one, where it overflows, as the difference may."""
    small, large = diagonal(1e-200, 1e300, 1e-200), diagonal(1e200, 1e200, 1e-320)
    cases = [with_pair(large, 0, 1, x, -x) for x in (0.0, 1e150, LARGEST)]
    cases += [with_pair(diagonal(1.0, 1.0, 1e-310), 0, 1, x, -x) for x in (LARGEST, 1e-8, 4e-10)]
    cases += [with_pair(small, 0, 2, x, y) for x, y in ((0.0, 0.0), (LEAST, LEAST), (LEAST, 0.0), (0.0, -LEAST), (LEAST, -LEAST))]
    assert all(c[0][0] > 0 and minor(c) > 0 and positive(determinant(c)) for c in cases)
    return [informed(with_covariance(c)) for c in cases]


def hidden_minors():
    """Minors that round to 0: one above 0 without rounding, and one below."""
    found = {}
    while len(found) < 2:
        a, b = random_between(1.0, 2.0), random_between(1.0, 2.0)
        x = math.sqrt(a * b)
        exact = Fraction(a) * Fraction(b) - Fraction(x) ** 2
        if a * b - x * x == 0 and exact != 0:
            found[exact > 0] = [[a, x, 0.0], [x, b, 0.0], [0.0, 0.0, 1.0]]
    return [found[True], found[False]]


def lone_minors():
    """A minor of 0 beside a determinant that rounds to something above 0."""
    found = []
    while len(found) < 4:
        x, y = random_between(-2.0, 2.0), random_between(-2.0, 2.0)
        c = [[1.0, 1.0, x], [1.0, 1.0, y], [x, y, random_size(20, 30)]]
        if determinant(c) > 0:
            found.append(c)
    return found


def minors():
    """c00 and the 2×2 minor at 0 and a place beside it. A positive determinant is no proof: diag(−1, −1, 1) has one."""
    cases = [diagonal(*signs) for signs in pairs_of(*[(1.0, -1.0)] * 3)]
    cases += [diagonal(x, y, 1.0) for x in (-LEAST, -0.0, 0.0, LEAST) for y in (1.0, -1.0)]
    cases += [diagonal(x, 1.0, 1.0) for x in around(least_where(lambda x: finite(1 / x), LEAST, 1.0))]
    cases += [[[1.0, x, 0.0], [x, 1.0, 0.0], [0.0, 0.0, 1.0]] for x in both_ways(around(1.0))]
    cases += [[[x, 1.5, 0.0], [1.5, 1.5, 0.0], [0.0, 0.0, 1.0]] for x in around(1.5)]
    # an infinite minor is above 0, and one that is not a number is not
    cases += [with_pair(diagonal(1e200, 1e200, 1e-300), 0, 1, x, x) for x in (1e10, 1e160)]
    return [informed(with_covariance(c)) for c in cases + hidden_minors() + lone_minors()]


def of_rank_two():
    """A covariance whose determinant is nothing but rounding."""
    rows = [[random_between(-1.0, 1.0), random_between(-1.0, 1.0), 0.0] for _ in range(3)]
    return product(rows, transpose(rows))


def determinants():
    """The determinant at 0 and a place beside it, at the largest f64 and beyond, not a number; and where the order of its sum decides."""
    cases = [diagonal(1.0, 1.0, x) for x in (0.0, -0.0, LEAST, -LEAST)]
    cases += [[[1.0, 0.0, 0.5], [0.0, 1.0, 0.5], [0.5, 0.5, x]] for x in around(0.5)]
    cases += [[[1.0, 0.0, 0.5], [0.0, 1.0, -0.5], [0.5, -0.5, x]] for x in around(0.5)]
    cases += [diagonal(LARGEST, x, 1.0) for x in around(1.0)] + [diagonal(LARGEST, 1.0, x) for x in around(1.0)]
    cases += [diagonal(1e-100, 1e-100, x) for x in (1e-100, 1e-200)] + [diagonal(x, 1e200, 1e200) for x in (1.0, 1e-150)]
    cases += [with_pair(diagonal(1.0, 1e200, 1e200), 1, 2, 1e160, 1e160)]
    return [informed(with_covariance(c)) for c in cases + [of_rank_two() for _ in range(30)]]


def headings():
    """Every bound of docs/SINCOS.md and its neighbours, 4 and the next above; 9 before 8, and 8 before 2."""
    angles = [x for bound in (0.03125, *BOUNDS, 4.0) for x in around(bound)] + [0.0, LEAST, 1e-3, PI / 2, PI, 1e300, LARGEST]
    cases = [turned(BASE, x) for x in both_ways(angles)]
    for heading in (4.0, beside(4.0, 1), -5.0):
        m = turned(BASE, heading)
        cases += [with_number(m, i, x) for i in (12, 13) for x in (0.0, NAN, LEAST, 1e-200)]
        cases += [m._replace(covariance=c) for c in (diagonal(-1.0, -1.0, 1.0), diagonal(1.0, 1.0, 1e-310), with_entry(SPREAD, 1, 2, 0.04))]
        cases += [with_number(m, 0, INF), with_number(m, 7, NAN)]
    return [informed(m) for m in cases]


def outputs():
    """2 for an output: by each sigma and each corner of the planar block, and the last that pass. A square that overflows gives 0."""
    sigma = least_where(lambda x: finite(inverse(x * x)), LEAST, 1.0)
    cases = [with_number(BASE, i, x) for i in (12, 13) for x in (*around(sigma), 1e-200, 1e154, 1e155, LARGEST)]
    cases += [with_number(with_number(BASE, 12, 0.0), 13, 1e-200), with_number(with_number(BASE, 12, 1e-200), 13, INF)]
    corner = least_where(lambda x: finite(1 / x), LEAST, 1.0)
    covariances = [with_entry(diagonal(1.0, 1.0, 1.0), i, i, x) for i in range(3) for x in around(corner)]
    # an entry of the adjugate overflows, and the determinant does not
    covariances += [diagonal(1e200, 1e-300, 1e200), diagonal(1e-300, 1e200, 1e200), diagonal(1e200, 1e200, 1e-300)]
    covariances += [diagonal(*[x] * 3) for x in (1e-100, 1e100)] + [diagonal(LARGEST, 1.0, 1e-308), diagonal(1.0, 1.0, LARGEST)]
    for heading in (0.0, 0.5):
        cases += [turned(with_covariance(c), heading) for c in covariances]
    return [informed(m) for m in cases]


def informations():
    zeros = [[1.0, -0.0, 0.0], [0.0, 2.0, -0.0], [-0.0, -0.0, 3.0]]
    cases = [of_numbers([-0.0, -0.0, x, *columns(zeros), 1.0, 1.0]) for x in (0.0, -0.0, 1.5)]
    cases += [with_covariance(diagonal(1.0, 1.0, 1.0)), with_covariance([[2.0, 1.0, 0.5], [1.0, 3.0, -1.0], [0.5, -1.0, 4.0]])]
    return [informed(m) for m in cases + [random_measurement() for _ in range(48)]]


# ---- compositions of measurements


def compositions():
    """And the information of what is composed."""
    blank = NO_MEASUREMENT
    both = [(BASE, NEXT), (NEXT, BASE), (BASE, BASE), (BASE, blank), (blank, NEXT), (blank, blank)]
    both += [(random_measurement(), random_measurement()) for _ in range(48)]
    half = PI / 2
    sums = [(half, half), (half, beside(half, 1)), (PI, -PI), (4.0, 4.0), (4.0, -4.0), (0.0, -0.0), (-0.0, -0.0), (3.0, 0.5)]
    both += [(turned(BASE, sign * x), turned(NEXT, sign * y)) for x, y in sums for sign in (1, -1)]
    return [measurements_joined(*pair) for pair in both] + [informed(composed(*pair)) for pair in both[:30]]


def refused_compositions():
    """2 for each number of either motion, before 8; 8 for either heading; then 2 for the result. No sigma counts before that."""
    cases = [(with_number(BASE, i, x), NEXT) for i in range(12) for x in NOT_FINITE]
    cases += [(BASE, with_number(NEXT, i, x)) for i in range(12) for x in NOT_FINITE]
    for x in both_ways(around(4.0)):
        cases += [(turned(BASE, x), NEXT), (BASE, turned(NEXT, x)), (turned(BASE, x), turned(NEXT, -x))]
    far, other = turned(BASE, 5.0), turned(NEXT, -LARGEST)
    cases += [(far, NEXT._replace(z=NAN)), (far._replace(tilt=INF), NEXT), (BASE._replace(z=1e200), other), (far, other)]
    cases += [(far, with_number(NEXT, 0, NAN)), (with_number(far, 5, INF), NEXT), (with_number(BASE, 2, NAN), other)]
    # the largest shift that is turned and added, and the one above; a covariance is doubled before it is halved
    level = BASE._replace(delta=[LARGEST, 0.0, 0.0])
    half_place = 2.0**970
    cases += [(level, NEXT._replace(delta=[x, 0.0, 0.0])) for x in (beside(half_place, -1), half_place, LARGEST, -LARGEST)]
    cases += [(level, other), (level._replace(z=NAN), NEXT), (turned(level, 5.0), NEXT)]
    blank = NO_MEASUREMENT
    for i, x in pairs_of((3, 4, 6, 11), around(LARGEST / 2)):
        wide = with_number(blank, i, x)
        cases += [(wide, blank), (blank, wide), (wide, wide)]
    return [measurements_joined(*pair) for pair in cases]


def composed_sigmas():
    """Roots of a·a + b·b: signs and zeros, squares that vanish, the largest that do not overflow, and what is no number."""
    sizes = [0.0, -0.0, 3.0, -4.0, 1e-200, LEAST, 2.0**-537, 1e200, LARGEST, *NOT_FINITE]
    alone = least_where(lambda x: not finite(x * x), 1.0, LARGEST)
    twice = least_where(lambda x: not finite(x * x + x * x), 1.0, LARGEST)
    values = [pair for x in sizes for pair in ((x, 3.0), (4.0, x), (x, x))]
    values += [(x, 0.0) for x in around(alone)] + [(x, x) for x in around(twice)]
    values += [(2.0**-537 * i, 2.0**-538 * j) for i in (1, 3) for j in (1, 2, 5)] + [(0.1, 0.7), (1e-3, 1e6)]
    cases = [(BASE._replace(z=x), NEXT._replace(z=y)) for x, y in values]
    cases += [(BASE._replace(tilt=x), NEXT._replace(tilt=y)) for x, y in values]
    return [measurements_joined(*pair) for pair in cases]


# ---- wheel factors

# ends that differ, some of them the same as f64s or by their lower 32 bits
ENDS = [(0, 1), (1, 0), (LAST, LAST - 1), (2**63 - 1, 2**63), (2**53, 2**53 + 1), (2**32, 0), (1, 2**32 + 1)]
SAME_ENDS = [(0, 0), (7, 7), (2**63, 2**63), (LAST, LAST)]


def factors():
    """As they are made, and whether they are valid: by the ends, the limit, each number of the extrinsics, the information's 9, 8 and 2."""
    odd = Factor(LAST, 0, of_numbers([NAN] * 14), [-0.0] * 12, [INF] * 12, NAN)
    shown = [FACTOR, AFTER, FACTOR._replace(limit=None), odd, odd._replace(limit=None), NO_FACTOR, random_factor(1, 2), random_factor(2, 1)]
    cases = shown + [FACTOR._replace(start=start, end=end) for start, end in ENDS + SAME_ENDS]
    cases += [FACTOR._replace(limit=x) for x in [None, *EDGES, *NANS]]
    cases += [with_extrinsic(FACTOR, i, x) for i in range(24) for x in NOT_FINITE]
    cases += [FACTOR._replace(first=[x] * 12, last=[-x] * 12) for x in (0.0, LARGEST)]
    measurements = [with_number(BASE, i, NOT_FINITE[i % 3]) for i in range(14)] + [turned(BASE, x) for x in both_ways(around(4.0))]
    measurements += [BASE._replace(z=1e-200), BASE._replace(tilt=1e-200), BASE._replace(z=0.0), BASE._replace(tilt=-1.0)]
    measurements += [with_covariance(c) for c in (diagonal(-1.0, -1.0, 1.0), diagonal(1.0, 1.0, 1e-310), with_entry(SPREAD, 1, 2, 0.04))]
    cases += [FACTOR._replace(measurement=m) for m in measurements] + [random_factor(i, i + 1) for i in range(24)]
    return [factor_made(f) for f in shown] + [factor_judged(f) for f in cases]


# absent, no number, either zero; and, beside 1, equal, below and above
LIMITS = [None, NAN, 0.0, -0.0, 1.0, beside(1.0, -1), 2.0]


def refused_factors():
    """10 first, then 2, 8 and 2 of the measurements."""
    bad = [with_number(BASE, 3, NAN), turned(BASE, 5.0), BASE._replace(delta=[LARGEST, LARGEST, 0.0]), BASE._replace(z=1e200)]
    cases = [(FACTOR._replace(end=end), AFTER) for end in (4, 6, 9, 0, LAST, 5 + 2**32)]
    cases += [(FACTOR, AFTER._replace(start=3)), (AFTER, FACTOR), (FACTOR._replace(start=9, end=3), AFTER)]
    cases += [(FACTOR._replace(end=2**53), AFTER._replace(start=2**53 + 1))]
    cases += [(FACTOR._replace(end=4, measurement=m), AFTER._replace(measurement=m)) for m in bad]
    for m in bad:
        first, second = FACTOR._replace(measurement=m), AFTER._replace(measurement=m)
        cases += [(first, second), (first, AFTER), (FACTOR, second)]
    cases += [(FACTOR._replace(measurement=bad[1]), AFTER._replace(measurement=bad[0]))]
    return [factors_joined(*pair) for pair in cases]


def joined_factors():
    """Validity is not asked for: neither ends, limits nor extrinsics refuse. Every pairing of limits; whether what is joined is valid."""
    cases = [(FACTOR, AFTER), (AFTER._replace(end=3), FACTOR), (FACTOR, AFTER._replace(end=3)), (NO_FACTOR, NO_FACTOR)]
    cases += [(FACTOR._replace(start=5), AFTER._replace(end=5))]
    cases += [(FACTOR._replace(start=LAST, end=0), AFTER._replace(start=0, end=LAST - 1))]
    cases += [(FACTOR._replace(first=[NAN] * 12, last=[INF] * 12), AFTER._replace(first=[-INF] * 12, last=[-0.0] * 12))]
    cases += [(random_factor(i, 2 * i), random_factor(2 * i, 3 * i)) for i in range(1, 25)]
    judged = [factor_judged(factors_composed(*pair)) for pair in cases]
    cases += [(FACTOR._replace(limit=x), AFTER._replace(limit=y)) for x, y in pairs_of(LIMITS, LIMITS)]
    return [factors_joined(*pair) for pair in cases] + judged


# ---- still factors


def still_makings():
    """Whatever the numbers are, they are kept, and the defaults are there."""
    odd = STILL._replace(start=LAST, end=LAST, span=NAN, gyro=[-0.0, INF, -INF, NAN], calibration=[NAN, -1.0, LEAST, -0.0])
    others = [random_still(i, 2 * i)._replace(gyro=random_gyro()) for i in range(24)]
    return [still_made(f) for f in [STILL, STILL_AFTER, odd] + others]


def stills():
    """11 by each check; and what is no reason: the accelerometer's noise, the gyro's without a mean, a mean over more than the span."""
    plain = STILL._replace(gyro=None)
    cases = [STILL, STILL_AFTER, plain, STILL._replace(limit=None), plain._replace(limit=None), still_new(1, 2, 0.5, [1.0] * 4)]
    cases += [STILL._replace(start=start, end=end) for start, end in ENDS + SAME_ENDS]
    cases += [still_with(STILL, i, x) for i in (0, 4, 5, 7, 8, 9, 10, 11, 12) for x in EDGES]
    cases += [still_with(STILL, i, x) for i in (1, 2, 3, 6) for x in (*NOT_FINITE, -0.0, LARGEST, -LARGEST)]
    cases += [with_noise(plain, x) for x in (*EDGES, *NANS)]
    cases += [still_with(STILL, 4, x) for x in (2.5, beside(2.5, 1), 1e9)]
    cases += [STILL._replace(start=5, span=NAN), STILL._replace(sigmas=[0.0, NAN, INF]), STILL._replace(calibration=[NAN] * 4, limit=-1.0)]
    return [still_informed(f) for f in cases]


def still_outputs():
    """2 for each output, and the last that pass; 11 before 2. Where a variance overflows the information is 0."""
    sigma = least_where(lambda x: finite(inverse(x * x)), LEAST, 1.0)
    walk = least_where(lambda x: finite(inverse(x * x * 2.5)), LEAST, 1.0)
    cases = [still_with(STILL, i, x) for i in (9, 10, 11) for x in (*around(sigma), 1e200)]
    cases += [still_with(STILL, i, x) for i in (7, 8) for x in (*around(walk), 1e200)]
    # by the span, the densities being fit
    slow = still_with(still_with(STILL, 7, 1e-150), 8, 1e-3)
    span = least_where(lambda x: finite(inverse(1e-150 * 1e-150 * x)), LEAST, 1.0)
    cases += [still_with(slow, 0, x) for x in (*around(span), 1.0)] + [still_with(slow, 0, span)._replace(gyro=None)]
    # the row alone: the walk's variance is finite, and its twelfth is not the inverse of a finite number
    edge = still_with(still_with(still_with(STILL, 5, 1e-200), 4, 1.0), 8, 1e-3)
    spans = [least_where(lambda x: finite(inverse(1e-150 * 1e-150 * x / k)), LEAST, 1.0) for k in (1, 12)]
    cases += [still_with(still_with(edge, 7, 1e-150), 0, x) for s in spans for x in around(s)]
    noises = [(1e200, 1.0), (1e-200, 1.0), (1.0, LEAST), (1.0, LARGEST), (1e-170, 1e20)]
    cases += [still_with(still_with(STILL, 5, x), 4, y) for x, y in noises]
    cases += [still_with(still_with(STILL, 9, 1e-200), 10, 0.0), still_with(STILL, 9, 1e-200)._replace(end=3)]
    return [still_informed(f) for f in cases + [random_still(i, i + 1) for i in range(48)]]


def refused_stills():
    """11 by either factor, before 10; 10 where they do not meet or the ends coincide, before 2."""
    unfit = [still_with(STILL, i, NOT_FINITE[i % 3]) for i in range(13) if i != 6]
    unfit += [still_with(STILL, i, 0.0) for i in (0, 4, 5, 7, 8, 9, 10, 11, 12)] + [STILL._replace(start=5)]
    cases = [(f, STILL_AFTER) for f in unfit] + [(STILL._replace(start=1, end=3), f) for f in unfit]
    cases += [(f._replace(end=6), STILL_AFTER) for f in unfit[:3]] + [(STILL, f._replace(start=5, end=3)) for f in unfit[:3]]
    apart = [(STILL._replace(end=end), STILL_AFTER) for end in (4, 6, 9, LAST, 5 + 2**32)] + [(STILL, STILL_AFTER._replace(end=3))]
    apart += [(STILL._replace(end=2**53), STILL_AFTER._replace(start=2**53 + 1)), (STILL, STILL_AFTER._replace(start=3, end=5))]
    apart += [(STILL._replace(end=6), STILL_AFTER._replace(end=3)), (STILL_AFTER, STILL)]
    cases += apart + [(a._replace(span=LARGEST), b._replace(span=LARGEST)) for a, b in apart]
    cases += [(STILL._replace(span=LARGEST, limit=0.0), STILL_AFTER._replace(span=LARGEST))]
    return [stills_joined(*pair) for pair in cases]


def overflowing_stills():
    """2 for the new span, for each number of the mean, for the covered time; and the last that pass."""
    half_place = 2.0**970
    cases = [(STILL._replace(span=LARGEST), STILL_AFTER._replace(span=x)) for x in (beside(half_place, -1), half_place, LARGEST)]
    cases += [(STILL._replace(span=x), STILL_AFTER._replace(span=LARGEST)) for x in (LEAST, half_place)]
    cases += [with_gyros([0.0, 0.0, 0.0, LARGEST], [1.0, 1.0, 1.0, x]) for x in (beside(half_place, -1), half_place, LARGEST)]
    still, rate = [0.0, 0.0, 0.0], [1.0, 2.0, 3.0]
    for i in range(3):
        for x in (LARGEST, -LARGEST):
            cases += [with_gyros(with_one(rate, i, x) + [s], rate + [1.0]) for s in (1.0, beside(1.0, 1), 0.5)]
            cases += [with_gyros(rate + [0.5], with_one(rate, i, x) + [s]) for s in (1.0, 2.0)]
            cases += [with_gyros(with_one(still, i, x) + [2.0], with_one(still, i, -x) + [2.0])]
    cases += [with_gyros(rate + [LEAST], rate + [LEAST]), with_gyros(rate + [LARGEST], None), with_gyros(None, rate + [LARGEST])]
    return [stills_joined(*pair) for pair in cases]


def joined_stills():
    """Every pairing of limits and of means, either sigma the larger, the first calibration. A join may be invalid, its information 11."""
    cases = [(STILL, STILL_AFTER), (STILL._replace(start=LAST, end=0), STILL_AFTER._replace(start=0, end=LAST - 1))]
    values = LIMITS + [LEAST, LARGEST]
    cases += [(STILL._replace(limit=x), STILL_AFTER._replace(limit=y)) for x, y in pairs_of(values, values)]
    for first, second in pairs_of((STILL.gyro, None), (STILL_AFTER.gyro, None)):
        a, b = with_gyros(first, second)
        cases += [(a, b)] + [pair for noise in (0.0, NAN) for pair in ((with_noise(a, noise), b), (a, with_noise(b, noise)))]
    beside_one = (beside(1.0, -1), beside(1.0, 1))
    cases += [(STILL._replace(sigmas=list(x)), STILL_AFTER._replace(sigmas=[1.0] * 3)) for x in pairs_of(*[beside_one] * 3)]
    cases += [(STILL._replace(sigmas=[LEAST, 1.0, LARGEST]), STILL_AFTER._replace(sigmas=[LARGEST, 1.0, LEAST]))]
    cases += [with_gyros([-0.0, 0.0, -0.0, 1.0], [-0.0, -0.0, 0.0, 1.0]), with_gyros([0.1, 0.2, 0.3, 0.1], [0.3, 0.1, 0.2, 0.7])]
    cases += [(random_still(i, 2 * i), random_still(2 * i, 3 * i)) for i in range(1, 49)]
    taken = [still_composed(*pair) for pair in cases if all(map(fit_still, pair))]
    invalid = [f for f in taken if not fit_still(f)]
    assert invalid
    return [stills_joined(*pair) for pair in cases] + [still_informed(f) for f in invalid + taken[-24:]]


# ---- Huber limits


def limits():
    """Every two of these; where the second is absent, the first with its validity."""
    values = [*LIMITS, *EDGES, beside(1.0, 1), 21.03, NANS[4]]
    return [limits_joined(x, y) for x, y in pairs_of(values, values)]


def all_cases():
    """The groups, one after the other, each behind its number."""
    groups = [makings, unfit_numbers, asymmetries, odd_tolerances, minors, determinants, headings, outputs, informations]
    groups += [compositions, refused_compositions, composed_sigmas, factors, refused_factors, joined_factors]
    groups += [still_makings, stills, still_outputs, refused_stills, overflowing_stills, joined_stills, limits]
    return [case for number, cases in enumerate(groups, 1) for case in [group(number)] + cases()]


write("factor_cases", all_cases())
