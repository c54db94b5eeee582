#!/usr/bin/env python3
"""Counts the f64 operations of one accepted inertial step, by running the restatement of imu_cases.py over a float that counts. These are the
numbers of docs/PERFORMANCE.md; its last two rows have one comparison less, which is the restatement's own and not 01's.

Run it from anywhere, with no arguments; it writes nothing.
"""
import sys
from collections import Counter

sys.dont_write_bytecode = True
import imu_cases as imu, wheel_cases as wheel
N = Counter()
class F(float):
    pass
def binary(name, kind):
    base = getattr(float, name)
    def op(self, other):
        N[kind] += 1
        return F(base(float(self), float(other)))
    setattr(F, name, op)
for n in ("add", "sub"):
    binary(f"__{n}__", "add"); binary(f"__r{n}__", "add")
binary("__mul__", "multiply"); binary("__rmul__", "multiply"); binary("__truediv__", "divide"); binary("__rtruediv__", "divide")
def compare(name):
    base = getattr(float, name)
    def op(self, other):
        N["compare"] += 1
        return base(float(self), float(other))
    setattr(F, name, op)
for n in ("lt", "le", "gt", "ge", "eq", "ne"):
    compare(f"__{n}__")
F.__hash__ = float.__hash__
F.__neg__ = lambda x: F(-float(x))
F.__abs__ = lambda x: F(abs(float(x)))
def f(x):
    return [f(y) for y in x] if isinstance(x, (list, tuple)) else F(x)
real_root = imu.root
def root(x):
    N["root"] += 1
    return F(real_root(float(x)))
imu.root = root
def inverse(x):
    N["divide"] += 1
    return F(1 / float(x))
imu.inverse = inverse
lp = imu.large_product
imu.large_product = lambda a, b: lp(f(a), f(b))
hat = imu.hat
imu.hat = lambda v: f(hat(v))
imu.ZEROS, imu.IDENTITY = f(imu.ZEROS), f(imu.IDENTITY)
s = imu.fresh([0.01, 0.02, 0.03], [0.1, 0.2, 0.3], [0.01, 0.1, 0.001, 0.002])
parts = {}
def count(name, fn):
    before = Counter(N); r = fn(); d = N - before; parts[name] = dict(d); return r
for gyro, dt in (([0.1, 0.2, -0.1], 0.001), ([0.5, -1.0, 0.25], 0.01), ([3.0, -1.0, 2.0], 0.25)):
    t = imu.State(*f(list(s)))
    N.clear()
    imu.step(t, f([0.0, *gyro, 0.3, -0.2, 9.8]), F(dt))
    c = dict(N)
    arithmetic = sum(v for k, v in c.items() if k != "compare")
    print(f"|ω·dt| about {dt * sum(x*x for x in gyro) ** .5:.4f}:", c, "arithmetic", arithmetic)
# where they go
t = imu.State(*f(list(s)))
N.clear()
exp, jac = count("turn (series)", lambda: imu.turn(f([1e-4, 2e-4, -1e-4])))
exp, jac = count("turn (short kernel)", lambda: imu.turn(f([0.005, -0.01, 0.0025])))
exp, jac = count("turn (long kernel)", lambda: imu.turn(f([0.5, -0.25, 0.25])))
back = imu.transpose(exp)
count("covariance", lambda: imu.carried(t, back, f(imu.ZEROS), f(imu.ZEROS), jac, F(0.01)))
count("normalising", lambda: imu.normalized(exp))
count("bias walk", lambda: imu.walked(t, F(0.01)))
after = count("advanced, in all", lambda: imu.advanced(t, exp, jac, f([0.1, 0.2, 9.8]), F(0.01)))
count("finite, of the result", lambda: imu.finite(*imu.all_numbers(after)))
for k, v in parts.items(): print(k, v)
