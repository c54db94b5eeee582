#!/usr/bin/env python3
"""Makes the six logs of this folder and, beside each, what its replay prints: hall.log, creep.log, rates.log, turnover.log, worn.log,
worn_as_new.log, and their .out files.

None of it was measured. Each walk is worked out from a plan, with small disturbances from a linear congruential generator that starts from
the same number, and in basic arithmetic alone, so that the files are the same wherever this is run. What the replay prints comes from
`lines_of` in tools/replay_cases.py, not from the program.

Run it from anywhere, with no arguments.
"""
import math
import sys
from itertools import accumulate
from pathlib import Path

here = Path(__file__).resolve().parent
sys.dont_write_bytecode = True
sys.path.insert(0, str(here.parent / "tools"))
from replay_cases import lines_of, log_of, rates, ticks

# one cart: metres, metres, encoder counts per turn of a wheel, bits of a counter
RADIUS, TRACK, PER_TURN, WIDTH = 0.1, 0.5, 65536.0, 64
PER_METRE = PER_TURN / (math.tau * RADIUS)

seed = 1


def random_between(low, high):
    global seed
    seed = (seed * 6364136223846793005 + 1442695040888963407) % 2**64
    return low + (high - low) * ((seed >> 24) / 2**40)


def wheel_paths(distance, heading):
    """How far the left and the right wheel have rolled."""
    return distance - heading * (TRACK / 2), distance + heading * (TRACK / 2)


# ---- hall.log: once round a hall of 20 by 10 metres, ten readings a second

# seconds, metres, radians, one after the other; each begins and ends at rest
SIDES = [(60, 20.0, 0.0), (4, 0.0, math.pi / 2), (36, 10.0, 0.0), (4, 0.0, math.pi / 2)]
PLAN = [(2, 0.0, 0.0)] + SIDES + SIDES + [(2, 0.0, 0.0)]
DURATION = sum(seconds for seconds, _, _ in PLAN)


def planned(plan, time):
    """Distance and heading at this time of the plan."""
    distance, heading = 0.0, 0.0
    for seconds, metres, radians in plan:
        p = min(max(time / seconds, 0.0), 1.0)
        done = p * p * (3 - 2 * p)
        distance, heading, time = distance + done * metres, heading + done * radians, time - seconds
    return distance, heading


def hall():
    readings, sway, before = [], 0.0, 0.0
    for i in range(10 * DURATION + 1):
        # milliseconds, and the clock does not tick quite evenly
        clock = 100 * i + math.floor(random_between(-3.0, 4.0))
        distance, heading = planned(PLAN, clock / 1000)
        # hands are not steady: while the cart rolls it sways a little to both sides of its line
        sway += (random_between(-0.06, 0.06) - 1.5 * sway) * (distance - before)
        before = distance
        left, right = (math.floor(path * PER_METRE) for path in wheel_paths(distance, heading + sway))
        # the left count passes 2^63 on the way
        readings.append(ticks((51342000 + clock) / 1000, 2**63 - 1500000 + left, 1207 + right))
    # bad readings, the last first: one that comes after the next one, one that comes twice, one that the cart itself calls invalid
    readings[1700:1702] = [readings[1701], readings[1700]]
    readings[1200:1200] = [readings[1200]]
    readings[700] = ticks((51342000 + 70000) / 1000, 0, 0, 0)
    return log_of([RADIUS, RADIUS, TRACK, PER_TURN, 0.002, 0.001, WIDTH], readings)


# ---- creep.log: eleven millimetres in an hour, a reading every five seconds


def creep():
    # an uneven creep: how far along it is at each reading
    along = list(accumulate((random_between(0.0, 1.0) for _ in range(720)), initial=0.0))
    readings = []
    for i, part in enumerate(along):
        rolled = 0.011 * (part / along[-1]) * PER_METRE
        # the two counts do not change at the same moment
        readings.append(ticks(5.0 * i, 80211 + math.floor(rolled + 0.3), 79960 + math.floor(rolled + 0.8)))
    return log_of([RADIUS, RADIUS, TRACK, PER_TURN, 0.0001, 0.00001, WIDTH], readings)


# ---- rates.log: a quarter of a circle of 16 metres radius to the left, twenty readings a second


def curve():
    readings, bend = [], 16.0
    # two seconds to reach the walking speed, two seconds to stop
    speed = bend * (math.pi / 2) / (999 / 20 - 2)
    for i in range(1000):
        now = speed * min(i / 40, (999 - i) / 40, 1.0)
        left, right = wheel_paths(now, now / bend)
        # the rate counters give thousandths of a radian per second, and are out by up to five of them
        given = [round(1000 * (v / RADIUS) + random_between(-5.0, 5.0)) / 1000 if now else 0.0 for v in (left, right)]
        readings.append(rates(i / 20, *given))
    return log_of([RADIUS, RADIUS, TRACK, PER_TURN, 0.002, 0.001, WIDTH], readings)


# ---- turnover.log: newer encoders, 4,096 counts to a turn of a wheel and counters of 16 bits, which start again at 0 every 10 metres. Five
# metres ahead, a quarter turn to the left, two metres back, ten readings a second

NEWER_PER_TURN, NEWER_WIDTH = 4096.0, 16
THERE_AND_BACK = [(1, 0.0, 0.0), (11, 5.0, 0.0), (4, 0.0, math.pi / 2), (6, -2.0, 0.0), (1, 0.0, 0.0)]


def turnover():
    readings, per_metre = [], NEWER_PER_TURN / (math.tau * RADIUS)
    for i in range(10 * sum(seconds for seconds, _, _ in THERE_AND_BACK) + 1):
        paths = wheel_paths(*planned(THERE_AND_BACK, i / 10))
        # both counters pass their end on the way ahead, and once more on the way back
        left, right = ((start + math.floor(path * per_metre)) % 2**NEWER_WIDTH for start, path in zip((40000, 40010), paths))
        readings.append(ticks(i / 10, left, right))
    # an encoder that is asked too soon, and answers with 32 bits that are all set
    readings[120] = ticks(12.0, 2**32 - 1, 2**32 - 1)
    return log_of([RADIUS, RADIUS, TRACK, NEWER_PER_TURN, 0.002, 0.001, NEWER_WIDTH], readings)


# ---- worn.log: twelve metres straight ahead along a wall on a left tyre that is worn by 0.3 mm, ten readings a second; and worn_as_new.log,
# the same readings with the new tyre's radius for both wheels

WORN_RADIUS = 0.0997
ALONG = [(1, 0.0, 0.0), (24, 12.0, 0.0), (1, 0.0, 0.0)]


def worn(left_radius):
    readings = []
    for i in range(10 * sum(seconds for seconds, _, _ in ALONG) + 1):
        paths = wheel_paths(*planned(ALONG, i / 10))
        # the smaller wheel turns further on the same floor
        left, right = (math.floor(path / (math.tau * radius) * PER_TURN) for path, radius in zip(paths, (WORN_RADIUS, RADIUS)))
        readings.append(ticks(i / 10, 5000 + left, 7000 + right))
    return log_of([left_radius, RADIUS, TRACK, PER_TURN, 0.0005, 0.0005, WIDTH], readings)


def main():
    logs = [("hall", hall()), ("creep", creep()), ("rates", curve()), ("turnover", turnover())]
    for name, log in logs + [("worn", worn(WORN_RADIUS)), ("worn_as_new", worn(RADIUS))]:
        assert len(log) <= 65536
        (here / f"{name}.log").write_bytes(log)
        (here / f"{name}.out").write_bytes(lines_of(log))


if __name__ == "__main__":
    main()
