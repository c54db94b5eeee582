"""The bytes of a log, for the tools that a person uses (tools/log, tools/show): 01, "The log", with the counter width of 02's W-201
and the two radii of W-205. tools/replay_cases.py states the same layout for itself, since the cases that the gate runs come from there.

Every number of a log is kept as a word, the whole number that its 64 bits are, so that no bit goes by way of a float.
"""
import re
import struct
from typing import NamedTuple

from parts import of_bits, raw

# "at most 65,536 bytes"
MOST_BYTES = 65536


class Field(NamedTuple):
    name: str
    form: str  # one of FORMS
    meaning: str


# "parameters (count 1; radius, track, ticks per turn, wheel noise, lateral noise as f64)"; W-201: "the width as a u64 at its end";
# W-205: "left radius, right radius, then the rest (56 bytes)". The order is the log's.
PARAMETERS = [
    Field("left_radius", "f64", "m: radius of the left wheel"),
    Field("right_radius", "f64", "m: radius of the right wheel"),
    Field("track", "f64", "m: from one wheel's point of contact to the other's"),
    Field("ticks_per_turn", "f64", "encoder counts to one turn of a wheel"),
    Field("wheel_noise", "f64", "rad/s/√Hz: noise of each wheel's rate"),
    Field("lateral_noise", "f64", "m/s/√Hz: noise of slipping sideways"),
    Field("counter_width", "u64", "bits of the encoders' counters, 16, 24, 32 or 64: below 64 they start again at 0"),
]

# Older layouts: the parameters that each had, in order, and what each of today's that it lacked stood for, one of its own by name or a word.
# No log is sound in two layouts: they are 8 or 16 bytes apart, and a reading has 26.
ONE_RADIUS, NO_WIDTH = {"left_radius": "radius", "right_radius": "radius"}, {"counter_width": 64}
OLDER = [
    (["radius", "track", "ticks_per_turn", "wheel_noise", "lateral_noise", "counter_width"], ONE_RADIUS),
    (["radius", "track", "ticks_per_turn", "wheel_noise", "lateral_noise"], ONE_RADIUS | NO_WIDTH),
]

# "kind 0 ticks or 1 rates": the form of left and right by the kind's number
KINDS = [Field("ticks", "i64", "cumulative encoder counts"), Field("rates", "f64", "rad/s")]
FLAGS = ["invalid", "valid"]

# "each after its u32 count", "readings (26 bytes: kind .., flag .., time, left, right)"
COUNT = 4
PARAMETERS_AT = COUNT
READING_COUNT_AT = PARAMETERS_AT + 8 * len(PARAMETERS)
READINGS_AT = READING_COUNT_AT + COUNT
READING = "<BBQQQ"
READING_BYTES = struct.calcsize(READING)
MOST_READINGS = (MOST_BYTES - READINGS_AT) // READING_BYTES


class Reading(NamedTuple):
    kind: int
    flag: int
    time: int
    left: int
    right: int


# ---- whole logs


def count_at(log, at):
    return struct.unpack_from("<I", log, at)[0]


def faults(log):
    """What breaks the layout, in words. A log without any fault is sound."""
    if older(log):
        return ["it has an older layout, without all the parameters of today's: 'tools/log renew OLD.log NEW.log' carries it over, and says what it sets"]
    return broken(log)


def broken(log):
    """Its sizes, or, where these are sound, every kind and flag."""
    found = []
    if len(log) > MOST_BYTES:
        found.append(f"it has more than {MOST_BYTES:,} bytes, which is the most that a log may have ({MOST_READINGS:,} readings)")
    if len(log) >= COUNT and count_at(log, 0) != 1:
        found.append(f"its first 4 bytes, the count of parameter records, say {count_at(log, 0):,}, and have to say 1")
    if len(log) < READINGS_AT:
        found.append(f"it ends after {len(log)} bytes: the parameters and the two counts alone take {READINGS_AT}")
        return found
    count, rest = count_at(log, READING_COUNT_AT), len(log) - READINGS_AT
    if rest != count * READING_BYTES and len(log) <= MOST_BYTES:
        said = f"bytes {READING_COUNT_AT} to {READINGS_AT - 1}, the count of readings, say {count:,}"
        found.append(f"{said}, which take {count * READING_BYTES:,} bytes, and {rest:,} follow")
    if found:
        return found
    for i in range(count):
        kind, flag = log[READINGS_AT + READING_BYTES * i :][:2]
        if kind >= len(KINDS):
            found.append(f"reading {i}: its kind is {kind}, and has to be {numbered([k.name for k in KINDS])}")
        if flag >= len(FLAGS):
            found.append(f"reading {i}: its flag is {flag}, and has to be {numbered(FLAGS)}")
    return found


def older(log):
    """The same log in today's layout and what had to be set for it, by name, if it is a sound one of an older layout."""
    for names, lacking in OLDER:
        end = PARAMETERS_AT + 8 * len(names)
        if len(log) < end:
            continue
        own = dict(zip(names, struct.unpack_from(f"<{len(names)}Q", log, PARAMETERS_AT)))
        lacked = {name: own.get(source, source) for name, source in lacking.items()}
        given = own | lacked
        now = log[:PARAMETERS_AT] + struct.pack(f"<{len(PARAMETERS)}Q", *(given[field.name] for field in PARAMETERS)) + log[end:]
        if not broken(now):
            return now, lacked
    return None


def numbered(names):
    return " or ".join(f"{i} ({name})" for i, name in enumerate(names))


def unpacked(log):
    """Parameters and readings of a sound log."""
    parameters = struct.unpack_from(f"<{len(PARAMETERS)}Q", log, PARAMETERS_AT)
    return parameters, [Reading(*numbers) for numbers in struct.iter_unpack(READING, log[READINGS_AT:])]


def packed(parameters, readings):
    head = struct.pack(f"<I{len(PARAMETERS)}QI", 1, *parameters, len(readings))
    return head + b"".join(struct.pack(READING, *r) for r in readings)


def beginning(log, count):
    """The sound log of the same parameters and the first readings of this one."""
    return log[:READING_COUNT_AT] + struct.pack("<I", count) + log[READINGS_AT : READINGS_AT + READING_BYTES * count]


# ---- numbers as text: each form has its text of a word, and the word of a text, which raises ValueError with what was expected

# what `nan` stands for; a NaN of other bits is written by its bits
NAN = 0x7FF8000000000000
DECIMAL = re.compile(r"[+-]?(\d+\.?\d*|\.\d+)([eE][+-]?\d+)?", re.ASCII)
BITS = re.compile(r"0x[0-9a-fA-F]{16}")
WHOLE = re.compile(r"[+-]?\d+", re.ASCII)
NAMED = {"nan": NAN, "inf": raw(float("inf")), "+inf": raw(float("inf")), "-inf": raw(float("-inf"))}
ENDS = -(2**63), 2**63 - 1


def f64_text(word):
    if word == NAN:
        return "nan"
    x = of_bits(word)
    return repr(x) if x == x else f"0x{word:016x}"


def f64_word(text):
    if text.lower() in NAMED:
        return NAMED[text.lower()]
    if BITS.fullmatch(text):
        return int(text, 16)
    if not DECIMAL.fullmatch(text):
        raise ValueError("a number is expected, as 0.25, -3 or 1e-6 (or inf, -inf, nan, or 0x and 16 hexadecimal digits)")
    x = float(text)
    if x in (float("inf"), float("-inf")):
        raise ValueError("it lies beyond the largest f64, 1.7976931348623157e308; infinity is written inf")
    if x == 0 and re.search("[1-9]", re.split("[eE]", text)[0]):
        raise ValueError("it is nearer to 0 than the smallest f64, 5e-324; zero is written 0")
    return raw(x)


def u64_word(text):
    if not WHOLE.fullmatch(text) or not 0 <= int(text) < 2**64:
        raise ValueError(f"a whole number is expected, from 0 to {2**64 - 1}")
    return int(text)


def i64_text(word):
    return str(word - 2**64 if word >= 2**63 else word)


def i64_word(text):
    if not WHOLE.fullmatch(text) or not ENDS[0] <= int(text) <= ENDS[1]:
        raise ValueError(f"a whole number is expected, from {ENDS[0]} to {ENDS[1]}")
    return int(text) % 2**64


FORMS = {"f64": (f64_text, f64_word), "i64": (i64_text, i64_word), "u64": (str, u64_word)}


def text_of(form, word):
    return FORMS[form][0](word)


def word_of(form, text):
    return FORMS[form][1](text)
