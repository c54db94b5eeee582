#!/usr/bin/env python3
"""Reads the bytes of what an integrator keeps, from outside the language. 02, W-206: the rate noise and the radians per tick are kept "equal,
bit for bit, to the values worked out afresh, a NaN in either being the bits 7ff8000000000000". To the logic all NaNs are one, so that which bits a NaN
has in memory is not proved but tried here, on the x86-64 code that ships.

It has rt prove and build the library crates/kept_bytes, links tools/kept_bytes.c with it by the toolchain's own clang, and runs that.
In go carts, and runs of readings, restarts and changes; out come the 80 bytes of each end state's kept values.
What they must be is worked out by tools/wheel_cases.py, which restates 01 and 02, and by no code of this repository's crates. Run it from anywhere, with no arguments.
"""
import struct
import subprocess
import sys
import tempfile
from pathlib import Path

sys.dont_write_bytecode = True
import wheel_cases as w

ROOT = Path(__file__).resolve().parent.parent
NAN_BITS = 0x7FF8000000000000


def build(folder):
    """The command that runs the reading program."""
    kit = Path(subprocess.run(["rt", "doc"], check=True, capture_output=True, text=True).stdout.strip()).resolve().parent
    tools = kit / "toolchain" / "bin"
    print("building the library kept_bytes; from nothing that takes a few minutes", flush=True)
    crate = ROOT / "crates" / "kept_bytes"
    built = subprocess.run(["rt", "lib"], cwd=crate, capture_output=True, text=True)
    if built.returncode != 0:
        sys.exit(f"kept_bytes.py: rt lib failed in crates/kept_bytes; its last lines:\n{built.stdout[-2000:]}{built.stderr[-2000:]}")
    reader, library = Path(folder) / "reader", crate / "out" / "libkept_bytes.a"
    target = ["--target=x86_64-unknown-linux-gnu", "-O2", "-ffreestanding", "-fno-stack-protector", "-fno-builtin"]
    obj = Path(folder) / "reader.o"
    subprocess.run([tools / "clang", *target, "-c", ROOT / "tools" / "kept_bytes.c", "-o", obj], check=True)
    subprocess.run([tools / "ld.lld", "-static", "--gc-sections", obj, library, "-o", reader], check=True)
    return [reader]


# ---- the cases: parameters, and the bytes of a run's events


def carts():
    drives = [w.CART, w.WORN, w.UNIT, w.alike(1e300, 1e-300, 1.0), w.alike(1e300, 1.0, 1.0), (1.0, 1e300, 1.0, 1.0), (1e300, 1.0, 1e-300, 1.0)]
    drives += [w.alike(1.0, 1.0, w.LEAST), w.alike(1.0, w.LEAST, w.LEAST), w.alike(w.LARGEST, w.LARGEST, w.LARGEST), w.alike(w.LEAST, 1.0, w.LARGEST)]
    noises = [w.NOISE, w.QUIET, (1.0, 1.0), (1e200, 0.0), (0.0, 1e200), (w.LARGEST, w.LARGEST), (-0.0, -0.0)]
    return [(drive, noise) for drive in drives for noise in noises]


def runs(drive, noise):
    """What becomes of a cart: nothing, readings, restarts, changes to it and away from it, refused calls of each kind."""
    reads = [w.read_bytes(w.ticks(0.25 * i, 3 * i, 4 * i)) for i in range(4)]
    to, away = w.change_bytes(w.change_to(drive, noise)), w.change_bytes(w.change_to(*w.OTHER))
    refused = [w.change_bytes(w.change_to(drive, (w.NAN, 0.0))), w.change_bytes(w.change_to(drive, noise, 32)), reads[0]]
    again = w.restart_bytes()
    yield []
    yield [reads[0]]
    yield reads
    yield [again, *reads, again]
    yield [away]
    yield [reads[0], away, reads[1], to]
    yield [reads[0], to, again, *refused, reads[1]]
    yield [away, *refused, to, *refused, again, away, to, reads[0], reads[1]]


def expected(drive, noise, events):
    s = w.after_call(w.BLANK, w.begin(drive, noise))[1]
    for event in events:
        s = w.after_call(s, w.event_in(event))[1]
    numbers = [*sum(w.transpose(s.rate_noise), []), s.per_tick]
    return [w.raw(x) if x == x else NAN_BITS for x in numbers]


def main():
    every = [(*cart, events) for cart in carts() for events in runs(*cart)]
    data = b""
    for drive, noise, events in every:
        joined = b"".join(events)
        data += struct.pack("<6dQ", *drive, *noise, 64) + struct.pack("<Q", len(joined)) + joined
    with tempfile.TemporaryDirectory() as folder:
        ran = subprocess.run(build(folder), input=data, check=True, capture_output=True).stdout
    assert len(ran) == 80 * len(every), f"{len(ran)} bytes of {len(every)} states"
    nans = apart = 0
    for i, case in enumerate(every):
        words, wanted = struct.unpack("<10Q", ran[80 * i : 80 * i + 80]), expected(*case)
        nans += sum(x == NAN_BITS for x in wanted)
        for j, (x, y) in enumerate(zip(words, wanted)):
            if x != y:
                apart += 1
                print(f"state {i}, {case[0]}, {case[1]}, {len(case[2])} events: number {j} is {x:016x}, and must be {y:016x}")
    print(f"{len(every)} states, {10 * len(every)} numbers read from their bytes, {nans} of them NaN as {NAN_BITS:016x}; {apart} apart")
    sys.exit(apart > 0)


if __name__ == "__main__":
    main()
