#!/usr/bin/env python3
"""Tries tools/log on every log of tools/replay_cases.py, those of examples/ among them, and on logs of random bits: a sound one has to come back from its
CSV byte for byte, a broken one to be refused. Which is which is asked of tools/replay_cases.py. Run it from anywhere, with no arguments.
"""
import random
import sys
from importlib.machinery import SourceFileLoader
from pathlib import Path
from types import ModuleType

sys.dont_write_bytecode = True
from replay_cases import all_logs, lines_of
from walk import PARAMETERS, Reading, packed

top = Path(__file__).resolve().parent.parent
tool = ModuleType("log")
SourceFileLoader("log", str(top / "tools" / "log")).exec_module(tool)

# zeros, the least and the largest, infinities, NaNs quiet and signalling, of both signs
INFINITE = 0x7FF << 52
POSITIVE = [0, 1, 2**52 - 1, INFINITE - 1, INFINITE, INFINITE + 1, 0x7FF8 << 48, 2**63 - 1]
SPECIAL = POSITIVE + [2**63 + bits for bits in POSITIVE]


def logs():
    yield from all_logs()
    chance = random.Random(1)

    def word():
        return chance.choice([chance.choice(SPECIAL), chance.getrandbits(64)])

    for _ in range(500):
        some = range(chance.choice([0, 1, 2, 30]))
        yield packed([word() for _ in PARAMETERS], [Reading(chance.getrandbits(1), chance.getrandbits(1), word(), word(), word()) for _ in some])


def main():
    sound = broken = 0
    for i, log in enumerate(logs()):
        try:
            same = tool.log_of(tool.text_bytes(tool.csv_of(log))) == log
            sound += 1
        except tool.Wrong:
            same = None
            broken += 1
        if same is False or (same is None) != (lines_of(log) == b"bad log\n"):
            sys.exit(f"log {i} does not come back as it was, or is judged otherwise than by tools/replay_cases.py")
    print(f"{sound} sound logs came back byte for byte, {broken} broken ones were refused")


if __name__ == "__main__":
    main()
