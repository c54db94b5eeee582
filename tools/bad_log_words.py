#!/usr/bin/env python3
"""Tries what the replay says of a log on standard error: of every broken log of tools/replay_cases.py one line with its first fault, in the order
of crates/walk_log/specs/Faults.antt, stated here a second time; of the logs of examples/ nothing. The gate holds standard output alone, so this
is run by hand, with no arguments: some two minutes once the replay is proved.
"""
import struct
import subprocess
import sys
from pathlib import Path

sys.dont_write_bytecode = True
from replay_cases import all_logs, examples, lines_of

RUN = Path(__file__).resolve().parent / "run"


def fault(log):
    if len(log) > 65536:
        return "more than 65536 bytes; a log has at most 65536"
    for at, lacking in ((56, "one radius"), (48, "one radius and no counter width")):
        if len(log) >= at and log[:4] == b"\1\0\0\0" and len(log) == at + 26 * struct.unpack_from("<I", log, at - 4)[0]:
            return f"its parameters have {lacking}, as in older logs; 'tools/log renew' carries one over"
    if len(log) < 64:
        return f"{len(log)} bytes; a log has 64 before its readings"
    (parameters,), (readings,) = struct.unpack_from("<I", log, 0), struct.unpack_from("<I", log, 60)
    if parameters != 1:
        return f"its first 4 bytes count {parameters} parameter records; a log has 1"
    size = 64 + 26 * readings
    if len(log) != size:
        return f"{len(log)} bytes; with {readings} readings, as it counts, a log has {size}"
    for i in range(readings):
        kind, flag = log[64 + 26 * i : 66 + 26 * i]
        if kind > 1 or flag > 1:
            return f"reading {i}: its kind is {kind} and its flag is {flag}; a kind is 0 (ticks) or 1 (rates), a flag 0 (invalid) or 1 (valid)"


def main():
    tried = [log for log in all_logs() if lines_of(log) == b"bad log\n"] + examples()
    for i, log in enumerate(tried):
        why = fault(log)
        expected = f"replay: standard input: bad log: {why} (see docs/REFUSALS.md)\n" if why else ""
        said = subprocess.run(["bash", str(RUN), "replay"], input=log, capture_output=True)
        if said.stderr.decode() != expected or said.returncode != bool(why) or said.stdout != lines_of(log):
            sys.exit(f"log {i}: expected is {expected!r}, and it says {said.stderr.decode()!r} and {said.stdout!r}, status {said.returncode}")
        print(f"{i + 1} of {len(tried)}", end="\r" if i + 1 < len(tried) else "\n", file=sys.stderr, flush=True)
    broken = sum(bool(fault(log)) for log in tried)
    print(f"{broken} broken logs are told what is broken, and of {len(tried) - broken} sound ones nothing is said")


if __name__ == "__main__":
    main()
