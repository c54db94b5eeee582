"""The files of a program of cases, crates/NAME/stdin and crates/NAME/stdout: records, and a line for each. Both have two parts, and the
script of the program makes the first. The second, the Rust's answers, is oracle/run --sample's, and is left as it stands.

A float stands for its bits, and a whole number for itself modulo 2^64. In a line any NaN has the bits of one.
"""
import struct
from pathlib import Path

# the second part begins with a group whose number is `Rust` in ASCII
RUST = [1, 0x74737552], [0x74737552]


def raw(x):
    """The bits of a float."""
    return struct.unpack("<Q", struct.pack("<d", x))[0]


def of_bits(word):
    return struct.unpack("<d", struct.pack("<Q", word))[0]


def word(x):
    return raw(x) if isinstance(x, float) else x % 2**64


def in_bytes(record, _):
    return struct.pack(f"<{len(record)}Q", *map(word, record))


def in_text(record, line):
    words = [word(x) if x == x else 0x7FF8000000000000 for x in (record[0], *line)]
    return ("".join(f" {w:016x}" for w in words) + "\n").encode()


def write(crate, cases):
    """A case is the numbers of its record, the kind first, and those of its line behind the kind."""
    for name, form in (("stdin", in_bytes), ("stdout", in_text)):
        path = Path(__file__).resolve().parent.parent / "crates" / crate / name
        first, mark = b"".join(form(*case) for case in cases), form(*RUST)
        assert mark not in first
        before = path.read_bytes() if path.exists() else b""
        _, *second = before.partition(mark)
        path.write_bytes(first + b"".join(second))
