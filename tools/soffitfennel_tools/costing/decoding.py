"""What a byte in hexadecimal digits costs: the program decodes it by a library of the toolchain."""
from __future__ import annotations

import re
from functools import cache

from .callgrind import cost
from .kinds import Kind

# lines that are read and decoded, and have no effect
FEW, MANY = 1, 300
DIGITS = re.compile(r"(?:apdu|block) ((?:[0-9A-Fa-f]{2})+)")


def decoded(kind: Kind) -> float:
    """The bytes that a line of the kind has in digits; the mean, where lines come in turn."""
    lines = kind.line.split("\n")
    return sum(len(it[1]) // 2 for line in lines if (it := DIGITS.match(line))) / len(lines)


@cache
def decoding(program: str) -> float:
    """The instructions for a byte in digits."""
    least, most = (cost(program, Kind(f"{it} bytes", [], f"block {'A5' * it}")).all for it in (FEW, MANY))
    return (most - least) / (MANY - FEW)
