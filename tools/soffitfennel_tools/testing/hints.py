"""The likely mistake of an expectation that differs from what was printed, or where the two differ."""

from __future__ import annotations

import re
from fnmatch import fnmatchcase

# the characters that have a meaning of their own in a pattern; no line that is printed has one
PATTERN = re.compile(r"[*?[]")
OPEN_SET = re.compile(r"\[!?[^\]]?[^\]]*$")
ANSWER = "< "
# digits, and what a pattern may have in their place: an answer, were its mark before it
ONLY_ANSWER = re.compile(r"[0-9A-F?*]{4,}")


def plain(text: str) -> str:
    """A text without its spaces, in upper case."""
    return "".join(text.split()).upper()


def differing_byte(wanted: str, came: str) -> str | None:
    """Which byte of the data differs, where two answers have one status and one length."""
    if not (wanted.startswith(ANSWER) and len(wanted) == len(came) and wanted[-4:] == came[-4:]):
        return None
    at = next((at for at in range(len(ANSWER), len(wanted)) if wanted[at] != came[at]), len(ANSWER))
    first = (at - len(ANSWER)) // 2
    byte = slice(len(ANSWER) + 2 * first, len(ANSWER) + 2 * first + 2)
    return f"byte {first + 1} is the first that differs: {wanted[byte]} wanted, {came[byte]} came"


def hint(wanted: str, came: str | None) -> str | None:
    """What helps to see why the expectation isn't met, if anything does."""
    if OPEN_SET.search(wanted):
        return "[ begins a set of characters in a pattern, and has no ]"
    if came is None:
        return None
    if came.startswith(ANSWER) and (fnmatchcase(came, ANSWER + wanted) or ONLY_ANSWER.fullmatch(wanted)):
        return "an answer begins with '< '"
    if fnmatchcase(came, wanted.replace("..", "*").replace("X", "?")):
        return "in a pattern ? stands for one character, and * for any text"
    if fnmatchcase(plain(came), plain(wanted)):
        return "they differ in spaces or in upper and lower case alone"
    return None if PATTERN.search(wanted) else differing_byte(wanted, came)
