"""Access rules from words, as tools/card shows them, or from hexadecimal digits."""
from ..card_image.rule_words import is_rule, rule_line
from ..explaining.templates import OF_DF, OF_EF, listed

ELSE = "all else"
CONDITIONS = {"always": 0x00, "never": 0xFF} | {f"pin {it}": 0x10 | it for it in range(1, 9)}


def rule_of(text: str, is_directory: bool) -> bytes:
    """The bytes of a rule; operations that it doesn't name are never allowed."""
    if text and set(text) <= set("0123456789abcdefABCDEF") and len(text) % 2 == 0:
        rule = bytes.fromhex(text)
        if not is_rule(rule):
            raise ValueError(f"{text} is not an access rule: a mode byte, and a condition for each of its bits")
        return rule
    names = OF_DF if is_directory else OF_EF
    found: dict[str, int] = {}
    rest = CONDITIONS["never"]
    for part in text.split(";"):
        operations, colon, condition = part.partition(":")
        byte = CONDITIONS.get(" ".join(condition.lower().split()))
        if not colon or byte is None:
            raise ValueError(f"'{part.strip()}' is no part of a rule, which is such as 'update: PIN 1; read: always'")
        for word in (" ".join(it.split()) for it in operations.split(",")):
            if word == ELSE:
                rest = byte
            elif word not in names:
                raise ValueError(f"'{word}' is none of {listed(list(names))}")
            elif word in found:
                raise ValueError(f"'{word}' has two conditions")
            else:
                found[word] = byte
    if rest != CONDITIONS["never"]:
        found |= {it: rest for it in names if it not in found}
    bits = {bit: found[name] for bit, name in zip(range(6, -1, -1), names) if name in found}
    return bytes([sum(1 << it for it in bits), *bits.values()])


def words_of(rule: bytes, is_directory: bool) -> str:
    """A rule in words; its digits, where the words would give other bytes."""
    text = rule_line(rule, is_directory)
    return text if rule_of(text, is_directory) == rule else rule.hex().upper()
