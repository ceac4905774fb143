"""Access rules in words (docs/CARD.md, "Access rules"): an access mode byte, and a condition for each of its bits."""
from ..explaining.templates import OF_DF, OF_EF, meaning


def is_rule(rule: bytes) -> bool:
    """Whether these bytes are an access rule."""
    if not rule or rule[0] & 0x80 or len(rule) != 1 + rule[0].bit_count():
        return False
    return all(meaning(it) for it in rule[1:])


def allowed(rule: bytes, is_directory: bool) -> dict[str, str]:
    """Of each operation that a rule names, the condition in words; what isn't named is never allowed."""
    conditions = iter(rule[1:])
    found = {}
    for bit, operation in zip(range(7, 0, -1), OF_DF if is_directory else OF_EF):
        if rule[0] >> bit - 1 & 1:
            found[operation] = meaning(next(conditions)) or "no condition"
    return found


def rule_line(rule: bytes, is_directory: bool) -> str:
    """A rule in one line, operations with one condition together."""
    together: dict[str, list[str]] = {}
    for operation, condition in allowed(rule, is_directory).items():
        together.setdefault(condition, []).append(operation)
    parts = [f"{', '.join(operations)}: {condition}" for condition, operations in together.items()]
    return "; ".join([*parts, "all else: never"] if len(rule) < 8 else parts)
