"""The stored numbers: of each kind of line and call the instructions in the program's own functions, and the bytes of
stack and heap that calls take. The C library's instructions are left out, since it chooses its functions by the
processor."""
from pathlib import Path

STORED = Path(__file__).resolve().parent.parent.parent / "words" / "cost.table"
HEAD = """\
# The instructions that a line or a call takes in the program's own functions, without those of the C library, and the
# bytes that calls take of stack and heap, for tools/dev/cost --check. A line: a number, and what it is of.
# tools/dev/cost --store writes this file.

"""
# how far a count may be from the stored one: a share of it, and at least an instruction, as counts are rounded
MOST, LEAST = 0.01, 1


def read_stored(path: Path) -> dict[str, int]:
    """The stored counts, by the name of the kind."""
    lines = path.read_text(encoding="utf-8").splitlines()
    pairs = [line.split(maxsplit=1) for line in lines if line and not line.startswith("#")]
    return {name: int(number) for number, name in pairs}


def store(path: Path, counts: dict[str, int]) -> None:
    """Stores the counts."""
    path.write_text(HEAD + "".join(f"{number} {name}\n" for name, number in counts.items()), encoding="utf-8")


def fault(name: str, now: int, was: int | None) -> str | None:
    """What is wrong with a number beside the stored one, if anything. One that fell is wrong too: a later rise would
    hide in it."""
    unit = "bytes" if name.startswith(("stack: ", "heap: ")) else "instructions"
    if was is None:
        return f"{now:,} {unit}, and no number is stored (tools/dev/cost --store)"
    if abs(now - was) <= max(MOST * was, LEAST):
        return None
    why = "an inlining may be lost" if now > was else "tools/dev/cost --store stores the gain"
    return f"{now:,} {unit}, {was:,} are stored ({now / was - 1:+.1%}): {why}"
