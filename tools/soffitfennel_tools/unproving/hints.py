"""The inline hints of the sources: #[inline], #[inline(always)], #[inline(never)] and #[cold].

The module of a checked run has none of them, and a built program is compiled by them."""
import re
from collections import defaultdict
from pathlib import Path
from typing import NamedTuple

ATTRIBUTE = re.compile(r"#\[(inline(?:\((?:always|never)\))?|cold)\]")
# an item that has functions, and a function with the attributes and comments right above it
OWNER = re.compile(r"^(?:pub(?:\([^)]*\))? )?(?:unsafe )?(?:impl|trait)\b(?P<head>[^{;]*)", re.M)
FUNCTION = re.compile(
    r"(?P<above>(?:#\[[^\n]*\]\s*|//[^\n]*\n\s*)*)"
    r'(?:pub(?:\([^)]*\))?\s+)?(?:const\s+)?(?:unsafe\s+)?(?:extern "[^"]*"\s+)?\bfn\s+(?P<name>\w+)'
)
# the attributes of LLVM that hints become
LLVM = {
    (): None, ("inline",): "inlinehint", ("inline(always)",): "alwaysinline", ("inline(never)",): "noinline",
    ("cold",): "cold", ("cold", "inline(never)"): "cold noinline",
}


class Hint(NamedTuple):
    """A function of the sources, and what LLVM is to know of it."""

    modules: list[str]
    owner: str | None
    attributes: str | None


def owner_of(text: str, at: int) -> str | None:
    """How the module names the type or the trait that a function stands in, as Vec or I32Debug; None where it stands
    in none."""
    # (a function in the first column stands in no item)
    if text[text.rfind("\n", 0, at) + 1 : at + 1][:1] not in (" ", "\t"):
        return None
    *_, owner = [None, *OWNER.finditer(text, text.rfind("\n}", 0, at) + 1, at)]
    if not owner:
        return None
    head = owner["head"].split("where")[0]
    generic, rest = parameters(head)
    trait, is_of_a_trait, of = rest.partition(" for ")
    if not is_of_a_trait:
        return name_of(rest, generic)
    return name_of(of, generic) + name_of(trait, generic)


def parameters(head: str) -> tuple[set[str], str]:
    """The generic parameters of an impl, and what follows them."""
    if not head.startswith("<"):
        return set(), head
    depth, end = 0, 0
    for end, letter in enumerate(head):
        depth += (letter == "<") - (letter == ">" and head[end - 1] != "-")
        if not depth:
            break
    return set(re.findall(r"[<,]\s*(?:const\s+)?([\w']+)", head[: end + 1])), head[end + 1 :]


def name_of(kind: str, generic: set[str]) -> str:
    """A type or a trait in one word: i32 is I32, &[T] is RefSlice, (A, B) is Tuple2, a parameter is Any."""
    if kind.strip().startswith("("):
        return f"Tuple{kind.count(',') + (not kind.rstrip(' )').endswith(',') and kind.strip() != '()')}"
    if kind.strip() in generic:
        return "Any"
    depth, word = 0, ""
    kind = re.sub(r"\[[^\];]*\]", "Slice", re.sub(r"\[[^\];]*;[^\]]*\]", "Array", kind))
    for it in re.findall(r"[\w:']+|->|.", kind.replace("->", "")):
        depth += (it == "<") - (it == ">")
        if it == "&":
            word += "Ref"
        elif it[0].isalpha() and not depth and it not in generic | {"dyn"}:
            last = it.split("::")[-1]
            word += last[:1].upper() + last[1:]
    return word


class Hints:
    """The hints of some crates."""

    def __init__(self) -> None:
        self.found: dict[tuple[str, str], list[Hint]] = defaultdict(list)

    def read(self, crate: str, source: Path) -> None:
        """Reads a crate."""
        for path in sorted(source.rglob("*.rt")):
            modules = [it for it in path.relative_to(source).with_suffix("").parts if it not in ("lib", "main", "mod")]
            text = path.read_text(encoding="utf-8", errors="replace")
            for it in FUNCTION.finditer(text):
                hints = tuple(sorted(ATTRIBUTE.findall(it["above"])))
                self.found[crate, it["name"]].append(Hint(modules, owner_of(text, it.start("name")), LLVM.get(hints)))

    def of(self, function: str) -> str | None:
        """The attributes of a function by its name in the module, as in std::io::Reader::read::<#12ab>."""
        crate, *path, name = re.sub(r"::<.*", "", function).split("::")
        owner = path[-1].split("+")[0].lower() if path else ""
        known = self.found.get((crate, name), [])
        exact = [it for it in known if it.modules == path and it.owner is None]
        # (a method that a trait gives to a type has no hint in a built program)
        owned = [it for it in known if it.owner and it.owner.lower() == owner]
        those = exact or owned
        return max(those, key=lambda it: common(it.modules, path)).attributes if those else None


def common(one: list[str], other: list[str]) -> int:
    """How many of the first names are the same."""
    return next((at for at, (a, b) in enumerate(zip(one, other)) if a != b), min(len(one), len(other)))
