"""What the page is given: the module, the examples, the words, and the sums."""
from __future__ import annotations

import base64
import gzip
import hashlib
import json
import re
import subprocess
from pathlib import Path

from ..commands import command
from ..narrowing.building import CRATE, TOP

STORED = TOP / "web" / "card.sum"
# the examples that come first: those with a command to cut
FIRST = ("update_binary", "update_record", "delete_directory", "change_pin", "one_word")
NOT_KNOWN = "not known"
TABLES = ("card", "why", "orders")
MOST_EXAMPLE = 20_000
MOST_ABOUT = 70


def packed(content: bytes) -> str:
    """Bytes as the page unpacks them; equal bytes are packed alike."""
    return base64.b64encode(gzip.compress(content, 9, mtime=0)).decode()


def examples() -> list[dict[str, str]]:
    """The scripts to choose from. (A bad line's bytes don't fit in a text.)"""
    paths = [TOP / "examples/sweep" / f"{it}.script" for it in FIRST]
    others = sorted((TOP / "examples").glob("*.script"))
    paths += [it for it in others if not it.name.startswith("bad_") and it.stat().st_size < MOST_EXAMPLE]
    return [example(it) for it in paths]


def example(path: Path) -> dict[str, str]:
    """A script, with the first sentence of its first comment."""
    script = path.read_text(encoding="latin-1")
    comment = re.match(r"(?:# [^\n]*\n)*", script)
    words = comment[0].replace("# ", "").split() if comment else []
    return {"name": path.stem, "about": " ".join(words).split(". ")[0][:MOST_ABOUT], "script": script}


def words() -> bytes:
    """The examples and the tables of words."""
    tables = {it: (TOP / "tools/words" / f"{it}.table").read_text(encoding="utf-8") for it in TABLES}
    return json.dumps({**tables, "examples": examples()}, separators=(",", ":")).encode()


def sources() -> str:
    """The sum of all sources that the module is compiled from."""
    return str(command("dev/proved-sum").sources(CRATE.name))


def kit() -> str:
    """The toolchain and the logic of its proofs."""
    try:
        ran = subprocess.run(["rt", "version"], stdout=subprocess.PIPE, text=True, check=False)
    except OSError:
        return NOT_KNOWN
    return ran.stdout.strip() or NOT_KNOWN


def commit() -> str:
    """The commit of this clone."""
    ran = subprocess.run([TOP / "tools/bench/version"], stdout=subprocess.PIPE, text=True, check=False)
    found = re.search(r"^commit: +(.*)$", ran.stdout, re.M)
    return found[1] if found else NOT_KNOWN


def stored() -> dict[str, str]:
    """The stored sums of the module that was compiled from proved sources."""
    if not STORED.is_file():
        return {}
    return dict(it.split(": ", 1) for it in STORED.read_text(encoding="utf-8").splitlines())


def own_sums(module: bytes) -> dict[str, str]:
    """The sums of a module and of its sources, as they are stored."""
    return {"sources": sources(), "module": hashlib.sha256(module).hexdigest()}


def data(module: bytes) -> str:
    """The page's data.js."""
    sums = own_sums(module)
    told = {**sums, "kit": kit(), "commit": commit(), "isProved": stored() == sums}
    lines = {"MODULE": packed(module), "WORDS": packed(words()), "SUMS": told}
    return "// Made by tools/page.\n" + "".join(
        f"export const {name} = {json.dumps(it)};\n" for name, it in lines.items()
    )
