"""The scripts of the repository, on which two programs are compared."""
from __future__ import annotations

import glob
import os
from collections.abc import Iterator


def read_scripts(top: str) -> Iterator[tuple[str, str]]:
    """Each script of rows/ and examples/, without what its lines print."""
    for path in sorted(glob.glob(f"{top}/rows/*.rows") + glob.glob(f"{top}/examples/*.script")):
        with open(path, encoding="utf-8") as it:
            lines = [line for line in it if not line.startswith("= ")]
        yield os.path.relpath(path, top), "".join(lines)
