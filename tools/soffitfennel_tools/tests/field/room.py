"""A test with a folder of its own, and the tools that it runs."""
from __future__ import annotations

import os
import shutil
import subprocess
import tempfile
import unittest
from pathlib import Path

TOP = Path(__file__).resolve().parent.parent.parent.parent.parent
CARDS = TOP / "examples" / "cards"
# seconds that a tool may take: the slowest builds a library, on a machine that other programs use too
PATIENCE = 900


class Room(unittest.TestCase):
    """A test with a folder of its own."""

    def setUp(self) -> None:
        self.room = Path(tempfile.mkdtemp(prefix="field-"))
        self.addCleanup(shutil.rmtree, self.room, ignore_errors=True)

    def run_tool(self, name: str, *words: object, stdin: str = "", **env: str) -> subprocess.CompletedProcess[str]:
        """Runs a tool, which ends in time."""
        command = [str(TOP / "tools" / name), *(str(it) for it in words)]
        return run(command, stdin=stdin, **env)

    def tool(self, name: str, *words: object, stdin: str = "", **env: str) -> str:
        """What a tool prints, which ends with status 0 and says nothing else."""
        came = self.run_tool(name, *words, stdin=stdin, **env)
        self.assertEqual((came.returncode, came.stderr), (0, ""), (name, words, came.stdout[-500:]))
        return came.stdout

    def refused(self, name: str, *words: object, stdin: str = "", **env: str) -> str:
        """The one line that a tool says when it refuses."""
        came = self.run_tool(name, *words, stdin=stdin, **env)
        self.assertEqual((came.returncode, came.stdout, came.stderr.count("\n")), (1, "", 1), (words, came.stderr))
        return came.stderr.strip()

    def file(self, text: str, name: str = "it.card") -> Path:
        """A file with this text."""
        path = self.room / name
        path.write_text(text, encoding="utf-8")
        return path

    def image(self, kind: str) -> Path:
        """The issued image of an example card."""
        path = self.room / f"{kind}.image"
        self.tool("issue", CARDS / f"{kind}.card", path)
        return path

    def bench(self, image: Path, *lines: str) -> list[str]:
        """What the bench prints of these lines, on the card in an image."""
        command = [str(TOP / "bench"), "-q", "--card", str(image)]
        return run(command, stdin="\n".join([*lines, ""])).stdout.splitlines()

    def says(self, image: Path, expected: dict[str, str]) -> None:
        """Gives a card these commands after power-on, and compares its answers."""
        came = self.bench(image, "on", *(f"apdu {it}" for it in expected))[1:]
        self.assertEqual(dict(zip(expected, came)), {command: f"< {it}" for command, it in expected.items()})


def run(command: list[str], stdin: str = "", **env: str) -> subprocess.CompletedProcess[str]:
    """Runs a command at the top of the repository."""
    given = {**os.environ, **env}
    return subprocess.run(
        command, cwd=TOP, input=stdin, text=True, capture_output=True, check=False, env=given, timeout=PATIENCE
    )
