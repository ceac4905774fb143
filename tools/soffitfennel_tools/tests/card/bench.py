"""Runs the bench on a card in a file."""
import subprocess
from pathlib import Path
from typing import Any

ATR = "atr 3B808131FE458B"


class Bench:
    """The bench's program on a card in a file."""

    def __init__(self, path: str, image: Path) -> None:
        self.path, self.image = path, image

    def words(self, *options: str) -> list[str]:
        """Its command line."""
        return [self.path, "--card", str(self.image), *options]

    def run(self, script: str, *options: str, **more: Any) -> tuple[int, list[str], str]:
        """Runs a script: the exit status, the lines printed, and what standard error says."""
        ran = subprocess.run(self.words(*options), input=script.encode("latin-1"), capture_output=True, **more)
        return ran.returncode, ran.stdout.decode("latin-1").splitlines(), ran.stderr.decode("latin-1")

    def start(self, *options: str, **more: Any) -> subprocess.Popen[bytes]:
        """Starts it on a pair of pipes."""
        pipe = subprocess.PIPE
        return subprocess.Popen(self.words(*options), stdin=pipe, stdout=pipe, stderr=pipe, **more)


def ask(process: subprocess.Popen[bytes], line: str) -> str:
    """What a line prints; nothing where the program has ended."""
    assert process.stdin and process.stdout
    process.stdin.write(line.encode() + b"\n")
    process.stdin.flush()
    return process.stdout.readline().decode().rstrip("\n")
