"""Counts checks."""
from pathlib import Path
from typing import Any

TOP = Path(__file__).resolve().parents[4]


class Checks:
    """What was compared, and what differed."""

    def __init__(self) -> None:
        self.passed, self.failed, self.skipped = 0, 0, 0

    def compare(self, what: str, wanted: Any, came: Any) -> None:
        """Counts a comparison."""
        if wanted == came:
            self.passed += 1
            return
        self.failed += 1
        print(f"FAIL {what}\n  wanted: {wanted}\n  came:   {came}")

    def skip(self, what: str) -> None:
        """Tells that something can't be tried here."""
        self.skipped += 1
        print(f"SKIPPED {what}")

    def summary(self) -> str:
        told = f"card: {self.passed} passed, {self.failed} failed"
        return told + (f", {self.skipped} skipped" if self.skipped else "")
