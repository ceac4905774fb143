"""A second card that is given the same lines, and then answers what a log doesn't show: a file's rule, its records.

Each question is a run of its own, from the factory card or a copy of the card in a file on, so that no answer changes
what the first card prints."""
from __future__ import annotations

import subprocess
from pathlib import Path as FilePath
from tempfile import TemporaryDirectory

from ..card_image.flash import SMALL
from ..card_image.image import Image, Unreadable, read_image
from ..card_image.tree import read
from ..outputs import write
from ..programs import past_file_limits

from .files import Files, Path
from .templates import Template

# what all questions of a run may cost, counted in lines, and what the start of a program costs beside its lines
MOST_LINES, START = 2_000_000, 4_000
# a cut that is still to come must not come in a question
NO_CUT = "cut 999999 0000"
PATIENCE = 60


def select(path: Path) -> str:
    """The line that shows a file's template."""
    digits = "".join(path)
    return f"apdu 00A40804{len(path) * 2:02X}{digits}00" if path else "apdu 00A4000400"


def image_given(program: list[str]) -> Image | None:
    """The memory image in the file that a program's words name, as it is now; None where no card is in it yet."""
    path = next((word for before, word in zip(program, program[1:]) if before == "--card"), None)
    try:
        return read_image(path)[0] if path and FilePath(path).is_file() else None
    except Unreadable:
        return None


def copied(image: Image, program: list[str]) -> bytes:
    """The bytes of the card in a file, for a program with these words: one with a flash has its kind or its seed
    first."""
    is_on_flash = len(program) > 1 and (program[1] in SMALL.options or program[1].isdigit())
    return image.flash.data() if image.flash and is_on_flash else image.data()


class Twin:
    """The lines so far, and the program that plays them again, with its words; without a program nothing is asked."""

    def __init__(self, program: list[str]):
        # (a copy need not outlive a power cut of the machine)
        self.program = [it for it in program if it != "--sync"]
        self.lines: list[str] = []
        self.spent = 0.0
        self.image = image_given(program)

    def took(self, line: str) -> None:
        """A line that the first card has answered."""
        self.lines.append(line)

    def ask(self, questions: list[str]) -> list[str]:
        """What the lines of a question print after all lines so far; nothing where there is no second card, or it has
        answered too many questions."""
        self.spent += START + len(self.lines)
        if not self.program or self.spent > MOST_LINES:
            return []
        lines = [*self.lines, NO_CUT, "on", *questions]
        text = "".join(f"{line}\n" for line in lines).encode("latin-1")
        try:
            ran = self.run(text, PATIENCE)
        except (OSError, subprocess.TimeoutExpired):
            return []
        return ran.stdout.decode("latin-1").splitlines()[-len(questions) :] if ran.returncode == 0 else []

    def run(self, text: bytes, seconds: int | None = None) -> subprocess.CompletedProcess[bytes]:
        """A run of the program, on a copy of the card where it is one in a file."""
        with TemporaryDirectory() as room:
            copy = FilePath(room) / "card"
            if self.image:
                write(copy, copied(self.image, self.program))
            pairs = zip(["", *self.program], self.program)
            words = [str(copy) if before == "--card" else word for before, word in pairs]
            return subprocess.run(
                words, input=text, capture_output=True, timeout=seconds, check=False, preexec_fn=past_file_limits
            )

    def begin(self, files: Files) -> None:
        """The files of a card in a file, in place of the factory's."""
        card = read(self.image).card if self.image else None
        if card:
            files.is_terminated = card.is_terminated
            # (a path of identifiers begins with the MF's own)
            files.seen = self.templates([tuple(it.path.split("/")[1:]) for it in card.files])

    def templates(self, paths: list[Path]) -> dict[Path, Template]:
        """The templates of those of the files that exist."""
        answers = self.ask([select(path) for path in paths])
        return {
            path: Template(bytes.fromhex(answer[2:-4]))
            for path, answer in zip(paths, answers)
            if answer.startswith("< 62") and answer[-4:] in ("9000", "6283", "6285")
        }

    def refresh(self, files: Files, *paths: Path) -> None:
        """What the second card says of these files now, or of all files where some may be gone."""
        wanted = list(files.seen) if files.is_doubtful else [path for path in paths if path in files.seen]
        found = self.templates(wanted) if wanted else {}
        if files.is_doubtful and found:
            files.seen, files.is_doubtful = found, False
        files.seen.update(found)

    def free(self) -> tuple[int, int] | None:
        """The free blocks and entries."""
        answers = self.ask(["free"])
        words = answers[0].split(" ") if answers else []
        return (int(words[1]), int(words[2])) if words[:1] == ["free"] else None
