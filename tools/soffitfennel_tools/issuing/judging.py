"""An image is taken only where the card's program takes it: power-on checks each image by proved code."""
from __future__ import annotations

import os
import subprocess
import tempfile
from pathlib import Path

from ..card_image.image import Image
from ..card_image.tree import read
from ..programs import program

from .draft import Draft, Wrong
from .storing import Refused


def judge(draft: Draft, image: Image) -> None:
    """Refuses an image that is no card, or another one than described."""
    reading = read(image)
    if reading.card is None:
        first = reading.breaks[0]
        raise Wrong(f"rule {first.rule} of a valid memory: {first.place}: {first.why}", line_of(draft, first.place))
    free = f"free {len(reading.card.free_chain)} {reading.card.free_entries}"
    status, said, complaint = power_on(image)
    if status != 0:
        raise Refused(
            f"the card's program refuses the image (status {status}): {complaint.strip() or 'no reason given'}"
        )
    if len(said) != 2 or not said[0].startswith("atr ") or said[1] != free:
        raise Refused(f"the card's program starts another card: it says {said}, and '{free}' is described")


def line_of(draft: Draft, place: str) -> int:
    """The line of the description that an entry's place in memory is from."""
    _, _, entry = place.partition("(entry ")
    number = entry.rstrip(")")
    return draft.files[int(number)].line if number.isdigit() and int(number) < len(draft.files) else 0


def power_on(image: Image) -> tuple[int, list[str], str]:
    """The program's status, what it prints, and what it complains of, when it starts the card."""
    path = program("--quiet")
    with tempfile.TemporaryDirectory(prefix="issue-") as room:
        copy = Path(room) / "card"
        write_copy(copy, image)
        words = [path, "--card", str(copy)]
        ran = subprocess.run(words, input="on\nfree\n", text=True, capture_output=True, check=False)
    return ran.returncode, ran.stdout.splitlines(), ran.stderr


def write_copy(copy: Path, image: Image) -> None:
    """Writes the image for the program, private as the card's own file."""
    try:
        with open(os.open(copy, os.O_WRONLY | os.O_CREAT | os.O_EXCL, 0o600), "wb") as it:
            it.write(image.data())
    except OSError as why:
        raise Refused(f"{copy}, which the card's program is to check, can't be written: {why.strerror}") from None
