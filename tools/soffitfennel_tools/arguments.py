"""The command line of a tool, and arguments of it."""
import os
import re
import sys
import textwrap
from argparse import ArgumentParser, ArgumentTypeError, HelpFormatter
from collections.abc import Callable
from io import FileIO, TextIOWrapper
from pathlib import Path
from typing import Any, NoReturn

# the exit status of a bad command line, of each tool and of ./bench
BAD_COMMAND_LINE = 2
TOOLS = Path(__file__).resolve().parents[1]
WORDS = TOOLS / "words"


class Folded(HelpFormatter):
    """Help whose paragraphs and lists stay apart, in lines as long as the terminal's."""

    def _fill_text(self, text: str, width: int, indent: str) -> str:
        paragraphs = text.strip().split("\n\n")
        return "\n\n".join("\n".join(folded(it, width) for it in re.split(r"\n(?=- )", part)) for part in paragraphs)


def folded(text: str, width: int) -> str:
    """A paragraph, or a member of a list, in lines of such a width."""
    return textwrap.fill(" ".join(text.split()), width, subsequent_indent="  " * text.startswith("- "))


def version() -> str:
    """The version of this tree: a release's, or that of the next one with -dev behind it."""
    return (WORDS / "version").read_text(encoding="utf-8").strip()


def commands() -> list[str]:
    """The users' commands, which an installation has as soffitfennel-NAME."""
    lines = (WORDS / "commands.table").read_text(encoding="utf-8").splitlines()
    return [it for it in lines if it and not it.startswith("#")]


def as_installed(text: str) -> str:
    """A text with the names that commands have in an installation, which has its programs beside the tools."""
    if not (TOOLS.parent / "programs").is_dir():
        return text
    return re.sub(rf"\btools/({'|'.join(commands())})\b", r"soffitfennel-\1", text.replace("./bench", "soffitfennel"))


def replace_closed_streams() -> None:
    """Opens each standard stream that is closed, as ./bench does: input and output to what fails, messages to nowhere.
    So no file that the tool or its programs open later takes the stream's number, and a lost output has its status."""
    for number in range(3):
        try:
            os.fstat(number)
        except OSError:
            # (the least number that is free is this one)
            os.set_inheritable(os.open(os.devnull, os.O_RDONLY if number == 1 else os.O_WRONLY), True)
    sys.stdin = sys.stdin or open(0, encoding="utf-8", closefd=False)
    # (without a buffer, of which a rest would fail once more at the end)
    sys.stdout = sys.stdout or TextIOWrapper(FileIO(1, "w", closefd=False), encoding="utf-8", write_through=True)
    sys.stderr = sys.stderr or open(2, "w", encoding="utf-8", closefd=False)


class Parser(ArgumentParser):
    """A command line of which a fault is told in one line; the usage comes with --help."""

    def __init__(self, *words: Any, **named: Any) -> None:
        replace_closed_streams()
        named["formatter_class"] = Folded
        super().__init__(*words, **named)
        self.prog = as_installed(self.prog)
        if " " not in self.prog:
            told = f"{self.prog.rpartition('/')[2]} (Soffitfennel) {version()}"
            self.add_argument("--version", action="version", version=told, help="print the version")

    def format_help(self) -> str:
        """The help, with the names that commands have here."""
        return as_installed(super().format_help())

    def error(self, message: str) -> NoReturn:
        """Ends the tool."""
        print(f"{self.prog}: error: {as_installed(message)}", file=sys.stderr)
        sys.exit(BAD_COMMAND_LINE)


def number(most: int = 1_000_000) -> Callable[[str], int]:
    """The type of an argument that is a number from 1 to `most`."""

    def parse(text: str) -> int:
        if not (text.isascii() and text.isdigit() and 1 <= int(text) <= most):
            raise ArgumentTypeError(f"a number from 1 to {most}")
        return int(text)

    return parse


def output(kind: str, begin: bytes = b"", suffix: str = "") -> Callable[[str], Path]:
    """The type of an argument that is a file to write, in a folder that is there. What is there already begins as a
    file of this kind does, or has its suffix: a word in the wrong place overwrites no other file."""

    def parse(text: str) -> Path:
        path = Path(text)
        if not path.parent.is_dir():
            raise ArgumentTypeError(f"there is no folder for {text}")
        if not text.lower().endswith(suffix):
            raise ArgumentTypeError(f"{text} would be {kind}: give it a name that ends in {suffix}")
        if path.is_dir() or not first_bytes(path, len(begin)) in (b"", begin):
            raise ArgumentTypeError(f"{text} is there and is not {kind}; it stays as it is")
        return path

    return parse


def first_bytes(path: Path, number: int) -> bytes:
    """The first bytes of a file; none where it isn't there, is a device or a pipe, or can't be read."""
    try:
        if path.is_file():
            with open(path, "rb") as file:
                return file.read(number)
    except OSError:
        pass
    return b""
