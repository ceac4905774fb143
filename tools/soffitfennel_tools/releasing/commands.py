"""A command as its --help describes it: the one source of its manual page and of its completion."""
from __future__ import annotations

import os
import re
import subprocess
from dataclasses import dataclass
from pathlib import Path

from .tree import Refused

# an option's line in a help: its names, the words that it takes, and what it does
OPTION = re.compile(r"^ {2}(-\S+(?: \S+)*)(?: {2,}(.*))?$")
FLAG = re.compile(r"(?:^|[ ,])(--?[a-zA-Z][-\w]*)")
# an option that stands in a line of the usage alone, as those of ./bench with a task of their own do
IN_USAGE = re.compile(r"^(?:usage:| {6}) \S+ (-\w, )?(--[a-z-]+)( [^ ]+)* {2,}(.*)$")


@dataclass
class Option:
    """An option: its names, the words that it takes, and what it does."""

    flags: list[str]
    takes: str
    about: str


@dataclass
class Command:
    """A command by its help."""

    name: str
    usage: str
    about: list[str]
    options: list[Option]
    paragraphs: list[list[str]]

    def summary(self) -> str:
        """The first sentence, without its end."""
        first = " ".join(" ".join(self.about).split()).split(". ")[0].rstrip(".")
        return first.partition(": tools/")[0].partition(": soffitfennel")[0]


def help_of(path: Path, name: str) -> str:
    """What a command says of itself, in lines of 79 columns."""
    environment = {**os.environ, "COLUMNS": "81", "LC_ALL": "C.UTF-8"}
    ran = subprocess.run([path, "--help"], capture_output=True, text=True, check=False, env=environment)
    if ran.returncode:
        last = (ran.stderr.strip().splitlines() or ["it says nothing"])[-1]
        raise Refused(f"the installed {name} --help ended with status {ran.returncode}: {last}")
    return ran.stdout


def options_of(lines: list[str]) -> list[Option]:
    """The options in lines of a help."""
    found: list[Option] = []
    for line in lines:
        if match := OPTION.match(line):
            names, about = match[1], (match[2] or "").strip()
            last = re.split(r", (?=-)", names)[-1]
            found.append(Option(FLAG.findall(names), last.partition(" ")[2] or last.partition("=")[2], about))
        elif match := IN_USAGE.match(line):
            found.append(Option([*filter(None, [(match[1] or "").rstrip(", ")]), match[2]], "", match[4]))
        elif found and re.match(r" {12,}\S", line):
            found[-1].about = f"{found[-1].about} {line.strip()}".strip()
    return found


def read(name: str, text: str) -> Command:
    """A command of its help."""
    paragraphs = [it.split("\n") for it in text.strip("\n").split("\n\n")]
    usage, rest = "\n".join(it[len("usage: ") :] for it in paragraphs[0]), paragraphs[1:]
    about = next((it for it in rest if not it[0].startswith((" ", "options:", "positional"))), [""])
    options = [it for part in paragraphs for it in options_of(part)]
    return Command(name, usage, about, options, rest)
