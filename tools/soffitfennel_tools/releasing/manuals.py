"""Manual pages: a command's --help in the form that man takes."""
from __future__ import annotations

from .commands import Command

HEADS = {"options:": "OPTIONS", "positional arguments:": "ARGUMENTS"}


def roff(text: str) -> str:
    """Text as roff takes it."""
    text = text.replace("\\", "\\e").replace("-", "\\-")
    return "\\&" + text if text.startswith((".", "'")) else text


def listed(lines: list[str]) -> list[str]:
    """A list of arguments or options, each with its words."""
    made: list[str] = []
    for line in lines:
        name, _, words = line.strip().partition("  ")
        if line.startswith("  ") and not line.startswith("   "):
            made += [".TP", f".B {roff(name)}", *([roff(words.strip())] if words.strip() else [])]
        else:
            made.append(roff(line.strip()))
    return made


def paragraph(lines: list[str], is_first: bool) -> list[str]:
    """A paragraph of the help, with its heading."""
    if lines[0] in HEADS:
        return [f".SH {HEADS[lines[0]]}", *listed(lines[1:])]
    if lines[0] == "Exit status:":
        return [".SH EXIT STATUS", ".nf", *map(roff, lines[1:]), ".fi"]
    if lines[0].startswith("  -"):
        return [".SH OPTIONS", *listed(lines)]
    if lines[0].startswith("  "):
        return [".PP", ".nf", *map(roff, lines), ".fi"]
    return [".SH DESCRIPTION" if is_first else ".PP", *map(roff, lines)]


def page(command: Command, summary: str, version: str, more: list[str]) -> str:
    """The manual page of a command, by its summary, the version, and the names of other pages."""
    # (the list of options comes behind all that describes the command)
    parts = sorted(command.paragraphs, key=lambda it: it[0] in HEADS or it[0].startswith("  -"))
    texts = [it for part, lines in enumerate(parts) for it in paragraph(lines, part == 0)]
    made = [
        f'.TH {roff(command.name.upper())} 1 "" "Soffitfennel {version}" "User Commands"',
        ".ad l",
        ".SH NAME",
        f"{roff(command.name)} \\- {roff(summary[:1].lower() + summary[1:])}",
        ".SH SYNOPSIS",
        ".nf",
        *map(roff, command.usage.split("\n")),
        ".fi",
        *texts,
        ".SH SEE ALSO",
        ", ".join(f".BR {roff(it)} (1)" if at == 0 else f"{roff(it)}(1)" for at, it in enumerate(more)),
    ]
    return "\n".join(made) + "\n"
