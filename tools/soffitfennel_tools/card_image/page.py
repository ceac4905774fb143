"""A card as one web page: no script, nothing of another place, each text of the card escaped."""

from __future__ import annotations

import hashlib
from base64 import b64encode
from collections.abc import Iterator
from html import escape
from itertools import groupby

from .known import known
from .picture import picture
from .rule_words import rule_line
from .telling import content_lines, file_line, pin_line, rule_note, text
from .tree import Card, File, Reading

STYLE = """
:root { color-scheme: light dark; font: 16px/1.5 system-ui, sans-serif; }
body { max-width: 60rem; margin: 1rem auto; padding: 0 1rem; }
ul { list-style: none; border-left: 1px solid #808080; padding-left: 1rem; }
pre { overflow-x: auto; } dt { font-weight: bold; } dd { margin: 0 0 .5rem 1rem; }
svg { max-width: 100%; height: auto; } code { overflow-wrap: anywhere; } \
td, th { text-align: left; padding: 0 1rem 0 0; }
"""


def page(reading: Reading, title: str, has_secrets: bool) -> str:
    """The page of an image: its card, or why there is none."""
    drawn = picture(reading)
    styles = [STYLE, drawn.partition("<style>")[2].partition("</style>")[0]]
    policy = "default-src 'none'; style-src " + " ".join(f"'sha256-{sum_of(it)}'" for it in styles)
    parts = [
        '<!DOCTYPE html>\n<html lang="en"><head><meta charset="utf-8">',
        f'<meta http-equiv="Content-Security-Policy" content="{escape(policy)}">',
        '<meta name="viewport" content="width=device-width, initial-scale=1">',
        f"<title>{shown(title)}</title><style>{STYLE}</style></head>",
        f"<body><main><h1>{shown(title)}</h1>",
        *summary(reading, has_secrets),
        *(card_parts(reading.card, has_secrets) if reading.card else ()),
        f"<h2>Memory</h2>\n{drawn}</main></body></html>\n",
    ]
    return "\n".join(parts)


def sum_of(style: str) -> str:
    """The sum by which the policy names a style."""
    return b64encode(hashlib.sha256(style.encode("utf-8")).digest()).decode("ascii")


def shown(words: str) -> str:
    """A text as markup: none of its signs is markup, and those that can't be shown are numbers."""
    return escape("".join(it if it.isprintable() else f"\\u{ord(it):04X}" for it in words))


def summary(reading: Reading, has_secrets: bool) -> Iterator[str]:
    """What is above the tree of files: memory, journal, free space, or the rules that are broken."""
    lines = list(text(reading, has_secrets, False))
    above = lines[: lines.index("")] if "" in lines else lines
    yield "<pre>" + "\n".join(shown(it) for it in above) + "</pre>"


def card_parts(card: Card, has_secrets: bool) -> Iterator[str]:
    """Files and PINs."""
    yield "<h2>Files</h2>\n<ul>"
    yield from file_parts(card, card.files[0])
    yield "</ul>\n<h2>PINs</h2>\n<table><tr><th>PIN</th><th>state</th></tr>"
    for line, group in groupby(card.pins, lambda it: pin_line(it, has_secrets)):
        numbers = [it.number for it in group]
        name = str(numbers[0]) if len(numbers) == 1 else f"{numbers[0]} to {numbers[-1]}"
        yield f"<tr><td>{name}</td><td>{shown(line)}</td></tr>"
    yield "</table>"


def file_parts(card: Card, file: File) -> Iterator[str]:
    """A file with all below it."""
    found = known(card, file)
    name = f" <b>{shown(found.name)}</b>" if found else ""
    yield f"<li><code>{shown(file_line(file))}</code>{name}"
    yield f"<br><small>{shown(rule_line(file.entry.rule, file.is_directory) + rule_note(file))}</small>"
    if found and found.words:
        words = "".join(f"<dd>{shown(it)}</dd>" for it in found.words)
        yield f"<dl><dt>{shown(found.source)}</dt>{words}</dl>"
    content = list(content_lines(file))
    if content:
        lines = "\n".join(shown(it) for it in content)
        yield f"<details><summary>bytes of {shown(file.path)}</summary><pre>{lines}</pre></details>"
    if children := card.children(file):
        yield "<ul>"
        for child in children:
            yield from file_parts(card, child)
        yield "</ul>"
    yield "</li>"
