"""The page as one file: its modules as one script, each in a function of its own."""
from __future__ import annotations

import base64
import hashlib
import re

IMPORT = re.compile(r'^import (?:\* as (\w+)|\{\s*([^}]*?),?\s*\}) from "\./(\w+)\.js";\n', re.M | re.S)
EXPORT = re.compile(r"^export (?=(?:async )?(?:const|function|class) ([\w$]+))", re.M)
STYLE = '<link rel="stylesheet" href="page.css">'
SCRIPT = '<script type="module" src="page.js"></script>'
SOURCES = "script-src 'self' 'wasm-unsafe-eval'; style-src 'self'"


class Unjoined(Exception):
    """A module that the single file can't hold."""


def uses(text: str) -> list[str]:
    """The modules that a module imports."""
    return [it[3] for it in IMPORT.finditer(text)]


def ordered(modules: dict[str, str], name: str, found: list[str]) -> list[str]:
    """A module behind those that it imports."""
    for it in uses(modules[name]):
        if it not in found:
            ordered(modules, it, found)
    if name not in found:
        found.append(name)
    return found


def joined(modules: dict[str, str], main: str) -> str:
    """All modules as one script; the last one is `main`."""
    parts = []
    for name in ordered(modules, main, []):
        text = IMPORT.sub(lambda it: f"const {it[1] or '{ ' + it[2] + ' }'} = {it[3]}_;\n", modules[name])
        names = EXPORT.findall(text)
        text = EXPORT.sub("", text)
        if re.search(r"^(?:import|export)\b", text, re.M):
            raise Unjoined(f"{name}.js has an import or an export of another form")
        parts.append(f"const {name}_ = (() => {{\n{text}return {{ {', '.join(names)} }};\n}})();\n")
    return "".join(parts)


def sum_of(text: str) -> str:
    """The source of a content security policy for a script or a style."""
    return f"'sha256-{base64.b64encode(hashlib.sha256(text.encode()).digest()).decode()}'"


def single(html: str, style: str, modules: dict[str, str]) -> str:
    """The page as one file. Its policy allows this script and this style alone."""
    script = joined(modules, "page")
    if "</script" in script or "</style" in style:
        raise Unjoined("a script or a style ends in its midst")
    for it in (STYLE, SCRIPT, SOURCES):
        if html.count(it) != 1:
            raise Unjoined(f"index.html has not exactly once: {it}")
    policy = f"script-src {sum_of(script)} 'wasm-unsafe-eval'; style-src {sum_of(style)}"
    html = html.replace(SOURCES, policy).replace(STYLE, f"<style>{style}</style>")
    # (a script of this kind runs when all of the page is there)
    html = html.replace(SCRIPT, "")
    return html.replace("</body>", f"<script>{script}</script>\n</body>")
