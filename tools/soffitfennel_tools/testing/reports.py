"""The results of test files: as text for people, as TAP, as JUnit, and as JSON."""

from __future__ import annotations

import json
import os
import sys
from dataclasses import asdict
from pathlib import Path
from xml.etree import ElementTree

from ..script_lines import shown

from .reading import Case, Difference

RED, GREEN, PLAIN = "\x1b[31m", "\x1b[32m", "\x1b[0m"


def printable(text: str) -> str:
    """A text whose characters are bytes, with those that can't be shown by their numbers."""
    return shown(text.encode("latin-1", "replace"))


def name_of(case: Case) -> str:
    """The name of a case as it is written, where it is text in UTF-8."""
    try:
        name = case.name.encode("latin-1", "replace").decode("utf-8")
    except UnicodeDecodeError:
        return printable(case.name)
    return name if name.isprintable() else printable(case.name)


def file_name(case: Case) -> str:
    """The name of a case's file, without folder and ending."""
    return Path(case.path).stem


def place(it: Difference) -> str:
    """The line that a difference stands at; none where the whole file has it."""
    return f", line {it.line}" if it.line else ""


def title(it: Difference) -> str:
    """The order that a difference belongs to."""
    return f": {printable(it.order)}" if it.order else ""


def details(it: Difference) -> list[str]:
    """What differs, a line for each part."""
    lines = [it.reason] if it.reason else []
    if it.wanted is not None:
        lines.append(f"wanted: {printable(it.wanted)}")
    if it.wanted is not None or it.came is not None:
        came = "(nothing)" if it.came is None else printable(it.came)
        lines.append(f"came:   {came}" + (f"  # {it.words}" if it.words else ""))
    return lines + ([f"hint:   {it.hint}"] if it.hint else [])


def summary(it: Difference) -> str:
    """A difference in one line."""
    came = "nothing" if it.came is None else printable(it.came)
    return f"line {it.line}{title(it)}: {it.reason or f'wanted {printable(it.wanted or str())}, came {came}'}"


def failed(cases: list[Case]) -> int:
    """How many cases failed."""
    return sum(bool(it.differences) for it in cases)


def paints() -> bool:
    """Whether the output is a terminal that shows colours, and nobody asked for none (no-color.org)."""
    return sys.stdout.isatty() and not os.environ.get("NO_COLOR") and os.environ.get("TERM") != "dumb"


def text(cases: list[Case], has_passed: bool) -> str:
    """The report for people: each difference, then the sums."""
    red, green, plain = (RED, GREEN, PLAIN) if paints() else ("", "", "")
    lines = []
    for case in cases:
        name = f', case "{name_of(case)}"' if case.name else ""
        for it in case.differences:
            lines.append(f"{red}FAIL{plain} {case.path}{place(it)}{name}{title(it)}")
            lines += [f"  {line}" for line in details(it)]
        if has_passed and not case.differences:
            lines.append(f"{green}ok{plain}   {case.path}, line {case.line}{name}")
        lines += [f"note {printable(it)}" for it in case.notes]
    bad, compared = failed(cases), sum(it.compared for it in cases)
    lines.append(f"test: {compared} line{'s' * (compared != 1)} compared")
    lines.append(f"{red if bad else green}test: {len(cases) - bad} passed, {bad} failed{plain}")
    return "\n".join(lines) + "\n"


def tap(cases: list[Case]) -> str:
    """The report as TAP 13 (testanything.org). Its YAML has the differences, with strings as in JSON."""
    lines = ["TAP version 13", f"1..{len(cases)}"]
    for number, case in enumerate(cases, 1):
        name = f"{file_name(case)}: {name_of(case)}" if case.name else file_name(case)
        escaped = name.replace("\\", "\\\\").replace("#", "\\#")
        lines.append(f"{'not ok' if case.differences else 'ok'} {number} - {escaped}")
        if case.differences:
            lines += ["  ---", f"  file: {json.dumps(case.path)}", "  differences:"]
            for it in case.differences:
                lines += [
                    f"    {'-' if at == 0 else ' '} {key}: {json.dumps(value)}"
                    for at, (key, value) in enumerate(parts(it))
                ]
            lines.append("  ...")
        lines += [f"# note: {printable(it)}" for it in case.notes]
    return "\n".join(lines) + "\n"


def parts(it: Difference) -> list[tuple[str, int | str]]:
    """The parts of a difference that are there, by their names."""
    found = [(key, printable(value) if isinstance(value, str) else value) for key, value in asdict(it).items()]
    return [(key, value) for key, value in found if value not in (None, "")]


def junit(files: list[list[Case]]) -> str:
    """The report as JUnit's XML: a suite for each file. It has no times, so that equal runs have equal reports."""
    cases = [case for file in files for case in file]
    root = ElementTree.Element("testsuites", tests=str(len(cases)), failures=str(failed(cases)))
    for file in files:
        suite = ElementTree.SubElement(root, "testsuite", name=file_name(file[-1]), tests=str(len(file)))
        suite.attrib.update(failures=str(failed(file)), errors="0", skipped="0")
        for case in file:
            names = {"classname": file_name(case), "name": name_of(case) or file_name(case)}
            entry = ElementTree.SubElement(suite, "testcase", {**names, "file": case.path, "line": str(case.line)})
            if case.differences:
                failure = ElementTree.SubElement(
                    entry, "failure", type="difference", message=summary(case.differences[0])
                )
                failure.text = "\n".join(
                    "\n  ".join([f"line {it.line}{title(it)}", *details(it)]) for it in case.differences
                )
            if case.notes:
                ElementTree.SubElement(entry, "system-out").text = "\n".join(map(printable, case.notes))
    ElementTree.indent(root)
    return '<?xml version="1.0" encoding="UTF-8"?>\n' + ElementTree.tostring(root, encoding="unicode") + "\n"


def as_json(cases: list[Case]) -> str:
    """The report as JSON."""
    shown_cases = [
        {
            "file": case.path,
            "line": case.line,
            "name": name_of(case) or file_name(case),
            "passed": not case.differences,
            "compared": case.compared,
            "differences": [dict(parts(it)) for it in case.differences],
            **({"notes": [printable(it) for it in case.notes]} if case.notes else {}),
        }
        for case in cases
    ]
    sums = {"passed": len(cases) - failed(cases), "failed": failed(cases)}
    return json.dumps({**sums, "cases": shown_cases}, indent=2) + "\n"
