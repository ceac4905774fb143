"""Sweeps every command of a script in its place: the lines before it prepare the card."""
import time
from argparse import Namespace
from collections.abc import Callable, Iterator
from functools import partial
from pathlib import Path as FilePath
from tempfile import TemporaryDirectory

from .engine import COMMAND, PROBE, Part, Refused, ran, script_of, side_by_side
from .outcomes import Sweep, aligned
from ..card_image.image import Unreadable, read_image
from ..explaining.commands import OF_PINS, Command
from ..explaining.files import CARRIED_OUT, Files, Path
from ..explaining.templates import Template
from ..explaining.twin import Twin, select
from ..programs import program
from ..script_lines import ORDERS_THAT_PRINT
from ..testing.reading import Case, Difference
from ..testing.reports import junit

CREATE, DELETE, SHOWING = "00E0", "00E4", ("0020", "0024")
HEAD = ["line", "command", "answer", "writes", "runs", "outcomes", "allowed", "s"]


def reads(file: Template) -> list[str]:
    """The lines that read the contents of a file."""
    if file.kind == "transparent":
        return [f"apdu 00B0{at:04X}00" for at in range(0, file.size, 256)]
    return [f"apdu 00B2{number:02X}0400" for number in range(1, file.capacity + 1)]


def touched(files: Files, it: Command) -> dict[Path, Template]:
    """The files that a command touches: the new one, those that go, or its target."""
    if it.key == CREATE:
        return {(*files.directory, Template(it.data).identifier): Template(it.data)}
    path, goes = files.target(it) or (), it.key == DELETE
    return {at: file for at, file in files.seen.items() if at == path or goes and at[: len(path)] == path}


def probe(files: Files, it: Command, shown: dict[int, str]) -> list[str]:
    """The probe of a command: tries of PINs, and all that it touches, behind the PINs that were verified before."""
    of = touched(files, it)
    above = sorted({at[:size] for at in of for size in range(len(at))} - set(of))
    lines = [f"apdu 002000{pin:02X}" for pin in sorted({*shown, *([it.p2] if it.key in OF_PINS else [])})]
    lines += [*map(select, above), *(f"apdu 002000{pin:02X}08{value}" for pin, value in shown.items())]
    return lines + [line for at, file in of.items() for line in (select(at), *reads(file))]


def printed_by(bench: str, card: str | None, script: str) -> list[str]:
    """What a script prints, on a copy of the card where it is one in a file."""
    if card is None:
        return ran(script, bench, has_parts=False)
    with TemporaryDirectory() as room:
        copy = FilePath(room) / "card"
        try:
            copy.write_bytes(read_image(card)[0].data())
        except Unreadable as why:
            raise Refused(str(why)) from None
        return ran(script, bench, "--card", str(copy), has_parts=False)


def cases(script: str, bench: str, card: str | None) -> Iterator[tuple[int, str, str]]:
    """Each command by its line, with its answer, and the sweep script that cuts it in its place."""
    lines = script.replace("\r\n", "\n").split("\n")
    printed, files = iter(printed_by(bench, card, script)), Files()
    shown: dict[int, str] = {}
    if card is not None:
        Twin([bench, "--card", card]).begin(files)
    for number, line in enumerate(lines, 1):
        order, _, digits = line.partition(" ")
        answer = next(printed) if order in ORDERS_THAT_PRINT else ""
        if order == "on":
            files.power()
            shown = {}
        if order == "apdu":
            it = Command(bytes.fromhex(digits))
            yield number, answer, "\n".join([*lines[: number - 1], COMMAND, line, PROBE, *probe(files, it, shown)])
            if answer[-4:] in CARRIED_OUT and not it.fault:
                files.carried_out(it)
                shown |= {it.p2: it.data[-8:].hex()} if it.key in SHOWING and it.data else {}


def row(path: str, swept: Callable[[str], Part], case: tuple[int, str, str]) -> tuple[list[str], Case]:
    """The row of a command, and whether its outcomes are allowed, as the case of a test."""
    (line, answer, script), began = case, time.monotonic()
    it = Sweep([swept(script)])
    wrong = [Difference(line, it.name, reason=it.fault())] if it.fault() else []
    found = [len(it.writes), f"{it.runs:,}", len(it.outcomes), len(it.stages) if it.writes else 0]
    cells = [str(line), it.name, answer[-4:], *map(str, found), f"{time.monotonic() - began:.1f}"]
    return cells, Case(path, line, f"line {line}: {it.name}", 1, wrong)


def report_all(options: Namespace, swept: Callable[[str], Part]) -> tuple[str, str, dict[FilePath, str]]:
    """The table of every command of a script, the reason if outcomes aren't allowed, and the reports to write. Each
    command is swept by a script of its own."""
    script, quiet = options.files[0], ["--quiet"] * options.quiet
    bench = program(*quiet, *["--for-cards"] * (options.card is not None))
    every = cases(script_of(script), bench, options.card)
    chosen = [it for it in every if not options.only or it[0] in options.only]
    if missing := sorted({*options.only} - {it[0] for it in chosen}):
        raise Refused(f"no command stands in line {', '.join(map(str, missing))}")
    made = side_by_side(options.jobs, "commands", partial(row, script.name, swept), chosen)
    rows, tests = [it for it, _ in made], [it for _, it in made]
    markdown = "".join(f"| {' | '.join(it)} |\n" for it in [HEAD, ["---"] * len(HEAD), *rows])
    reports = ((options.markdown, markdown), (options.junit, junit([tests])))
    fault = "; ".join(f"line {it.line}: {it.reason}" for test in tests for it in test.differences)
    return aligned(HEAD, *rows), fault, {path: text for path, text in reports if path}
