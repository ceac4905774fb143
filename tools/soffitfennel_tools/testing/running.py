"""Runs a test file by the bench's program, and compares what its lines print with what they must print."""

from __future__ import annotations

import re
from collections.abc import Iterator
from fnmatch import fnmatchcase

from ..card_words import Log
from ..explaining.twin import Twin
from ..pending import Pending
from ..script_lines import fault

from .hints import hint
from .reading import Case, Difference, Line, Script, read_script

BAD_LINE = re.compile(r"error line ([0-9]+)")


class Run:
    """The program's run of a test file, behind the scripts that prepare the card."""

    def __init__(self, program: list[str], scripts: list[Script]) -> None:
        self.program, self.scripts, self.script = program, scripts, scripts[-1]
        # (a script that prepares the card may lack its last line feed)
        texts = [it.text if it.text.endswith("\n") else it.text + "\n" for it in scripts[:-1]]
        sent = "".join([*texts, self.script.text]).encode("latin-1")
        ran = Twin(program).run(sent)
        self.status = ran.returncode
        self.printed = ran.stdout.decode("latin-1").split("\n")[:-1]
        self.end = end_of(ran.stderr.decode("latin-1"), [it.count("\n") for it in texts])

    def orders(self, is_run: bool) -> Iterator[Line]:
        """The orders of all scripts that were run; or those that were not, as the run ended before them."""
        for at, script in enumerate(self.scripts):
            for line in filter(Line.is_order, script.lines):
                if is_run == (self.end is None or (at, line.number) < self.end):
                    yield line

    def answers(self) -> Iterator[tuple[Line, str | None]]:
        """The orders that were run, and what each printed."""
        printed = iter(self.printed)
        for line in self.orders(True):
            yield line, next(printed, None) if line.prints() else None

    def compare(self, is_strict: bool) -> None:
        """Notes each difference in the case that it belongs to."""
        for line, came in self.answers():
            if line.wanted is None:
                if is_strict and came is not None and line.case in self.script.cases:
                    reason = "no line below it says what it prints"
                    line.differs(Difference(line.number, line.text, came=came, reason=reason))
            elif came is None or not fnmatchcase(came, line.wanted):
                line.differs(Difference(line.wanted_at, line.text, line.wanted, came, hint=hint(line.wanted, came)))
        self.compare_count()
        self.compare_end()
        self.explain()
        self.note_unfired()

    def compare_count(self) -> None:
        """Notes what the program prints behind its last answer."""
        count = sum(line.prints() for line in self.orders(True))
        if count < len(self.printed):
            reason = f"the program prints more than its script asks for, from {self.printed[count]!r} on"
            self.script.refuse(self.script.last(), "(the end)", reason)

    def compare_end(self) -> None:
        """Compares how the run ended; a case that was not run has one difference for it."""
        script = self.script
        is_before = self.end is not None and self.end[0] < len(self.scripts) - 1
        if self.end and (is_before or self.status != script.status):
            self.refuse_line(*self.end)
        elif self.status != script.status:
            wanted, came = f"status {script.status}", f"status {self.status}"
            said = Difference(script.status_at or script.last(), "(the end)", wanted, came)
            script.cases[-1].differences.append(said)
        for line in self.orders(False):
            if self.end and line.wanted is not None and not line.case.differences:
                at, number = self.end
                reason = f"not run: the run ended at line {number} of {self.scripts[at].path}"
                line.differs(Difference(line.number, line.text, reason=reason))

    def refuse_line(self, at: int, number: int) -> None:
        """Notes that a line is none of the language."""
        texts = self.scripts[at].text.split("\n")
        reason = fault(texts[number - 1].encode("latin-1"), number, number < len(texts)) or "no reason is known"
        line = next(it for it in self.scripts[at].lines if it.number == number)
        line.differs(Difference(number, line.text, reason=f"a bad line: {reason}"))

    def explain(self) -> None:
        """Puts the words of ./bench --explain behind each answer that differs."""
        log = Log(self.program)
        if not any(line.difference for line in self.orders(True)):
            return
        for line, came in self.answers():
            log.took(line.text)
            if came is not None:
                words = words_for(log, line.text, came)
                if line.difference:
                    line.difference.words = words

    def note_unfired(self) -> None:
        """Notes the faults that never fired, since what they were for was not tested."""
        pending, lines = Pending(), []
        for line, came in self.answers():
            lines.append(line)
            pending.took(len(lines), line.text)
            pending.printed(line.text, came or "")
        for it in pending.unfired(self.end is None):
            line = lines[it.line - 1]
            # (a case that compares nothing is not reported)
            case = line.case if line.case in self.script.cases and line.case.compared else self.script.cases[-1]
            case.notes.append(f"{place(line)}: the {it.order} {it.words(place(lines[it.by - 1]))}")


def place(line: Line) -> str:
    """Where a line is."""
    return f"{line.case.path}, line {line.number}"


def words_for(log: Log, order: str, answer: str) -> str | None:
    """An answer in words, if it is one of the bench's."""
    try:
        return log.printed(order, answer)
    except ValueError:
        return None


def end_of(told: str, lengths: list[int]) -> tuple[int, int] | None:
    """Where a run ended at a bad line: which script, and the line's number in it. The scripts before the last one have
    these lengths."""
    found = BAD_LINE.match(told)
    if not found:
        return None
    number = int(found[1])
    for at, length in enumerate(lengths):
        if number <= length:
            return at, number
        number -= length
    return len(lengths), number


def run_file(program: list[str], path: str, before: list[str], is_strict: bool) -> list[Case]:
    """The cases of a test file with their results; before them the failed ones of scripts that prepare the card."""
    scripts = [read_script(it) for it in [*before, path]]
    for it in scripts[:-1]:
        if it.status_at:
            it.refuse(it.status_at, "", "a script that prepares the card ends with status 0, and doesn't say so")
    unread = next((it for it in scripts if not it.is_readable), None)
    if unread is None:
        Run(program, scripts).compare(is_strict)
    script = scripts[-1]
    for case in script.cases:
        is_needed = case.name or len(script.cases) == 1
        if unread is not None and case.compared:
            case.differences.append(Difference(case.line, "", reason=f"not run: {unread.path} can't be read"))
        elif unread is None and is_needed and not case.compared and not case.differences:
            case.differences.append(
                Difference(case.line, "", reason="it compares nothing: no line in it begins with '= '")
            )
        case.differences.sort(key=lambda it: it.line)
    failed_before = [case for it in scripts[:-1] for case in it.cases if case.differences]
    return failed_before + [case for case in script.cases if case.compared or case.differences]
