"""Reads a line from a person at a terminal, plays it, shows the answer and its words, until the person leaves."""

from __future__ import annotations

import difflib
import re
import subprocess
import sys
from pathlib import Path

from ..card_words import Log
from ..programs import past_file_limits
from ..script_lines import OPERANDS, ORDERS, ORDERS_THAT_PRINT, fault

from .names import NAMES, Unclear, line_for

try:
    import readline
except ImportError:  # (a python without it has a prompt without history)
    readline = None  # type: ignore[assignment]

VERSION = Path(__file__).resolve().parent.parent.parent / "words" / "version"
# where the words begin, behind an answer that is no longer
COLUMN = 28
WORDS = ("help", "quit")
FURTHER_WORDS = {
    "create": ("transparent", "linear", "cyclic", "directory"),
    "record": ("next", "previous", "current"),
    "update": ("next", "previous", "current"),
    "select": ("name", ".."),
    "info": ("name", ".."),
    "terminate": ("file", "directory", "card"),
}
HELP = """Lines of a script (./bench --help):
  {lines}
Names for commands, each with the line that it stands for:
{names}
FILE    an identifier of four digits, a path from the master file (7F10/6F3A), name HEX, or .. for the parent
HEX     bytes in hexadecimal digits; a line that has nothing else is an apdu line
KIND    transparent SIZE, linear LENGTH COUNT, cyclic LENGTH COUNT, or directory [NAME]
PIN     up to 8 characters, or 16 digits; so are OLD, NEW and PUK
RECORD  a number, next, previous or current
WHAT    file, directory or card
Tab completes, the arrow up brings back a line. quit or Ctrl-D leaves."""


class Ended(Exception):
    """The program has ended, with this exit status."""


class Session:
    """The program, and what is known of its card."""

    def __init__(self, program: list[str]) -> None:
        # (before the program starts, and changes a card in a file)
        self.log = Log(program)
        # (in a session of its own, so that Ctrl-C at the prompt doesn't end it)
        self.process = subprocess.Popen(
            program,
            stdin=subprocess.PIPE,
            stdout=subprocess.PIPE,
            stderr=subprocess.DEVNULL,
            start_new_session=True,
            preexec_fn=past_file_limits,
        )
        assert self.process.stdin and self.process.stdout
        self.input, self.output = self.process.stdin, self.process.stdout
        self.is_on = False
        self.files = {"3F00": None}

    def play(self, line: str) -> str | None:
        """Sends a line of the script language; what it prints, if it prints anything."""
        order = line.partition(" ")[0]
        try:
            self.input.write(f"{line}\n".encode("latin-1"))
            self.input.flush()
            self.log.took(line)
            answer = (
                self.output.readline().decode("latin-1").rstrip("\n") if order in ORDERS_THAT_PRINT else None
            )
        except BrokenPipeError:
            answer = ""
        if answer == "":
            raise Ended(self.process.wait())
        self.follow(order, line, answer)
        return answer

    def follow(self, order: str, line: str, answer: str | None) -> None:
        """Takes note of the power, and of the files that were seen."""
        if order == "on":
            self.is_on = answer is not None and answer.startswith("atr")
        elif order == "off" or answer == "dark":
            self.is_on = False
        elif order == "apdu" and answer and answer.startswith(("< 62", "< 9000")):
            self.files.update(dict.fromkeys(files_of(line.removeprefix("apdu ").upper(), answer)))

    def end(self) -> None:
        """Lets the program end."""
        try:
            self.input.close()
        except BrokenPipeError:
            pass
        self.process.wait()


def files_of(command: str, answer: str) -> list[str]:
    """The identifiers of files that a command or its answer names."""
    found = re.findall(r"8302([0-9A-F]{4})", answer) + (
        re.findall(r"8302([0-9A-F]{4})", command) if command[:4] == "00E0" else []
    )
    if command[:6] in ("00A400", "00A408", "00A409", "00E400", "004400", "000400"):
        found += re.findall(r"[0-9A-F]{4}", command[10 : 10 + 2 * int(command[8:10] or "0", 16)])
    return found


class Completer:
    """Completes the word before the cursor."""

    def __init__(self, session: Session) -> None:
        self.session = session

    def matches(self, before: str, word: str) -> list[str]:
        """What the word may become, behind these words."""
        words = before.split()
        known = [*NAMES, *ORDERS, *WORDS] if not words else [*FURTHER_WORDS.get(words[0], ()), *self.session.files]
        return [it for it in known if it.startswith(word) or it.startswith(word.upper())]

    def __call__(self, word: str, state: int) -> str | None:
        """The match with this number, as readline asks for it."""
        found = self.matches(readline.get_line_buffer()[: readline.get_begidx()], word)
        return f"{found[state]} " if state < len(found) else None


def help_text() -> str:
    """The lines that the prompt takes."""
    lines = ", ".join(f"{it} {of.replace('H', 'HEX')}".rstrip() for it, of in OPERANDS.items())
    names = (f"  {f'{name} {it.usage}':<24}{it.about}" for name, it in NAMES.items())
    return HELP.format(lines=lines, names="\n".join(names))


def greet() -> None:
    """Says who is there, how to begin, and how to leave."""
    version = f", version {VERSION.read_text(encoding='utf-8').strip()}" if VERSION.is_file() else ""
    print(f"Soffitfennel, a smart card on its bench{version}. Its power is off: on switches it on.")
    print("help lists the lines that work here, quit or Ctrl-D leaves.")


def plain(text: str) -> str:
    """A typed line as a script has it: the first word in lower case, one space between words, none among digits."""
    name, *words = text.split()
    if name.lower() in ("apdu", "block"):
        return f"{name.lower()} {''.join(words)}"
    return " ".join([name.lower() if name.lower() in (*NAMES, *ORDERS) else name, *words])


def answer_to(session: Session, text: str) -> list[str]:
    """The lines that are shown for a line that was typed."""
    try:
        line = line_for(plain(text)) or plain(text)
    except Unclear as unclear:
        return [f"bench: {unclear}"]
    if why := fault(line.encode("utf-8"), 2, True):
        near = difflib.get_close_matches(text.partition(" ")[0].lower(), NAMES, 1, 0.75)
        return [f"bench: {why}" + (f"; is {near[0]} meant?" if near else "")]
    shown = [line] if line != text else []
    answer = session.play(line)
    if answer is None:
        return shown
    words = session.log.printed(line, answer) + (": on switches it on" if answer == "mute" else "")
    return [*shown, f"{answer:<{COLUMN}}  # {words}"]


def loop(session: Session) -> int:
    """Takes lines until the person leaves; the exit status."""
    while True:
        try:
            text = input("card> " if session.is_on else "off> ").strip()
        except EOFError:
            print()
            return 0
        except KeyboardInterrupt:
            print()
            continue
        word = text.partition(" ")[0]
        if word.lower() in ("quit", "exit"):
            return 0
        if word.lower() in ("help", "?"):
            print(help_text())
        elif text and not text.startswith("#"):
            for line in answer_to(session, text):
                print(line)


def run(program: list[str]) -> int:
    """The whole session; the exit status."""
    session = Session(program)
    if readline:
        readline.set_completer_delims(" ")
        readline.set_completer(Completer(session))
        readline.parse_and_bind("tab: complete")
    greet()
    try:
        return loop(session)
    except Ended as ended:
        print(f"bench: the program ended by itself, with status {ended}", file=sys.stderr)
        return 1
    finally:
        session.end()
