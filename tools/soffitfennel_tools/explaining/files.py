"""Which files a card has, and which of them is current, as a reader of its log can tell (docs/CARD.md, Session)."""
from __future__ import annotations

from dataclasses import dataclass, field

from .commands import LIFE_CYCLE, OF_AN_EF, Command
from .templates import Template

Path = tuple[str, ...]
MASTER_FILE = "3F00"
# the state of a file after each command that changes it
STATES_AFTER = {"0044": 0x05, "0004": 0x04, "00E6": 0x0C, "00E8": 0x0C}
CARRIED_OUT = ("9000", "6282", "6283", "6285")
# the factory card's EF, as SELECT shows it
FACTORY = {
    (): "62128202782183023F008A01058C052718000000",
    ("2FE2",): "62178202412183022FE28801108002000A8A01058C03031100",
}


def factory() -> dict[Path, Template]:
    """The factory card's files."""
    return {path: Template(bytes.fromhex(text)) for path, text in FACTORY.items()}


def named(path: Path | None) -> str | None:
    """A file by its identifier, which is how the words name it."""
    return None if path is None else (MASTER_FILE, *path)[-1]


@dataclass
class Files:
    """The files by their paths from the master file, each with the template it had when it was last seen."""

    seen: dict[Path, Template] = field(default_factory=factory)
    directory: Path = ()
    element: Path | None = None
    # whether a command was cut that may have created or deleted a file
    is_doubtful: bool = False
    # whether the card's use has been terminated
    is_terminated: bool = False

    @property
    def current(self) -> Path:
        """The current EF, else the current DF."""
        return self.element if self.element is not None else self.directory

    def power(self) -> None:
        """A new session."""
        self.directory, self.element = (), None

    def become(self, path: Path) -> None:
        """A file becomes current."""
        is_df = path not in self.seen or self.seen[path].kind == "DF"
        self.directory, self.element = (path, None) if is_df else (path[:-1], path)

    def children(self, path: Path) -> list[Path]:
        """The files in a DF."""
        return [it for it in self.seen if it and it[:-1] == path]

    def of_short(self, short: int) -> Path | None:
        """The child of the current DF with a short identifier."""
        return next((it for it in self.children(self.directory) if self.seen[it].short == short), None)

    def is_df(self, path: Path) -> bool:
        """Whether there is a DF."""
        return path in self.seen and self.seen[path].kind == "DF"

    def candidate(self, digits: str) -> Path | None:
        """The file that two bytes name from here: a child, a DF beside the current one, the parent, itself, the MF."""
        here, parent = self.directory, self.directory[:-1]
        if (*here, digits) in self.seen:
            return (*here, digits)
        if here and self.is_df((*parent, digits)):
            return (*parent, digits)
        if here and digits == ((MASTER_FILE, *parent)[-1]):
            return parent
        if digits == (MASTER_FILE, *here)[-1]:
            return here
        return () if digits == MASTER_FILE else None

    def selected(self, it: Command) -> Path | None:
        """The file that SELECT reaches."""
        digits = it.data.hex().upper()
        if it.p1 == 0:
            return self.candidate(digits) if digits else ()
        if it.p1 == 3:
            return self.directory[:-1] if self.directory else None
        if it.p1 == 4:
            return next((at for at, file in self.seen.items() if file.objects.get(0x84) == it.data), None)
        path = tuple(digits[at : at + 4] for at in range(0, len(digits), 4))
        whole = path if it.p1 == 8 else (*self.directory, *path)
        return whole if whole in self.seen else None

    def target(self, it: Command) -> Path | None:
        """The file that a command is for; None where there is none, or where the log doesn't show it."""
        if it.key == "00A4":
            return self.selected(it)
        if it.key in OF_AN_EF:
            return self.of_short(it.short_identifier()) if it.short_identifier() else self.element
        if it.key == "00E0":
            return self.directory
        if it.key == "00FE":
            return ()
        if it.data:
            return self.candidate(it.data.hex().upper())
        return {"00E6": self.directory, "00E8": self.element}.get(it.key, self.current)

    def carried_out(self, it: Command) -> None:
        """Follows a command that was carried out."""
        if it.key == "00E0":
            self.created(it.data)
        elif it.key == "00E4":
            self.deleted(self.target(it))
        elif it.key == "00FE":
            self.is_terminated = True
        elif it.key in ("00A4", *LIFE_CYCLE) or it.key in OF_AN_EF:
            path = self.target(it)
            if path in self.seen:
                self.changed(it, self.seen[path])
            if path is not None and (it.key not in OF_AN_EF or it.short_identifier()):
                self.become(path)

    def changed(self, it: Command, file: Template) -> None:
        """What a command makes of a file's template: another state, or a record more."""
        if it.key in STATES_AFTER:
            file.objects[0x8A] = bytes([STATES_AFTER[it.key]])
        if it.key == "00E2" and file.record_length and file.records < file.capacity:
            file.objects[0x82] = file.objects[0x82][:4] + bytes([file.records + 1])

    def created(self, data: bytes) -> None:
        """A new file becomes current. Without object 88 an EF may take its short identifier from its identifier."""
        template = Template(data)
        if template.kind != "DF" and template.short is None:
            low = int(template.identifier, 16) & 0x1F
            if not 1 <= low <= 30 or self.of_short(low) is not None:
                low = 0
            template.objects[0x88] = bytes([low << 3])
        path = (*self.directory, template.identifier)
        self.seen[path] = template
        self.become(path)

    def deleted(self, path: Path | None) -> None:
        """A file and all below it are gone; its parent becomes current."""
        if path:
            self.seen = {at: file for at, file in self.seen.items() if at[: len(path)] != path}
            self.become(path[:-1])

    def cut(self, it: Command) -> None:
        """A command whose end isn't known: both cards are possible."""
        if it.key == "00E0" and Template(it.data).identifier:
            before = self.directory, self.element
            self.created(it.data)
            self.directory, self.element = before
        self.is_doubtful |= it.key in ("00E0", "00E4")
