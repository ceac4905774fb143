"""tools/sweep --flash: its runs are counted by hand, and what they find is compared with a sweep in working memory."""
from __future__ import annotations

import json
import os
import re
import resource
import signal
import subprocess
import tempfile
import time
from collections import deque
from collections.abc import Callable, Sequence
from pathlib import Path
from typing import Any

from ...card_image.flash import KINDS, LARGE, SMALL, Kind
from ...programs import program
from ...sweeping.engine import Refused
from ...sweeping.flash import FlashBench, FlashSweep, Turn
from ...sweeping.script import SweepScript
from ..card.bench import ATR
from ..checks import Checks
from . import moves, small_moves
from .moves import CREATE, SELECT, UPDATE

TOP = Path(__file__).resolve().parents[4]
EXAMPLES = TOP / "examples" / "sweep"
ONE_WORD = EXAMPLES / "one_word.script"
# with a sweep in working memory they have the same writes and outcomes
COMPARED = ("one_word", "change_pin", "delete_directory", "update_binary", "update_record")
BEFORE, AFTER = "as before the command", "as after the command"
READ = "apdu 00B000000A"
NEW = "< 01020304FFFFFFFFFFFF9000"
# whether a pair counts behind a torn mark of the gate: then the next power-on has a first write
PAIR_COUNTS = ("on", CREATE, "cut 2 0002", UPDATE, "cut 1 0001", "on")
# behind so many updates in one session all 51 sectors are erased, and 48 pages are copied: up to write 186 (moves.py);
# on small sectors 304 pages are copied: up to write 970 (small_moves.py)
UPDATES_TO_COPIES = {LARGE: 44, SMALL: 240}
SEEDS, FIRST_SEED = 7, 38
# seconds until a sweep has begun, at most
PATIENCE = 60


class Room:
    """A folder for a test, and the sweeps in it."""

    def __init__(self, folder: Path, tests: Checks):
        self.folder, self.tests = folder, tests
        self.programs = {name: program("--quiet", *words) for name, words in (
            ("BENCH_PROGRAM", ()), ("SWEEP_PROGRAM", ("--sweep",)), ("FLASH_PROGRAM", ("--flash",)))}
        self.flash = self.programs["FLASH_PROGRAM"]

    def start(self, *words: str | Path, flash: Path | None = None, **more: Any) -> subprocess.Popen[str]:
        """Starts a sweep, with temporary files in a folder of its own."""
        (self.folder / "tmp").mkdir(exist_ok=True)
        given = {"FLASH_PROGRAM": str(flash)} if flash else {}
        environment = {**os.environ, **self.programs, **given, "TMPDIR": str(self.folder / "tmp")}
        pipe = subprocess.PIPE
        words = (TOP / "tools/sweep", "--quiet", *words)
        return subprocess.Popen(words, stdout=pipe, stderr=pipe, text=True, env=environment, **more)

    def sweep(self, *words: str | Path, **more: Any) -> tuple[int, str, str]:
        """The exit status of a sweep, and what it prints. Nothing is left of it."""
        process = self.start(*words, **more)
        out, err = process.communicate()
        self.tests.same(list((self.folder / "tmp").iterdir()), [], f"nothing is left: {words}")
        return process.returncode, out, err

    def found(self, *words: str | Path, **more: Any) -> dict[str, Any]:
        """What a sweep finds, whose outcomes are allowed."""
        status, out, err = self.sweep("--json", *words, **more)
        self.tests.same((status, err), (0, ""), f"a sweep: {words}")
        return dict(json.loads(out)) if out else {"outcomes": [], "writes": [], "runs": 0}

    def runs(self, *words: str | Path) -> dict[str, int]:
        """How many runs find which card."""
        return {it["card"]: it["runs"] for it in self.found(*words)["outcomes"]}

    def prints(self, seed: int, *lines: str, image: Path | None = None, kind: Kind = LARGE) -> list[str]:
        """What a script prints on a flash."""
        words = [self.flash, *kind.options, str(seed), *(["--card", str(image)] if image else [])]
        ran = subprocess.run(words, input="\n".join(lines), capture_output=True, text=True, check=True)
        return ran.stdout.splitlines()

    def wrapper(self, before: str = "", behind: str = "cat") -> Path:
        """A program in place of the proved one, which changes the script in a file, and what is printed."""
        path = self.folder / "wrapper"
        begin = f'#!/usr/bin/env bash\nset -o pipefail\nscript="{self.folder}/script.$$"\ncat >"$script"\n'
        path.write_text(f'{begin}{before}\n"{self.flash}" "$@" <"$script" | {behind}\n')
        path.chmod(0o755)
        return path


def check_counts(room: Room) -> None:
    """UPDATE BINARY of a word has four writes of a record and a mark: three cuts each. A torn mark of seed 0 is old.
    Behind six of these cuts a pair counts, and a power-on writes the word and the gate: six cuts, five of which leave
    the pair."""
    for kind in KINDS:
        for depth, runs in enumerate(((11, 1), (41, 1), (191, 1))):
            came = room.runs("--flash", "0", *kind.options, "--depth", str(depth), ONE_WORD)
            room.tests.same(came, dict(zip((BEFORE, AFTER), runs)), f"the runs, {depth} deep: {kind.name}")


def check_kinds(room: Room) -> None:
    """A report names the kind of its flash, also where no command says so."""
    for kind, place in ((LARGE, "on a flash with seed 5"), (SMALL, "on a flash with small sectors and seed 5")):
        words = ["--depth", "0", *kind.options, "--flash", "5", str(ONE_WORD)]
        picture = room.folder / "kind.svg"
        shown = room.sweep("--picture", picture, *words)[1]
        told = picture.read_text(encoding="utf-8")
        room.tests.check(f" 4 device writes {place};" in f" {shown.splitlines()[1]}", f"the table: {place}", shown)
        room.tests.check(f"4 device writes {place}," in told, f"the picture: {place}", told)
        is_small = room.found(*words).get("has_small_sectors")
        room.tests.same(is_small, kind.has_small_sectors, f"the kind in JSON: {kind.name}")


def check_same_cards(room: Room) -> None:
    """The writes and the cards that are found are those of a board in working memory."""
    for name in COMPARED:
        path = EXAMPLES / f"{name}.script"
        plain, flash = (room.found("--depth", "0", *words, path) for words in ((), ("--flash", "9")))
        for it in (plain, flash):
            it["kinds"] = [write["kind"] for write in it["writes"]]
            it["cards"] = sorted((outcome["card"], str(outcome["found"])) for outcome in it["outcomes"])
        for key in ("command", "answer", "kinds", "cards", "commits"):
            room.tests.same(flash.get(key), plain[key], f"{name}: {key}")
        operations = {write["operations"] for write in flash["writes"]}
        room.tests.same(operations, {2}, f"{name}: a write is a record and a mark")


def check_seeds(room: Room) -> None:
    """At the last mark the seed decides: as many runs find the new card as the bench itself says, seed by seed, with
    the same garbage in memory and in a new file. The sweep names the first of these seeds."""
    seeds = range(FIRST_SEED, FIRST_SEED + SEEDS)
    lines = ("on", CREATE, "cut 4 0002", UPDATE, "on", SELECT, READ)
    new = [seed for seed in seeds if room.prints(seed, *lines)[-1] == NEW]
    in_files = [seed for seed in seeds if room.prints(seed, *lines, image=room.folder / f"{seed}")[-1] == NEW]
    room.tests.same(in_files, new, "the garbage in a new file")
    room.tests.check(0 < len(new) < SEEDS, f"a torn mark is old or new, by its seed: {new}")
    counts = [seed for seed in seeds if room.prints(seed, *PAIR_COUNTS)[-1] == "dark"]
    room.tests.check(0 < len(counts) < SEEDS and counts != new, f"so is that of the gate: {counts}")
    deep = room.found("--flash", str(FIRST_SEED), "--seeds", str(SEEDS), ONE_WORD)["runs"]
    # (behind a cut one run, or six where a pair counts)
    room.tests.same(deep, 42 * SEEDS + 5 * (len(counts) - len(new)), "the runs of several seeds, with recoveries cut")
    options = ("--flash", str(FIRST_SEED), "--seeds", str(SEEDS), "--depth", "0")
    came = room.found(*options, ONE_WORD)
    runs = [(it["runs"], it["first"], it["seed"]) for it in came["outcomes"]]
    wanted = [(11 * SEEDS - len(new), [1, 0], FIRST_SEED), (SEEDS + len(new), [4, 1], new[0])]
    room.tests.same(runs, wanted, "the runs of several seeds")
    room.tests.same(came.get("seeds"), list(seeds), "the seeds")
    shown = room.sweep(*options, ONE_WORD)[1]
    for part in (f" 4.1 seed {new[0]} ", " on a flash with seeds 38 to 44;"):
        room.tests.check(part in shown, f"the table says {part}", shown)


def check_move(room: Room) -> None:
    """Each write takes a step of a move, behind a power-on too: the erase of a sector, then a record and a mark. That
    is four cuts for each of four writes. Behind eight of them a pair counts, and a power-on writes the word and the
    gate: eight cuts each, 8 + 8 * 8 runs in all. The image stays."""
    for kind, updates in ((LARGE, moves.TO_ERASES_OF_A), (SMALL, small_moves.TO_ERASES_OF_A)):
        image = room.folder / f"image.{kind.slots}"
        room.prints(3, *moves.session(updates), image=image, kind=kind)
        script, before = room.folder / "selected.script", image.read_bytes()
        script.write_text("\n".join(["on", SELECT, "# command", UPDATE, "# probe", SELECT, READ]))
        options = [*kind.options, "--card", str(image), str(script)]
        for depth, runs in enumerate(((15, 1), (71, 1))):
            came = room.runs("--flash", "0", "--depth", str(depth), *options)
            room.tests.same(came, dict(zip((BEFORE, AFTER), runs)), f"the runs in a move, {depth} deep: {kind.name}")
        writes = room.found("--flash", "7", "--depth", "0", *options)["writes"]
        room.tests.same([it["operations"] for it in writes], [moves.ERASES] * 4, "an erase, a record and a mark")
        script.write_text("\n".join(["on", SELECT, UPDATE]))
        _, shown, _ = room.sweep("--flash", "7", "--all", "--depth", "0", *options, "--only", "3")
        room.tests.same(shown.split()[8:15], ["3", "UPDATE", "BINARY", "9000", "4", "16", "2"], "--all --card")
        room.tests.check(image.read_bytes() == before, "the image stays as it is")


def check_copies(room: Room) -> None:
    """Each write copies 16 pages: a record and a mark for each, and for its own page. The second one, write 188, copies
    page 73 and writes it, the gate. So the third first copies it again. On small sectors each write erases one first.
    Behind write 970 the pages that these writes are of all have copies, so each step copies one again."""
    script = room.folder / "copies.script"
    for kind, operations, runs in ((LARGE, [34, 34, 36, 34], 141), (SMALL, [37, 37, 37, 37], 151)):
        lines = [*moves.session(UPDATES_TO_COPIES[kind]), "# command", UPDATE, "# probe", SELECT, READ]
        script.write_text("\n".join(lines))
        came = room.found("--flash", "0", *kind.options, "--depth", "0", script)
        room.tests.same([it["operations"] for it in came["writes"]], operations, f"operations that copy: {kind.name}")
        room.tests.same([it["runs"] for it in came["outcomes"]], [runs, 1], f"the runs that copy: {kind.name}")


def check_all(room: Room) -> None:
    """Every command of a script has the writes and the outcomes that it has in working memory."""
    words = ("--all", "--depth", "0", "--only", "6,7,9", TOP / "examples/personalise.script")
    options = ((), *(("--flash", "4", *it.options) for it in KINDS))
    tables = [room.sweep(*first, *words)[1].splitlines() for first in options]
    # (without the runs and the seconds)
    shown = [[[*it.split()[:-4], *it.split()[-3:-1]] for it in rows] for rows in tables]
    room.tests.same(shown[1:], [shown[0]] * len(KINDS), "--all")
    room.tests.same([len(it) for it in tables], [4] * len(tables), "--only")


def check_wrong_cards(room: Room) -> None:
    """A wrong card is noticed, at the cut where it is wrong, also behind a cut recovery."""
    wrong = "change=; if grep -q '^cut 3 0002$' \"$script\"; then change='s/< FFFF/< 00FF/'; fi"
    status, out, err = room.sweep("--flash", "0", "--depth", "0", ONE_WORD, flash=room.wrapper(wrong, 'sed "$change"'))
    room.tests.same((status, err), (1, "sweep: 1 outcome that no stage of the command has\n"), "a wrong card")
    room.tests.check(" 3.1        neither as before nor as after" in out, "its first cut", out)
    wrong = wrong.replace("^cut 3 0002$", "^cut 2 0000$").replace("grep", "[ $# -eq 1 ] && grep")
    status, out, _ = room.sweep("--flash", "0", ONE_WORD, flash=room.wrapper(wrong, 'sed "$change"'))
    room.tests.check(status == 1 and " neither as before nor as after" in out, "a wrong card behind a recovery", out)
    came = room.sweep("--flash", "0", "--depth", "0", "--at-most", "1", ONE_WORD)
    room.tests.same(came[::2], (1, "sweep: 2 outcomes, where 1 is allowed\n"), "--at-most")


def check_strange_programs(room: Room) -> None:
    """A power loss that doesn't come is noticed, and a write whose operations have no end."""
    lost = "if [ $# -eq 1 ]; then sed -i '/^cut 3/d' \"$script\"; fi"
    came = room.sweep("--flash", "0", "--depth", "0", ONE_WORD, flash=room.wrapper(lost))
    fault = "sweep: two runs of the command differ: a power loss of one is not in the other\n"
    room.tests.same(came, (2, "", fault), "a power loss that doesn't come")
    early = "sed -i 's/^cut 2 ...[02468ACE]$/cut 2 0000/' \"$script\""
    came = room.sweep("--flash", "0", "--depth", "0", ONE_WORD, flash=room.wrapper(early))
    fault = "sweep: two runs of the command differ: a device write has no end\n"
    room.tests.same(came, (2, "", fault), "a write without an end")
    said, fault = "", "a command or a power-on has no end: it makes more than 4000 device writes"
    sweep = FlashSweep(AlwaysDark("", room.folder, LARGE), SweepScript(ONE_WORD.read_text(encoding="ascii")), None)
    try:
        deque(sweep.written(Turn((), "on", None)), maxlen=0)
    except Refused as why:
        said = str(why)
    room.tests.same(said, fault, "a command without an end")


class AlwaysDark(FlashBench):
    """A bench whose card loses power at each write that is asked for."""

    def leaves(self, seed: int, lines: Sequence[str], image: bytes | None) -> tuple[list[str], bytes]:
        """Nothing is run."""
        return ["dark"], b""


def check_privacy(room: Room) -> None:
    """The copies of an image are for their owner alone, as their folder is. A run has one copy, which goes with it."""
    image, seen = room.folder / "private", room.folder / "seen"
    room.prints(3, "on", image=image)
    image.chmod(0o644)
    look = f'if [ $# -eq 3 ]; then echo $(stat -c %a "$3" "${{3%/*}}") $(ls "${{3%/*}}" | wc -w) >>"{seen}"; fi'
    options = ("--flash", "0", "--depth", "0", "--jobs", "1", "--card", image)
    room.sweep(*options, ONE_WORD, flash=room.wrapper(look))
    came = set(seen.read_text().splitlines()) if seen.exists() else set()
    room.tests.same(came, {"600 700 1"}, "the modes of a copy and of its folder, and the number of copies")
    room.tests.same(image.stat().st_mode & 0o777, 0o644, "the mode of the image")


def check_ends(room: Room) -> None:
    """A sweep that is stopped, or whose disk is full, leaves nothing, and says why."""
    for stop, status in ((signal.SIGINT, 130), (signal.SIGTERM, 143), (signal.SIGHUP, 129)):
        words = ("--flash", "0", "--depth", "3", EXAMPLES / "update_binary.script")
        process, began = room.start(*words, preexec_fn=takes_signals), time.monotonic()
        while not any((room.folder / "tmp").glob("*/*")) and time.monotonic() < began + PATIENCE:
            time.sleep(0.01)
        for _ in range(2):
            process.send_signal(stop)
            time.sleep(0.005)
        out, err = process.communicate()
        room.tests.same((process.returncode, out, err), (status, "", ""), f"stopped by {stop.name}")
        room.tests.same(list((room.folder / "tmp").iterdir()), [], f"nothing is left behind {stop.name}")
    came = room.sweep("--flash", "0", ONE_WORD, preexec_fn=limited(100_000))
    room.tests.check(came[0] == 2 and "can't be made: File too large" in came[2], "a full disk", came[2])
    image = room.folder / "limited"
    room.prints(3, "on", image=image)
    came = room.sweep("--flash", "0", "--card", image, ONE_WORD, preexec_fn=limited(100_000))
    room.tests.same(came, (2, "", "sweep: the flash of a run: File too large\n"), "a full disk, and an image")


def takes_signals() -> None:
    """For a process that is being started: one in the background would ignore SIGINT, and one under nohup SIGHUP."""
    for it in (signal.SIGINT, signal.SIGTERM, signal.SIGHUP):
        signal.signal(it, signal.SIG_DFL)


def limited(most: int) -> Callable[[], None]:
    """Limits the size of the files that a process writes."""
    return lambda: resource.setrlimit(resource.RLIMIT_FSIZE, (most, most))


def check_refusals(room: Room) -> None:
    """What is no flash, or is in use, is refused, and what goes with no flash."""
    image = room.folder / "refused"
    image.write_bytes(bytes(64 * 1024))
    fault = f"sweep: {image} has the memory of a card, and no flash: sweep it without --flash\n"
    room.tests.same(room.sweep("--flash", "0", "--card", image, ONE_WORD), (2, "", fault), "a memory image")
    deep = room.folder / "deep.script"
    deep.write_text(f"on\n# depth 4\n# command\n{UPDATE}\n# probe\n{READ}\n")
    fault = "sweep: error line 2: a depth is 0, 1, 2 or 3\n"
    room.tests.same(room.sweep("--flash", "0", deep), (2, "", fault), "a depth of 4")
    image.write_bytes(bytes(204_824 - 8) + b"\xff" * 8)
    fault = "sweep: error card: no card is found on the flash: the words of its pages break a rule\n"
    room.tests.same(room.sweep("--flash", "0", "--card", image, ONE_WORD), (2, "", fault), "a flash without a card")
    image.unlink()
    check_other_kinds(room, image)
    room.prints(0, image=image)
    process = subprocess.Popen([room.flash, "0", "--card", image], stdin=subprocess.PIPE, stdout=subprocess.PIPE)
    assert process.stdin and process.stdout
    process.stdin.write(b"on\n")
    process.stdin.flush()
    room.tests.same(process.stdout.readline(), f"{ATR}\n".encode(), "a bench with the image")
    came = room.sweep("--flash", "0", "--card", image, ONE_WORD)
    room.tests.same(came, (2, "", f"sweep: {image} is in use by another program\n"), "an image in use")
    process.communicate()
    named = "tools/sweep: error: "
    most = 2**64 - 1
    for words, why in (
        (("--seeds", "2"), "--seeds goes with --flash"),
        (("--small-sectors",), "--small-sectors goes with --flash"),
        (("--flash", "1", "--part", "1/2"), "--part doesn't go with --flash"),
        (("--flash", "1", "--merge"), "--merge doesn't go with --flash"),
        (("--flash", "0", "--seeds", "10001"), "argument --seeds: a number from 1 to 10000"),
        (("--flash", str(most + 1)), f"argument --flash: a number from 0 to {most}"),
        (("--flash", str(most), "--seeds", "2"), f"--seeds 2: the last seed would be above {most}"),
    ):
        room.tests.same(room.sweep(*words, ONE_WORD), (2, "", f"{named}{why}\n"), why)


def check_other_kinds(room: Room, image: Path) -> None:
    """A flash of the other kind is refused, and one in place of a memory. The files stay."""
    for kind, other, how in ((LARGE, SMALL, "without"), (SMALL, LARGE, "with")):
        room.prints(0, image=image, kind=kind)
        before = image.read_bytes()
        fault = f"sweep: {image} has a flash {how} small sectors: sweep it {how} --small-sectors\n"
        came = room.sweep("--flash", "0", *other.options, "--card", image, ONE_WORD)
        room.tests.same(came, (2, "", fault), f"the other kind: {kind.name}")
        fault = f"sweep: {image} has the size of {kind.name}: sweep it with --flash SEED"
        fault += f"{''.join(f' {it}' for it in kind.options)}\n"
        room.tests.same(room.sweep("--card", image, ONE_WORD), (2, "", fault), f"no seed: {kind.name}")
        room.tests.check(image.read_bytes() == before, f"the file stays: {kind.name}")
        image.unlink()


def check_picture(room: Room) -> None:
    """A picture has a cell for each cut. In the first row the writes are whole, so the new card is there."""
    path = room.folder / "picture.svg"
    room.found("--flash", "0", "--depth", "0", "--picture", path, ONE_WORD)
    text = path.read_text(encoding="utf-8") if path.exists() else ""
    cells = re.findall(r'y="([0-9.]+)" width="[0-9.]+" height="17" fill="(#0072b2|#e69f00)"', text)
    rows = sorted({float(at) for at, _ in cells})
    room.tests.same((len(cells), len(rows)), (12, 3), "the cells and the rows of a picture")
    new = [float(at) for at, colour in cells if colour == "#e69f00"]
    room.tests.same(new, rows[:1], "the new card is in the first row")
    room.tests.check(">operation 1<" in text and ">whole<" in text and ">operation 2<" not in text, "its rows")


def check(tests: Checks) -> None:
    """All of them."""
    parts = (check_counts, check_kinds, check_same_cards, check_seeds, check_move, check_copies, check_all,
             check_wrong_cards, check_strange_programs, check_privacy, check_ends, check_refusals, check_picture)
    for part in parts:
        with tempfile.TemporaryDirectory(prefix="sweeps-") as folder:
            part(Room(Path(folder), tests))
