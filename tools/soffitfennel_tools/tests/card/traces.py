"""The system calls by which the bench keeps a card, by strace: their order, what waits for the disk, failing calls."""
import re
import shutil
import subprocess
import time
from collections.abc import Iterator
from contextlib import suppress
from dataclasses import dataclass
from pathlib import Path

from .bench import ATR, Bench
from .checks import Checks
from .faults import NO_CARD, UNKEPT, UNKEPT_WORDS, WRONG_PIN
from .images import changed, data_of, factory

TRACED = "openat,write,pwrite64,pwritev,fsync,fdatasync,rename,renameat,renameat2,link,linkat,unlink,unlinkat"
CALL = re.compile(r"(\w+)\((.*)\) += (-?\d+)")
OPENED = re.compile(r'AT_FDCWD, "(.*)", (.*)')
CREATE = "apdu 00E00000186216820241218302{}8800800203E88A01058C03030000"
# seconds that a call is delayed for the test to come in between: where that was too late, longer, up to the last one
DELAYS = (2, 8, 32)
# seconds until the call is under way, at most
PATIENCE = 120
# what the test does to each byte of the file: some device writes, one of them of several words
SCRIPT = ["on", WRONG_PIN, CREATE.format("6F11"), "apdu 00D600000401020304", "apdu 00D6000078" + "A5" * 120]


@dataclass(frozen=True)
class Call:
    """A system call: its name, its words, and what it returned."""

    name: str
    words: str
    result: int

    @property
    def file(self) -> str:
        """The number of the file that it is for."""
        return self.words.partition(",")[0]


def run(
    bench: Bench, script: list[str], *options: str, inject: str = "", traced: str = TRACED
) -> tuple[int, list[str], str, list[Call]]:
    """Runs a script under strace: the exit status, the lines printed, standard error, and the calls."""
    log = bench.image.parent / "calls"
    words = ["strace", "-qq", "-o", str(log), "-e", f"trace={traced}"]
    if inject:
        words += ["-e", f"inject={inject}"]
    ran = subprocess.run([*words, *bench.words(*options)], input="\n".join(script), capture_output=True, text=True)
    found = [match for line in log.read_text(encoding="latin-1").splitlines() if (match := CALL.match(line))]
    log.unlink()
    return ran.returncode, ran.stdout.splitlines(), ran.stderr, [Call(it[1], it[2], int(it[3])) for it in found]


def making(calls: list[Call], folder: Path) -> Iterator[str]:
    """The steps by which a card is made, up to its first answer."""
    files: dict[str, str] = {}
    for call in calls:
        opened = OPENED.match(call.words)
        if call.name == "openat" and opened and call.result >= 0:
            is_made = "O_CREAT" in opened[2]
            is_folder = not is_made and Path(opened[1]).resolve() == folder.resolve()
            files[str(call.result)] = "card" if is_made else "folder" if is_folder else ""
            if is_made:
                mode = opened[2].rpartition(", ")[2]
                yield f"make {'anew' if 'O_EXCL' in opened[2] else 'over another'} {mode}"
        elif call.name == "write" and call.file == "1":
            yield "answer"
            return
        elif call.name in ("write", "fsync") and files.get(call.file):
            yield f"{call.name} {files[call.file]}"
        elif call.name in ("link", "linkat"):
            yield "name" if call.result == 0 else "no link"
        elif call.name.startswith("rename"):
            yield "rename"
        elif call.name.startswith("unlink"):
            yield "drop the other name"


def of_a_new_card(checks: Checks, bench: Bench) -> None:
    """A new card has its name once the disk has its bytes, and its first answer comes behind that."""
    made: list[str] = ["make anew 0600", "write card", "fsync card", "name", "drop the other name"]
    folder = bench.image.parent
    for options, wanted in (((), [*made, "answer"]), (("--sync",), [*made, "fsync folder", "answer"])):
        bench.image.unlink(missing_ok=True)
        status, _, _, calls = run(bench, ["on"], *options)
        checks.compare(f"how a card is made, {options}", (0, wanted), (status, list(making(calls, folder))))
    bench.image.unlink()
    status, printed, _, calls = run(bench, ["on"], inject="link,linkat:error=EPERM")
    wanted = [*made[:3], "no link", "rename", "drop the other name", "answer"]
    checks.compare("without links", (0, [ATR], wanted), (status, printed, list(making(calls, folder))))
    checks.compare("the card made without links", True, bench.image.read_bytes() == data_of(factory()))


def made_beside(bench: Bench, other: bytes, seconds: int) -> tuple[bool, tuple[int, bytes, bytes]]:
    """Makes the file while the bench, which has made its own, waits so long before it gives that one the name: whether
    that was in time, and how the bench ends."""
    bench.image.unlink(missing_ok=True)
    folder, pipe = bench.image.parent, subprocess.PIPE
    before = set(folder.iterdir())
    delayed = f"inject=link,linkat,rename,renameat,renameat2:delay_enter={seconds * 1_000_000}"
    words = ["strace", "-qq", "-o", "/dev/null", "-e", delayed, *bench.words()]
    process = subprocess.Popen(words, stdin=pipe, stdout=pipe, stderr=pipe)
    end = time.monotonic() + PATIENCE
    while time.monotonic() < end:
        # (behind the delay the bench's own file goes)
        with suppress(FileNotFoundError):
            if any(it.stat().st_size == len(other) for it in set(folder.iterdir()) - before):
                break
        time.sleep(0.005)
    try:
        with open(bench.image, "xb") as file:
            file.write(other)
        is_in_time = True
    except FileExistsError:
        is_in_time = False
    printed, told = process.communicate(b"on\n")
    return is_in_time, (process.returncode, printed, told)


def of_two_makers(checks: Checks, bench: Bench) -> None:
    """Another program makes the file while the bench makes it: that file stays, and the bench leaves none."""
    folder, other = bench.image.parent, data_of(changed({1040: 1}))
    bench.image.unlink(missing_ok=True)
    before = set(folder.iterdir())
    for seconds in DELAYS:
        is_in_time, came = made_beside(bench, other, seconds)
        if is_in_time:
            break
    wanted = (NO_CARD, b"", b"error card: the file is in use by another program\n")
    checks.compare("two that make one card", wanted, came)
    checks.compare("two that make one card: the first one's stays", True, bench.image.read_bytes() == other)
    checks.compare("two that make one card: what is left", {bench.image}, set(folder.iterdir()) - before)


def of_failing_makers(checks: Checks, bench: Bench) -> None:
    """A card that can't be made: status 6, and no file is left."""
    folder = bench.image.parent
    for calls in ("fsync", "write", "link,linkat,rename,renameat,renameat2"):
        bench.image.unlink(missing_ok=True)
        before = set(folder.iterdir())
        status, printed, told, _ = run(bench, ["on"], inject=f"{calls}:error=EIO:when=1")
        came = status, printed, "the file can't be made: " in told
        checks.compare(f"a card whose {calls} fails", (NO_CARD, [], True), came)
        checks.compare(f"what is left where {calls} fails", set(), set(folder.iterdir()) - before)


def answers(calls: list[Call]) -> list[list[Call]]:
    """The calls before each answer."""
    parts: list[list[Call]] = [[]]
    for call in calls:
        if call.name == "write" and call.file == "1":
            parts.append([])
        else:
            parts[-1].append(call)
    return parts


def of_charges(checks: Checks, bench: Bench) -> None:
    """A PIN's charge is in the file before the command runs, which then writes it again."""
    bench.image.write_bytes(data_of(factory()))
    _, _, _, calls = run(bench, ["on", WRONG_PIN], "--sync")
    charges = [(it.name, it.words) for it in answers(calls)[1]]
    checks.compare("a charge and its sync, twice", charges[:2] * 2, charges)
    bench.image.write_bytes(data_of(factory()))
    status, printed, told, calls = run(bench, ["on", WRONG_PIN], inject="pwrite64:error=EIO:when=2")
    checks.compare("the run's own charge is refused", (UNKEPT, [ATR], UNKEPT_WORDS), (status, printed, told))
    kept = bench.run(f"on\n{WRONG_PIN}\n")[1]
    checks.compare("a charge that is in the file counts", [ATR, "< 63C1"], kept)


def of_writes(checks: Checks, bench: Bench) -> None:
    """Each device write is one write within a page; --sync waits for each, and nothing else does."""
    for options in ((), ("--sync",)):
        bench.image.write_bytes(data_of(factory()))
        status, printed, _, calls = run(bench, SCRIPT, *options)
        checks.compare(f"the answers, {options}", (0, [ATR, "< 63C2"] + ["< 9000"] * 3), (status, printed))
        parts = answers(calls)
        names = [[it.name for it in part if it.name != "openat"] for part in parts]
        each = ["pwrite64", "fdatasync"] if options else ["pwrite64"]
        for number, part in enumerate(names):
            # (a power-on writes nothing here, and nothing comes behind the last answer)
            count = len(part) // len(each)
            checks.compare(f"the calls before answer {number}, {options}", each * count, part)
            checks.compare(f"writes before answer {number}, {options}", number in (1, 2, 3, 4), count > 0)
        writes = [it for it in calls if it.name == "pwrite64"]
        places = [(int(it.words.rsplit(", ", 1)[1]), it.result) for it in writes]
        across = [it for it in places if it[0] // 64 != (sum(it) - 1) // 64]
        checks.compare(f"writes within a page, {options}", [], across)


def of_looks(checks: Checks, bench: Bench) -> None:
    """The bench looks at the file before each device write and behind it, and else never: so it finds what another
    program did to the file between two writes."""
    bench.image.write_bytes(data_of(factory()))
    _, _, _, calls = run(bench, SCRIPT, traced="statx,pwrite64,write")
    for number, part in enumerate(answers(calls)[1:], 1):
        names, each = [it.name for it in part], ["statx", "pwrite64", "statx"]
        checks.compare(f"looks at the file before answer {number}", each * (len(names) // len(each)), names)


def removed(bench: Bench, seconds: int) -> tuple[int, str, str]:
    """Removes the file while the bench, which has made a write of VERIFY, waits so long before it goes on: how it
    ends."""
    before, pipe = data_of(factory()), subprocess.PIPE
    bench.image.write_bytes(before)
    delayed = f"inject=pwrite64:delay_exit={seconds * 1_000_000}"
    words = ["strace", "-qq", "-o", "/dev/null", "-e", delayed, *bench.words()]
    process = subprocess.Popen(words, stdin=pipe, stdout=pipe, stderr=pipe)
    assert process.stdin
    process.stdin.write(f"on\n{WRONG_PIN}\n".encode())
    process.stdin.flush()
    end = time.monotonic() + PATIENCE
    while bench.image.read_bytes() == before and time.monotonic() < end:
        time.sleep(0.005)
    bench.image.unlink()
    printed, told = process.communicate()
    return process.returncode, printed.decode(), told.decode()


def of_a_removal(checks: Checks, bench: Bench) -> None:
    """A file that is removed while a write is under way: no answer, and status 7."""
    for seconds in DELAYS:
        came = removed(bench, seconds)
        # (an answer says that the file was there until then)
        if came[1] == f"{ATR}\n":
            break
    checks.compare("a file that is removed within a write", (UNKEPT, f"{ATR}\n", UNKEPT_WORDS), came)


def of_failing_writes(checks: Checks, bench: Bench) -> None:
    """A write that the disk refuses, takes in part, or loses: no answer, and status 7."""
    faults = {
        "a disk that is full": ("pwrite64:error=ENOSPC:when=1", ()),
        "a disk that takes two bytes": ("pwrite64:retval=2:when=1", ()),
        "a disk that takes none": ("pwrite64:retval=0:when=1", ()),
        "a sync that fails": ("fdatasync:error=EIO:when=1", ("--sync",)),
        "a second sync that fails": ("fdatasync:error=EIO:when=3", ("--sync",)),
    }
    for what, (inject, options) in faults.items():
        bench.image.write_bytes(data_of(factory()))
        script = ["on", *[WRONG_PIN] * (2 if "second" in what else 1), "free"]
        status, printed, told, calls = run(bench, script, *options, inject=inject)
        lines = [ATR] + ["< 63C2"] * ("second" in what)
        checks.compare(what, (UNKEPT, lines, UNKEPT_WORDS), (status, printed, told))
        writes = [it for it in calls if it.name == "pwrite64"]
        # (a PIN that is compared writes its charge before and in its run; a charge that fails is the last write)
        checks.compare(f"{what}: nothing is written behind it", 2 * len(script) - 5, len(writes))


def check(checks: Checks, program: str, folder: Path) -> None:
    """All that strace shows."""
    if not shutil.which("strace") or subprocess.run(["strace", "-o", "/dev/null", "true"]).returncode:
        checks.skip("the system calls of a card in a file: strace isn't there, or may not trace here")
        return
    room = folder / "traces"
    room.mkdir()
    bench = Bench(program, room / "card.image")
    of_a_new_card(checks, bench)
    of_two_makers(checks, bench)
    of_failing_makers(checks, bench)
    of_writes(checks, bench)
    of_charges(checks, bench)
    of_failing_writes(checks, bench)
    of_looks(checks, bench)
    of_a_removal(checks, bench)
