"""Each fault of a card's file: told plainly, with a status of its own, and the file is left as it was."""
import os
import random
import resource
import signal
import stat
import subprocess
import time
from collections.abc import Callable
from pathlib import Path

from ...costing.kinds import make_named

from .bench import ATR, Bench, ask
from .checks import TOP, Checks
from .images import changed, data_of, factory
from .kills import Compares

NO_CARD, UNKEPT = 6, 7
NOBODY = 65_534
SELECT, CREATE = "apdu 00A4000C026F11", "apdu 00E00000186216820241218302{}8800800203E88A01058C03030000"
UPDATE = "apdu 00D60000040102030{}"
UNKEPT_WORDS = "the card's file can't be written\n"
WRONG_PIN = "apdu 0020000108FFFFFFFFFFFFFFFF"
# the place of PIN 1's tries in the file, and of a try that is taken
TRIES = slice(64 * 65, 64 * 65 + 4)
# seconds after which a write has another time in any file system
TICK = 0.05


def refused(checks: Checks, bench: Bench, what: str, words: str, *options: str, **more: object) -> None:
    """A file that can't be taken as a card's: nothing is printed, and the file stays."""
    before = bench.image.read_bytes() if bench.image.is_file() else None
    status, printed, told = bench.run("on\n", *options, **more)
    checks.compare(f"{what}: status and output", (NO_CARD, []), (status, printed))
    checks.compare(f"{what}: words", True, told.startswith("error card: ") and words in told and told.count("\n") == 1)
    after = bench.image.read_bytes() if bench.image.is_file() else None
    checks.compare(f"{what}: the file is as before", True, before == after)


def of_the_file(checks: Checks, bench: Bench) -> None:
    """A file of another size, without a card, or none."""
    for size in (0, 1, 65_535, 65_537, 65_472, 262_208):
        bench.image.write_bytes(b"\0" * size)
        refused(checks, bench, f"a file of {size} bytes", f"{size} bytes")
    bench.image.write_bytes(b"\0" * 65_536)
    refused(checks, bench, "a memory of zeros", "no card is found")
    bench.image.write_bytes(data_of(changed({1168: 433})))
    refused(checks, bench, "a bad journal", "no card is found")
    bench.image.write_bytes(data_of(factory()))
    refused(checks, bench, "another number of pages", "1024 pages", "--pages", "2048")
    for words in (["--pages", "1023"], ["--pages", "4097"], ["--pages", "many"], ["--pages"], ["--else"]):
        refused(checks, bench, f"the words {' '.join(words)}", "usage", *words)
    foreign = Bench(bench.path, bench.image.parent / os.fsdecode(b"caf\xe9.card"))
    refused(checks, foreign, "a name that is not UTF-8", "usage")
    of_no_file(checks, bench)
    folder = Bench(bench.path, bench.image.parent)
    refused(checks, folder, "a folder", "Is a directory")
    refused(checks, Bench(bench.path, Path("/no/such/folder/card")), "a folder that isn't there", "can't be made")


def of_no_file(checks: Checks, bench: Bench) -> None:
    """What is no regular file: a FIFO, a device, and a link to nothing."""
    pipe = bench.image.parent / "pipe"
    os.mkfifo(pipe)
    for path in (pipe, Path("/dev/null"), Path("/dev/zero")):
        refused(checks, Bench(bench.path, path), path.name, "not a regular file", timeout=60)
    pipe.unlink()
    link = bench.image.parent / "link"
    link.symlink_to("nothing")
    refused(checks, Bench(bench.path, link), "a link to nothing", "File exists")
    checks.compare("the link to nothing stays", "nothing", link.is_symlink() and os.readlink(link))
    link.unlink()


def of_private_files(checks: Checks, bench: Bench) -> None:
    """A new card's file is its owner's alone, whatever the umask; and files that are there stay as they are."""
    victim, other = bench.image.parent / "victim", bench.image.with_name(bench.image.name + ".new")
    for mask in (0, 0o022, 0o077):
        bench.image.unlink(missing_ok=True)
        status, printed, _ = bench.run("on\n", umask=mask)
        mode = stat.S_IMODE(bench.image.stat().st_mode)
        checks.compare(f"a card made with umask {mask:o}", (0, [ATR], 0o600), (status, printed, mode))
    bench.image.unlink()
    other.write_bytes(b"precious" * 50_000)
    checks.compare("a card beside a file of that name.new", (0, [ATR], ""), bench.run("on\n"))
    checks.compare("the file beside it", True, other.is_file() and other.read_bytes() == b"precious" * 50_000)
    checks.compare("the card beside it", True, bench.image.read_bytes() == data_of(factory()))
    bench.image.unlink()
    other.unlink(missing_ok=True)
    victim.write_bytes(b"precious")
    other.symlink_to(victim.name)
    checks.compare("a card beside a link of that name.new", (0, [ATR], ""), bench.run("on\n"))
    checks.compare("what the link leads to", (b"precious", False), (victim.read_bytes(), bench.image.is_symlink()))
    long = Bench(bench.path, bench.image.with_name("c" * 255))
    checks.compare("a card with the longest name", (0, [ATR], ""), long.run("on\n"))
    left = sorted(it.name for it in bench.image.parent.iterdir())
    checks.compare("no other file is left", sorted({bench.image.name, other.name, victim.name, "c" * 255}), left)
    for path in (other, victim, long.image):
        path.unlink(missing_ok=True)


def of_names(checks: Checks, bench: Bench) -> None:
    """Names of DFs that power-on compares, since they have one sum: those that differ are taken, two alike are not."""
    bench.image.unlink(missing_ok=True)
    checks.compare("names of one sum", 0, bench.run("\n".join(["on", *make_named(12, 31)]) + "\n")[0])
    image = bench.image.read_bytes()
    checks.compare("the card of these names", (0, [ATR], ""), bench.run("on\n"))
    # (entries 0 and 1 are the MF and the factory's file; a name is in bytes 16 to 31 of its entry's page)
    for one, other in ((2, 3), (2, 13), (12, 13)):
        words = bytearray(image)
        words[64 * (one + 1) + 16:64 * (one + 1) + 32] = image[64 * (other + 1) + 16:64 * (other + 1) + 32]
        bench.image.write_bytes(words)
        refused(checks, bench, f"entries {one} and {other} with one name", "no card is found")


def of_another_user(checks: Checks, bench: Bench) -> None:
    """A file that may be read alone."""
    if os.geteuid() != 0:
        bench.image.chmod(0o444)
        refused(checks, bench, "a file that may not be written", "Permission denied")
        bench.image.chmod(0o644)
        return
    bench.image.parent.chmod(0o755)
    try:
        refused(checks, bench, "a file that may not be written", "Permission denied", user=NOBODY, cwd="/")
    except PermissionError:
        checks.skip("a file that may not be written: another user can't run the program here")


def of_two(checks: Checks, bench: Bench) -> None:
    """A file that another bench has: that one goes on."""
    first = bench.start()
    checks.compare("the first bench", ATR, ask(first, "on"))
    refused(checks, bench, "a file in use", "in use")
    checks.compare("the first bench goes on", "free 895 62", ask(first, "free"))
    first.communicate()
    checks.compare("the first bench ends", 0, first.returncode)


def under_way(
    checks: Compares, bench: Bench, what: str, fault: Callable[[], object], image: bytes | None = None
) -> None:
    """A file that fails under way, of the factory's card or of another image: the command that finds it is not
    answered, and the run ends."""
    bench.image.write_bytes(image or data_of(factory()))
    process = bench.start()
    for line, wanted in (("on", ATR), (CREATE.format("6F11"), "< 9000"), (UPDATE.format(4), "< 9000")):
        checks.compare(f"{what}, before: {line}", wanted, ask(process, line))
    fault()
    checks.compare(f"{what}: the answer", "", ask(process, UPDATE.format(5)))
    _, told = process.communicate()
    checks.compare(f"{what}: status and words", (UNKEPT, UNKEPT_WORDS), (process.returncode, told.decode()))


def limited(pages: int, more: int = 0) -> Callable[[], None]:
    """What lets a process write no file past these pages and bytes more, and is told so as by a full disk."""
    def limit() -> None:
        signal.signal(signal.SIGXFSZ, signal.SIG_IGN)
        resource.setrlimit(resource.RLIMIT_FSIZE, (64 * pages + more, 64 * pages + more))

    return limit


def of_a_full_disk(checks: Checks, bench: Bench) -> None:
    """No room: a new card isn't there at all, and one that is there is as its last answer left it."""
    bench.image.unlink(missing_ok=True)
    refused(checks, bench, "no room for a new card", "can't be made", preexec_fn=limited(500))
    checks.compare("no room for a new card: files that are left", [], list(bench.image.parent.iterdir()))
    bench.image.write_bytes(data_of(factory()))
    lines = ["on", CREATE.format("6F11"), UPDATE.format(4), "free", CREATE.format("6F12"), "free"]
    # (the 17 blocks of the first file lie below page 147, and those of the second one go past it)
    status, printed, told = bench.run("\n".join(lines), preexec_fn=limited(147))
    checks.compare("no room under way: printed", [ATR, "< 9000", "< 9000", "free 878 61"], printed)
    checks.compare("no room under way: status and words", (UNKEPT, UNKEPT_WORDS), (status, told))
    kept = bench.run(f"on\nfree\n{SELECT}\napdu 00B0000004\n")[1]
    checks.compare("no room under way: what is kept", [ATR, "free 878 61", "< 9000", "< 010203049000"], kept)


def of_a_part(checks: Checks, bench: Bench) -> None:
    """A write of which the file takes a part is not answered: no guess of a PIN is free."""
    image = data_of(factory())
    bench.image.write_bytes(image)
    status, printed, told = bench.run(f"on\n{WRONG_PIN}\n", preexec_fn=limited(65, 3))
    checks.compare("a part of a word: status and output", (UNKEPT, [ATR], UNKEPT_WORDS), (status, printed, told))
    bench.image.write_bytes(image)
    bench.run(f"on\n{WRONG_PIN}\n")
    tries = [int.from_bytes(it[TRIES], "big") for it in (image, bench.image.read_bytes())]
    checks.compare("a whole word: a try is gone in the file", [3, 2], tries)


def of_a_limit(checks: Checks, bench: Bench) -> None:
    """A limit of the file's size, whose signal would end the program: the wrapper tells what happened."""
    bench.image.write_bytes(data_of(factory()))
    words = [str(it) for it in (TOP / "bench", "--program", bench.path, "--card", bench.image)]
    limit = (64 * 65, 64 * 65)
    ran = subprocess.run(words, input=f"on\n{WRONG_PIN}\n", capture_output=True, text=True,
                         preexec_fn=lambda: resource.setrlimit(resource.RLIMIT_FSIZE, limit))
    checks.compare("a limit of size: status and output", (UNKEPT, [ATR]), (ran.returncode, ran.stdout.splitlines()))
    checks.compare("a limit of size: words", True, UNKEPT_WORDS in ran.stderr)
    bench.image.write_bytes(data_of(factory()))
    ran = subprocess.run([words[0], "--explain", *words[1:]], input=f"on\n{WRONG_PIN}\n", capture_output=True,
                         text=True, preexec_fn=lambda: resource.setrlimit(resource.RLIMIT_FSIZE, limit))
    shown = [it.split("  # ")[0].rstrip() for it in ran.stdout.splitlines()]
    checks.compare("a limit of size, with words: status and output", (UNKEPT, [ATR]), (ran.returncode, shown))
    checks.compare("a limit of size, with words: words", True, UNKEPT_WORDS in ran.stderr)
    test = bench.image.with_name("limit.test")
    test.write_text(f"on\n{WRONG_PIN}\n", encoding="ascii")
    ran = subprocess.run([words[0], "--test", *words[1:], test], capture_output=True, text=True,
                         preexec_fn=lambda: resource.setrlimit(resource.RLIMIT_FSIZE, limit))
    test.unlink()
    said = ran.stderr.endswith("/card can't be written: File too large\n") and ran.stderr.count("\n")
    checks.compare("a limit of size, in a test: status and lines", (4, 1), (ran.returncode, said))


def overwrite(image: Path) -> None:
    """Another program writes another card over the file, as cp does."""
    time.sleep(TICK)
    image.write_bytes(data_of(changed({1040: 1})))


def replace_linked(image: Path) -> None:
    """Another program puts another file in the place of one that has a second name."""
    other = image.with_name("other")
    other.write_bytes(data_of(factory()))
    os.replace(other, image)


def of_other_writers(checks: Checks, bench: Bench) -> None:
    """Another program writes the file, or puts another in its place: that file stays as that program left it."""
    under_way(checks, bench, "the file is overwritten", lambda: overwrite(bench.image))
    checks.compare("the file is overwritten: it stays", True, bench.image.read_bytes() == data_of(changed({1040: 1})))
    second = bench.image.with_name("second")
    under_way(checks, bench, "the file gets a second name", lambda: os.link(bench.image, second))
    second.unlink()
    bench.image.unlink()
    second.write_bytes(data_of(factory()))
    os.link(second, bench.image)
    under_way(checks, bench, "a file of two names is replaced", lambda: replace_linked(bench.image))
    checks.compare("a file of two names is replaced: it stays", True, bench.image.read_bytes() == data_of(factory()))
    second.unlink()


def closed_streams(checks: Compares, bench: Bench, image: bytes) -> None:
    """A program whose standard streams are closed prints nothing into its card: an old one of this image stays, and a
    new one gets the same image."""
    streams = {"input": 0, "output": 1, "error": 2}
    for names in (["input"], ["output"], ["error"], ["output", "error"], [*streams]):
        for what in ("old", "new"):
            bench.image.unlink(missing_ok=True)
            if what == "old":
                bench.image.write_bytes(image)

            def close(numbers: list[int] = [streams[it] for it in names]) -> None:
                for number in numbers:
                    os.close(number)

            status, _, _ = bench.run("on\napdu 00A4000C022FE2\nbad\n", preexec_fn=close)
            where = f"without standard {', '.join(names)}, an {what} card"
            checks.compare(f"{where}: the file", True, bench.image.is_file() and bench.image.read_bytes() == image)
            checks.compare(f"{where}: the status", True, status not in (0, NO_CARD) or "input" in names)


def of_a_new_card(checks: Checks, bench: Bench, chance: random.Random, rounds: int) -> None:
    """A bench that is killed while it makes a card leaves a whole one, or none; the next run makes it."""
    made = 0
    for _ in range(rounds):
        bench.image.unlink(missing_ok=True)
        process = bench.start()
        try:
            process.wait(chance.random() * 0.004)
        except subprocess.TimeoutExpired:
            pass
        process.kill()
        process.communicate()
        for left in bench.image.parent.glob("card.*.new"):
            checks.compare("what a kill leaves is its owner's alone", 0o600, stat.S_IMODE(left.stat().st_mode))
            left.unlink()
        if bench.image.exists():
            made += 1
            checks.compare("a new card is whole", True, bench.image.read_bytes() == data_of(factory()))
        checks.compare("the next run has the factory's card", [ATR, "free 895 62"], bench.run("on\nfree\n")[1])
    print(f"card: {rounds} kills of a bench that makes a card: {made} cards were made before")


def check(checks: Checks, program: str, folder: Path) -> None:
    """Each fault."""
    room = folder / "faults"
    room.mkdir()
    bench = Bench(program, room / "card.image")
    of_the_file(checks, bench)
    of_names(checks, bench)
    bench.image.write_bytes(data_of(factory()))
    of_another_user(checks, bench)
    of_two(checks, bench)
    closed_streams(checks, bench, data_of(factory()))
    under_way(checks, bench, "the file is removed", bench.image.unlink)
    under_way(checks, bench, "the file is cut short", lambda: os.truncate(bench.image, 64 * 1000))
    of_other_writers(checks, bench)
    of_a_full_disk(checks, bench)
    of_a_part(checks, bench)
    of_a_limit(checks, bench)
    bench.image.unlink()
    of_private_files(checks, bench)
    of_a_new_card(checks, bench, random.Random(7), 50)
