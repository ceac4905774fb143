"""The reader driver, by a program that plays pcscd and by the real service."""
from __future__ import annotations

import os
import shutil
import subprocess
from pathlib import Path

from .checks import PCSC_HEADERS, PROGRAMS, SANITIZERS, TOP, Tests

DRIVER = "libifdsoffitfennel.so"
ARMED = TOP / "examples" / "pcsc" / "armed.py"
# (a mount of its own, so that a service that runs already is let alone)
SERVICE = """mkdir -p /run/pcscd && mount -t tmpfs tmpfs /run/pcscd || exit 1
/usr/sbin/pcscd --foreground -c "$1" >"$3" 2>&1 &
for _ in $(seq 600); do [ -S /run/pcscd/pcscd.comm ] && break; sleep 0.1; done
/usr/bin/python3 "$2"; status=$?; kill $!; wait; exit $status"""


def test_driver(tests: Tests) -> None:
    """The reader driver, by a program that plays pcscd, under both sanitizers."""
    if not PCSC_HEADERS.is_dir():
        tests.skip("the reader driver", "libpcsclite-dev isn't installed")
        return
    reader = tests.tree / "reader"
    make = ["make", "-s", "-C", reader, f"LIBRARY={tests.library}", f"CFLAGS={' '.join(SANITIZERS)}"]
    tests.run("the driver compiles", *make)
    driver = tests.room / DRIVER
    shutil.move(reader / DRIVER, driver)
    words = [*SANITIZERS, "-D_GNU_SOURCE", f"-I{PCSC_HEADERS}", "-rdynamic", "-ldl"]
    program, cards = tests.compile(PROGRAMS / "driver.c", *words), tests.room / "cards"
    cards.mkdir(mode=0o700)
    # (the driver stays loaded, so what it keeps is no leak)
    tests.run("a program that plays pcscd", program, driver, cards, env={"ASAN_OPTIONS": "detect_leaks=0"})


def test_install(tests: Tests) -> None:
    """make install makes the cards' folder for its owner alone, and leaves the mode of one that is there."""
    if not PCSC_HEADERS.is_dir():
        tests.skip("the driver's installation", "libpcsclite-dev isn't installed")
        return
    reader, top, there = tests.tree / "reader", tests.room / "driver_top", tests.room / "driver_top" / "there"
    there.mkdir(parents=True)
    there.chmod(0o755)
    for cards, mode in (("/there", 0o755), ("/made", 0o700)):
        make = ["make", "-s", "-C", reader, f"LIBRARY={tests.library}", f"DESTDIR={top}", f"CARDS={cards}"]
        tests.run("the driver is installed", *make, "install")
        came = (top / cards[1:]).stat().st_mode & 0o777
        tests.holds(came == mode and not list((top / cards[1:]).iterdir()), f"the folder {cards}", oct(came))
    tests.run("the driver is removed", *make, "uninstall")
    (reader / DRIVER).unlink()


def test_service(tests: Tests) -> None:
    """A real client sets faults by the real service, which has folders of its own."""
    ask = ["/usr/bin/python3", "-c", "import smartcard"]
    pyscard = subprocess.run(ask, stderr=subprocess.DEVNULL, check=False)
    needs = {"pcscd": Path("/usr/sbin/pcscd").exists(), "libpcsclite-dev": PCSC_HEADERS.is_dir()}
    needs["python3-pyscard"] = pyscard.returncode == 0
    missing = [name for name, is_there in needs.items() if not is_there]
    if missing or os.geteuid() != 0:
        tests.skip("the driver in pcscd", f"{missing[0]} isn't installed" if missing else "root alone starts it")
        return
    reader, folder, log = tests.tree / "reader", tests.room / "service", tests.room / "service.log"
    make = ["make", "-s", "-C", reader, f"LIBRARY={tests.library}", f"DRIVERS={folder}/drivers", "OPTIONS=:faults"]
    tests.run("the driver is installed", *make, f"READERS={folder}/readers", f"CARDS={folder}/cards", "install")
    (reader / DRIVER).unlink()
    tests.run("a client by pcscd", "unshare", "-m", "bash", "-c", SERVICE, "-", folder / "readers", ARMED, log,
              wanted=shown_session())
    told = log.read_text(encoding="utf-8")
    tests.holds("card.image: a new card is made, with the factory card's PINs" in told, "the service's log", told)


def shown_session() -> str:
    """What docs/PCSC.md shows of the client that sets faults."""
    page = (TOP / "docs" / "PCSC.md").read_text(encoding="utf-8")
    return page.split("examples/pcsc/armed.py\n", 1)[1].split("```", 1)[0]


ALL = (test_driver, test_install, test_service)
