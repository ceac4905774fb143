"""tools/with-card: real card software on private cards, the reader's other views, records, cuts, wrong words."""
from __future__ import annotations

import fcntl
import hashlib
import os
import random
import re
import shutil
import signal
import stat
import subprocess
import tempfile
import time
import unittest
from collections.abc import Callable
from functools import reduce
from operator import xor
from pathlib import Path
from typing import Any, TypeVar

from ...sessions.building import IN_USE, MOST_KEPT, drop_old

from .room import CARDS, TOP, Room, run

T = TypeVar("T", bound=Callable[..., Any])
PROGRAMS = TOP / "tools" / "tests" / "field_programs"
DEBIAN_PYTHON = "/usr/bin/python3"
SCDAEMON = Path("/usr/lib/gnupg/scdaemon")
# (a mount of its own, so that a service that runs already is let alone)
SERVICE = """mkdir -p /run/pcscd && mount -t tmpfs tmpfs /run/pcscd || exit 1
/usr/sbin/pcscd --foreground -c "$1" >/dev/null 2>&1 &
for _ in $(seq 600); do [ -S /run/pcscd/pcscd.comm ] && break; sleep 0.1; done
/usr/bin/python3 "$2"; status=$?; kill $!; wait; exit $status"""
ICCID = "981032547698103254769000"
# seconds that a program goes on if it isn't ended
PATIENCE = 60
USIM = "A0000000871002FFFFFFFF8907090000"
# a UICC: what the card says by itself, and what the reader says with --uicc (TS 102 221)
MODEM = {
    "00A400040A2FE2": ("6700", "6700"),
    "00A40004022FE20000": ("6700", "6700"),
    "00A4000C027FFF": ("6A82", "6A82"),
    "80AA000005A9038101FF": ("6D00", "9000"),
    "801000001AFFFFFFFF7F9D00DFBF000000000000000000000000000000000000": ("6D00", "9000"),
    "80F2000C": ("6D00", "9000"),
    "00A4040407A000000087100200": ("6A82", "62*9000"),
    "80F2000100": ("6D00", f"8410{USIM}9000"),
    "80F2000105": ("6D00", "6C12"),
    "80F2030000": ("6D00", "6A86"),
    "00200081": ("6A86", "63C3"),
    "002000810835363738FFFFFFFF": ("6A86", "9000"),
    "0020000A": ("6A86", "63C3"),
    "00A40004023F0000": ("62*9000", "62*C60C9001E08301018301*9000"),
    "80F2000000": ("6D00", "62*C60C9001E08301018301*9000"),
    "00A40804067F105F3A4F3000": ("62*9000", "62*9000"),
    "80F2010C": ("6D00", "9000"),
    "00A4080C027FFF": ("6A82", "9000"),
    f"00A4040410{USIM}00": ("62*9000", "62*C60C*9000"),
    "00A40004027FFF00": ("6A82", "62*C60C*9000"),
    "00A40804047FFF6F46": ("6A82", "9000"),
    "00B0000003": ("6986", "0046699000"),
    "0088008100": ("6D00", "6D00"),
}


def has(name: str) -> bool:
    """Whether a program is there."""
    return shutil.which(name) is not None


def needs(name: str, package: str = "") -> Callable[[T], T]:
    """Skips a test where a program isn't there."""
    return unittest.skipUnless(has(name), f"{package or name} isn't installed")


def has_pyscard() -> bool:
    command = [DEBIAN_PYTHON, "-c", "import smartcard"]
    return subprocess.run(command, stderr=subprocess.DEVNULL, check=False).returncode == 0


needs_pyscard = unittest.skipUnless(has_pyscard(), "python3-pyscard isn't installed")
can_build = Path("/usr/include/PCSC/winscard.h").is_file() and has(os.environ.get("CC", "cc"))


@unittest.skipUnless(can_build, "libpcsclite-dev or a C compiler isn't installed")
class Session(Room):
    """A test with sessions."""

    @classmethod
    def setUpClass(cls) -> None:
        run([str(TOP / "tools" / "with-card"), "--fresh", "--", "true"])

    def with_card(self, *words: object, stdin: str = "") -> subprocess.CompletedProcess[str]:
        """Runs a program with a card."""
        return self.run_tool("with-card", *words, stdin=stdin)

    def output(self, *words: object, stdin: str = "") -> str:
        """What a program prints that ends well."""
        came = self.with_card(*words, stdin=stdin)
        self.assertEqual(came.returncode, 0, (words, came.stdout[-1000:], came.stderr[-1000:]))
        return came.stdout

    def send(self, options: list[object], *lines: str) -> list[str]:
        """The answers to commands, by pyscard."""
        return self.output(*options, "--", DEBIAN_PYTHON, PROGRAMS / "send.py", *lines).splitlines()

    def certificates(self) -> list[bytes]:
        """The certificates that the description of the identity card has."""
        found: dict[str, str] = {}
        path = ""
        for line in (CARDS / "identity.card").read_text(encoding="ascii").splitlines():
            path = line.split()[1] if line.startswith("file ") else path
            if line.startswith("  content ") and path[-4:] in ("4545", "4546"):
                found[path] = found.get(path, "") + line.split(" ", 3)[3]
        return [bytes.fromhex(found[it]) for it in sorted(found)]


class Signals(Session):
    """What a program with a card gets of signals."""

    def test_a_limit_of_size_ends_no_program(self) -> None:
        shown = self.output(self.image("purse"), "--", "grep", "SigIgn", "/proc/self/status")
        ignored = int(shown.split()[1], 16)
        self.assertTrue(ignored >> (signal.SIGXFSZ - 1) & 1, shown)
        self.assertFalse(ignored >> (signal.SIGPIPE - 1) & 1, shown)
        blocked = self.output("--fresh", "--", "grep", "SigBlk", "/proc/self/status")
        self.assertEqual(int(blocked.split()[1], 16), 0, blocked)

    def test_a_signal_reaches_a_program_that_has_just_begun(self) -> None:
        # (under nohup the program would ignore it)
        self.addCleanup(signal.signal, signal.SIGHUP, signal.signal(signal.SIGHUP, signal.SIG_DFL))
        for name, status in (("TERM", 143), ("HUP", 129)) * 3:
            begun = time.monotonic()
            came = self.with_card("--fresh", "--", "sh", "-c", f"kill -{name} $PPID; exec sleep {PATIENCE}")
            self.assertEqual((came.returncode, came.stdout, came.stderr), (status, "", ""))
            # (its output is open until it has ended)
            self.assertLess(time.monotonic() - begun, PATIENCE)


class Programs(Session):
    """Debian's card software."""

    @needs("pkcs15-tool", "opensc")
    @needs("openssl")
    def test_opensc_reads_the_identity_card(self) -> None:
        card = self.image("identity")
        shown = self.output(card, "--", "pkcs15-tool", "-c")
        self.assertEqual(
            [it for it in shown.splitlines() if it.startswith("X.509")],
            ["X.509 Certificate [User]", "X.509 Certificate [CA]"],
        )
        for number, wanted in enumerate(self.certificates(), 1):
            self.output(card, "--", "pkcs15-tool", "--read-certificate", f"0{number}", "-o", self.room / "it.pem")
            der = run(
                [
                    "openssl",
                    "x509",
                    "-in",
                    str(self.room / "it.pem"),
                    "-outform",
                    "der",
                    "-out",
                    str(self.room / "it.der"),
                ]
            )
            self.assertEqual(der.returncode, 0, der.stderr)
            self.assertEqual((self.room / "it.der").read_bytes(), wanted)

    @needs("pkcs15-tool", "opensc")
    def test_opensc_changes_a_pin_that_stays(self) -> None:
        card = self.image("identity")
        self.assertNotEqual(self.with_card(card, "--", "pkcs15-tool", "--verify-pin", "--pin", "9999").returncode, 0)
        self.assertIn("PIN 1        enabled, 2 tries", self.tool("card", card))
        self.output(card, "--", "pkcs15-tool", "--change-pin", "--pin", "1234", "--new-pin", "4321")
        self.output(card, "--", "pkcs15-tool", "--verify-pin", "--pin", "4321")
        self.says(card, {"002000010831323334FFFFFFFF": "63C2", "002000010834333231FFFFFFFF": "9000"})

    @needs("pkcs11-tool", "opensc")
    def test_pkcs11_lists_the_objects(self) -> None:
        module = next(iter(Path("/usr/lib").glob("*/opensc-pkcs11.so")), None)
        if module is None:
            self.skipTest("opensc-pkcs11 isn't installed")
        shown = self.output(
            self.image("identity"), "--", "pkcs11-tool", "--module", module, "--login", "--pin", "1234", "-O"
        )
        self.assertEqual(shown.count("Certificate Object; type = X.509 cert"), 2)
        self.assertIn("Data object", shown)
        if has("ssh-keygen"):
            keys = self.output(self.room / "identity.image", "--", "ssh-keygen", "-D", module)
            self.assertEqual(keys.count("ssh-rsa "), 2)

    @unittest.skipUnless(SCDAEMON.exists(), "scdaemon isn't installed")
    def test_gnupg_learns_the_card(self) -> None:
        words = [SCDAEMON, "--homedir", self.room, "--disable-ccid", "--pcsc-driver", "libpcsclite.so.1", "--server"]
        shown = self.output(self.image("identity"), "--", *words, stdin="SERIALNO\nLEARN --force\nBYE\n")
        self.assertIn("S SERIALNO 0102030405060708", shown)
        self.assertEqual(shown.count("S CERTINFO"), 2)
        self.assertIn("S APPTYPE p15", shown)

    @unittest.skipUnless(SCDAEMON.exists(), "scdaemon isn't installed")
    @needs("gpgsm")
    @needs("openssl")
    def test_gpgsm_learns_the_certificates(self) -> None:
        # (a short path, for the sockets of the agent that it starts)
        home = Path(tempfile.mkdtemp(prefix="gpgsm-", dir="/tmp"))
        self.addCleanup(shutil.rmtree, home, ignore_errors=True)
        self.addCleanup(run, ["gpgconf", "--homedir", str(home), "--kill", "all"])
        (home / "scdaemon.conf").write_text("disable-ccid\npcsc-driver libpcsclite.so.1\n", encoding="ascii")
        gpgsm = ["gpgsm", "--homedir", str(home), "--batch"]
        self.output(self.image("identity"), "--", *gpgsm, "--learn-card")
        shown = run([*gpgsm, "--with-colons", "--list-keys"]).stdout
        told = {line.split(":")[9].replace(":", "").upper() for line in shown.splitlines() if line.startswith("fpr:")}
        sums = {hashlib.sha1(it).hexdigest().upper() for it in self.certificates()}
        self.assertEqual(told, sums)

    @needs("geldkarte", "libchipcard-tools")
    def test_geldkarte_reads_a_purse(self) -> None:
        card = self.room / "geldkarte.image"
        self.tool("issue", PROGRAMS / "geldkarte.card", card)
        # (it knows a purse by these bytes)
        reset = bytes.fromhex("EF00FF8131FE456563") + b"soffitfennel."
        atr = f"3B{reset.hex()}{reduce(xor, reset):02x}".upper()
        words = ("--translate", "--atr", atr, card, "--", "env", f"HOME={self.room}", "geldkarte")
        for what, wanted in (
            ("loaded", "Card is loaded with  12.34 EUR"),
            ("maxload", "Card can be loaded with 200.00 EUR"),
            ("maxxfer", "Card can transfer up to  20.00 EUR"),
        ):
            self.assertIn(wanted, self.output(*words, what))

    @needs("scriptor", "pcsc-tools")
    def test_scriptor(self) -> None:
        shown = self.output("--fresh", "--", "scriptor", stdin="00 A4 00 0C 02 2F E2\n00 B0 00 00 0A\n")
        self.assertIn("< 98 10 32 54 76 98 10 32 54 76 90 00 : Normal processing.", shown)

    @needs("pcsc_scan", "pcsc-tools")
    def test_pcsc_scan_waits(self) -> None:
        command = [str(TOP / "tools" / "with-card"), "--fresh", "--", "timeout", "60", "pcsc_scan", "-n"]
        shown = ""
        with subprocess.Popen(command, stdout=subprocess.PIPE, stderr=subprocess.DEVNULL, text=True) as scan:
            assert scan.stdout
            while "ATR:" not in shown and (line := scan.stdout.readline()):
                shown += line
            self.assertIsNone(scan.poll(), shown)
            scan.terminate()
        self.assertIn("Card inserted", shown)
        self.assertIn("ATR: 3B 80 81 31 FE 45 8B", shown)

    @needs("java")
    @needs("javac", "openjdk's compiler")
    def test_java(self) -> None:
        words = [
            "java",
            "-Xshare:auto",
            "-Dsun.security.smartcardio.library=$SOFFITFENNEL_PCSCLITE",
            PROGRAMS / "Read.java",
        ]
        shown = self.output("--fresh", "--", "sh", "-c", " ".join(str(it) for it in words))
        self.assertEqual(shown, ICCID)

    @needs_pyscard
    def test_the_tree_of_a_uicc(self) -> None:
        came = self.send(
            [self.image("uicc")],
            "00A40804047FF06F46",
            "00B0000004",
            "00A40004027FFF",
            "002000010831323334FFFFFFFF",
            "00A4080C047FF06F07",
            "00B0000009",
        )
        self.assertEqual(came[1:], ["9000", "004669659000", "6A82", "9000", "9000", "0809101010325476989000"])


class Calls(Session):
    """The calls of PC/SC, as pcscd answers them."""

    @needs_pyscard
    def test_calls_are_those_of_pcscd(self) -> None:
        shown = self.output("--fresh", "--", DEBIAN_PYTHON, PROGRAMS / "calls.py")
        self.assertEqual(shown.splitlines(), (PROGRAMS / "calls.out").read_text(encoding="utf-8").splitlines())

    @needs_pyscard
    def test_pcscd_answers_so(self) -> None:
        if not Path("/usr/sbin/pcscd").exists() or os.geteuid() != 0:
            self.skipTest("pcscd isn't installed, or root alone starts it")
        library = os.environ.get("SOFFITFENNEL_LIB") or self.tool("library", self.room / "library").strip()
        # (what another run builds there isn't taken)
        shutil.copytree(TOP / "reader", self.room / "reader", ignore=shutil.ignore_patterns("*.so", "out"))
        shutil.copytree(TOP / "include", self.room / "include")
        made = run(["make", "-s", "-C", str(self.room / "reader"), f"LIBRARY={library}"])
        self.assertEqual(made.returncode, 0, made.stderr)
        (self.room / "service").mkdir(mode=0o700)
        driver = f"DEVICENAME {self.room}/card:faults\nLIBPATH {self.room}/reader/libifdsoffitfennel.so\n"
        (self.room / "service" / "reader.conf").write_text(f'FRIENDLYNAME "Soffitfennel"\n{driver}', encoding="ascii")
        words = [
            "unshare",
            "--mount",
            "bash",
            "-c",
            SERVICE,
            "service",
            str(self.room / "service"),
            str(PROGRAMS / "calls.py"),
        ]
        shown = run(words)
        self.assertEqual(shown.stdout.splitlines(), (PROGRAMS / "calls.out").read_text(encoding="utf-8").splitlines())

    @needs_pyscard
    def test_calls_and_random_commands_under_both_sanitizers(self) -> None:
        compiler = os.environ.get("CC", "cc")
        preload = " ".join(
            run([compiler, f"-print-file-name={it}"]).stdout.strip() for it in ("libasan.so", "libubsan.so")
        )
        flags = "-g -O1 -fsanitize=address,undefined -fno-sanitize-recover=all"
        # (pyscard's own memory is no leak of ours)
        within = ["--", "env", f"LD_PRELOAD={preload}", "ASAN_OPTIONS=detect_leaks=0", DEBIAN_PYTHON]
        came = self.run_tool("with-card", "--fresh", *within, PROGRAMS / "calls.py", CFLAGS=flags)
        self.assertEqual(came.stdout, (PROGRAMS / "calls.out").read_text(encoding="utf-8"), came.stderr[-2000:])
        card, lines = self.image("uicc"), random_commands(400)
        for view in (["--uicc"], ["--uicc", "--t0"], ["--t0", "--translate"]):
            words = [*view, card, *within, PROGRAMS / "send.py", *["t0"] * ("--t0" in view), *lines]
            came = self.run_tool("with-card", *words, CFLAGS=flags)
            self.assertEqual((came.returncode, came.stdout.count("\n")), (0, 401), came.stderr[-2000:])

    @needs_pyscard
    def test_four_readers(self) -> None:
        cards = [self.image(it) for it in ("uicc", "identity", "purse")]
        shown = self.send([*cards], "00A4000C022FE2")
        self.assertEqual(
            [it for it in shown if " 00 " in it], [f"Soffitfennel 0{it} 00 3B808131FE458B" for it in range(3)]
        )

    def test_buffers_and_null_pointers(self) -> None:
        program = self.room / "buffers"
        words = [
            os.environ.get("CC", "cc"),
            "-Wall",
            "-Wextra",
            "-Werror",
            "-I/usr/include/PCSC",
            str(PROGRAMS / "buffers.c"),
        ]
        made = run([*words, "-o", str(program), "-ldl"])
        self.assertEqual(made.returncode, 0, made.stderr)
        shown = self.output("--fresh", "--", program)
        self.assertEqual(shown, (PROGRAMS / "buffers.out").read_text(encoding="ascii"))

    @needs_pyscard
    def test_threads_share_a_card(self) -> None:
        shown = self.output(self.image("uicc"), "--", DEBIAN_PYTHON, PROGRAMS / "threads.py")
        self.assertEqual(shown, "wrong: 0 []\n")

    @needs_pyscard
    def test_a_card_that_another_process_has_is_waited_for(self) -> None:
        card = self.image("purse")
        send = f"{DEBIAN_PYTHON} {PROGRAMS}/send.py 00A4000C022FE2"
        script = f"{send} & {send}; wait"
        self.assertEqual(self.output(card, "--", "sh", "-c", script).count("9000"), 2)
        held = self.room / "held"
        script = f"flock {card} sh -c 'touch {held}; sleep 1' & while [ ! -e {held} ]; do sleep 0.02; done; {send}"
        self.assertEqual(self.output(card, "--", "sh", "-c", script).count("9000"), 1)


class Views(Session):
    """What the reader plays, off by default."""

    @needs_pyscard
    def test_uicc(self) -> None:
        several: list[list[object]] = [[], ["--uicc"]]
        for place, options in enumerate(several):
            card = self.image("uicc") if not place else self.room / "uicc.image"
            came = self.send([*options, card], *MODEM)[1:]
            for command, answer, wanted in zip(MODEM, came, (it[place] for it in MODEM.values())):
                self.assertTrue(matches(wanted, answer), (options, command, wanted, answer))

    @needs_pyscard
    def test_the_first_name_of_the_directory_is_meant(self) -> None:
        text = "file 3F00 df\nrule 00\nfile 3F00/2F00 linear 20 x 2\nrule read: always\n"
        text += "record 61084F06A00000000102\nrecord 61084F06A00000000101\n"
        text += "file 3F00/7F01 df\nname A00000000101\nrule 00\nfile 3F00/7F02 df\nname A00000000102\nrule 00\n"
        self.tool("issue", self.file(f"{text}pin 1 to 8 blocked\n"), self.room / "it.image")
        came = self.send(["--uicc", self.room / "it.image"], "00A4040405A00000000100", "00A4040406A0000000010100")
        self.assertIn("83027F028406A00000000102", came[1])
        self.assertIn("83027F018406A00000000101", came[2])

    @needs("scriptor", "pcsc-tools")
    def test_a_reset_ends_the_application(self) -> None:
        name = " ".join(USIM[it : it + 2] for it in range(0, len(USIM), 2))
        lines = [f"00 A4 04 0C 10 {name}", "00 A4 00 0C 02 7F FF", "reset", "00 A4 00 0C 02 7F FF", ""]
        shown = self.output("--uicc", self.image("uicc"), "--", "scriptor", stdin="\n".join(lines))
        words = [it[2:7] for it in shown.splitlines() if it.startswith("< ")]
        self.assertEqual(words, ["90 00", "90 00", "OK: 3", "6A 82"])

    @needs_pyscard
    def test_a_table_of_pins(self) -> None:
        card = self.image("uicc")
        came = self.send([card, "--uicc", "--pins", "82=2"], "00200081", "00200082")
        self.assertEqual(came[1:], ["6A86", "63C3"])

    @needs_pyscard
    def test_old_forms_of_select(self) -> None:
        old = {
            "00A40100027F1000": ("6A86", "6F*9000"),
            "00A40000022FE2": ("6A86", "9000"),
            "00A40000023F0000": ("6A86", "6F*9000"),
        }
        old |= {"00A40200022FE200": ("6A86", "6F*9000"), "00A40204022FE200": ("6A86", "62*9000")}
        several: list[list[object]] = [[], ["--translate"]]
        for place, options in enumerate(several):
            card = self.image("uicc") if not place else self.room / "uicc.image"
            for command, wanted in old.items():
                answer = self.send([*options, card], command)[1]
                self.assertTrue(matches(wanted[place], answer), (options, command, answer))

    @needs_pyscard
    def test_t0(self) -> None:
        told = {
            "00A4000C023F00": "9000",
            "00A40004022FE2": "6119",
            "00C0000030": "6C19",
            "00C0000005": "62178202416114",
            "00C0000014": "*9000",
            "00C0000001": "6F00",
            "00B0000000": "9810*9000",
            "00B000000B": "*6282",
            "0020000100": "63C3",
            "002000010831323334FFFFFFFF": "9000",
            "00D600000101": "9000",
            "00B0000001": "019000",
        }
        came = self.send(["--fresh", "--t0"], "t0", *told)
        self.assertEqual(came[0], "Soffitfennel 00 00 3B00")
        for command, wanted, answer in zip(told, told.values(), came[1:]):
            self.assertTrue(matches(wanted, answer), (command, wanted, answer))

    @needs_pyscard
    def test_another_answer_to_reset(self) -> None:
        self.assertEqual(self.send(["--fresh", "--atr", "3B00"], "00"), ["Soffitfennel 00 00 3B00", "6700"])


class Records(Session):
    """A session as a test, and a session that loses power."""

    @needs("scriptor", "pcsc-tools")
    def test_a_recorded_session_is_a_test(self) -> None:
        card, log = self.image("purse"), self.room / "session.test"
        before = self.room / "before"
        shutil.copyfile(card, before)
        lines = [
            "00 20 00 01 08 31 32 33 34 FF FF FF FF",
            "00 A4 08 0C 04 5F 10 6F 06",
            "00 D6 00 00 04 01 02 03 04",
            "reset",
        ]
        self.output("--log", log, card, "--", "scriptor", stdin="\n".join([*lines, "00 A4 00 0C 02 2F E2", ""]))
        self.assertEqual(stat.S_IMODE(log.stat().st_mode), 0o600)
        self.assertIn("apdu 00D6000004", log.read_text(encoding="ascii"))
        shown = self.tool("../bench", "-q", "--test", "--card", before, log)
        self.assertRegex(shown, r"test: [6-9] lines compared\ntest: 1 passed, 0 failed")

    @needs_pyscard
    def test_a_cut(self) -> None:
        for write in range(1, 9):
            card, log = self.room / f"{write}.card", self.room / f"{write}.test"
            self.tool("issue", CARDS / "purse.card", card)
            before = card.read_bytes()
            words = ["--cut", str(write), "0000", "--log", log, card]
            update = ["002000010831323334FFFFFFFF", "00A4080C045F106F06", "00D60000020102"]
            came = self.send(words, *update)[1:]
            (self.room / "before").write_bytes(before)
            self.tool("../bench", "-q", "--test", "--card", self.room / "before", log)
            if came == ["9000"] * 3:
                break
            self.assertIn("No smart card inserted.", came)
            self.says(card, {"002000010831323334FFFFFFFF": "9000", update[1]: "9000", "00B0000002": "00009000"})
        self.assertGreater(write, 4)

    @needs_pyscard
    def test_a_cut_comes_once_in_all_processes(self) -> None:
        card = self.image("purse")
        send = f"{DEBIAN_PYTHON} {PROGRAMS}/send.py 002000010831323334FFFFFFFF 00200001"
        came = self.output("--cut", "4", "0000", card, "--", "sh", "-c", f"{send}; {send}; {send}; {send}").split("\n")
        self.assertEqual(came.count("No smart card inserted."), 2, came)


class Refusals(Session):
    """Wrong words are told, and nothing is lost."""

    def refused_session(self, *words: object) -> str:
        came = self.with_card(*words)
        self.assertEqual((came.returncode, came.stdout, came.stderr.count("\n")), (125, "", 1), came.stderr)
        return came.stderr.strip()

    def test_cards(self) -> None:
        card = self.image("purse")
        (self.room / "link").symlink_to(card)
        os.mkfifo(self.room / "fifo")
        (self.room / "short").write_bytes(bytes(100))
        (self.room / "zeros").write_bytes(bytes(65536))
        wrong = {
            "link": "is a link",
            "fifo": "is no plain file",
            "short": "has 100 bytes",
            "zeros": "holds no card",
            "none": "No such file",
        }
        for name, why in wrong.items():
            self.assertIn(why, self.refused_session(self.room / name, "--", "true"))
        with open(card, "rb") as it:
            fcntl.flock(it, fcntl.LOCK_EX)
            self.assertIn("in use by another program", self.refused_session(card, "--", "true"))
        self.assertIn("there is no program", self.refused_session(card, "--", "no-such-program"))
        self.assertIn("can't be run: Permission denied", self.refused_session(card, "--", CARDS / "purse.card"))

    def test_a_record_overwrites_nothing(self) -> None:
        precious = self.file("precious")
        self.assertIn("stays as it is", self.refused_session("--log", precious, self.image("purse"), "--", "true"))
        self.assertEqual(precious.read_text(encoding="ascii"), "precious")
        self.assertIn(
            "No such file", self.refused_session("--log", self.room / "none" / "log", "--fresh", "--", "true")
        )

    def test_the_command_line(self) -> None:
        wrong = [
            ["--fresh"],
            ["--"],
            ["--fresh", "--", *()],
            ["x", "--fresh", "--", "true"],
            ["--cut", "0", "0000", "--fresh", "--", "true"],
            ["--cut", "0000001", "0000", "--fresh", "--", "true"],
            ["--cut", "1000000", "0000", "--fresh", "--", "true"],
        ]
        wrong += [
            ["--cut", "1", "00", "--fresh", "--", "true"],
            ["--atr", "00", "--fresh", "--", "true"],
            ["--pins", "81=9", "--fresh", "--", "true"],
        ]
        wrong += [["--pins", "81=2", "--fresh", "--", "true"], ["a", "b", "c", "d", "e", "--", "true"]]
        for words in wrong:
            self.assertEqual(self.with_card(*words).returncode, 2, words)

    def test_the_status_is_the_programs(self) -> None:
        self.assertEqual(self.with_card("--fresh", "--", "sh", "-c", "exit 7").returncode, 7)
        self.assertEqual(self.with_card("--fresh", "--", "sh", "-c", "kill -9 $$").returncode, 137)

    @needs_pyscard
    def test_a_file_that_goes_is_a_fault(self) -> None:
        card = self.image("purse")
        script = f"rm {card}; exec {DEBIAN_PYTHON} {PROGRAMS}/send.py 00200001"
        came = self.with_card(card, "--", "sh", "-c", script)
        self.assertIn("No such file or directory", came.stderr)
        card = self.image("uicc")
        # (VERIFY writes; the file is gone behind the first command)
        words = ["!rm", card, "002000010831323334FFFFFFFF", "00200001"]
        came = self.with_card(card, "--", DEBIAN_PYTHON, PROGRAMS / "send.py", "00200001", *words)
        self.assertEqual(came.stdout.splitlines()[1:], ["63C3", "No smart card inserted.", "No smart card inserted."])
        self.assertIn("its file takes no more; the card is out", came.stderr)

    @needs_pyscard
    def test_no_stream_is_in_a_card(self) -> None:
        card = self.image("purse")
        before = card.read_bytes()
        came = self.with_card(card, "--", DEBIAN_PYTHON, PROGRAMS / "streamless.py")
        self.assertEqual((came.returncode, card.read_bytes() == before), (0, True), came.stderr)

    @needs_pyscard
    def test_the_library_itself_takes_no_wrong_file(self) -> None:
        card = self.image("purse")
        (self.room / "link").symlink_to(card)
        os.mkfifo(self.room / "fifo")
        (self.room / "zeros").write_bytes(bytes(65536))
        (self.room / "short").write_bytes(bytes(65535))
        wrong = {"CARD_0": {"link": "it is a link", "fifo": "it is no plain file", "zeros": "its words are no card's"}}
        wrong["CARD_0"] |= {"short": "its size is no memory's", "none": "No such file or directory"}
        wrong["CUT"] = {"x": "SOFFITFENNEL_CUT is no number and mask", "0 0000": "SOFFITFENNEL_CUT is no number"}
        wrong["ATR"] = {"3B0": "SOFFITFENNEL_ATR is no answer", "3B" * 34: "SOFFITFENNEL_ATR is no answer"}
        wrong["PINS"] = {"81": "SOFFITFENNEL_PINS is no table", "81=9": "SOFFITFENNEL_PINS is no table"}
        for name, values in wrong.items():
            for value, why in values.items():
                given = f"SOFFITFENNEL_{name}={self.room / value if name == 'CARD_0' else value}"
                came = self.with_card(card, "--", "env", given, DEBIAN_PYTHON, PROGRAMS / "send.py", "00")
                self.assertEqual(came.returncode, 1, (given, came.stderr))
                self.assertIn(why, came.stderr)
                self.assertIn("Service not available.", came.stderr)

    def test_nothing_is_left_behind(self) -> None:
        place = self.room / "tmp"
        place.mkdir()
        env = {**os.environ, "TMPDIR": str(place)}
        command = [str(TOP / "tools" / "with-card"), "--fresh", "--"]
        self.assertEqual(run([*command, "true"], TMPDIR=str(place)).returncode, 0)
        with subprocess.Popen(
            [*command, "sh", "-c", "echo; exec sleep 30"], env=env, stdout=subprocess.PIPE
        ) as process:
            assert process.stdout
            process.stdout.readline()
            self.assertEqual(len(list(place.iterdir())), 1)
            process.terminate()
            self.assertEqual(process.wait(60), 143)
        self.assertEqual(list(place.iterdir()), [])


class Libraries(Room):
    """The libraries that sessions run over."""

    def test_libraries_that_are_kept(self) -> None:
        for young, old, left in ((MOST_KEPT + 2, 2, MOST_KEPT + 2), (1, MOST_KEPT, MOST_KEPT)):
            kept = self.room / str(young)
            ages = [IN_USE * it / 10 for it in range(young)] + [IN_USE + 60 * it for it in range(1, old + 1)]
            for number, age in enumerate(ages):
                (kept / f"{number:032x}").mkdir(parents=True)
                os.utime(kept / f"{number:032x}", (time.time() - age,) * 2)
            (kept / "another").mkdir()
            drop_old(kept)
            wanted = sorted([*(f"{it:032x}" for it in range(left)), "another"])
            self.assertEqual(sorted(it.name for it in kept.iterdir()), wanted)


def random_commands(count: int) -> list[str]:
    """Commands that a view looks at, of any length, most with a body that fits."""
    chance, found = random.Random(7), []
    for _ in range(count):
        size = chance.choice([1, 3, 4, 5, 6, 7, 8, 12, 20, 60, 200, 261])
        it = bytearray(chance.randbytes(size))
        it[:1] = chance.choice([b"\x00", b"\x00", b"\x80"])
        it[1:2] = chance.choice([b"\xa4", b"\xa4", b"\xf2", b"\xc0", b"\xb2", b"\x20", b"\xa2", b"\x32", b"\xaa"])[
            : size - 1
        ]
        it[2:4] = chance.choice([b"\0\4", b"\4\4", b"\x08\x04", b"\x09\x0c", b"\3\0", b"\2\1"])[: max(0, size - 2)]
        it[4:5] = bytes([(size - 5) & 0xFF])[: max(0, size - 4)]
        if size > 6:
            it[5:7] = chance.choice([b"\x7f\xff", b"\x3f\0", b"\x7f\x10", b"\xa0\0", b"\x2f\0", b"\x7f\xf0"])
        found.append(it.hex())
    return found


def matches(wanted: str, answer: str) -> bool:
    """Whether an answer is as wanted; * stands for any digits."""
    return re.fullmatch(re.escape(wanted).replace(r"\*", ".*"), answer) is not None
