"""Tests of an installation without toolchain and clone: README's session, tools, a program in C, a reader, removal."""
from __future__ import annotations

import os
import shutil
import subprocess
import tarfile
import tempfile
import unittest
from pathlib import Path

from ...arguments import commands
from ...releasing.tree import version
from .common import FIRST, ICCID, PLAIN_PATH, TOP, clean, one, releases, room_of, run

# the packages of a root that a new user has: README's, a compiler, pip, the reader's service, and a client of it
ROOT_PACKAGES = "python3,python3-pip,gcc,libc6-dev,pkg-config,pcscd,opensc,man-db,bash-completion"
# a client of the service that Debian starts, with the reader that the driver's package configures
SERVICE = """mkdir -p /run/pcscd; pcscd --foreground >/tmp/pcscd.log 2>&1 & service=$!
for i in $(seq 600); do [ -S /run/pcscd/pcscd.comm ] && break; sleep 0.1; done
for i in $(seq 600); do opensc-tool --reader 0 --atr 2>/dev/null && break; sleep 0.1; done
opensc-tool --reader 0 --send-apdu 00:A4:00:0C:02:2F:E2 | grep Received
kill $service; wait $service 2>/dev/null; true"""
SERVED = "3b:80:81:31:fe:45:8b\nReceived (SW1=0x90, SW2=0x00)\n"
CUT = "on\ncut 1 0001\napdu 002000010830303030FFFFFFFF\non\napdu 00200001\n"
AFTER_CUT = "atr 3B808131FE458B\ndark\natr 3B808131FE458B\n< 63C2\n"


class Prefix(unittest.TestCase):
    """The tar archive, unpacked below a prefix of its own."""

    room: Path

    @classmethod
    def setUpClass(cls) -> None:
        archive, place = one("*.tar.gz"), tempfile.TemporaryDirectory()
        cls.addClassCleanup(place.cleanup)
        with tarfile.open(archive) as packed:
            packed.extractall(place.name)
        (cls.room,) = Path(place.name).iterdir()

    def run_here(self, *words: object, text: str = "") -> str:
        """What an installed command prints."""
        came = run(*words, env=clean(f"{self.room}/bin:{PLAIN_PATH}"), text=text)
        self.assertEqual(came.returncode, 0, came.stderr)
        return came.stdout

    def test_session(self) -> None:
        script = self.room / "share/doc/soffitfennel/examples/first.script"
        self.assertEqual(self.run_here("soffitfennel", script), FIRST)
        self.assertEqual(self.run_here("soffitfennel", text=CUT), AFTER_CUT)
        self.assertIn("# READ BINARY 2FE2", self.run_here("soffitfennel", "--explain", script))

    def test_tools(self) -> None:
        card = room_of(self) / "my.card"
        documents = self.room / "share/doc/soffitfennel"
        self.run_here("soffitfennel-issue", documents / "examples/cards/identity.card", card)
        self.assertIn("in use", self.run_here("soffitfennel-card", card))
        self.assertEqual(card.stat().st_mode & 0o777, 0o600)
        sweep = documents / "examples/sweep/one_word.script"
        self.assertIn("write", self.run_here("soffitfennel-sweep", "-q", sweep))

    def test_sessions_of_clients(self) -> None:
        client = "import ctypes; print(ctypes.CDLL('libpcsclite.so.1').SCardIsValidContext(0) != 0)"
        came = self.run_here("soffitfennel-with-card", "--fresh", "--", "python3", "-c", client)
        self.assertEqual(came, "True\n")

    def test_names(self) -> None:
        for name in ["soffitfennel", *(f"soffitfennel-{it}" for it in commands())]:
            text = self.run_here(name, "--help")
            self.assertTrue(text.startswith(f"usage: {name} "), text[:80])
            self.assertNotRegex(text, rf"\./bench|tools/({'|'.join(commands())})\b")
            self.assertIn(f"(Soffitfennel) {version()}\n", self.run_here(name, "--version"))
            self.assertTrue((self.room / "share/man/man1" / f"{name}.1").is_file())

    def test_what_is_said_of_the_proof(self) -> None:
        state = "program: proved\n" if releases().is_proved else "program: not proved"
        self.assertIn(state, self.run_here("soffitfennel", "-V"))
        came = run("soffitfennel", text="off\n", env=clean(f"{self.room}/bin:{PLAIN_PATH}"))
        self.assertEqual(came.stderr != "", not releases().is_proved, came.stderr)

    def test_program_in_c(self) -> None:
        if not shutil.which("pkg-config"):
            self.skipTest("pkg-config isn't installed")
        words = ["pkg-config", "--cflags", "--libs", "soffitfennel"]
        found = run(*words, env={**os.environ, "PKG_CONFIG_PATH": str(self.room / "lib/pkgconfig")})
        self.assertEqual(found.returncode, 0, found.stderr)
        made = room_of(self) / "card"
        came = run("cc", TOP / "examples/c/card.c", *found.stdout.split(), "-o", made)
        self.assertEqual(came.returncode, 0, came.stderr)
        came = run(made, env=clean(PLAIN_PATH, LD_LIBRARY_PATH=str(self.room / "lib")))
        self.assertEqual(came.stdout, f"9000\n{ICCID}\n", came.stderr)


class MakeInstall(unittest.TestCase):
    """make install and make uninstall."""

    def test_install_and_uninstall(self) -> None:
        room = room_of(self)
        words = ["make", "--silent", "-C", TOP, f"DESTDIR={room}", "PREFIX=/opt/it", "LIBDIR=/opt/it/lib64"]
        came = run(*words, "install")
        self.assertEqual(came.returncode, 0, came.stderr)
        own = room / "opt/it"
        for name in ("bin/soffitfennel-sweep", "lib64/libsoffitfennel.so.1", "include/soffitfennel.h",
                     "lib64/pkgconfig/soffitfennel.pc", "share/man/man1/soffitfennel.1",
                     "share/soffitfennel/card.html"):
            self.assertTrue((own / name).is_file(), name)
        script = own / "share/doc/soffitfennel/examples/first.script"
        came = run(own / "bin/soffitfennel", script, env=clean(PLAIN_PATH))
        self.assertEqual(came.stdout, FIRST)
        came = run(*words, "uninstall")
        self.assertEqual(came.returncode, 0, came.stderr)
        self.assertEqual([it for it in room.rglob("*") if not it.is_dir()], [])


class CleanRoot(unittest.TestCase):
    """Debian in a folder, without toolchain and clone: the packages install, work, and go."""

    root: Path

    @classmethod
    def setUpClass(cls) -> None:
        releases()
        if os.geteuid() or not shutil.which("mmdebstrap") or run("unshare", "--mount", "true").returncode:
            raise unittest.SkipTest("a clean root takes root, mounts of its own, and Debian's mmdebstrap")
        place = tempfile.TemporaryDirectory(prefix="test-release-root-")
        cls.addClassCleanup(place.cleanup)
        cls.root = Path(place.name) / "root"
        # (a root that was made before saves minutes)
        if given := os.environ.get("SOFFITFENNEL_ROOT"):
            made = run("cp", "-a", given, cls.root)
        else:
            words = ["--quiet", "--variant=minbase", f"--include={ROOT_PACKAGES}"]
            made = run("mmdebstrap", *words, "bookworm", cls.root)
        if made.returncode:
            raise unittest.SkipTest(f"Debian's packages can't be had here: {made.stderr.strip().splitlines()[-1]}")
        for path in [*releases().first.iterdir(), TOP / "examples/c/card.c", TOP / "bindings/python/card.py"]:
            shutil.copy(path, cls.root / "tmp")

    def in_root(self, line: str) -> subprocess.CompletedProcess[str]:
        """Runs a line of a shell in the root, with /proc and /dev."""
        mounts = 'mount --rbind /proc "$0/proc" && mount --rbind /dev "$0/dev" && exec chroot "$0"'
        variables = f"PATH={PLAIN_PATH} HOME=/root LC_ALL=C.UTF-8 DEBIAN_FRONTEND=noninteractive"
        inner = f'{mounts} env -i {variables} sh -c "$1"'
        return run("unshare", "--mount", "sh", "-c", inner, self.root, f"cd /tmp; {line}")

    def says(self, line: str, wanted: str) -> None:
        """A line prints what is wanted, and ends with status 0."""
        came = self.in_root(line)
        self.assertEqual((came.returncode, came.stdout), (0, wanted), f"{line}\n{came.stderr}")

    def test_packages(self) -> None:
        came = self.in_root("apt-get install --yes /tmp/*.deb")
        self.assertEqual(came.returncode, 0, came.stdout + came.stderr)
        self.check_commands()
        self.check_library()
        self.check_proof()
        self.check_driver_and_removal()

    def check_commands(self) -> None:
        """README's session, tools, manual pages and completion."""
        self.says("command -v rt git cc1 | wc -l", "0\n")
        self.says("soffitfennel /usr/share/doc/soffitfennel/examples/first.script", FIRST)
        self.says(f"printf '{CUT}' | soffitfennel".replace("\n", "\\n"), AFTER_CUT)
        self.says("printf 'free\\n' | soffitfennel --card /tmp/my.card", "mute\n")
        self.says("soffitfennel-card /tmp/my.card | head -n 1", "memory   1,024 pages, format 2\n")
        self.says("man -w soffitfennel-sweep", "/usr/share/man/man1/soffitfennel-sweep.1.gz\n")
        line = ". /usr/share/bash-completion/completions/soffitfennel-card; complete -p soffitfennel-card"
        self.says(f"bash -c '{line}'", "complete -o default -F _soffitfennel soffitfennel-card\n")

    def check_library(self) -> None:
        """A program in C by pkg-config, and one in Python by the wheel."""
        self.says("cc card.c $(pkg-config --cflags --libs soffitfennel) -o card && ./card", f"9000\n{ICCID}\n")
        words = "--quiet --no-index --break-system-packages --root-user-action=ignore"
        came = self.in_root(f"pip install {words} /tmp/*.whl")
        self.assertEqual(came.returncode, 0, came.stderr)
        self.says("python3 card.py", f"{ICCID}\n")

    def check_proof(self) -> None:
        """The sums of the release, and of the installed program beside the PROOF file."""
        self.says("sha256sum --check --quiet SHA256SUMS", "")
        self.says("grep -c \"^$(sha256sum /usr/lib/soffitfennel/programs/bench_cli)\\$\" PROOF-*", "1\n")
        state = "program: proved" if releases().is_proved else "program: not proved: its release says so"
        self.says("soffitfennel --version | sed -n 3p", f"{state}\n")

    def check_driver_and_removal(self) -> None:
        """The service has the driver's reader, whose card is a private file. Cards stay when the packages go."""
        self.says("stat -c %a /var/lib/soffitfennel", "700\n")
        self.says("sed -n 's/^LIBPATH //p' /etc/reader.conf.d/soffitfennel | xargs stat -c %F", "regular file\n")
        self.says(SERVICE, SERVED)
        self.says("stat -c '%a %s' /var/lib/soffitfennel/card.image", "600 65536\n")
        self.says("cp my.card /var/lib/soffitfennel/card.image; sha256sum <my.card >before", "")
        came = self.in_root("apt-get purge --yes soffitfennel libifd-soffitfennel libsoffitfennel1 libsoffitfennel-dev")
        self.assertEqual(came.returncode, 0, came.stderr)
        self.says("sha256sum </var/lib/soffitfennel/card.image | cmp - before", "")
        self.says("find / -xdev -name '*soffitfennel*' -path '/usr/*' ! -path '*-packages/*'", "")
