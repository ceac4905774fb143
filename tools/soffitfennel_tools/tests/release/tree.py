"""Tests of the tree: one version, and command lines, manual pages and completion of one source."""
from __future__ import annotations

import os
import re
import shutil
import sys
import unittest
from pathlib import Path

from ...arguments import commands as names_of_commands
from ...git_environment import without_git
from ...releasing import building, commands, completion, layout, manuals
from ...releasing.tree import Refused, version
from ..small_disk import NO_DISK, small_disk
from .common import RELEASE, TOP, room_of, run

NUMBER = r"(\d+\.\d+\.\d+)"
# who states the version's number, and how
PLACES = {
    "include/soffitfennel.h": rf'define SOFFITFENNEL_VERSION "{NUMBER}"',
    "bindings/rust/Cargo.toml": rf'(?m)^version = "{NUMBER}"$',
    "bindings/rust/Cargo.lock": rf'name = "soffitfennel"\nversion = "{NUMBER}"',
    "bindings/python/soffitfennel/__init__.py": rf'__version__ = "{NUMBER}"',
}
COMPLETE = """. "$1"
COMP_WORDS=("$2" "$3") COMP_CWORD=1
_soffitfennel
printf '%s\\n' "${COMPREPLY[@]}"
"""


class Versions(unittest.TestCase):
    """The version stands in tools/words/version; all other places agree."""

    def test_places(self) -> None:
        for path, pattern in PLACES.items():
            found = re.search(pattern, (TOP / path).read_text(encoding="utf-8"))
            self.assertEqual(found and found[1], version().removesuffix("-dev"), path)

    def test_header_numbers(self) -> None:
        header = (TOP / "include/soffitfennel.h").read_text(encoding="utf-8")
        found = [re.search(rf"VERSION_{it} (\d+)$", header, re.M) for it in ("MAJOR", "MINOR", "PATCH")]
        self.assertEqual(".".join(it[1] for it in found if it), version().removesuffix("-dev"))

    def test_changelog(self) -> None:
        heads = re.findall(r"^## (.*)$", (TOP / "CHANGELOG.md").read_text(encoding="utf-8"), re.M)
        first = r"Next" if version().endswith("-dev") else rf"{re.escape(version())} \(\d{{4}}-\d\d-\d\d\)"
        self.assertRegex(heads[0], rf"\A{first}\Z")
        for head in heads[1:]:
            self.assertRegex(head, rf"\A{NUMBER} \(\d{{4}}-\d\d-\d\d\)\Z")

    def test_tool(self) -> None:
        self.assertEqual(run(RELEASE, "--version").stdout, f"release (Soffitfennel) {version()}\n")


class Helps(unittest.TestCase):
    """Manual pages and completion hold all that --help lists."""

    texts: dict[str, str]
    told: list[commands.Command]

    @classmethod
    def setUpClass(cls) -> None:
        paths = {f"soffitfennel-{it}": TOP / "tools" / it for it in names_of_commands()}
        paths["soffitfennel"] = TOP / "bench"
        cls.texts = {name: commands.help_of(path, name) for name, path in paths.items()}
        cls.told = [commands.read(name, text) for name, text in cls.texts.items()]

    def test_all_options(self) -> None:
        for it in self.told:
            listed = re.findall(r"^  (-[^\s,]+)(?:, (--[a-z-]+))?", self.texts[it.name], re.M)
            wanted = {name for names in listed for name in names if name}
            self.assertLessEqual(wanted, set(completion.flags(it)), it.name)
            self.assertIn("--version", completion.flags(it), it.name)

    def test_words_that_options_take(self) -> None:
        takes = {(it.name, name): option.takes for it in self.told for option in it.options for name in option.flags}
        self.assertEqual(takes["soffitfennel", "--card"], "FILE")
        self.assertEqual(takes["soffitfennel", "--sync"], "")
        self.assertEqual(takes["soffitfennel-card", "--diff"], "A B")
        self.assertEqual(takes["soffitfennel-sweep", "--only"], "LINE,..")
        self.assertEqual(takes["soffitfennel-sweep", "-q"], "")

    def test_bash(self) -> None:
        room = room_of(self)
        (room / "it").write_text(completion.bash(self.told), encoding="utf-8")
        for name, begun, wanted in (("soffitfennel", "--ex", "--explain"),
                                    ("/usr/bin/soffitfennel-card", "--di", "--diff"),
                                    ("soffitfennel-card", "--explain", "")):
            came = run("bash", "-c", COMPLETE, "bash", room / "it", name, begun)
            self.assertEqual((came.stdout.strip(), came.stderr), (wanted, ""), name)

    def test_zsh(self) -> None:
        self.check_shell("zsh", completion.zsh(self.told))

    def test_fish(self) -> None:
        self.check_shell("fish", "".join(map(completion.fish, self.told)))
        ran = run("fish", "--no-config", "-c", f"{completion.fish(self.told[-1])}\ncomplete -C 'soffitfennel --ex'")
        self.assertTrue(ran.stdout.startswith("--explain\tputs a few words"), ran.stdout + ran.stderr)

    def check_shell(self, shell: str, text: str) -> None:
        """The shell reads the text without a word."""
        if not shutil.which(shell):
            self.skipTest(f"{shell} isn't installed")
        path = room_of(self) / "it"
        path.write_text(text, encoding="utf-8")
        came = run(shell, "-n", path)
        self.assertEqual((came.returncode, came.stderr), (0, ""))

    def test_manuals(self) -> None:
        for it in self.told:
            page = manuals.page(it, "does it", "1.2.3", ["other"])
            for flag in completion.flags(it):
                self.assertIn(manuals.roff(flag), page, it.name)
            heads = re.findall(r"^\.SH (.*)$", page, re.M)
            self.assertEqual(heads[:3], ["NAME", "SYNOPSIS", "DESCRIPTION"], it.name)
            self.assertEqual(len(heads), len(set(heads)), it.name)
            self.assertNotRegex(page, r"(?m)^'", it.name)


class Layout(unittest.TestCase):
    """What is installed."""

    def test_every_command(self) -> None:
        found = {it.name for it in (TOP / "tools").iterdir() if it.is_file() and os.access(it, os.X_OK)}
        # (the wrapper and the tools start it; a user does not)
        self.assertEqual(found - set(layout.DEVELOPERS) - {"program"}, set(names_of_commands()))

    def test_an_older_version_goes(self) -> None:
        prefix = room_of(self)
        old = [prefix / it for it in ("lib/soffitfennel/tools/old", "share/doc/soffitfennel/OLD", "bin/soffitfennel")]
        others = [prefix / it for it in ("lib/other", "bin/other", "share/doc/other/README")]
        for it in old + others:
            it.parent.mkdir(parents=True, exist_ok=True)
            it.write_text("x", encoding="utf-8")
        layout.uninstall(prefix)
        self.assertEqual([it.exists() for it in old + others], [False] * 3 + [True] * 3)


class Refusals(unittest.TestCase):
    """tools/release says in one line why it makes no release, and leaves nothing."""

    def refused(self, status: int, why: str, *words: object, top: Path = TOP, **env: str) -> None:
        """The release is refused."""
        room = room_of(self)
        came = run(top / "tools" / "release", *words, room / "out", env={**os.environ, **env})
        self.assertEqual((came.returncode, came.stdout), (status, ""), came.stderr)
        self.assertRegex(came.stderr, rf"\A(tools/)?release: (error: )?[^\n]*{why}[^\n]*\n\Z")
        self.assertEqual(list(room.iterdir()), [])

    def clone(self) -> Path:
        """A clone of this tree's commit with its files."""
        copy = room_of(self) / "clone"
        listed = run("git", "-C", TOP, "ls-files", "-co", "--exclude-standard", "-z").stdout
        for name in listed.split("\0"):
            if name and (TOP / name).is_file():
                (copy / name).parent.mkdir(parents=True, exist_ok=True)
                shutil.copy2(TOP / name, copy / name, follow_symlinks=False)
        git = ["git", "-C", copy, "-c", "user.name=A", "-c", "user.email=a@b.example", "-c", "commit.gpgsign=false"]
        for words in (["init", "-q"], ["add", "-A"], ["commit", "-qm", "all"]):
            self.assertEqual(run(*git, *words, env=without_git()).returncode, 0)
        return copy

    def test_command_lines(self) -> None:
        room = room_of(self)
        for words, why in (((room,), "is there and stays as it is"), ((room / "a" / "b",), "there is no folder"),
                           ((), "give OUT"), ((room / "a", "--install", room), "give OUT"),
                           (("--al", room), "unrecognized")):
            came = run(RELEASE, *words)
            self.assertEqual((came.returncode, came.stdout), (2, ""), came.stderr)
            self.assertRegex(came.stderr, rf"\Atools/release: error: [^\n]*{why}[^\n]*\n\Z")
        self.assertEqual(list(room.iterdir()), [])

    def test_a_time_that_is_none(self) -> None:
        self.refused(1, "SOURCE_DATE_EPOCH", "--unproved", SOURCE_DATE_EPOCH="yesterday")

    def test_want_of_a_compiler(self) -> None:
        room = room_of(self)
        for name in ("bash", "git", "env", "make"):
            (room / name).symlink_to(shutil.which(name) or "/nonexistent")
        (room / "python3").symlink_to(sys.executable)
        self.refused(1, "needs Debian's .*gcc", "--unproved", PATH=str(room))

    def test_a_small_disk(self) -> None:
        # (the page has no room, then a program)
        for kibibytes, why in ((400, r"page ended with status 4: [^\n]*"), (6000, r"{disk}/\.release-[^\n]*")):
            with small_disk(kibibytes) as disk:
                if disk is None:
                    self.skipTest(NO_DISK)
                came = run(RELEASE, "--unproved", disk / "out")
                if "a release needs Debian's" in came.stderr:
                    self.skipTest(came.stderr.strip())
                self.assertEqual((came.returncode, came.stdout), (4, ""), came.stderr)
                wanted = rf"\Atools/release: {why.format(disk=disk)} can't be written: No space left on device\n\Z"
                self.assertRegex(came.stderr, wanted)
                self.assertEqual(list(disk.iterdir()), [])

    def test_no_proof(self) -> None:
        top = self.clone()
        self.refused(1, r"bench_cli isn't proved and built here; \./bench --prove does it", top=top)
        (top / "README.md").write_text("changed\n", encoding="utf-8")
        self.refused(1, "the tree differs from its commit", top=top)

    def test_a_program_that_is_another_one(self) -> None:
        if not shutil.which("rt"):
            self.skipTest("the toolchain isn't on the path")
        top = self.clone()
        made = top / "crates/bench_cli/out/bench_cli"
        made.parent.mkdir()
        shutil.copyfile("/bin/true", made)
        with made.open("ab") as file:
            file.write(b"rattle logic=")
        made.chmod(0o755)
        self.refused(1, "this program is not the one that was proved .*code", top=top)

    def test_a_page_that_is_another_one(self) -> None:
        room = room_of(self)
        (room / "card.wasm").write_bytes(b"\0asm")
        with self.assertRaisesRegex(Refused, "the page's module has not the sums"):
            building.check_page(room)
