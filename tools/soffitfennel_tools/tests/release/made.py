"""Tests of a release's files: equal bytes, names, sums, papers, packages, wheel and crate."""
from __future__ import annotations

import hashlib
import json
import os
import re
import shutil
import sys
import tarfile
import unittest
import zipfile

from ...releasing import debian, papers
from .common import ICCID, TOP, clean, one, releases, room_of, run

# what is in every release, with V in place of the version
NAMES = {"PROOF-V.txt", "SHA256SUMS", "libsoffitfennel-dev_V_amd64.deb", "libsoffitfennel1_V_amd64.deb",
         "soffitfennel-V-linux-x86_64.tar.gz", "soffitfennel-V.crate", "soffitfennel-V.html",
         "soffitfennel-V.spdx.json", "soffitfennel-V.whl", "libifd-soffitfennel_V_amd64.deb",
         "soffitfennel_V_amd64.deb"}
VERSION = r"\d+\.\d+\.\d+(?:[-~.]dev0?)?(?:[+~]unproved)?(?:-1)?"


class Files(unittest.TestCase):
    """The files of a release."""

    def test_equal_bytes(self) -> None:
        first, second, *_ = releases()
        names = sorted(it.name for it in first.iterdir())
        self.assertEqual(names, sorted(it.name for it in second.iterdir()))
        for name in names:
            self.assertEqual((first / name).read_bytes(), (second / name).read_bytes(), name)

    def test_names(self) -> None:
        found = {it.name for it in releases().first.iterdir()}
        self.assertEqual({re.sub(r"-py3.*\.whl", ".whl", re.sub(VERSION, "V", it)) for it in found}, NAMES)
        if not releases().is_proved:
            for it in found - {"SHA256SUMS"}:
                self.assertIn("unproved", it)

    def test_sums(self) -> None:
        out = releases().first
        came = run("sh", "-c", 'cd "$0" && sha256sum --strict --check --quiet SHA256SUMS && wc -l <SHA256SUMS', out)
        self.assertEqual((came.returncode, came.stdout.strip()), (0, str(len(NAMES) - 1)), came.stderr)

    def test_proof(self) -> None:
        text, is_proved = one("PROOF-*.txt").read_text(encoding="utf-8"), releases().is_proved
        self.assertEqual("NOTHING IN IT IS PROVED" in text, not is_proved)
        self.assertEqual("Theorems" in text, is_proved)
        with tarfile.open(one("*.tar.gz")) as archive:
            for name in papers.PROGRAMS:
                (member,) = (it for it in archive.getmembers() if it.name.endswith(f"/programs/{name}"))
                file = archive.extractfile(member)
                assert file
                wanted = f"{hashlib.sha256(file.read()).hexdigest()}  /usr/lib/soffitfennel/programs/{name}\n"
                self.assertIn(wanted, text)

    def test_commands_of_proof(self) -> None:
        named = re.findall(r"(?:tools|web)/[\w./-]+\b|\./bench", papers.CHECK)
        self.assertGreater(len(named), 4)
        for path in named:
            self.assertTrue((TOP / path).exists(), path)

    def test_theorems(self) -> None:
        text = papers.theorems()
        self.assertIn("\n- Headline. A card is found at entry", text)
        self.assertIn("\n  carried by Bench::play (runs)\n", text)
        rows = re.findall(r"^\| (?!theorem|---).*`", (TOP / "docs/PROMISES.md").read_text(encoding="utf-8"), re.M)
        self.assertGreater(text.count("\n  carried by "), len(rows) // 2)
        self.assertNotRegex(text, r"\]\(|`|\*\*")

    def test_spdx(self) -> None:
        document = json.loads(one("*.spdx.json").read_text(encoding="utf-8"))
        self.assertEqual((document["spdxVersion"], document["dataLicense"]), ("SPDX-2.3", "CC0-1.0"))
        listed = {it["fileName"]: it["checksums"][1]["checksumValue"] for it in document["files"]}
        with tarfile.open(one("*.tar.gz")) as archive:
            held = {}
            for it in archive.getmembers():
                if it.isfile() and (file := archive.extractfile(it)):
                    held[f"./{it.name.partition('/')[2]}"] = hashlib.sha256(file.read()).hexdigest()
        self.assertEqual(listed, held)
        identifiers = [it["SPDXID"] for it in document["files"] + document["packages"]]
        self.assertEqual(len(identifiers), len(set(identifiers)))

    def test_modes_and_owners(self) -> None:
        for pattern in ("*.tar.gz", "*.crate"):
            with tarfile.open(one(pattern)) as archive:
                members = archive.getmembers()
            self.assertEqual({(it.uid, it.gid, it.uname) for it in members}, {(0, 0, "root")})
            self.assertEqual(len({it.mtime for it in members}), 1)
            self.assertFalse([it.name for it in members if it.isfile() and it.mode not in (0o644, 0o755)])

    def test_no_developers_tools(self) -> None:
        with tarfile.open(one("*.tar.gz")) as archive:
            names = [it.name.rpartition("/tools/")[2] for it in archive.getmembers() if "/tools/" in it.name]
        self.assertIn("card", names)
        self.assertFalse([it for it in names if it.startswith(("test-", "release", "prove")) or "_testing" in it])

    def test_no_names_of_this_machine(self) -> None:
        for path in releases().first.iterdir():
            self.assertNotIn(str(TOP).encode(), path.read_bytes(), path.name)


class Packages(unittest.TestCase):
    """The Debian packages."""

    def test_lintian(self) -> None:
        if not shutil.which("lintian"):
            self.skipTest("lintian isn't installed")
        came = run("lintian", "--allow-root", "--fail-on", "error,warning", *sorted(releases().first.glob("*.deb")))
        self.assertEqual((came.returncode, came.stdout), (0, ""))

    def test_versions(self) -> None:
        for one_version, other in (("0.1.0", "0.2.0-dev+unproved"), ("0.2.0-dev+unproved", "0.2.0-dev"),
                                   ("0.2.0-dev", "0.2.0+unproved"), ("0.2.0+unproved", "0.2.0")):
            words = [debian.deb_version(one_version), "lt", debian.deb_version(other)]
            self.assertEqual(run("dpkg", "--compare-versions", *words).returncode, 0, words)

    def test_overrides_have_reasons(self) -> None:
        for it in debian.PACKAGES:
            for tag, why in it.overrides.items():
                self.assertGreater(len(why.split()), 4, tag)


class Bindings(unittest.TestCase):
    """Wheel and crate bring the library with them."""

    def test_wheel(self) -> None:
        room, wheel = room_of(self), one("*.whl")
        words = ["-m", "pip", "--disable-pip-version-check", "install", "--quiet", "--no-index"]
        if run(sys.executable, "-m", "pip", "--version").returncode:
            self.skipTest("there is no pip")
        came = run(sys.executable, *words, "--target", room / "lib", wheel)
        self.assertEqual(came.returncode, 0, came.stderr)
        env = clean(os.environ["PATH"], PYTHONPATH=str(room / "lib"))
        # (beside its own folder python would look for the package there first)
        example = shutil.copy(TOP / "bindings/python/card.py", room)
        came = run(sys.executable, "-B", example, env=env)
        self.assertEqual((came.returncode, came.stdout.strip()), (0, ICCID), came.stderr)

    def test_record(self) -> None:
        with zipfile.ZipFile(one("*.whl")) as archive:
            names = archive.namelist()
            (record,) = (it for it in names if it.endswith("/RECORD"))
            listed = [it.split(",")[0] for it in archive.read(record).decode().splitlines()]
            tag = re.search(r"Tag: (.*)", archive.read(record.replace("RECORD", "WHEEL")).decode())
        self.assertEqual(listed, names)
        assert tag
        self.assertTrue(one("*.whl").name.endswith(f"-{tag[1]}.whl"), tag[1])

    def test_crate(self) -> None:
        if not shutil.which("cargo"):
            self.skipTest("there is no cargo")
        room = room_of(self)
        with tarfile.open(one("*.crate")) as archive:
            archive.extractall(room)
        (folder,) = room.iterdir()
        env = {**os.environ, "CARGO_TARGET_DIR": str(room / "target")}
        env.pop("SOFFITFENNEL_LIB", None)
        words = ["--offline", "--quiet", "--manifest-path", folder / "Cargo.toml"]
        came = run("cargo", "run", *words, "--example", "card", env=env)
        self.assertEqual((came.returncode, came.stdout.strip()), (0, ICCID), came.stderr)
        (folder / "lib/libsoffitfennel.a").unlink()
        came = run("cargo", "build", *words, env={**env, "CARGO_TARGET_DIR": str(room / "other")})
        self.assertIn("there is no libsoffitfennel.a in", came.stderr)


class Page(unittest.TestCase):
    """The page is one file."""

    def test_page(self) -> None:
        text = one("*.html").read_text(encoding="utf-8")
        self.assertTrue(text.lower().startswith("<!doctype html>"))
        self.assertEqual(re.findall(r'<(?:script|link|img)[^>]* (?:src|href)="(?!data:)[^"]*', text), [])
