"""Debian packages, by dpkg-deb."""
from __future__ import annotations

import gzip
import hashlib
import os
import re
import shutil
import time
from dataclasses import dataclass, field
from pathlib import Path

from .archives import glibc, members
from .building import run
from .layout import ZSH, write
from .tree import TOP, maker

LIBDIR = "/usr/lib/x86_64-linux-gnu"
CARDS = Path("var/lib/soffitfennel")
RUNTIME = "libsoffitfennel1"
COPYRIGHT = """Format: https://www.debian.org/doc/packaging-manuals/copyright-format/1.0/
Upstream-Name: Soffitfennel

Files: *
Copyright: 2026 The Soffitfennel authors
License: Apache-2.0 or MIT

License: Apache-2.0
 On Debian systems, the text of this license is in /usr/share/common-licenses/Apache-2.0.

License: MIT
{mit}
"""
# (dpkg-deb compresses; more threads would give other bytes)
PACK = ["dpkg-deb", "--root-owner-group", "-Zxz", "-z6", "--threads-max=1", "--build"]
PROVED_BYTES = "the bytes are those that were built and stored with the proof, so nothing is stripped"


@dataclass(frozen=True)
class Package:
    """A package: what it is for, what it needs, and which files are its own."""

    name: str
    section: str
    about: str
    more: str
    own: str
    needs: tuple[str, ...] = ()
    fields: dict[str, str] = field(default_factory=dict)
    overrides: dict[str, str] = field(default_factory=dict)


PACKAGES = (
    Package(
        RUNTIME, "libs", "smart card whose memory may lose power at any write",
        "The operating core of a smart card (ISO/IEC 7816-4 and 7816-9, ETSI TS 102 221,\n"
        " T=1) as a shared library: a card in memory or in a file.",
        r".*/libsoffitfennel\.so\.1", fields={"Multi-Arch": "same"},
        overrides={"unstripped-binary-or-object": PROVED_BYTES},
    ),
    Package(
        "libsoffitfennel-dev", "libdevel", "smart card in C - development files",
        "The header, the static library and the pkg-config file of libsoffitfennel1, for\n"
        " programs in C and C++ that hold a card in memory, in a file or on a device.",
        r"usr/include/.*|usr/lib/[^/]*/(libsoffitfennel\.(a|so)|pkgconfig/.*)", (f"{RUNTIME} (= {{version}})",),
    ),
    Package(
        "libifd-soffitfennel", "utils", "smart card in a file, behind a PC/SC reader",
        "A reader driver for pcscd. Its card is in the file\n"
        " /var/lib/soffitfennel/card.image, which stays when the package goes.",
        r"usr/lib/pcsc/.*|etc/.*|var/.*", ("pcscd",),
        overrides={"non-standard-dir-perm": "the folder holds cards with PINs in plain bytes",
                   "unstripped-binary-or-object": PROVED_BYTES},
    ),
    Package(
        "soffitfennel", "utils", "bench for a smart card that may lose power at any write",
        "A smart card (ISO/IEC 7816-4 and 7816-9, ETSI TS 102 221, T=1) that runs\n"
        " scripts and tests, keeps its memory in a file, and loses power at chosen\n"
        " writes. Tools sweep commands by cuts, issue cards, and give PC/SC programs a\n"
        " card.",
        r".*", ("python3 (>= 3.11)",), {"Suggests": "libifd-soffitfennel, vsmartcard-vpcd, python3-pyscard, rustc"},
        {"unstripped-binary-or-object": PROVED_BYTES, "hardening-no-fortify-functions": PROVED_BYTES,
         "package-contains-documentation-outside-usr-share-doc": "card.html is the card as a program for browsers"},
    ),
)


def deb_version(label: str) -> str:
    """A version as Debian orders it: what comes before a release has a tilde."""
    return label.replace("-dev", "~dev").replace("+unproved", "~unproved") + "-1"


def own_files(stage: Path, package: Package, taken: set[Path]) -> list[Path]:
    """The files of a package, which no other one has taken."""
    found = [it for it in members(stage) if not it.is_dir() or it.is_symlink() or it.relative_to(stage) == CARDS]
    return [it for it in found if it not in taken and re.fullmatch(package.own, str(it.relative_to(stage)))]


def move(stage: Path, root: Path, paths: list[Path]) -> None:
    """Moves files to the root of their package."""
    for path in paths:
        to = root / path.relative_to(stage)
        to.parent.mkdir(parents=True, exist_ok=True)
        shutil.move(path, to)


def squeeze(path: Path) -> None:
    """Compresses a file, as Debian has its manual pages and changelogs."""
    path.with_name(f"{path.name}.gz").write_bytes(gzip.compress(path.read_bytes(), 9, mtime=0))
    path.with_name(f"{path.name}.gz").chmod(0o644)
    path.unlink()


def add_papers(root: Path, package: Package, version: str, epoch: int) -> None:
    """Copyright, changelogs, and lintian's overrides with their reasons."""
    documents = root / "usr/share/doc" / package.name
    text = (TOP / "LICENSE-MIT").read_text(encoding="utf-8").strip()
    mit = "\n".join(f" {it}" if it.strip() else " ." for it in text.splitlines())
    write(documents / "copyright", COPYRIGHT.format(mit=mit))
    date = time.strftime("%a, %d %b %Y %H:%M:%S +0000", time.gmtime(epoch))
    entry = f"soffitfennel ({version}) unstable; urgency=medium\n\n  * A release by its makers.\n"
    write(documents / "changelog.Debian", f"{entry}\n -- {maker()}  {date}\n")
    write(documents / "changelog", (TOP / "CHANGELOG.md").read_text(encoding="utf-8"))
    for it in [documents / "changelog.Debian", documents / "changelog", *root.glob("usr/share/man/man1/*.1")]:
        squeeze(it)
    overrides = {"initial-upload-closes-no-bugs": "the package is not made for Debian's archive"} | package.overrides
    lines = [f"# {why}\n{package.name}: {tag}\n" for tag, why in overrides.items()]
    write(root / "usr/share/lintian/overrides" / package.name, "".join(lines))


def system(root: Path) -> str:
    """The oldest libc6 that the package's programs take."""
    elves = [it for it in members(root) if it.is_file() and not it.is_symlink() and it.read_bytes()[:4] == b"\x7fELF"]
    return ".".join(map(str, max(map(glibc, elves)))) if elves else ""


def control(root: Path, package: Package, version: str) -> str:
    """The package's control file."""
    libc = system(root)
    needs = [f"libc6 (>= {libc})"] if libc else []
    needs += [it.format(version=version) for it in package.needs]
    size = sum(it.stat().st_size for it in members(root) if it.is_file() and not it.is_symlink())
    facts = {"Package": package.name, "Source": "soffitfennel", "Version": version, "Architecture": "amd64",
             "Maintainer": maker(), "Installed-Size": str(size // 1024 + 1), "Depends": ", ".join(needs),
             **package.fields, "Section": package.section, "Priority": "optional",
             "Description": f"{package.about}\n {package.more}"}
    if package.name == "soffitfennel":
        del facts["Source"]
    return "".join(f"{name}: {it}\n" for name, it in facts.items())


def add_control(root: Path, package: Package, version: str) -> None:
    """The folder DEBIAN."""
    own = root / "DEBIAN"
    paths = [it for it in members(root) if it.is_file() and not it.is_symlink()]
    write(own / "control", control(root, package, version))
    sums = [f"{hashlib.md5(it.read_bytes()).hexdigest()}  {it.relative_to(root)}\n" for it in paths
            if it.relative_to(root).parts[0] != "etc"]
    write(own / "md5sums", "".join(sums))
    kept = [f"/{it.relative_to(root)}\n" for it in paths if it.relative_to(root).parts[0] == "etc"]
    if kept:
        write(own / "conffiles", "".join(kept))
    if package.name == RUNTIME:
        write(own / "shlibs", f"libsoffitfennel 1 {RUNTIME} (>= {version})\n")
        write(own / "triggers", "activate-noawait ldconfig\n")


def date_all(root: Path, epoch: int) -> None:
    """Gives all files and folders one time, and the modes that they have for everybody; whatever this user's are."""
    for it in [root, *members(root)]:
        if not it.is_symlink():
            is_open = it.is_dir() or bool(it.stat().st_mode & 0o100)
            it.chmod(0o700 if it.relative_to(root) == CARDS else 0o755 if is_open else 0o644)
        os.utime(it, (epoch, epoch), follow_symlinks=False)


def package_all(stage: Path, out: Path, label: str, room: Path, epoch: int) -> None:
    """Makes the packages of a stage."""
    version, taken = deb_version(label), set[Path]()
    # (Debian's zsh looks there)
    (stage / "usr" / ZSH).rename(stage / "usr" / ZSH.replace("site-functions", "vendor-completions"))
    for package in PACKAGES:
        root, paths = room / package.name, own_files(stage, package, taken)
        taken.update(paths)
        root.mkdir(parents=True)
        move(stage, root, paths)
        add_papers(root, package, version, epoch)
        for it in members(root):
            if ".so" in it.name and not it.is_symlink():
                it.chmod(0o644)
        add_control(root, package, version)
        date_all(root, epoch)
        run("env", f"SOURCE_DATE_EPOCH={epoch}", *PACK, root, out / f"{package.name}_{version}_amd64.deb")
