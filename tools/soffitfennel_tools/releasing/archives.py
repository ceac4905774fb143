"""Archives whose bytes depend on their files alone: tar, wheel, crate."""
from __future__ import annotations

import base64
import gzip
import hashlib
import io
import os
import re
import tarfile
import time
import zipfile
from collections.abc import Callable
from pathlib import Path

from .layout import copy
from .tree import TOP, files

SHARED = "libsoffitfennel.so.1"
EARLIEST = 315_532_800  # (no file of a zip archive is older than 1980)
WHEEL = """Wheel-Version: 1.0
Generator: soffitfennel
Root-Is-Purelib: false
Tag: {tag}
"""
METADATA = """Metadata-Version: 2.1
Name: soffitfennel
Version: {version}
Summary: The smart card of Soffitfennel, by its C library
License: MIT OR Apache-2.0
Requires-Python: >=3.9
"""


def members(folder: Path) -> list[Path]:
    """All that is in a folder, in an order of its own."""
    return sorted(folder.rglob("*"), key=lambda it: it.relative_to(folder).parts)


def tar(folder: Path, top: str, epoch: int) -> bytes:
    """A compressed tar archive of a folder, whose members are below `top`."""
    held = io.BytesIO()
    with tarfile.open(fileobj=held, mode="w", format=tarfile.GNU_FORMAT) as archive:
        for path in members(folder):
            archive.add(path, f"{top}/{path.relative_to(folder)}", recursive=False, filter=plain(epoch))
    return gzip.compress(held.getvalue(), 9, mtime=epoch)


def plain(epoch: int) -> Callable[[tarfile.TarInfo], tarfile.TarInfo]:
    """What makes a member the same on each machine."""

    def change(it: tarfile.TarInfo) -> tarfile.TarInfo:
        it.uid = it.gid = 0
        it.uname = it.gname = "root"
        it.mtime = epoch
        it.mode = 0o755 if it.isdir() or it.mode & 0o100 else 0o644
        return it

    return change


def glibc(path: Path) -> tuple[int, int]:
    """The oldest version of glibc that a program or a library takes."""
    found = re.findall(rb"GLIBC_(\d+)\.(\d+)", path.read_bytes())
    return max((int(first), int(second)) for first, second in found)


def wheel_version(label: str) -> str:
    """A version as Python writes it."""
    number, _, unproved = label.partition("+")
    return number.replace("-dev", ".dev0") + (f"+{unproved}" if unproved else "")


def wheel_name(label: str, library: Path) -> str:
    """The name of the wheel, with the oldest system that takes it."""
    first, second = max(glibc(library / SHARED), (2, 17))
    return f"soffitfennel-{wheel_version(label)}-py3-none-manylinux_{first}_{second}_x86_64.whl"


def wheel(label: str, library: Path, epoch: int) -> tuple[str, bytes]:
    """The wheel: the package of bindings/python with the shared library in it."""
    name, package = wheel_name(label, library), TOP / "bindings" / "python"
    about = f"soffitfennel-{wheel_version(label)}.dist-info"
    held = {str(it.relative_to(package)): it.read_bytes() for it in files("bindings/python/soffitfennel")}
    held[f"soffitfennel/{SHARED}"] = (library / SHARED).read_bytes()
    held[f"{about}/METADATA"] = METADATA.format(version=wheel_version(label)).encode()
    held[f"{about}/WHEEL"] = WHEEL.format(tag="-".join(name.removesuffix(".whl").split("-")[-3:])).encode()
    for it in ("LICENSE-APACHE", "LICENSE-MIT"):
        held[f"{about}/{it}"] = (TOP / it).read_bytes()
    record = f"{about}/RECORD"
    lines = [f"{it},{digest(data)},{len(data)}\n" for it, data in held.items()]
    held[record] = "".join([*lines, f"{record},,\n"]).encode()
    return name, zipped(held, epoch)


def digest(data: bytes) -> str:
    """A sum as a wheel's RECORD has it."""
    return "sha256=" + base64.urlsafe_b64encode(hashlib.sha256(data).digest()).decode().rstrip("=")


def zipped(held: dict[str, bytes], epoch: int) -> bytes:
    """A zip archive."""
    packed = io.BytesIO()
    with zipfile.ZipFile(packed, "w", zipfile.ZIP_DEFLATED, compresslevel=9) as archive:
        for name, data in held.items():
            it = zipfile.ZipInfo(name, time.gmtime(max(epoch, EARLIEST))[:6])
            it.compress_type, it.create_system = zipfile.ZIP_DEFLATED, 3
            it.external_attr = (0o100755 if name.endswith(SHARED) else 0o100644) << 16
            archive.writestr(it, data)
    return packed.getvalue()


def crate(label: str, library: Path, room: Path, epoch: int) -> tuple[str, bytes]:
    """The crate: bindings/rust with the archive of the library in its folder lib."""
    top, package = f"soffitfennel-{label}", TOP / "bindings" / "rust"
    for it in files("bindings/rust"):
        copy(it, room / it.relative_to(package))
    for it in (TOP / "LICENSE-APACHE", TOP / "LICENSE-MIT"):
        copy(it, room / it.name)
    copy(library / "libsoffitfennel.a", room / "lib" / "libsoffitfennel.a")
    return f"{top}.crate", tar(room, top, epoch)


def prefix_tar(folder: Path, label: str, epoch: int) -> tuple[str, bytes]:
    """The archive for other systems: to be unpacked below any prefix, where pkg-config finds the library."""
    configured = folder / "lib/pkgconfig/soffitfennel.pc"
    text = re.sub(r"^prefix=.*$", "prefix=${pcfiledir}/../..", configured.read_text(encoding="utf-8"), flags=re.M)
    text = re.sub(r"^libdir=.*$", "libdir=${prefix}/lib", text, flags=re.M)
    configured.write_text(text, encoding="utf-8")
    os.chmod(configured, 0o644)
    top = f"soffitfennel-{label}-linux-x86_64"
    return f"{top}.tar.gz", tar(folder, top, epoch)
