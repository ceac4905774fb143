"""The parts of tools/chip and tools/port: what each refuses, and what a port holds."""
from __future__ import annotations

import os
import re
import stat
import subprocess
from collections.abc import Callable
from functools import partial

from ...chips import interface, stack
from ...chips.building import HEADER
from ...narrowing.building import TOP
from ...porting.writing import EXAMPLE, OWN, needed
from ...unproving.kit import Failed, Strange
from .building import Room

PORT, CHIP = TOP / "tools" / "port", TOP / "tools" / "chip"
# a module of three functions: b takes 8 bytes and calls c, which takes 16
ASSEMBLY = """
	.type	a,%function
a:
	push	{r7, lr}
	bl	"b::<x>"
	beq	.LBB0_1
	bl	memcpy
	pop	{r7, pc}
	.type	"b::<x>",%function
"b::<x>":
	b	c
	.type	c,%function
c:
	bx	lr
"""
USAGE = "m.ll:a\t32\tstatic\nm.ll:b::<x>\t8\tstatic\nm.ll:c\t16\tstatic\n"
# what is changed in them, and why there is no bound then
UNBOUND = (
    ("\tbx\tlr", "\tbl\ta", "calls itself"),
    ("\tbx\tlr", "\tb\tc", "calls itself"),
    ("\tbx\tlr", "\tblx\tr3", "calls by pointer"),
    ("\tbx\tlr", "\tbx\tr3", "calls by pointer"),
    ("\tbx\tlr", "\tmov\tpc, r3", "calls by pointer"),
    ("\tbx\tlr", "\tjr\ta2", "calls by pointer"),
    ("\tbx\tlr", "\tjalr\ta2", "calls by pointer"),
    ("m.ll:c\t16\tstatic", "m.ll:c\t16\tdynamic", "grows as it runs"),
    ("m.ll:c\t16\tstatic\n", "", "reports no frame"),
)


def refuses(room: Room, what: str, why: str, act: Callable[[], object]) -> None:
    """An act that is refused, and says why."""
    try:
        act()
    except (Failed, Strange) as error:
        room.checks.check(why in str(error), what, str(error))
    else:
        room.checks.check(False, f"{what}: it is refused")


def compare_stack(room: Room) -> None:
    """The bound is the sum of the deepest path, and there is none where a path has no end."""
    found = stack.bound(ASSEMBLY, USAGE, "a")
    room.checks.same((found.size, found.outside), (56, ("memcpy",)), "the bound of the stack")
    room.checks.same([name for name, _ in found.path], ["a", "b::<x>", "c"], "the deepest path")
    for old, new, why in UNBOUND:
        assembly, usage = ASSEMBLY.replace(old, new), USAGE.replace(old, new)
        refuses(room, f"no bound: {new or 'no ' + old}", why, partial(stack.bound, assembly, usage, "a"))
    refuses(room, "no bound: another start", "no function", partial(stack.bound, ASSEMBLY, USAGE, "d"))


def compare_header(room: Room) -> None:
    """Each number of the header has the module's width: another one is refused."""
    header = (EXAMPLE / HEADER).read_text(encoding="utf-8")
    interface.compare(header, room.text)
    room.checks.same(len(interface.of_header(header)), 15, "the functions of the header")
    places = list(re.finditer(r"\b(uint\d+_t)(?= \w+[,)(])", header))
    room.checks.check(len(places) >= 15, "numbers in prototypes", str(len(places)))
    for it in places:
        other = "uint32_t" if it[1] != "uint32_t" else "uint64_t"
        changed = header[: it.start()] + other + header[it.end() :]
        refuses(room, f"{it[1]} at {it.start()}", "the header has", partial(interface.compare, changed, room.text))
    cases = (
        ("a size_t", "has no width", header.replace("uint64_t room", "size_t room")),
        ("a missing function", "the header lacks port_send", header.replace("port_send", "sent")),
        ("another place", "aligned to 8", header.replace("CARD_BYTES = 1376", "CARD_BYTES = 1368")),
        ("a place without a size", "aligned to 8", header.replace("CARD_BYTES = 1376", "CARD_BYTES")),
        ("a place that isn't told", "has port_place as", header.replace("void *port_place(", "void port_place(")),
        ("one more function", "the module lacks device_more", f"{header}void device_more(void);\n"),
    )
    for what, why, text in cases:
        refuses(room, what, why, partial(interface.compare, text, room.text))


def tool(*words: object) -> subprocess.CompletedProcess[str]:
    """A run of a tool."""
    return subprocess.run([str(it) for it in words], capture_output=True, text=True, check=False)


def compare_port(room: Room) -> None:
    """A port is whole, or it isn't there."""
    port = room.port
    for name in [*needed(), *(it.split()[0] for it in OWN)]:
        room.checks.check((port / "crates" / name / "src/lib.rt").is_file(), f"the port has the crate {name}")
    room.checks.same([str(it) for it in port.rglob("*.in")], [], "no template is left")
    came, wanted = (sorted(it.name for it in folder.iterdir() if it.is_file()) for folder in (port / "device", EXAMPLE))
    room.checks.same(came, wanted, "the C of the port")
    link = room.folder / "link"
    link.symlink_to(room.folder / "elsewhere")
    before = sorted(os.listdir(room.folder))
    there, missing = "is there already", "there is no folder"
    # (no folder can be made in /proc)
    for place, why in ((port, there), (link, there), (room.folder / "a/b", missing), ("/proc/new", "No such file")):
        ran = tool(PORT, place)
        lines = ran.stderr.splitlines()
        is_so = ran.returncode == 1 and len(lines) == 1 and why in lines[0]
        room.checks.check(is_so, f"tools/port {place}", ran.stderr)
    room.checks.same(sorted(os.listdir(room.folder)), before, "nothing is left of a port that isn't written")


def compare_mistakes(room: Room) -> None:
    """tools/chip says in one line what is wrong."""
    short = room.folder / "short.card"
    short.write_bytes(bytes(64 * 1023))
    cases: tuple[tuple[list[object], str], ...] = (
        (["z80"], "invalid choice"),
        (["cortex-m4", "--prove"], "--prove proves a port"),
        (["cortex-m4", "--port", room.folder], "isn't a port: it has no crates.txt"),
        (["cortex-m4", "--port", room.port, "--card", room.port / "crates.txt"], "is no memory image"),
        (["cortex-m4", "--port", room.port, "--card", room.folder / "none"], "none: No such file"),
        (["cortex-m4", "--port", room.port, "--card", short], "is no memory image"),
        (["cortex-m4", "--port", room.port, "--card", "/dev/zero"], "is no memory image"),
    )
    for words, why in cases:
        ran = tool(CHIP, *words)
        lines = ran.stderr.splitlines()
        is_so = ran.returncode in (1, 2) and len(lines) == 1 and why in lines[0]
        room.checks.check(is_so, f"tools/chip {words}", ran.stderr)
    ran = tool("make", "-s", "-C", EXAMPLE, "CHIP=z80", "card")
    room.checks.check(ran.returncode != 0 and "there is no chip z80" in ran.stderr, "make CHIP=z80", ran.stderr)
    ran = tool("make", "-s", "-C", EXAMPLE, f"LIBRARY={room.folder}/none", "card")
    room.checks.check(ran.returncode != 0 and "run tools/chip" in ran.stderr, "make without a library", ran.stderr)


def compare_image(room: Room) -> None:
    """tools/chip puts the image of a card beside the library, for its owner alone."""
    card, out = room.folder / "factory.card", room.folder / "with_image"
    ran = tool(CHIP, "cortex-m4", out, "--port", room.port, "--card", card)
    if room.checks.check(ran.returncode == 0, "tools/chip with a card", ran.stderr):
        image = out / card.name
        came = (image.read_bytes() == card.read_bytes(), stat.S_IMODE(image.stat().st_mode))
        room.checks.same(came, (True, 0o600), "the image of a card, and its mode")


ALL = (compare_stack, compare_header, compare_port, compare_mistakes, compare_image)
