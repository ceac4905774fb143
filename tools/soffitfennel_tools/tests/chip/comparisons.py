"""The comparison of a PIN on a chip: its instructions are the same for every value.

The emulator writes down each instruction that it runs in a VERIFY. A second check reads the machine code of
device_compare: no instruction branches on a byte of a secret, nor runs on a condition of one."""
from __future__ import annotations

import re
import subprocess
from concurrent.futures import ThreadPoolExecutor
from dataclasses import dataclass
from pathlib import Path

from ...chips.targets import Target
from .building import Room
from .playing import play, started
from .running import Programs

# a right value, and wrong ones in the first and the last byte
VALUES = ("31323334FFFFFFFF", "39323334FFFFFFFF", "31323334FFFFFFFE")
TRACED = re.compile(rb"\[[0-9a-f]+/([0-9a-f]+)/")
COMPARE, RECEIVE, SEND = "device_compare", "port_receive", "port_send"
SYMBOL = re.compile(r"^([0-9a-f]+) ([0-9a-f]+) [Tt] (\w+)$", re.M)
INSTRUCTION = re.compile(r"^ *[0-9a-f]+:\t\s*([a-z][\w.]*)[ \t]*([^;@#\n]*(?:#\d+)?)", re.M)
LOAD_OF_BYTE = re.compile(r"ldrs?b(\.w)?|lbu?|c\.lbu")
# what sets the flags that Thumb branches on, and what writes no register
SETS_FLAGS = re.compile(r"cmp|cmn|tst|teq|\w+s(\.[nw])?$")
WRITES_NONE = re.compile(r"cmp|cmn|tst|teq|str|s[bhw]$|push|pop|bx|ret|b(\.[nw])?$|j$")
# branches and what runs on a condition: of Thumb on the flags, of RISC-V on registers
THUMB_CONDITION = re.compile(r"b(eq|ne|cs|cc|mi|pl|hi|ls|ge|lt|gt|le)(\.[nw])?$|it[te]*$")
REGISTER_CONDITION = re.compile(r"cbn?z|b(eq|ne|lt|ge|gt|le)u?z?$|bgtz|blez")
REGISTER = re.compile(r"\b(?:r\d+|ip|lr|fp|sl|sp|zero|ra|[ast]\d+)\b")


@dataclass(frozen=True)
class Place:
    """Where a function is in a program."""

    begin: int
    end: int

    def has(self, step: int) -> bool:
        """Whether an instruction is in it."""
        return self.begin <= step < self.end


def places(target: Target, program: Path) -> dict[str, Place]:
    """The functions of a program."""
    listed = subprocess.run([f"{target.prefix}nm", "-S", program], capture_output=True, text=True, check=True).stdout
    # (a symbol of Thumb has the lowest bit set)
    found = ((name, int(at, 16) & ~1, int(size, 16)) for at, size, name in SYMBOL.findall(listed))
    return {name: Place(at, at + size) for name, at, size in found}


def executed(room: Room, target: Target, program: Path, value: str) -> list[int]:
    """The addresses of the instructions that a board runs, with a VERIFY of this value."""
    log = room.folder / f"{target.name}.{value}.log"
    listed = subprocess.run([target.emulator[0], "-help"], capture_output=True, text=True, check=True).stdout
    each = ["-singlestep"] if "-singlestep" in listed else ["-accel", "tcg,one-insn-per-tb=on"]
    with started(target, program, "-d", "exec,nochain", "-D", str(log), *each) as port:
        printed, _ = play(port, ["on", f"apdu 0020000108{value}"])
    wanted = "< 9000" if value == VALUES[0] else "< 63C2"
    room.checks.same(printed[1:], [wanted], f"{target.name}: a VERIFY of {value}")
    steps = [int(it, 16) for it in TRACED.findall(log.read_bytes())]
    log.unlink()
    return steps


def verify_in(steps: list[int], functions: dict[str, Place]) -> tuple[list[int], list[int]]:
    """The instructions of the command that compares: from its message to the end of the comparison, and from there to
    the answer."""
    compare = steps.index(functions[COMPARE].begin)
    begin = next(at for at in range(compare, 0, -1) if functions[RECEIVE].has(steps[at])) + 1
    end = next(at for at in range(compare, len(steps)) if not functions[COMPARE].has(steps[at]))
    return steps[begin:end], steps[end : steps.index(functions[SEND].begin, end)]


def is_condition(name: str) -> bool:
    """Whether an instruction branches, or lets others run, on a condition."""
    return bool(THUMB_CONDITION.match(name) or REGISTER_CONDITION.match(name))


def behind_power(code: list[tuple[str, str]]) -> list[tuple[str, str]]:
    """The instructions behind the first condition, if it is that of the device's power: one byte was loaded before."""
    first = next((at for at, (name, _) in enumerate(code) if is_condition(name)), 0)
    loads = [name for name, _ in code[:first] if LOAD_OF_BYTE.fullmatch(name)]
    return code[first + 1:] if len(loads) == 1 else code


def conditions_on_bytes(code: str) -> list[str]:
    """The instructions of a comparison that branch on a byte that it loads, or run on a condition of one.

    A register that has a byte, or what was made of one, is secret until it is written anew."""
    secret: set[str] = set()
    found, are_flags = [], False
    for name, words in behind_power(INSTRUCTION.findall(code)):
        registers = REGISTER.findall(words)
        of_secret = any(it in secret for it in registers)
        if (are_flags and THUMB_CONDITION.match(name)) or (REGISTER_CONDITION.match(name) and of_secret):
            found.append(f"{name} {words}".strip())
        if SETS_FLAGS.match(name):
            are_flags = of_secret
        if registers and not WRITES_NONE.match(name) and not is_condition(name):
            is_made = any(it in secret for it in registers[1:] or registers)
            is_secret = is_made or bool(LOAD_OF_BYTE.fullmatch(name))
            (secret.add if is_secret else secret.discard)(registers[0])
    return found


def machine_code(target: Target, program: Path) -> str:
    """The instructions of device_compare."""
    words = [f"{target.prefix}objdump", f"--disassemble={COMPARE}", "--no-show-raw-insn", str(program)]
    return subprocess.run(words, capture_output=True, text=True, check=True).stdout


def compare_one(room: Room, target: Target, program: Path) -> None:
    """Compares the instructions of the values on a chip."""
    functions = places(target, program)
    found = [verify_in(executed(room, target, program, it), functions) for it in VALUES]
    before, behind = zip(*found)
    sizes = [len(it) for it in before], [len(it) for it in behind]
    room.checks.check(all(it == before[0] for it in before), f"{target.name}: up to the comparison's end: {sizes[0]}")
    room.checks.check(behind[1] == behind[2], f"{target.name}: behind the comparison of wrong values: {sizes[1]}")
    code = machine_code(target, program)
    loads = [it for it, _ in INSTRUCTION.findall(code) if LOAD_OF_BYTE.fullmatch(it)]
    room.checks.check(len(loads) >= 3, f"{target.name}: device_compare loads bytes", code)
    room.checks.same(conditions_on_bytes(code), [], f"{target.name}: conditions on a secret in device_compare")
    print(f"{target.name}: {len(before[0])} instructions up to the end of a comparison, for each value", flush=True)


def compare(room: Room, programs: Programs) -> None:
    """Compares the instructions on each chip."""
    chips = [it for it in programs.values() if it[0].emulator]
    with ThreadPoolExecutor(2) as pool:
        for it in [pool.submit(compare_one, room, *chip) for chip in chips]:
            it.result()
