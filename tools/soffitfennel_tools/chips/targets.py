"""The processors that tools/chip builds for."""
from __future__ import annotations

from dataclasses import dataclass


@dataclass(frozen=True)
class Target:
    """A processor: its name in the rewriting, its words for clang and for gcc, and the board that plays it."""

    name: str
    # None where the module keeps its 64 bits
    architecture: str | None
    clang: tuple[str, ...]
    prefix: str = ""
    gcc: tuple[str, ...] = ()
    board: str = ""
    emulator: tuple[str, ...] = ()


ARM, RISCV = "arm-none-eabi-", "riscv64-unknown-elf-"
MPS2 = ("qemu-system-arm", "-M", "mps2-an386", "-cpu")


def thumb(name: str, architecture: str) -> Target:
    """A Cortex-M without floats. The emulator's board has a Cortex-M4, which runs the code of the others too."""
    words = (f"-mcpu={name}", "-mthumb", "-mfloat-abi=soft")
    clang = (f"--target={architecture}-none-eabi", *words)
    return Target(name, architecture, clang, ARM, words, "mps2", (*MPS2, "cortex-m4"))


TARGETS = {
    it.name: it
    for it in (
        thumb("cortex-m0", "thumbv6m"),
        thumb("cortex-m3", "thumbv7m"),
        thumb("cortex-m4", "thumbv7em"),
        Target(
            "riscv32",
            "riscv32",
            ("--target=riscv32-unknown-none-elf", "-march=rv32imac", "-mabi=ilp32"),
            RISCV,
            ("-march=rv32imac", "-mabi=ilp32"),
            "virt",
            ("qemu-system-riscv32", "-M", "virt", "-bios", "none"),
        ),
        # the module as the toolchain has it, to try a device's functions on this machine first
        Target("x86-64", None, ("--target=x86_64-unknown-linux-gnu", "-fno-pic", "-mcmodel=small"), board="host"),
    )
}
