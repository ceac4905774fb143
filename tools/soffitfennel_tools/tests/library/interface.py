"""The library's border: header, names and numbers that programs rely on, its installation, and mistakes."""
from __future__ import annotations

import re
import shutil
import sys

from .checks import AARCH64, EXAMPLES, HEADER, ICCID, PROGRAMS, TOP, Tests

STORED = TOP / "library" / "abi.list"
DECLARED = re.compile(r"^(?:int32_t|int64_t|void|const char \*)\s*soffitfennel_\w+\([^;]*;", re.M)
SHARED = "libsoffitfennel.so.1"
C_FORMS = (("cc", "c99"), ("cc", "c11"), ("clang", "c17"), ("g++", "c++98"), ("g++", "c++17"), ("clang++", "c++20"))
# a line that compiles, and lines that don't
USES = {
    "soffitfennel_power_on(&card);": True,
    "soffitfennel_power_on(card);": False,
    "void *other = 0; soffitfennel_power_on(&other);": False,
    "soffitfennel_insert(&card, (uint8_t *)0, 0);": False,
    "soffitfennel_free(card);": False,
}
USE = """#include "soffitfennel.h"
int main(void)
{{
    soffitfennel_card *card = 0;
    {}
    return card != 0;
}}
"""
NOEXCEPT = '#include "soffitfennel.h"\nstatic_assert(noexcept(soffitfennel_power_on(nullptr)), "it throws");\n'


def test_header(tests: Tests) -> None:
    """The header alone compiles in each language, and takes no wrong pointer."""
    source = tests.room / "use.cc"
    for compiler, language in C_FORMS:
        if not shutil.which(compiler):
            tests.skip(f"the header by {compiler}", f"{compiler} isn't installed")
            continue
        words: list[object] = [f"-std={language}", "-x", "c++" if "++" in compiler else "c", "-Wall", "-Wextra"]
        words += ["-Wpedantic", "-Wno-long-long", "-Werror", f"-I{TOP / 'include'}", "-fsyntax-only", source]
        for line, is_right in USES.items():
            source.write_text(USE.format(line), encoding="ascii")
            came = tests.call(compiler, *words)
            tests.holds((came.returncode == 0) == is_right, f"{compiler} -std={language}: {line}", came.stderr)
        if language in ("c++17", "c++20"):
            source.write_text(NOEXCEPT, encoding="ascii")
            tests.run("no function throws", compiler, *words)


def abi(tests: Tests) -> str:
    """What programs rely on: the shared library's name and symbols, prototypes, and the values of constants."""
    header = re.sub(r"/\*.*?\*/", "", HEADER.read_text(encoding="ascii"), flags=re.S)
    shared = tests.library / SHARED
    name = re.search(r"SONAME\s+(\S+)", tests.call("objdump", "-p", shared).stdout)
    symbols = [it.split(" ")[-1] for it in tests.call("nm", "-D", "--defined-only", shared).stdout.splitlines()]
    found = [it.replace("SOFFITFENNEL_NOEXCEPT", "") for it in DECLARED.findall(header)]
    calls = [" ".join(it.split()).replace(" ;", ";") for it in found]
    constants = re.findall(r"^    (SOFFITFENNEL_\w+) = ", header, re.M)
    enums = re.findall(r"^(enum \w+) \{", header, re.M)
    source = tests.room / "constants.c"
    lines = [f'    printf("{it} %d\\n", (int){it});' for it in constants]
    lines += [f'    printf("{it}: %zu bytes\\n", sizeof({it}));' for it in enums]
    lines += ['    printf("ATR %zu bytes\\n", sizeof SOFFITFENNEL_ATR);']
    text = "\n".join(['#include "soffitfennel.h"', "#include <stdio.h>", "int main(void)", "{", *lines, "}", ""])
    source.write_text(text, encoding="ascii")
    numbers = tests.call(tests.compile(source)).stdout
    return "\n".join([f"SONAME {name and name[1]}", *sorted(symbols), *sorted(calls), numbers])


def test_abi(tests: Tests) -> None:
    """What programs rely on is what is stored. Where it isn't, a symbol that is gone needs another SONAME."""
    came = abi(tests)
    is_so = STORED.exists() and came == STORED.read_text(encoding="ascii")
    tests.holds(is_so, "library/abi.list (a change that isn't an addition needs another SONAME)", came)


def test_names(tests: Tests) -> None:
    """One version stands in header, library and bindings."""
    found = re.search(r'SOFFITFENNEL_VERSION "(.*)"', HEADER.read_text(encoding="ascii"))
    version = found[1] if found else ""
    numbers = re.findall(r"SOFFITFENNEL_VERSION_\w+ (\d+)", HEADER.read_text(encoding="ascii"))
    tests.holds(".".join(numbers) == version, "the version's numbers", str(numbers))
    crate, module = f'\nversion = "{version}"', f'\n__version__ = "{version}"'
    texts = {"bindings/rust/Cargo.toml": crate, "bindings/rust/Cargo.lock": crate,
             "bindings/python/soffitfennel/__init__.py": module}
    for name, text in texts.items():
        tests.holds(text in (TOP / name).read_text(encoding="utf-8"), f"the version in {name}")


def test_shared(tests: Tests) -> None:
    """A program over the shared library runs, and gives its card's writes to a function of its own."""
    words: list[object] = ["cc", "-O2", "-D_GNU_SOURCE", f"-I{TOP / 'include'}"]
    words += [f"-L{tests.library}", f"-Wl,-rpath,{tests.library}"]
    card, kept = tests.room / "shared", tests.room / "shared_kept"
    tests.run("the example over the shared library", *words, EXAMPLES / "card.c", "-lsoffitfennel", "-o", card)
    tests.run("the example over the shared library runs", card, wanted=f"9000\n{ICCID}")
    sources = [EXAMPLES / "kept.c", PROGRAMS / "killing.c"]
    tests.run("a device over the shared library", *words, *sources, "-lsoffitfennel", "-o", kept)
    came = tests.call(kept, tests.room / "shared_image", env={"KILLED_WRITE": 1}).returncode
    tests.holds(came == -9, "a device over the shared library gets the writes", str(came))


def test_install(tests: Tests) -> None:
    """make install puts all in its place, pkg-config finds it, and make uninstall leaves nothing."""
    top, place = tests.room / "top", ["PREFIX=/opt/card", f"LIBRARY={tests.library}"]
    make = ["make", "-s", "-C", TOP / "library", *place, f"DESTDIR={top}"]
    tests.run("the library is installed", *make, "install")
    if shutil.which("pkg-config"):
        env: dict[str, object] = {"PKG_CONFIG_PATH": top / "opt/card/lib/pkgconfig", "PKG_CONFIG_SYSROOT_DIR": top}
        flags = tests.call("pkg-config", "--cflags", "--libs", "soffitfennel", env=env).stdout.split()
        program = tests.room / "installed"
        tests.run("the example by pkg-config", "cc", EXAMPLES / "card.c", *flags, "-o", program)
        env = {"LD_LIBRARY_PATH": top / "opt/card/lib"}
        tests.run("the installed library", program, wanted=f"9000\n{ICCID}", env=env)
    else:
        tests.skip("the library by pkg-config", "pkg-config isn't installed")
    tests.run("the library is removed", *make, "uninstall")
    left = [it for it in top.rglob("*") if not it.is_dir()]
    tests.holds(not left, "the removed library", str(left))


def test_mistakes(tests: Tests) -> None:
    """Each mistake gets one line that says what to do."""
    build, archive, none = TOP / "tools" / "library", tests.library / "libsoffitfennel.a", tests.room / "nowhere"
    given: dict[str, object] = {"SOFFITFENNEL_ARCHIVE": archive}
    tests.refuses("an unknown target", f"choose one of {AARCH64}", build, "--target", "thumbv7m-none-eabi")
    tests.refuses("a wrong archive", "README.md, which is no archive", build, none,
                  env={"SOFFITFENNEL_ARCHIVE": TOP / "README.md"})
    tests.refuses("no archive", "No such file or directory", build, none, env={"SOFFITFENNEL_ARCHIVE": none})
    tests.refuses("a folder below a device", "/dev/null/x: Not a directory", build, "/dev/null/x", env=given)
    tests.refuses("no compiler", "there is no command no-cc: install it", build, none, env={**given, "CC": "no-cc"})
    words = [sys.executable, build, none, "--target", AARCH64]
    tests.refuses("no cross compiler", "apt-get install gcc-aarch64-linux-gnu", *words, env={**given, "PATH": none})
    tests.holds(not none.exists(), "a folder of a library that is not built")
    goals = {"reader": "libifdsoffitfennel.so", "examples/firmware": "card.elf", "library": "install"}
    for folder, goal in goals.items():
        words = ["make", "-s", "-C", TOP / folder, f"LIBRARY={none}", f"DESTDIR={tests.room}", goal]
        tests.refuses(f"make -C {folder} without the library", "run tools/library", *words)


def test_rust_mistakes(tests: Tests) -> None:
    """A Rust program without the library says what to do."""
    if not shutil.which("cargo"):
        tests.skip("Rust without the library", "there is no cargo")
        return
    manifest = TOP / "bindings" / "rust" / "Cargo.toml"
    env: dict[str, object] = {"SOFFITFENNEL_LIB": "/nowhere", "CARGO_TARGET_DIR": tests.room / "target"}
    came = tests.call("cargo", "build", "--offline", "--quiet", "--manifest-path", manifest, env=env)
    is_so = came.returncode != 0 and "there is no libsoffitfennel.a in /nowhere" in came.stderr
    tests.holds(is_so and "run tools/library first" in came.stderr, "Rust without the library", came.stderr)


ALL = (test_header, test_abi, test_names, test_shared, test_install, test_mistakes, test_rust_mistakes)
