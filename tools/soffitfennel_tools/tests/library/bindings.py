"""The bindings for Rust and Python."""
from __future__ import annotations

import shutil
import sys

from .checks import ICCID, TOP, Tests


def test_rust(tests: Tests) -> None:
    """The binding for Rust, with and without its standard library."""
    if not shutil.which("cargo"):
        tests.skip("the binding for Rust", "there is no cargo")
        return
    env: dict[str, object] = {"SOFFITFENNEL_LIB": tests.library, "CARGO_TARGET_DIR": tests.room / "target"}
    manifest = ["--offline", "--quiet", "--manifest-path", TOP / "bindings" / "rust" / "Cargo.toml"]
    tests.run("the tests in Rust", "cargo", "test", *manifest, env=env)
    tests.run("the example in Rust", "cargo", "run", *manifest, "--example", "card", wanted=ICCID, env=env)
    tests.run("Rust without std", "cargo", "build", *manifest, "--no-default-features", "--lib", env=env)


def test_python(tests: Tests) -> None:
    """The binding for Python."""
    folder = TOP / "bindings" / "python"
    env: dict[str, object] = {"SOFFITFENNEL_SO": tests.library / "libsoffitfennel.so"}
    tests.run("the tests in Python", sys.executable, "-B", folder / "test_soffitfennel.py", env=env)
    tests.run("the example in Python", sys.executable, "-B", folder / "card.py", wanted=ICCID, env=env)


ALL = (test_rust, test_python)
