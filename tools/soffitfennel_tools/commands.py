"""A command of tools/ as a module, for another one that uses its functions."""
from __future__ import annotations

import sys
from importlib.machinery import SourceFileLoader
from importlib.util import module_from_spec, spec_from_loader
from pathlib import Path
from types import ModuleType

TOOLS = Path(__file__).resolve().parent.parent


def command(path: str) -> ModuleType:
    """The command at a path in tools/, loaded anew."""
    name = Path(path).name.replace("-", "_")
    loader = SourceFileLoader(name, str(TOOLS / path))
    spec = spec_from_loader(name, loader)
    assert spec
    module = module_from_spec(spec)
    # (a dataclass looks for its module there)
    sys.modules[name] = module
    loader.exec_module(module)
    return module
