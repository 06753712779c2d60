"""The two tools beside the server whose parts it uses: titles and file names, and what to do about a
refusal."""
from __future__ import annotations

import importlib.util
import sys
from importlib.machinery import SourceFileLoader
from pathlib import Path
from types import ModuleType

TOOLS = Path(__file__).resolve().parent.parent


def load(name: str) -> ModuleType:
    """A tool, whose file has no `.py`, as a module."""
    module_name = "serving_" + name.replace("-", "_")
    if module_name in sys.modules:
        return sys.modules[module_name]
    loader = SourceFileLoader(module_name, str(TOOLS / name))
    spec = importlib.util.spec_from_loader(module_name, loader)
    assert spec is not None
    module = importlib.util.module_from_spec(spec)
    sys.modules[module_name] = module
    writes_bytecode, sys.dont_write_bytecode = sys.dont_write_bytecode, True  # no `explainc` beside the tools
    try:
        loader.exec_module(module)
    finally:
        sys.dont_write_bytecode = writes_bytecode
    return module


titles = load("import-export-xml")  # read_title, file_name, BadTitle
explanations = load("explain")  # read_refusal, elements, ExplainError
