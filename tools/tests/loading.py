"""Loads the tools, whose files have no .py."""
import importlib.util
import sys
from importlib.machinery import SourceFileLoader
from pathlib import Path
from types import ModuleType

TOOLS = Path(__file__).resolve().parent.parent
REPOSITORY = TOOLS.parent


def load(name: str) -> ModuleType:
    sys.dont_write_bytecode = True
    module_name = name.replace("-", "_")
    loader = SourceFileLoader(module_name, str(TOOLS / name))
    module = importlib.util.module_from_spec(importlib.util.spec_from_loader(module_name, loader))
    sys.modules[module_name] = module
    loader.exec_module(module)
    return module
