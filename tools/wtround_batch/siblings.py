"""The tools beside this package, whose files are programs: the importer and `explain`."""
from __future__ import annotations

import importlib.util
import os
import sys
from functools import lru_cache
from importlib.machinery import SourceFileLoader
from types import ModuleType

PACKAGE = os.path.dirname(os.path.realpath(__file__))
PACKAGE_PARENT = os.path.dirname(PACKAGE)
# In a clone the tools lie beside the package; installed, it lies in share/bughtiso and they in bin.
TOOL_FOLDERS = (PACKAGE_PARENT, os.path.join(PACKAGE_PARENT, os.pardir, os.pardir, "bin"))


def find(*names: str) -> "str | None":
    """The path of a tool, which has one name in a clone and another where it is installed."""
    paths = (os.path.join(folder, name) for folder in TOOL_FOLDERS for name in names)
    return next((os.path.realpath(path) for path in paths if os.path.isfile(path)), None)


def load(*names: str) -> ModuleType:
    path = find(*names)
    if path is None:
        raise ImportError(f"there is no {names[-1]} beside {PACKAGE_PARENT}")
    module_name = "wtround_batch_" + names[0].replace("-", "_")
    loader = SourceFileLoader(module_name, path)
    spec = importlib.util.spec_from_loader(module_name, loader)
    assert spec is not None
    module = importlib.util.module_from_spec(spec)
    sys.modules[module_name] = module
    loader.exec_module(module)
    return module


importer = load("import-export-xml", "wtround-import")


@lru_cache(maxsize=None)
def explainer() -> ModuleType:
    """`explain`. It is loaded when it is first wanted, which most processes never do."""
    return load("explain", "wtround-explain")
