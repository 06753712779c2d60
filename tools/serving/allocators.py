"""Allocators of memory under which wtround takes less time than under the C library's own."""
from __future__ import annotations

import ctypes.util
import os
import subprocess
from functools import lru_cache
from typing import Dict

LIBRARY = "mimalloc"  # in Debian libmimalloc2.0
LARGE_PAGES = {"MIMALLOC_LARGE_OS_PAGES": "1"}  # it asks for large pages of memory
TUNABLE = "glibc.malloc.hugetlb=1"  # for where there is none: glibc does
SECONDS = 10  # that a program may take to tell that it runs


@lru_cache(maxsize=None)
def environment(path: str) -> Dict[str, str]:
    """The environment in which a program is run: with mimalloc where the machine has it and the program runs
    with it, and else with a setting of glibc. A program that is linked without shared libraries takes no
    notice of the first."""
    own = dict(os.environ)
    own["GLIBC_TUNABLES"] = ":".join(filter(None, [own.get("GLIBC_TUNABLES"), TUNABLE]))
    library = ctypes.util.find_library(LIBRARY)
    if library is None or "LD_PRELOAD" in own:
        return own
    quick = {**LARGE_PAGES, **own, "LD_PRELOAD": library}
    return quick if runs_in(quick, path) else own


def runs_in(environment: Dict[str, str], path: str) -> bool:
    """Whether a program says what it should in this environment, and no loader complains."""
    null, pipe = subprocess.DEVNULL, subprocess.PIPE
    try:
        done = subprocess.run(
            [path, "gen", "1"], stdin=null, stdout=pipe, stderr=pipe, env=environment, timeout=SECONDS
        )
    except (OSError, subprocess.TimeoutExpired):
        return False
    return done.returncode == 0 and done.stdout.startswith(b"bytes ") and not done.stderr
