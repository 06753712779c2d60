"""Runs a command whose standard error is a terminal."""
import os
import subprocess
from pathlib import Path
from typing import List, Tuple

try:
    import pty
except ImportError:
    HAS_TERMINALS = False
else:
    HAS_TERMINALS = True


def run_on_terminal(command: List[str], folder: Path) -> Tuple[int, str]:
    """The status, and all that the terminal took. It is read meanwhile, since it holds little."""
    master, terminal = pty.openpty()
    streams = {"stdin": subprocess.DEVNULL, "stdout": subprocess.DEVNULL, "stderr": terminal}
    with subprocess.Popen(command, cwd=folder, **streams) as process:
        os.close(terminal)
        told = b""
        while True:
            try:
                piece = os.read(master, 1 << 16)
            except OSError:  # nobody has the terminal open any more
                break
            if not piece:
                break
            told += piece
    os.close(master)
    return process.returncode, told.decode()
