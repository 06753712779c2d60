"""Runs wtround: one process a request, with a time limit."""
from __future__ import annotations

import os
import shutil
import subprocess
import tempfile
import threading
from contextlib import ExitStack
from functools import cached_property
from pathlib import Path
from typing import BinaryIO, Optional, Set

from .allocators import environment
from .refusals import Refusal, from_line

REPOSITORY = Path(__file__).resolve().parent.parent.parent
SECONDS = 30  # that one command may take
AT_ONCE = os.cpu_count() or 1


class ProgramMissing(Exception):
    """There is no program that runs; the message says what was tried."""


def find_program(given: Optional[str]) -> str:
    """The path of wtround: the one that is given, that of the clone, that of the release, or that on the
    PATH."""
    if given is not None:
        path = shutil.which(given)
        if path is None:
            raise ProgramMissing(f"{given}: there is no such program")
        return os.path.abspath(path)
    launcher, installed = REPOSITORY / "wtround", REPOSITORY.parent.parent / "bin/wtround"
    for path in (launcher, installed):
        if os.access(path, os.X_OK):
            return str(path)
    path = shutil.which("wtround")
    if path is None:
        raise ProgramMissing("there is no wtround here and none on the PATH: name one with --program")
    return path


def started_once(path: str) -> str:
    """Sees that a program runs. A clone's launcher builds it now, so that no request waits for it.

    The answer is the program that requests run: what the launcher tells, or `path` itself."""
    if Path(path) == REPOSITORY / "wtround":
        told = subprocess.run([path, "--where"], stdin=subprocess.DEVNULL, stdout=subprocess.PIPE)
        if told.returncode != 0:
            raise ProgramMissing(f"{path} has no program to run")
        path = os.fsdecode(told.stdout).rstrip("\n")
    done = subprocess.run([path, "gen", "1"], stdin=subprocess.DEVNULL, stdout=subprocess.PIPE)
    if done.returncode != 0 or not done.stdout.startswith(b"bytes "):
        raise ProgramMissing(f"{path} doesn't run as wtround")
    return path


class Program:
    """The commands of wtround over one folder of pages."""

    def __init__(
        self,
        path: str,
        pages: str,
        seconds: float = SECONDS,
        at_once: int = AT_ONCE,
        is_quick: bool = True,
    ) -> None:
        """`is_quick`: with another allocator than the C library's, where that makes it quicker."""
        self._path = path
        self._environment = environment(path) if is_quick else None
        self._seconds = seconds
        self._running = threading.BoundedSemaphore(at_once)
        self._processes: Set[subprocess.Popen] = set()
        self._room = tempfile.mkdtemp(prefix="wtround-serve-")
        os.symlink(os.path.abspath(pages), os.path.join(self._room, "pages"))

    def close(self) -> None:
        """Ends what still runs."""
        for process in list(self._processes):
            process.kill()
        shutil.rmtree(self._room, ignore_errors=True)

    def html(self, title: str, room: Optional[str] = None) -> bytes:
        """The HTML of a page. `room` is another directory that holds `pages`."""
        return self._run(["html", title], b"", room)

    def edit(self, title: str, document: bytes) -> bytes:
        """The new page of an edit."""
        return self._run(["edit", title], document)

    def selser(self, title: str, document: bytes) -> bytes:
        """The new page of an edit without marks. Where the program `takes_unmarked`."""
        return self._run(["selser", title], document)

    @cached_property
    def takes_unmarked(self) -> bool:
        """Whether the program has the command `selser`, which an older one hasn't."""
        with self._running:
            _, line, _ = self._finish([], b"", self._room)
        return " selser TITLE" in line

    def wikitext(self, document: bytes) -> bytes:
        """The page that an HTML is."""
        return self._run(["wikitext"], document)

    def _run(self, words: list, given: bytes, room: Optional[str] = None) -> bytes:
        with self._running:
            out, line, status = self._finish(words, given, room or self._room)
        if status == 0:
            return out
        if status < 0:
            sentence = "The program was ended by a signal: try again."
            raise Refusal(500, "ProgramFailed", sentence, f"signal {-status}")
        raise from_line(line, given)

    def _finish(self, words: list, given: bytes, room: str) -> tuple:
        with ExitStack() as opened:
            try:
                text, out = (opened.enter_context(file_of(data)) for data in (given, b""))
                streams = {"stdin": text, "stdout": out, "stderr": subprocess.PIPE}
                command = [self._path, *words]
                process = subprocess.Popen(command, cwd=room, env=self._environment, **streams)
            except OSError as error:
                sentence = f"The program couldn't be started: {error.strerror}."
                raise Refusal(500, "ProgramFailed", sentence) from None
            told = self._told(process)
            out.seek(0)
            return out.read(), told.decode("utf-8", "replace"), process.returncode

    def _told(self, process: subprocess.Popen) -> bytes:
        """What a process writes to its standard error until it ends."""
        with process:
            self._processes.add(process)
            try:
                return process.communicate(timeout=self._seconds)[1]
            except subprocess.TimeoutExpired:
                process.kill()
                sentence = "The page takes too long: shorten it, or start the server with a longer limit."
                raise Refusal(503, "TimeLimit", sentence, headers={"Retry-After": "60"}) from None
            finally:
                self._processes.discard(process)


def file_of(data: bytes) -> BinaryIO:
    """A file without a name that holds these bytes, in memory where the system can do that. A program reads
    and writes it without waiting for the server, as it would have to at a pipe."""
    try:
        file: BinaryIO = open(os.memfd_create("wtround-serve"), "w+b")
    except (AttributeError, OSError):
        file = tempfile.TemporaryFile()
    file.write(data)
    file.seek(0)
    return file
