"""What answers commands: the C library in this process, or the program in one of its own."""
from __future__ import annotations

import ctypes
import os
import shutil
import subprocess
import tempfile
from typing import Any, Callable, Dict, Iterable, List, NamedTuple, Optional, Sequence

Fetch = Callable[[str], Optional[bytes]]


class Unavailable(RuntimeError):
    """Neither the library ``libwtround.so.0`` nor the program ``wtround`` is here."""


class Answer(NamedTuple):
    """What came of a command."""

    #: the program's exit status
    status: int
    #: the bytes of standard output
    out: bytes
    #: the line of standard error, which begins with ``wtround: ``; empty where there is none
    line: str


class Engine:
    """Answers commands."""

    #: ``library`` or ``program``
    kind: str
    #: the path of the library or of the program
    path: str

    def answer(self, words: Sequence[str], data: bytes, fetch: Fetch, names: Callable[[], Iterable[str]]) -> Answer:
        """The answer to the words over an input and pages: ``fetch`` gives a page, ``names`` all names that have one."""
        raise NotImplementedError


# ---------------------------------------------------------------- the library

_SHORT, _BAD_CALL = 100, 102
_ABSENT, _FAILED = -1, -2
_FETCH = ctypes.CFUNCTYPE(
    ctypes.c_int64, ctypes.c_void_p, ctypes.c_void_p, ctypes.c_size_t, ctypes.c_void_p, ctypes.c_size_t
)


class _Text(ctypes.Structure):
    _fields_ = [("bytes", ctypes.c_char_p), ("length", ctypes.c_size_t)]


class _Room(ctypes.Structure):
    _fields_ = [("bytes", ctypes.c_void_p), ("room", ctypes.c_size_t), ("length", ctypes.c_size_t)]


class _Buffer:
    """Room for a text, which grows."""

    def __init__(self, room: int) -> None:
        self.room = _Room()
        self.grow(room)

    def grow(self, room: int) -> None:
        self._bytes = (ctypes.c_char * room)()
        self.room.bytes = ctypes.addressof(self._bytes)
        self.room.room = room

    @property
    def is_short(self) -> bool:
        return self.room.length > self.room.room

    @property
    def text(self) -> bytes:
        return ctypes.string_at(self._bytes, self.room.length)


class _Call:
    """The pages of one call. What `fetch` raises is kept, since nothing may be thrown through the library."""

    def __init__(self, fetch: Fetch) -> None:
        self._fetch = fetch
        self._known: Dict[str, Optional[bytes]] = {}
        self.raised: Optional[BaseException] = None
        self.callback = _FETCH(self._give)

    def _page(self, name: str) -> Optional[bytes]:
        if name not in self._known:
            self._known[name] = self._fetch(name)
        return self._known[name]

    def _give(self, _context: Any, name: int, length: int, out: int, room: int) -> int:
        try:
            page = self._page(ctypes.string_at(name, length).decode())
        except BaseException as error:  # raised again behind the call
            self.raised = self.raised or error
            return _FAILED
        if page is None:
            return _ABSENT
        ctypes.memmove(out, page, min(len(page), room))
        return len(page)


class _Library(Engine):
    kind = "library"

    def __init__(self, path: str) -> None:
        self.path = path
        self._run = ctypes.CDLL(path).wtround_run
        self._run.restype = ctypes.c_int
        self._run.argtypes = [
            ctypes.POINTER(_Text),
            ctypes.c_size_t,
            ctypes.c_char_p,
            ctypes.c_size_t,
            _FETCH,
            ctypes.c_void_p,
            ctypes.POINTER(_Room),
            ctypes.POINTER(_Room),
        ]

    def answer(self, words: Sequence[str], data: bytes, fetch: Fetch, names: Callable[[], Iterable[str]]) -> Answer:
        spelled = [word.encode() for word in words]
        texts = (_Text * len(spelled))(*((word, len(word)) for word in spelled))
        call = _Call(fetch)
        out, line = _Buffer(65536 + 2 * len(data)), _Buffer(4096)
        while True:
            status = self._run(
                texts, len(spelled), data, len(data), call.callback, None, ctypes.byref(out.room), ctypes.byref(line.room)
            )
            if call.raised is not None:
                raise call.raised
            if status != _SHORT:
                break
            for room in (out, line):
                if room.is_short:
                    room.grow(room.room.length)
        if status == _BAD_CALL:
            raise MemoryError("a text is too long for the library")
        return Answer(status, out.text, line.text.decode())


# ---------------------------------------------------------------- the program


def file_name(name: str) -> str:
    """The file of a page, as the program names it."""
    kept = b"-_.ABCDEFGHIJKLMNOPQRSTUVWXYZabcdefghijklmnopqrstuvwxyz0123456789"
    return "".join(chr(b) if b in kept else f"%{b:02X}" for b in name.replace(" ", "_").encode()) + ".wiki"


class _Program(Engine):
    kind = "program"

    def __init__(self, path: str) -> None:
        self.path = path

    def answer(self, words: Sequence[str], data: bytes, fetch: Fetch, names: Callable[[], Iterable[str]]) -> Answer:
        with tempfile.TemporaryDirectory(prefix="bughtiso-") as folder:
            os.mkdir(os.path.join(folder, "pages"))
            for name in names() if len(words) > 1 else ():
                _write_page(os.path.join(folder, "pages"), name, fetch(name))
            done = subprocess.run([self.path, *words], input=data, cwd=folder, stdout=subprocess.PIPE, stderr=subprocess.PIPE)
        if done.returncode < 0:
            raise OSError(f"{self.path} was ended by the signal {-done.returncode}")
        return Answer(done.returncode, done.stdout, done.stderr.decode("utf-8", "replace"))


def _write_page(folder: str, name: str, page: Optional[bytes]) -> None:
    file = file_name(name)
    # A page whose name has no file is one that can't be fetched, and the program says so where it is wanted.
    if page is not None and len(file) <= 255:
        with open(os.path.join(folder, file), "wb") as it:
            it.write(page)


# ---------------------------------------------------------------- which one there is


def _libraries() -> List[str]:
    named = os.environ.get("BUGHTISO_LIBRARY")
    if named is not None:
        return [named] if named else []
    own = os.path.join(os.path.dirname(__file__), "libwtround.so.0")
    return [own, "libwtround.so.0"] if os.path.exists(own) else ["libwtround.so.0"]


def engine(kind: Optional[str] = None) -> Engine:
    """What answers commands: the library where it is found, else the program; or the one of this kind.

    The library is sought in ``BUGHTISO_LIBRARY`` (an empty value means none), beside this module and where the system
    keeps libraries; the program in ``BUGHTISO_PROGRAM`` and on the ``PATH``. Raises `Unavailable` where none is found.
    """
    if kind in (None, "library"):
        for path in _libraries():
            try:
                return _Library(path)
            except OSError:
                continue
    if kind in (None, "program"):
        program = os.environ.get("BUGHTISO_PROGRAM") or shutil.which("wtround")
        if program:
            return _Program(os.path.abspath(program))
    raise Unavailable(f"there is no {kind or 'library and no program'} of wtround here: install the package bughtiso")
