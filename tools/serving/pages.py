"""The folder of pages: its titles, its files, and how a page is replaced."""
from __future__ import annotations

import errno
import fcntl
import hashlib
import os
import secrets
import stat
import time
from contextlib import contextmanager
from typing import Iterator, Optional
from urllib.parse import unquote

from .other_tools import titles
from .refusals import Refusal

PAGE_BYTES = 2_097_152  # more than these wtround doesn't take
STEP = 100_000_000  # nanoseconds, more than the steps of the clock of most file systems
COARSE_STEP = 2_100_000_000  # of those that keep whole seconds, or every other one
TEMPORARY = ".wtround-serve-"  # begins the names of files that are being written
NOTE = "user.wtround-serve"  # the attribute of a page's file that tells which save made it
MOST_LOOKED_AT = 20_000  # files; to look at all of more takes longer than to make a page's HTML


def full_name(text: str) -> str:
    """The full name of the title that a text is. Refuses with 404 what is no good title, or has a
    fragment."""
    try:
        title = titles.read_title(text)
    except titles.BadTitle as error:
        raise Refusal(404, "BadTitle", f"This is no title of a page: {error}.") from None
    if title.fragment is not None:
        sentence = "This is no title of a page: leave out the # and what stands behind it."
        raise Refusal(404, "BadTitle", sentence)
    return title.full_name


def revision(page: bytes) -> int:
    """A number for exactly these bytes; it stands where a wiki has the number of a revision."""
    return int.from_bytes(hashlib.sha256(page).digest()[:6], "big")


class PageFolder:
    """The files of a folder. Nothing outside of it is read or written."""

    def __init__(self, path: str) -> None:
        self.path = os.path.realpath(path)
        self._titles: tuple = (None, [])  # the folder's state, and its titles then

    def titles(self) -> list:
        """The full names of the pages, in the order of their letters."""
        state, listed = self.state(), self._titles
        if state is None or listed[0] != state:
            names = (title_of_file(name) for name in os.listdir(self.path))
            listed = self._titles = (state, sorted(name for name in names if name is not None))
        return listed[1]

    def state(self) -> Optional[int]:
        """A number that changes when files come or go; nothing where they did just now, since a clock's step
        may hide the next change."""
        told = os.stat(self.path)
        return told.st_mtime_ns if time.time_ns() - told.st_mtime_ns > step_of(told) else None

    def fingerprint(self) -> Optional[bytes]:
        """Another one after any page's file came, went or was written: their names, sizes and times.

        Nothing where that can't be told: a file was written just now, so that a clock's step may hide the
        next time, or there are very many."""
        digest = hashlib.sha256()
        now = time.time_ns()
        try:
            with os.scandir(self.path) as entries:
                pages = sorted((e for e in entries if e.name.endswith(".wiki")), key=lambda e: e.name)
            if len(pages) > MOST_LOOKED_AT:
                return None
            for entry in pages:
                for follows in (False, True) if entry.is_symlink() else (False,):
                    told = entry.stat(follow_symlinks=follows)
                    if now - max(told.st_mtime_ns, told.st_ctime_ns) < step_of(told):
                        return None
                    numbers = (told.st_dev, told.st_ino, told.st_size, told.st_mtime_ns, told.st_ctime_ns)
                    digest.update(f"{entry.name}\0{numbers}\0".encode("utf-8", "surrogateescape"))
        except OSError:  # a file went meanwhile, or a link leads nowhere
            return None
        return digest.digest()

    def read(self, name: str) -> bytes:
        """The page of a full name, as its bytes. Refuses with 404 where there is none."""
        data = self.read_if_there(name)
        if data is None:
            sentence = "The folder has no page of this title: check its spelling, or make its file first."
            raise Refusal(404, "NoSuchPage", sentence, "no such page")
        return data

    def read_if_there(self, name: str) -> Optional[bytes]:
        """At most `PAGE_BYTES` + 1 bytes; nothing where there is no file, or one that leads out of the
        folder."""
        path = self.file(name)
        try:
            if os.path.dirname(os.path.realpath(path)) != self.path:
                return None
            with open(path, "rb", opener=open_regular) as file:
                return file.read(PAGE_BYTES + 1)
        except OSError as error:
            if error.errno in (errno.ENOENT, errno.ENAMETOOLONG):
                return None
            sentence = f"The page's file can't be read: {error.strerror}."
            raise Refusal(500, "FolderFault", sentence, "folder fault") from None

    def file(self, name: str) -> str:
        return os.path.join(self.path, titles.file_name(name))

    @contextmanager
    def locked(self) -> Iterator[None]:
        """Other savers, also those of other servers over this folder, wait."""
        folder = os.open(self.path, os.O_RDONLY | os.O_DIRECTORY)
        try:
            fcntl.flock(folder, fcntl.LOCK_EX)
            yield
        finally:
            os.close(folder)

    def replace(self, name: str, page: bytes, note: bytes) -> None:
        """Puts a page in the place of the one that is there: whole, or not at all. When it is done the page
        outlasts a loss of power. `note` tells which save made it, and comes and goes with the file."""
        path = self.file(name)
        temporary = os.path.join(self.path, TEMPORARY + secrets.token_hex(8))
        try:
            mode = stat.S_IMODE(os.stat(path).st_mode)
            with open(temporary, "xb") as file:
                file.write(page)
                file.flush()
                put_note(file.fileno(), note)
                os.fchmod(file.fileno(), mode)
                os.fsync(file.fileno())
            os.replace(temporary, path)
        except OSError as error:
            sentence = f"The page couldn't be written, and is as it was: {error.strerror}."
            raise Refusal(500, "NotStored", sentence) from None
        finally:
            remove_if_there(temporary)
        self._confirm_names()

    def note(self, name: str) -> bytes:
        """The note of the save that made a page's file; empty where there is none."""
        return note_of(self.file(name))

    def confirm(self, name: str) -> None:
        """Waits until the disk has a page as it stands, also where the server that wrote it was killed
        before."""
        try:
            with open(self.file(name), "rb", opener=open_regular) as file:
                os.fsync(file.fileno())
        except OSError as error:
            sentence = f"The disk didn't confirm the page: {error.strerror}. Open it again."
            raise Refusal(500, "NotConfirmed", sentence) from None
        self._confirm_names()

    def _confirm_names(self) -> None:
        """Waits until the disk has the names of files, as it has their bytes already."""
        try:
            sync_directory(self.path)
        except OSError as error:
            if error.errno in (errno.EINVAL, errno.ENOTSUP, errno.ENOSYS):  # the file system can't
                return
            sentence = f"The page is written; the disk didn't confirm it: {error.strerror}. Open it again."
            raise Refusal(500, "NotConfirmed", sentence) from None

    def remove_unfinished(self) -> None:
        """Removes what savers that were killed left behind."""
        with self.locked():
            for name in os.listdir(self.path):
                if name.startswith(TEMPORARY):
                    remove_if_there(os.path.join(self.path, name))


def step_of(told: os.stat_result) -> int:
    """How long ago a file or folder must have been written, so that its times tell of the next writing."""
    return STEP if told.st_ctime_ns % 1_000_000_000 else COARSE_STEP


def put_note(file: int, note: bytes) -> None:
    """Where the file system keeps no such attributes a save that is sent again isn't known again."""
    try:
        os.setxattr(file, NOTE, note)
    except (OSError, AttributeError):
        pass


def note_of(path: str) -> bytes:
    try:
        return os.getxattr(path, NOTE)
    except (OSError, AttributeError):  # nobody put one, or the system has no such attributes
        return b""


def title_of_file(file: str) -> Optional[str]:
    """The full name whose page lies in a file of this name, or nothing."""
    if not file.endswith(".wiki") or file.startswith(TEMPORARY):
        return None
    try:
        title = titles.read_title(unquote(file[: -len(".wiki")], errors="strict").replace("_", " "))
    except (titles.BadTitle, UnicodeError):
        return None
    return title.full_name if title.fragment is None and titles.file_name(title.full_name) == file else None


def open_regular(path: str, flags: int) -> int:
    """Opens a file without waiting for a pipe's other end, and refuses what is no file."""
    descriptor = os.open(path, flags | os.O_NONBLOCK | os.O_CLOEXEC)
    if not stat.S_ISREG(os.fstat(descriptor).st_mode):
        os.close(descriptor)
        raise OSError(0, "it is no regular file")
    return descriptor


def remove_if_there(path: str) -> None:
    try:
        os.unlink(path)
    except OSError:
        pass


def sync_directory(path: str) -> None:
    folder = os.open(path, os.O_RDONLY | os.O_DIRECTORY)
    try:
        os.fsync(folder)
    finally:
        os.close(folder)
