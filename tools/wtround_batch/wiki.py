"""The pages of a wiki: those of the folder that `wtround` reads, and those of an XML export."""
from __future__ import annotations

import io
import os
import re
import stat
import time
import zlib
from dataclasses import dataclass
from typing import Any, BinaryIO, Iterator, Union

from .siblings import importer

SETTLED_NS = 2_000_000_000  # a file this old was not changed again within one tick of its clock
PIECE = 1 << 16  # bytes of a file that are read at once
NAMESPACE_NUMBERS = {
    "Talk": 1, "User": 2, "User talk": 3, "Project": 4, "Project talk": 5, "File": 6, "File talk": 7,
    "Template": 10, "Template talk": 11, "Help": 12, "Help talk": 13, "Category": 14, "Category talk": 15,
}  # fmt: skip


@dataclass(frozen=True)
class Entry:
    """A page before its text is read."""

    title: str
    stamp: str  # another one after each change of the text; empty where that is not certain
    bytes: int
    exists: bool = True
    revision: str = ""  # its number in the export


@dataclass(frozen=True)
class Skipped:
    """What stands in the wiki and is no page that can be tried."""

    title: str
    why: str


def quoted(text: str, safe: str = "/") -> str:
    """A part of an address."""
    from urllib.parse import quote  # only where it is wanted, so that the other runs begin sooner

    return quote(text, safe)


def quoted_path(path: str) -> str:
    """The path of a file as a part of an address, whatever bytes it has."""
    from urllib.parse import quote

    return quote(os.fsencode(path))


def full_name(text: str) -> str:
    """The full name of the page to which a title leads. Raises BadTitle where it leads to none."""
    title = importer.read_title(text)
    if title.fragment is not None:
        raise importer.BadTitle("the title has a fragment")
    return title.full_name


def namespace_number(title: str) -> int:
    """The number of a title's namespace, as MediaWiki counts; 0 also for one that the profile hasn't."""
    prefix, colon, _ = title.partition(":")
    return NAMESPACE_NUMBERS.get(prefix, 0) if colon else 0


@dataclass(frozen=True)
class Namespaces:
    """The namespaces that were chosen, by number or by name; none means all."""

    numbers: "frozenset[int]"
    names: "frozenset[str]"

    @classmethod
    def chosen(cls, words: "list[str]") -> "Namespaces":
        numbers, names = set(), set()
        for word in words:
            name = word.replace("_", " ").strip().rstrip(":").lower()
            if name.isdecimal():
                numbers.add(int(name))
            elif name in ("", "main"):
                numbers.add(0)
            else:
                names.add("file" if name == "image" else name)
        return cls(frozenset(numbers), frozenset(names))

    @property
    def are_all(self) -> bool:
        return not self.numbers and not self.names

    def hold(self, title: str, number: int) -> bool:
        if self.are_all:
            return True
        prefix, colon, _ = title.partition(":")
        return number in self.numbers or bool(colon) and prefix.lower() in self.names


# ---------------------------------------------------------------- a folder


# Names of files that hold a title as it stands: no namespace, nothing escaped, one space between words.
PLAIN_FILE = re.compile(r"[A-Z0-9][A-Za-z0-9-]*(_[A-Za-z0-9-]+)*\.wiki")


def title_of_file(name: str) -> str:
    """The full name of the page that a file holds. Raises BadTitle where `wtround` never reads this file."""
    stem = name[: -len(".wiki")]
    if len(stem) <= importer.TITLE_LIMIT and PLAIN_FILE.fullmatch(name):
        return stem.replace("_", " ")
    from urllib.parse import unquote_to_bytes  # as in `quoted`

    try:
        title = full_name(unquote_to_bytes(stem).decode())
    except UnicodeError:
        raise importer.BadTitle("its file name is not UTF-8") from None
    if importer.file_name(title) != name:
        raise importer.BadTitle(f"its file would be named {importer.file_name(title)}")
    return title


def legible(name: str) -> str:
    """The name of a file, with the bytes of it that aren't UTF-8 spelled."""
    return os.fsencode(name).decode("utf-8", "backslashreplace")


def read_at_most(file: io.RawIOBase, most: int) -> bytes:
    """So many bytes of a file at most.

    They are read by pieces: to ask the system for the room of the longest page takes longer than most pages.
    """
    parts: "list[bytes]" = []
    while most > 0:
        part = file.read(min(most, PIECE))
        if not part:
            break
        parts.append(part)
        most -= len(part)
    return b"".join(parts)


def open_regular(path: str, flags: int) -> int:
    """Opens a file without waiting for a pipe's other end, and refuses what is no file."""
    descriptor = os.open(path, flags | os.O_NONBLOCK)
    if not stat.S_ISREG(os.fstat(descriptor).st_mode):
        os.close(descriptor)
        raise OSError(0, "it is no regular file", path)
    return descriptor


class Folder:
    """Pages in files that are named by their titles."""

    def __init__(self, path: str) -> None:
        self.path = path
        self._prefix = os.path.join(path, "")  # of the path of each file

    def titles(self, namespaces: Namespaces) -> "Iterator[Union[str, Skipped]]":
        for name in self._names():
            try:
                title = title_of_file(name)
            except importer.BadTitle as error:
                yield Skipped(legible(name), str(error))
                continue
            if namespaces.hold(title, namespace_number(title)):
                yield title

    def _names(self) -> "Iterator[str]":
        """The names of the files that hold pages, if what they are named is a title."""
        with os.scandir(self.path) as files:
            for file in files:
                if file.name.endswith(".wiki") and not file.name.startswith(".import-"):
                    yield file.name

    def count(self, namespaces: Namespaces) -> int:
        """How many titles `titles` gives, with what is skipped."""
        return sum(1 for _ in (self._names() if namespaces.are_all else self.titles(namespaces)))

    def file_of(self, title: str) -> str:
        return self._prefix + importer.file_name(title)

    def entry(self, title: str) -> Entry:
        try:
            found = os.stat(self.file_of(title))
        except OSError:
            return Entry(title, "", 0, exists=False)
        is_settled = time.time_ns() - found.st_mtime_ns > SETTLED_NS
        return Entry(title, f"{found.st_size}-{found.st_mtime_ns}" if is_settled else "", found.st_size)

    def text(self, title: str) -> "bytes | None":
        """The text of a page, of which more than a page may have is left out; None where there is none.

        Raises OSError where its file is there and cannot be read.
        """
        try:
            with open(self.file_of(title), "rb", buffering=0, opener=open_regular) as file:
                return read_at_most(file, importer.PAGE_LIMIT + 1)
        except FileNotFoundError:
            return None
        except OSError as error:
            if len(importer.file_name(title)) > os.pathconf(self.path, "PC_NAME_MAX"):
                return None
            raise error

    def link(self, title: str, report_folder: str) -> str:
        return quoted_path(os.path.relpath(self.file_of(title), report_folder))

    def close(self) -> None:
        """Nothing is held open."""

    def describe(self) -> str:
        return f"the folder “{self.path}”"


# ---------------------------------------------------------------- an export


@dataclass(frozen=True)
class ExportedPage:
    title: str
    namespace: int
    revision: str
    text: bytes


def exported_page(page: "Any") -> "Union[ExportedPage, Skipped]":
    try:
        title = full_name(page.title)
        text = importer.page_text(page)
    except (importer.BadTitle, importer.Skipped) as error:
        return Skipped(page.title, str(error))
    number = namespace_number(title) if page.namespace is None else page.namespace
    return ExportedPage(title, number, page.revision.number, text)


class ExportReader:
    """Reads an export, and goes on at the next page where one is broken."""

    def __init__(self, raw: BinaryIO) -> None:
        self._raw = raw
        self._parser = importer.ExportParser()
        self._fed = 0  # bytes that this parser was given
        self._lines = 0  # line breaks before what it was given
        self._lines_fed = 0
        self.is_whole = True  # no page of it was broken, and it was read to its end

    @property
    def base(self) -> str:
        """The address of the wiki's main page, empty where the export has none."""
        return self._parser.base

    def pages(self) -> "Iterator[Union[ExportedPage, Skipped]]":
        """Raises ExportError where nothing can be read at all."""
        stream = importer.unpacked(self._raw)
        data, is_last = b"", False
        while not is_last:
            try:
                data = stream.read(importer.CHUNK)
            except (OSError, EOFError, zlib.error) as error:
                self.is_whole = False
                yield Skipped(self._parser.open_title, f"the export ends: {error or type(error).__name__}")
                return
            is_last = not data
            yield from self._read(stream, data, is_last)

    def _read(
        self, stream: BinaryIO, data: bytes, is_last: bool
    ) -> "Iterator[Union[ExportedPage, Skipped]]":
        """The pages that end in these bytes; where they are broken, those from the next beginning on."""
        while True:
            failure = None
            try:
                self._parser.feed(data, is_last)
            except importer.ExportError as error:
                failure = error
            for page in self._parser.pages:
                yield exported_page(page)
            self._parser.pages.clear()
            if failure is None:
                self._fed += len(data)
                self._lines_fed += data.count(b"\n")
                return
            if not self._parser.is_inside:
                raise failure
            self.is_whole = False
            yield Skipped(self._parser.open_title, self._with_line(str(failure)))
            found = self._next_page(stream, data, self._parser.place - self._fed)
            if found is None:
                return
            data = found

    def _with_line(self, message: str) -> str:
        """A message of the parser, with the line of the export."""
        return re.sub(r"(?<=line )\d+", lambda found: str(int(found[0]) + self._lines), message, count=1)

    def _next_page(self, stream: BinaryIO, data: bytes, start: int) -> "bytes | None":
        """The bytes from the next page on, after this place, for a new parser."""
        mark = b"<page>"
        self._lines += self._lines_fed
        place = data.find(mark, max(start, 0))
        while place < 0:
            kept = data[-len(mark) + 1 :]
            self._lines += data.count(b"\n") - kept.count(b"\n")
            try:
                more = stream.read(importer.CHUNK)
            except (OSError, EOFError, zlib.error):
                return None
            if not more:
                return None
            data = kept + more
            place = data.find(mark)
        parser = importer.ExportParser()
        parser.base, parser.template_name = self._parser.base, self._parser.template_name
        # The line of this element is not one of the export's.
        parser.feed(b"<mediawiki>\n")
        self._lines += data.count(b"\n", 0, place) - 1
        self._parser, self._fed, self._lines_fed = parser, len(b"<mediawiki>\n"), 1
        return data[place:]


def link_in_wiki(base: str, title: str) -> str:
    """The address of a page, beside that of the main page."""
    address = base.rpartition("/")[0]
    is_web = address.startswith(("http://", "https://"))
    return f"{address}/{quoted(title.replace(' ', '_'), safe='/:')}" if is_web else ""
