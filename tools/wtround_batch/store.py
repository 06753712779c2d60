"""What is known of a wiki's pages from one run to the next, in an SQLite file."""
from __future__ import annotations

import fcntl
import json
import os
import sqlite3
import zlib
from hashlib import blake2b
from typing import Callable, Iterable, Iterator

from .results import Known, Result
from .wiki import Entry, ExportedPage, ExportReader, Namespaces, Skipped, link_in_wiki, quoted_path

FORMAT = "1"
LOG_PAGES = 10_000  # of SQLite, 41 MB: at so many what was committed is brought into the file, which is waited for
MOST_REMEMBERED = 1 << 16  # entries of each of the two small memories of templates

SCHEMA = """
CREATE TABLE about (name TEXT PRIMARY KEY, value TEXT NOT NULL) WITHOUT ROWID;
-- The pages of an export, with their texts. `reading` counts how often an export was read.
CREATE TABLE page (id INTEGER PRIMARY KEY, title TEXT NOT NULL UNIQUE, namespace INTEGER NOT NULL,
    revision TEXT NOT NULL, digest BLOB NOT NULL, bytes INTEGER NOT NULL, text BLOB NOT NULL,
    reading INTEGER NOT NULL);
-- What stands in the export or the folder and is no page; `place` is where it was found.
CREATE TABLE skipped (title TEXT NOT NULL, why TEXT NOT NULL, place TEXT NOT NULL);
CREATE TABLE template (id INTEGER PRIMARY KEY, title TEXT NOT NULL UNIQUE);
-- A page's text and the templates that it takes, as they were found last. `taken` has their ids.
CREATE TABLE known (title TEXT PRIMARY KEY, stamp TEXT NOT NULL, digest BLOB NOT NULL, taken TEXT NOT NULL,
    taken_digest BLOB NOT NULL) WITHOUT ROWID;
-- What came of a command on a page. It holds as long as the text, the templates and `making` (the program and
-- where the output went) are the same. `run` is the last run in which the page was chosen.
CREATE TABLE result (title TEXT NOT NULL, command TEXT NOT NULL, digest BLOB NOT NULL,
    taken_digest BLOB NOT NULL, making TEXT NOT NULL, run INTEGER NOT NULL, outcome TEXT NOT NULL,
    reason TEXT NOT NULL, line TEXT NOT NULL, advice TEXT NOT NULL, bytes INTEGER NOT NULL,
    written INTEGER NOT NULL, seconds REAL NOT NULL, findings TEXT NOT NULL,
    PRIMARY KEY (title, command)) WITHOUT ROWID;
"""


class StoreError(Exception):
    """The file of results cannot be used; the message says why."""


def digest_of(text: bytes) -> bytes:
    return blake2b(text, digest_size=16).digest()


def taken_digest(templates: "Iterable[tuple[str, bytes | None]]") -> bytes:
    """One digest of all templates that a page takes, by name and digest; None for one that isn't there."""
    digest = blake2b(digest_size=16)
    for name, text_digest in templates:
        digest.update(name.encode() + b"\0" + (text_digest or b"-") + b"\n")
    return digest.digest()


def unsure(digest: bytes) -> bytes:
    """The digest that is kept in place of this one where the templates could only be guessed."""
    return blake2b(digest, digest_size=16).digest()


class Lock:
    """Keeps a second run away from the same file of results, until this process ends, however that is."""

    def __init__(self, path: str) -> None:
        self._file = open(path, "a+")
        try:
            fcntl.flock(self._file, fcntl.LOCK_EX | fcntl.LOCK_NB)
        except OSError:
            self._file.seek(0)
            owner = self._file.read().strip() or "unknown"
            raise StoreError(
                f"another run (process {owner}) is at work with this file of results"
            ) from None
        self._file.truncate(0)
        self._file.write(f"{os.getpid()}\n")
        self._file.flush()


class Store:
    """The file of results, for the one process that writes it."""

    def __init__(self, path: str) -> None:
        self.path = os.path.realpath(path)
        self._lock = Lock(self.path + ".lock")
        try:
            self._connection = sqlite3.connect(self.path, isolation_level=None)
            self._connection.execute("PRAGMA journal_mode = WAL")
            self._connection.execute("PRAGMA synchronous = NORMAL")
            self._connection.execute(f"PRAGMA wal_autocheckpoint = {LOG_PAGES}")
            self._create()
        except sqlite3.DatabaseError as error:
            raise StoreError(f"{path}: {error}") from None
        self._ids: "dict[str, int]" = {}
        self._names: "dict[int, str]" = {}
        self._is_open = False

    def _create(self) -> None:
        tables = self._connection.execute("SELECT count(*) FROM sqlite_master").fetchone()[0]
        if tables == 0:
            self._connection.executescript(
                "BEGIN;" + SCHEMA + f"INSERT INTO about VALUES ('format', '{FORMAT}'); COMMIT;"
            )
        elif self.about("format") != FORMAT:
            raise StoreError(
                f"{self.path} was written by another version of this tool: remove it, or name another"
            )

    # ------------------------------------------------------------ transactions and single values

    def begin(self) -> None:
        if not self._is_open:
            self._connection.execute("BEGIN")
            self._is_open = True

    def commit(self) -> None:
        if self._is_open:
            self._connection.execute("COMMIT")
            self._is_open = False

    def close(self) -> None:
        self.commit()
        self._connection.close()

    def about(self, name: str, default: str = "") -> str:
        row = self._connection.execute("SELECT value FROM about WHERE name = ?", (name,)).fetchone()
        return row[0] if row else default

    def set_about(self, name: str, value: str) -> None:
        self._connection.execute("REPLACE INTO about VALUES (?, ?)", (name, value))

    def count_up(self, name: str) -> int:
        """The next number of a counter."""
        number = int(self.about(name, "0")) + 1
        self.set_about(name, str(number))
        return number

    def rows(self, query: str, *values: object) -> "Iterator[tuple]":
        return self._connection.execute(query, values)

    # ------------------------------------------------------------ what is known of pages

    def known(self, title: str) -> "Known | None":
        query = "SELECT stamp, digest, taken, taken_digest FROM known WHERE title = ?"
        row = self._connection.execute(query, (title,)).fetchone()
        if row is None:
            return None
        names = [self._name_of(int(number)) for number in row[2].split(",") if number]
        return Known(row[0], row[1], names, row[3])

    def set_known(self, title: str, known: Known) -> None:
        taken = ",".join(str(self._id_of(name)) for name in known.names)
        values = (title, known.stamp, known.digest, taken, known.taken_digest)
        self._connection.execute("REPLACE INTO known VALUES (?, ?, ?, ?, ?)", values)

    def _name_of(self, number: int) -> str:
        name = self._names.get(number)
        if name is None:
            name = self._connection.execute(
                "SELECT title FROM template WHERE id = ?", (number,)
            ).fetchone()[0]
            remember(self._names, number, name)
        return name

    def _id_of(self, name: str) -> int:
        number = self._ids.get(name)
        if number is None:
            self._connection.execute("INSERT OR IGNORE INTO template (title) VALUES (?)", (name,))
            number = self._connection.execute(
                "SELECT id FROM template WHERE title = ?", (name,)
            ).fetchone()[0]
            remember(self._ids, name, number)
        return number

    # ------------------------------------------------------------ results

    def held(
        self, title: str, commands: "list[str]", makings: "tuple[str, str]"
    ) -> "tuple[bytes, bytes] | None":
        """The digests of the text and the templates for which the results of all these commands are there."""
        query = "SELECT command, digest, taken_digest FROM result WHERE title = ? AND making IN (?, ?)"
        rows = [row for row in self._connection.execute(query, (title, *makings)) if row[0] in commands]
        digests = {(row[1], row[2]) for row in rows}
        return digests.pop() if len(rows) == len(commands) and len(digests) == 1 else None

    def keep(self, title: str, commands: "list[str]", run: int) -> None:
        """Says that the old results of a page hold in this run."""
        update = "UPDATE result SET run = ? WHERE title = ? AND command = ?"
        self._connection.executemany(update, [(run, title, command) for command in commands])

    def outcomes(self, title: str, commands: "list[str]") -> "list[str]":
        query = "SELECT command, outcome FROM result WHERE title = ?"
        return [
            outcome for command, outcome in self._connection.execute(query, (title,)) if command in commands
        ]

    def is_empty(self) -> bool:
        """Whether nothing is known of any page."""
        return self._connection.execute("SELECT 1 FROM known LIMIT 1").fetchone() is None

    def set_result(
        self, title: str, command: str, known: Known, making: str, run: int, size: int, result: Result
    ) -> None:
        columns = (
            title, command, known.digest, known.taken_digest, making, run, result.outcome, result.reason,
            result.line, result.advice, size, result.written, result.seconds, result.findings,
        )  # fmt: skip
        self._connection.execute(
            "REPLACE INTO result VALUES (?, ?, ?, ?, ?, ?, ?, ?, ?, ?, ?, ?, ?, ?)", columns
        )

    # ------------------------------------------------------------ what is no page

    def clear_skipped(self, place: str) -> None:
        self._connection.execute("DELETE FROM skipped WHERE place = ?", (place,))

    def add_skipped(self, skipped: Skipped, place: str) -> None:
        self._connection.execute(
            "INSERT INTO skipped VALUES (?, ?, ?)", (skipped.title, skipped.why, place)
        )

    # ------------------------------------------------------------ the pages of an export

    def read_export(self, path: str, show: "Callable[[int, int], None]") -> None:
        """Takes the pages of an export, unless they were taken from this very file before.

        `show` is called with the bytes that were read and the pages. Raises ExportError and OSError.
        """
        status = os.stat(path)
        identity = json.dumps([os.path.realpath(path), status.st_size, status.st_mtime_ns])
        if self.about("export") == identity:
            return
        self.set_about("export", "")
        reading = self.count_up("reading")
        self.begin()
        self.clear_skipped("export")
        with open(path, "rb") as raw:
            reader = ExportReader(raw)
            for count, page in enumerate(reader.pages()):
                if isinstance(page, Skipped):
                    self.add_skipped(page, "export")
                elif not self._take_page(page, reading):
                    self.add_skipped(
                        Skipped(page.title, "an earlier page of this export has the same title"), "export"
                    )
                if count % 1000 == 999:
                    self.commit()
                    show(raw.tell(), count + 1)
                    self.begin()
        self._connection.execute("DELETE FROM page WHERE reading <> ?", (reading,))
        self.set_about("base", reader.base)
        self.set_about("export whole", "yes" if reader.is_whole else "no")
        self.set_about("export", identity)
        self.commit()

    def _take_page(self, page: ExportedPage, reading: int) -> bool:
        """Whether this is the first page of its title in this reading."""
        digest = digest_of(page.text)
        row = self._connection.execute(
            "SELECT digest, reading FROM page WHERE title = ?", (page.title,)
        ).fetchone()
        if row is not None and row[1] == reading:
            return False
        if row is not None and row[0] == digest:
            update = "UPDATE page SET reading = ?, revision = ?, namespace = ? WHERE title = ?"
            self._connection.execute(update, (reading, page.revision, page.namespace, page.title))
            return True
        packed = zlib.compress(page.text, 1)
        values = (page.title, page.namespace, page.revision, digest, len(page.text), packed, reading)
        columns = "(title, namespace, revision, digest, bytes, text, reading)"
        self._connection.execute(f"REPLACE INTO page {columns} VALUES (?, ?, ?, ?, ?, ?, ?)", values)
        return True


def remember(memory: dict, key: object, value: object) -> None:
    """Keeps a value in a memory that never has more than so many."""
    if len(memory) >= MOST_REMEMBERED:
        memory.clear()
    memory[key] = value


class Export:
    """The pages of an export that a file of results holds, for any process that reads them."""

    def __init__(self, store_path: str, export_path: str) -> None:
        self.path = export_path
        self._connection = sqlite3.connect(
            f"file:{quoted_path(store_path)}?mode=ro", uri=True, isolation_level=None
        )
        self._base = (self._one("SELECT value FROM about WHERE name = 'base'") or ("",))[0]

    def _one(self, query: str, *values: object) -> "tuple | None":
        return self._connection.execute(query, values).fetchone()

    def titles(self, namespaces: Namespaces) -> "Iterator[str]":
        number = 0
        while True:
            # By pieces: a query that stayed open would keep the file's log from being shortened.
            query = "SELECT id, title, namespace FROM page WHERE id > ? ORDER BY id LIMIT 1000"
            rows = self._connection.execute(query, (number,)).fetchall()
            if not rows:
                return
            for number, title, namespace in rows:
                if namespaces.hold(title, namespace):
                    yield title

    def count(self, namespaces: Namespaces) -> int:
        """How many titles `titles` gives."""
        if namespaces.are_all:
            return (self._one("SELECT count(*) FROM page") or (0,))[0]
        return sum(1 for _ in self.titles(namespaces))

    def entry(self, title: str) -> Entry:
        row = self._one("SELECT digest, bytes, revision FROM page WHERE title = ?", title)
        return (
            Entry(title, row[0].hex(), row[1], True, row[2]) if row else Entry(title, "", 0, exists=False)
        )

    def text(self, title: str) -> "bytes | None":
        row = self._one("SELECT text FROM page WHERE title = ?", title)
        return zlib.decompress(row[0]) if row else None

    def link(self, title: str, report_folder: str) -> str:
        return link_in_wiki(self._base, title)

    def close(self) -> None:
        self._connection.close()

    def describe(self) -> str:
        return f"the export “{self.path}”"
