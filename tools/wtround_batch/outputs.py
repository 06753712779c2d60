"""Where the answers go: files that are named by the titles, or one file with a line of JSON for each page."""
from __future__ import annotations

import json
import os
from hashlib import blake2b

from .results import COMMANDS, Examined, Known, Result
from .siblings import importer

SUFFIXES = {
    "html": ".html",
    "wikitext": ".wiki",
    "ranges": ".ranges",
    "expand": ".expanded",
    "lint": ".lint",
}
NAME_BYTES = 255  # of a file, in most file systems
HEAD_BYTES = 200
COMPRESSION = 6


def output_name(title: str, command: str, is_packed: bool) -> str:
    """The file name of a page's output. A very long one is cut and told apart by a digest of the title."""
    stem = importer.file_name(title)[: -len(".wiki")]
    suffix = SUFFIXES[command] + (".gz" if is_packed else "")
    if len(stem) + len(suffix) > NAME_BYTES:
        stem = stem[:HEAD_BYTES] + "~" + blake2b(title.encode(), digest_size=8).hexdigest()
    return stem + suffix


def packed(data: bytes) -> bytes:
    """The bytes as one member of a gzip file; such a file may have any number of members."""
    import gzip  # only where it is wanted, so that the other runs begin sooner

    return gzip.compress(data, COMPRESSION, mtime=0) if data else b""


class Files:
    """Writes each answer into a file of its own, whole or not at all."""

    def __init__(self, folder: str, is_packed: bool) -> None:
        self._folder = folder
        self._is_packed = is_packed
        self._temporary = os.path.join(folder, f".part-{os.getpid()}")

    def take(self, examined: Examined, revision: str) -> bytes:
        for command, result in examined.results.items():
            path = os.path.join(self._folder, output_name(examined.title, command, self._is_packed))
            if result.has_output:
                self._write(path, result.out)
            elif os.path.lexists(path):
                os.unlink(path)
        return b""

    def _write(self, path: str, data: bytes) -> None:
        with open(self._temporary, "wb") as file:
            file.write(packed(data) if self._is_packed else data)
        os.replace(self._temporary, path)

    def finish(self, lines: bytes) -> bytes:
        return lines


class Lines:
    """Makes a line of JSON of each page."""

    def __init__(self, is_packed: bool, has_output: bool = True) -> None:
        self._is_packed = is_packed
        self._has_output = has_output

    def take(self, examined: Examined, revision: str) -> bytes:
        line: "dict[str, object]" = {"title": examined.title}
        if revision:
            line["revision"] = revision
        line["bytes"] = examined.bytes
        line["templates"] = examined.known.names
        for command, result in examined.results.items():
            line[command] = self._as_json(result)
        return json.dumps(line, ensure_ascii=False).encode() + b"\n"

    def _as_json(self, result: Result) -> "dict[str, object]":
        said: "dict[str, object]" = {
            "outcome": result.outcome,
            "seconds": round(result.seconds, 6),
            "written": result.written,
        }
        if result.line:
            said["line"] = result.line
        if result.advice:
            said["explain"] = json.loads(result.advice)
        if result.findings:
            said["findings"] = json.loads(result.findings)
        if result.has_output and self._has_output:
            said["output"] = result.out.decode("utf-8", "replace")
        return said

    def finish(self, lines: bytes) -> bytes:
        return packed(lines) if self._is_packed else lines


def read_line(line: bytes) -> Examined:
    """The page of such a line, without its output. Raises ValueError or KeyError where it is none."""
    value = json.loads(line)
    results = {}
    for command in COMMANDS:
        if command in value:
            said = value[command]
            advice = json.dumps(said["explain"], ensure_ascii=False) if "explain" in said else ""
            findings = json.dumps(said["findings"]) if "findings" in said else ""
            seconds = float(said["seconds"])
            results[command] = Result(
                said["outcome"], said.get("line", ""), advice, said["written"], seconds, findings
            )
    return Examined(value["title"], value["bytes"], Known("", b"", value["templates"], b""), results)


class Nothing:
    """Keeps no answers."""

    def take(self, examined: Examined, revision: str) -> bytes:
        return b""

    def finish(self, lines: bytes) -> bytes:
        return lines
