"""What a process does that works off batches of pages with a `wtround_cases` of its own.

It reads and writes frames: a line of JSON, with the number of bytes that follow it under `payload`. The
first frame says what to do; each further one holds a batch, and is answered by one. It ends where its
input does.
"""
from __future__ import annotations

import json
import os
import queue
import socket
import threading
from dataclasses import dataclass
from typing import IO

from .examine import Asking, Examiner, answered
from .outputs import Files, Lines, Nothing
from .program import Cases, be_patient, keep_memory
from .results import Examined, Known, Result
from .store import Export
from .wiki import Folder

MOST_READ = 1 << 16


def write_frame(stream: "IO[bytes]", header: "dict[str, object]", payload: bytes = b"") -> None:
    stream.write(json.dumps({**header, "payload": len(payload)}).encode() + b"\n" + payload)
    stream.flush()


def read_frame(stream: "IO[bytes]") -> "tuple[dict, bytes] | None":
    """The next frame; None at the end of the stream, also in the middle of a frame."""
    line = stream.readline()
    if not line.endswith(b"\n"):
        return None
    header = json.loads(line)
    payload = stream.read(header["payload"])
    return (header, payload) if len(payload) == header["payload"] else None


class FrameReader:
    """Reads frames from a socket as they come, for a process that waits for several at once."""

    def __init__(self, stream: socket.socket) -> None:
        self._stream = stream
        self._buffer = bytearray()
        self._header: "dict | None" = None

    def read(self) -> "list[tuple[dict, bytes]] | None":
        """The frames that are whole after one more read; None at the end."""
        try:
            data = self._stream.recv(MOST_READ)
        except ConnectionError:  # the other side ended with something unread
            data = b""
        if not data:
            return None
        self._buffer += data
        frames: "list[tuple[dict, bytes]]" = []
        while True:
            if self._header is None:
                end = self._buffer.find(b"\n")
                if end < 0:
                    return frames
                self._header = json.loads(self._buffer[:end])
                del self._buffer[: end + 1]
            length = self._header["payload"]
            if len(self._buffer) < length:
                return frames
            frames.append((self._header, bytes(self._buffer[:length])))
            del self._buffer[:length]
            self._header = None


@dataclass(frozen=True)
class Orders:
    """What a worker has to do. All of it can be written as JSON."""

    program: str
    settings: "dict[str, str]"  # of its environment
    memory_limit: "int | None"  # bytes
    time_limit: float  # seconds
    commands: "list[str]"
    pages: "str | None"  # the folder
    export: "list[str] | None"  # the file of results and the export
    output: str  # `files`, `lines` or `nothing`
    output_folder: str
    is_packed: bool
    processor: "int | None" = None  # the one to run on

    def source(self) -> "Folder | Export":
        return Export(*self.export) if self.export is not None else Folder(self.pages or "")

    def sink(self) -> "Files | Lines | Nothing":
        if self.output == "files":
            return Files(self.output_folder, self.is_packed)
        return Lines(self.is_packed) if self.output == "lines" else Nothing()


def known_as_json(known: "Known | None") -> "list | None":
    return None if known is None else [known.digest.hex(), known.names, known.taken_digest.hex()]


def known_from_json(value: "list | None", stamp: str = "") -> "Known | None":
    return None if value is None else Known(stamp, bytes.fromhex(value[0]), value[1], bytes.fromhex(value[2]))


def held_from_json(value: "list | None") -> "tuple[bytes, bytes] | None":
    return None if value is None else (bytes.fromhex(value[0]), bytes.fromhex(value[1]))


def result_as_json(result: Result) -> list:
    return [result.outcome, result.line, result.advice, result.written, result.seconds, result.findings]


def result_from_json(value: list) -> Result:
    return Result(*value)


def examined_as_json(examined: Examined) -> dict:
    return {
        "title": examined.title,
        "bytes": examined.bytes,
        "stamp": examined.known.stamp,
        "known": known_as_json(examined.known),
        "results": {command: result_as_json(result) for command, result in examined.results.items()},
    }


def examined_from_json(value: dict) -> Examined:
    known = known_from_json(value["known"], value["stamp"])
    assert known is not None
    results = {command: result_from_json(result) for command, result in value["results"].items()}
    return Examined(value["title"], value["bytes"], known, results)


def read_ahead(stream: "IO[bytes]", batches: "queue.SimpleQueue") -> None:
    """Takes what comes at once, so that the process that sends it never waits."""
    frame: "tuple[dict, bytes] | None" = ({}, b"")
    while frame is not None:
        try:
            frame = read_frame(stream)
        except ConnectionError:
            frame = None
        batches.put(frame)


def work(leader: socket.socket) -> None:
    """What a worker does, with a socket to the process that leads."""
    source, target = leader.makefile("rb"), leader.makefile("wb")
    first = read_frame(source)
    if first is None:
        return
    orders = Orders(**{name: value for name, value in first[0].items() if name != "payload"})
    if orders.processor is not None:
        # The worker and its program take turns: on one processor, neither has to wake another one up.
        os.sched_setaffinity(0, {orders.processor})
    be_patient()
    keep_memory()
    cases = Cases(orders.program, orders.memory_limit, orders.settings)
    cases.start_ahead()
    examiner = Examiner(orders.source(), orders.time_limit, orders.output != "nothing")
    sink = orders.sink()
    batches: "queue.SimpleQueue" = queue.SimpleQueue()
    threading.Thread(target=read_ahead, args=(source, batches), daemon=True).start()
    try:
        for frame in iter(batches.get, None):
            pages, output = worked_off(frame[0]["pages"], orders.commands, cases, examiner, sink)
            write_frame(target, {"pages": pages}, output)
    except ConnectionError:
        pass  # nobody waits for it any more
    cases.close()


def worked_off(
    tasks: "list[dict]",
    commands: "list[str]",
    cases: Cases,
    examiner: Examiner,
    sink: "Files | Lines | Nothing",
) -> "tuple[list[dict], bytes]":
    """What comes of the pages of a batch, and the bytes of their output where all goes into one file."""
    lines, done = [], []
    askings = [examining(task, commands, examiner) for task in tasks]
    for task, examined in zip(tasks, answered(cases, askings)):
        if examined.results:
            lines.append(sink.take(examined, task["revision"]))
        done.append(examined_as_json(examined))
    return done, sink.finish(b"".join(lines))


def examining(task: dict, commands: "list[str]", examiner: Examiner) -> "Asking[Examined]":
    known, held = known_from_json(task["known"]), held_from_json(task["held"])
    return examiner.examine(task["title"], task["stamp"], commands, known, held)
