"""Asks `wtround_cases`: a call a line, over pages in memory."""
from __future__ import annotations

import re
import resource
import subprocess
from dataclasses import dataclass
from pathlib import Path
from typing import Dict, List
from urllib.parse import unquote


@dataclass(frozen=True)
class Answer:
    """How a call ended."""

    status: int
    out: bytes
    line: str

    @property
    def refusal(self) -> str:
        """Why it was refused, without the number of a node or block."""
        return re.sub(r" \d+", "", self.line.replace("wtround: ", "").replace("edit refused: ", ""))


class Cases:
    """The program. It answers a line before it reads the next one."""

    def __init__(self, path: str) -> None:
        self._process = subprocess.Popen([path], stdin=subprocess.PIPE, stdout=subprocess.PIPE)

    def ask(self, words: List[str], given: bytes, pages: Dict[str, bytes]) -> Answer:
        assert self._process.stdin is not None and self._process.stdout is not None
        named = ",".join(f"{name.encode().hex()}={text.hex()}" for name, text in pages.items())
        line = "\t".join([",".join(word.encode().hex() for word in words), given.hex(), named])
        self._process.stdin.write(line.encode() + b"\n")
        self._process.stdin.flush()
        fields = self._process.stdout.readline().decode().rstrip("\n").split("\t")
        if len(fields) != 3:
            raise SystemExit(f"the program answered {fields} to {' '.join(words)}")
        return Answer(int(fields[0]), bytes.fromhex(fields[1]), bytes.fromhex(fields[2]).decode().strip())

    def close(self) -> float:
        """Ends the program. The answer: the seconds of processor time that it took."""
        before = resource.getrusage(resource.RUSAGE_CHILDREN)
        assert self._process.stdin is not None
        self._process.stdin.close()
        self._process.wait()
        after = resource.getrusage(resource.RUSAGE_CHILDREN)
        return after.ru_utime + after.ru_stime - before.ru_utime - before.ru_stime


@dataclass(frozen=True)
class Page:
    """A page, with the templates of its folder."""

    title: str
    text: bytes
    templates: Dict[str, bytes]

    def ask(self, cases: Cases, command: str, given: str = "") -> Answer:
        return cases.ask([command, self.title], given.encode(), {**self.templates, self.title: self.text})

    def changed(self, text: bytes) -> "Page":
        return Page(self.title, text, self.templates)


def title_of(path: Path) -> str:
    """The full name of the page in a file, also where the file has it with a small letter."""
    name = unquote(path.stem).replace("_", " ")
    return name[:1].upper() + name[1:] if name[:1].isascii() else name


def pages_of(folder: Path) -> List[Page]:
    """The pages of a folder that are no templates, with the line breaks that wikis store."""
    paths = sorted(folder.glob("*.wiki"))
    texts = {title_of(path): path.read_bytes().replace(b"\r\n", b"\n") for path in paths}
    templates = {title: text for title, text in texts.items() if title.startswith("Template:")}
    return [Page(title, text, templates) for title, text in texts.items() if title not in templates]
