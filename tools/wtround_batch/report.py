"""What came of a run: counts, refusals, the slowest and the largest pages, and doubtful places."""
from __future__ import annotations

import heapq
import json
import math
import os
import time
from collections import Counter
from dataclasses import dataclass, field
from typing import Iterator, TextIO

from .results import ANSWERED, OUTCOMES, SAME
from .run import Source
from .siblings import explainer
from .store import Store

MOST_SLOWEST = 20
MOST_EXAMPLES = 8  # pages of a kind of doubtful places
STEPS_OF_TIME = 5  # of each power of ten
NO_ANSWER = f"outcome NOT IN ('{ANSWERED}', '{SAME}')"


@dataclass(frozen=True)
class About:
    """What a report says of the run itself."""

    source: str
    commands: "list[str]"
    program: str
    jobs: int
    seconds: float
    kept: int
    is_finished: bool
    export_is_whole: bool


@dataclass
class KindOfFinding:
    places: int = 0
    pages: int = 0
    examples: "list[tuple[int, str, list]]" = field(
        default_factory=list
    )  # places, title, the first of them


@dataclass
class Figures:
    """The counts of a run, made in one pass over its results."""

    pages: int = 0
    failed: int = 0  # pages that a command did not answer, or that came back otherwise
    bytes: int = 0
    outcomes: "dict[str, Counter[str]]" = field(default_factory=dict)  # by command
    reasons: "Counter[str]" = field(default_factory=Counter)
    times: "Counter[int]" = field(default_factory=Counter)  # answers, by `step_of_time`
    sizes: "Counter[int]" = field(default_factory=Counter)  # pages, by the power of two below their bytes
    slowest: "list[tuple[float, str, str, int]]" = field(
        default_factory=list
    )  # seconds, title, command, bytes
    largest: "list[tuple[int, str]]" = field(default_factory=list)
    findings: "dict[str, KindOfFinding]" = field(default_factory=dict)
    seconds: float = 0.0  # of processor time, of all answers


@dataclass(frozen=True)
class Failure:
    """A page without an answer, or one that came back otherwise."""

    title: str
    command: str
    reason: str
    line: str
    explained: "dict[str, object]"  # `advice`, and where there is a place: `page`, `line`, `column`, `shown`
    link: str


def step_of_time(seconds: float) -> int:
    return math.floor(STEPS_OF_TIME * math.log10(max(seconds, 1e-6)) + 1e-9)


def push(heap: list, most: int, entry: tuple) -> None:
    """Keeps the greatest entries."""
    if len(heap) < most:
        heapq.heappush(heap, entry)
    else:
        heapq.heappushpop(heap, entry)


class Report:
    def __init__(self, store: Store, source: Source, run: int, about: About, path: str) -> None:
        self._store = store
        self._source = source
        self._run = run
        self.about = about
        self.path = path
        self.json_path = os.path.splitext(path)[0] + ".json"
        self._folder = os.path.dirname(os.path.realpath(path))
        self.figures = self._figures(about.commands)

    def _figures(self, commands: "list[str]") -> Figures:
        figures = Figures(outcomes={command: Counter() for command in commands})
        columns = "title, command, outcome, reason, bytes, seconds, findings"
        last, last_failed = "", ""
        for row in self._store.rows(
            f"SELECT {columns} FROM result WHERE run = ? ORDER BY title", self._run
        ):
            title, command, outcome, reason, size, seconds, findings = row
            if command not in figures.outcomes:
                continue
            figures.outcomes[command][outcome] += 1
            if title != last:
                last = title
                figures.pages += 1
                figures.bytes += size
                figures.sizes[max(size, 1).bit_length() - 1] += 1
                push(figures.largest, MOST_SLOWEST, (size, title))
            if outcome in (ANSWERED, SAME):
                figures.times[step_of_time(seconds)] += 1
            else:
                figures.reasons[reason] += 1
                figures.failed += title != last_failed
                last_failed = title
            figures.seconds += seconds
            push(figures.slowest, MOST_SLOWEST, (seconds, title, command, size))
            if findings:
                self._add_findings(figures.findings, title, json.loads(findings))
        figures.slowest.sort(reverse=True)
        figures.largest.sort(reverse=True)
        for kind in figures.findings.values():
            kind.examples.sort(key=lambda example: (-example[0], example[1]))
        return figures

    def _add_findings(self, kinds: "dict[str, KindOfFinding]", title: str, found: dict) -> None:
        for name, count in found["counts"].items():
            kind = kinds.setdefault(name, KindOfFinding())
            kind.places += count
            kind.pages += 1
            first: list = next((place[1:] for place in found["first"] if place[0] == name), [])
            push(kind.examples, MOST_EXAMPLES, (count, title, first))

    def quantile(self, share: float) -> "float | None":
        """The time within which this share of the answers was there."""
        answers = sum(self.figures.times.values())
        if answers == 0:
            return None
        query = "SELECT seconds FROM result WHERE run = ? AND NOT "
        query += f"({NO_ANSWER}) ORDER BY seconds LIMIT 1 OFFSET ?"
        return next(iter(self._store.rows(query, self._run, min(answers - 1, int(share * answers)))))[0]

    def link(self, title: str) -> str:
        return self._source.link(title, self._folder)

    def failures(self, reason: str, most: int = -1) -> "Iterator[Failure]":
        """The pages that have this reason, by their titles."""
        query = "SELECT title, command, line, advice FROM result WHERE run = ? AND reason = ? AND "
        query += f"{NO_ANSWER} ORDER BY title LIMIT ?"
        for title, command, line, advice in self._store.rows(query, self._run, reason, most):
            yield Failure(
                title, command, reason, line, json.loads(advice) if advice else {}, self.link(title)
            )

    def skipped(self) -> "Iterator[tuple[str, str]]":
        for title, why in self._store.rows("SELECT title, why FROM skipped ORDER BY rowid"):
            yield title, why

    def shown_place(self, title: str, start: int) -> str:
        """The line of a page round a place, with a caret under it; empty where the page can't be read."""
        try:
            data = self._source.text(title)
        except OSError:
            return ""
        if data is None or start > len(data):
            return ""
        spot = explainer().spot(data, start)
        return explainer().line_with_caret(spot.before, spot.after)


# ---------------------------------------------------------------- JSON


def write_json(report: Report, file: TextIO) -> None:
    """Writes the report as JSON, its long lists page by page."""
    text = json.dumps(head_as_json(report), ensure_ascii=False, indent=1)
    file.write(text[: text.rindex("\n}")])
    write_list(
        file,
        "failures",
        (failure_as_json(f) for reason in report.figures.reasons for f in report.failures(reason)),
    )
    write_list(file, "skipped", ({"title": title, "why": why} for title, why in report.skipped()))
    file.write("\n}\n")


def head_as_json(report: Report) -> dict:
    """What a report says beside its long lists."""
    about, figures = report.about, report.figures
    return {
        "source": about.source,
        "commands": about.commands,
        "program": about.program,
        "processes": about.jobs,
        "finished": about.is_finished,
        "export_whole": about.export_is_whole,
        "written": time.strftime("%Y-%m-%dT%H:%M:%SZ", time.gmtime()),
        "seconds": round(about.seconds, 3),
        "pages": figures.pages,
        "failed_pages": figures.failed,
        "kept": about.kept,
        "bytes": figures.bytes,
        "processor_seconds": round(figures.seconds, 3),
        "outcomes": {
            command: {outcome: counts[outcome] for outcome in OUTCOMES if counts[outcome]}
            for command, counts in figures.outcomes.items()
        },
        "reasons": dict(figures.reasons.most_common()),
        "seconds_of_an_answer": {
            name: report.quantile(share)
            for name, share in (("median", 0.5), ("of 95 %", 0.95), ("of 99 %", 0.99))
        },
        "slowest": [
            {
                "title": title,
                "command": command,
                "seconds": round(seconds, 6),
                "bytes": size,
                "link": report.link(title),
            }
            for seconds, title, command, size in figures.slowest
        ],
        "largest": [
            {"title": title, "bytes": size, "link": report.link(title)} for size, title in figures.largest
        ],
        "findings": {
            name: findings_as_json(report, kind) for name, kind in sorted(figures.findings.items())
        },
    }


def write_list(file: TextIO, name: str, entries: "Iterator[dict]") -> None:
    file.write(f',\n "{name}": [')
    mark = "\n  "
    for entry in entries:
        file.write(mark + json.dumps(entry, ensure_ascii=False))
        mark = ",\n  "
    file.write("\n ]")


def failure_as_json(failure: Failure) -> dict:
    said = {
        "title": failure.title,
        "command": failure.command,
        "reason": failure.reason,
        "line": failure.line,
    }
    return {**said, "link": failure.link, **({"explain": failure.explained} if failure.explained else {})}


def findings_as_json(report: Report, kind: KindOfFinding) -> dict:
    examples = [
        {"title": title, "places": count, "first": first, "link": report.link(title)}
        for count, title, first in kind.examples
    ]
    return {"places": kind.places, "pages": kind.pages, "examples": examples}
