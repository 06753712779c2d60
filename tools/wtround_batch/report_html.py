"""The report as one HTML file, which needs nothing but a browser."""
from __future__ import annotations

import os
import time
from typing import Callable, Iterator, TextIO

from .charts import Bar, bars, escaped, histogram
from .progress import spelled_time
from .report import MOST_EXAMPLES, STEPS_OF_TIME, Failure, Report, step_of_time, write_json
from .results import ANSWERED, DIFFERS, FAILURE_WORDS, OUTCOMES, REFUSED, SAME

MOST_LISTED = 500  # pages of one reason; the JSON has all

OUTCOME_WORDS = {ANSWERED: "answered", SAME: "came back byte for byte", **FAILURE_WORDS}
OUTCOME_STYLES = {ANSWERED: "good", SAME: "good", REFUSED: "warn"}

KINDS = {
    "OpenStyle": "bold or italic text that nothing closes",
    "OpenTable": "a table without its |}",
    "StrayTableEnd": "|} where no table is open",
    "OpenTag": "a tag that nothing closes",
    "StrayTag": "a closing tag without an opening one",
    "OpenBraces": "{{ or more that begin no call",
    "StrayBraces": "}} or more that end no call",
    "OpenLink": "[[ that begins no link",
    "StrayLinkEnd": "]] that ends no link",
    "UnequalHeading": "a heading with more = on one side",
    "RepeatedCategory": "a category that the page has already",
}

STYLE = """
:root { color-scheme: light dark; --text: #1d2229; --soft: #5b6470; --line: #d9dee4; --back: #fff;
  --panel: #f5f7f9; --plain: #4478b5; --good: #2f8558; --warn: #c27a13; --bad: #b93a3a; --link: #1f5fa8; }
@media (prefers-color-scheme: dark) { :root { --text: #e5e9ee; --soft: #9ba6b2; --line: #363d46;
  --back: #14181d; --panel: #1d2228; --plain: #6a9fdc; --good: #4fb583; --warn: #e0a04a; --bad: #e27070;
  --link: #86b8f2; } }
* { box-sizing: border-box; }
body { margin: 0; background: var(--back); color: var(--text); font: 16px/1.5 system-ui, sans-serif; }
main { max-width: 60rem; margin: 0 auto; padding: 2rem 1.25rem 4rem; }
h1 { font-size: 1.7rem; line-height: 1.25; margin: 0 0 .25rem; }
h2 { font-size: 1.2rem; margin: 2.75rem 0 .5rem; padding-top: 1rem; border-top: 1px solid var(--line); }
h3 { font-size: 1rem; margin: 1.5rem 0 .25rem; }
p, ul { margin: .5rem 0; }
.soft { color: var(--soft); }
.alert { border-left: 4px solid var(--bad); background: var(--panel); padding: .5rem .9rem; }
.tiles { display: grid; grid-template-columns: repeat(auto-fit, minmax(9.5rem, 1fr)); gap: .75rem;
  margin: 1.5rem 0; }
.tile { background: var(--panel); border-radius: 6px; padding: .75rem .9rem; }
.tile b { display: block; font-size: 1.55rem; line-height: 1.2; font-variant-numeric: tabular-nums; }
.tile span { color: var(--soft); font-size: .875rem; }
.tile.good b { color: var(--good); } .tile.warn b { color: var(--warn); } .tile.bad b { color: var(--bad); }
figure { margin: 1rem 0; } figure svg { width: 100%; height: auto; display: block; }
figcaption { color: var(--soft); font-size: .875rem; margin-top: .25rem; }
svg text { font: 13px system-ui, sans-serif; fill: var(--text); dominant-baseline: middle; }
svg .tick { fill: var(--soft); font-size: 12px; } svg .mark { fill: var(--soft); font-size: 12px; }
svg .number { font-variant-numeric: tabular-nums; }
svg rect.plain { fill: var(--plain); } svg rect.good { fill: var(--good); }
svg rect.warn { fill: var(--warn); } svg rect.bad { fill: var(--bad); }
svg line { stroke: var(--line); } svg line.axis { stroke: var(--soft); }
svg line.mark { stroke: var(--soft); stroke-dasharray: 3 3; }
.wide { overflow-x: auto; }
table { border-collapse: collapse; width: 100%; font-size: .9375rem; }
th, td { text-align: left; padding: .3rem .75rem .3rem 0; border-bottom: 1px solid var(--line);
  vertical-align: top; }
th { color: var(--soft); font-weight: 600; }
td.n, th.n { text-align: right; font-variant-numeric: tabular-nums; white-space: nowrap; }
a { color: var(--link); }
pre { margin: .25rem 0; padding: .4rem .6rem; background: var(--panel); border-radius: 4px; overflow-x: auto;
  font: 13px/1.35 ui-monospace, monospace; }
details { margin: .25rem 0; } summary { cursor: pointer; padding: .15rem 0; }
@media print { main { max-width: none; padding: 0; } details { break-inside: avoid; } }
"""


def count_of(number: int, one: str, many: str) -> str:
    return f"{number:,} {one if number == 1 else many}"


def spelled_bytes(number: float) -> str:
    for unit in ("bytes", "KB", "MB", "GB"):
        if number < 1000 or unit == "GB":
            return f"{number:,.0f} {unit}" if unit == "bytes" or number >= 100 else f"{number:,.1f} {unit}"
        number /= 1000
    raise AssertionError


def spelled_seconds(seconds: float) -> str:
    """A short span of time with two or three digits."""
    if seconds >= 60:
        return spelled_time(seconds)
    for unit, size in (("s", 1.0), ("ms", 1e-3), ("µs", 1e-6)):
        if seconds >= size:
            break
    return f"{seconds / size:.3g} {unit}"


def linked(title: str, link: str) -> str:
    return f'<a href="{escaped(link)}">{escaped(title)}</a>' if link else escaped(title)


def share(part: int, whole: int) -> str:
    """A share that says 100 % only of all, and 0 % only of nothing."""
    if whole == 0:
        return "–"
    percent = 100 * part / whole
    if part not in (0, whole):
        percent = min(max(percent, 0.01), 99.99)
    return (
        f"{percent:.0f} %"
        if part in (0, whole)
        else f"{percent:.2f} %"
        if percent < 1 or percent > 99
        else f"{percent:.1f} %"
    )


class Page:
    """Writes the parts of the report, one after another."""

    def __init__(self, report: Report, file: TextIO) -> None:
        self._report = report
        self._figures = report.figures
        self._write = file.write

    def write(self) -> None:
        about = self._report.about
        title = f"Report on {about.source}"
        self._write(
            '<!DOCTYPE html>\n<html lang="en"><head><meta charset="utf-8">'
            '<meta name="viewport" content="width=device-width, initial-scale=1">'
            f"<title>{escaped(title)}</title><style>{STYLE}</style></head><body><main>\n"
            f"<h1>{escaped(title)}</h1>\n"
        )
        for part in (self._head(), self._tiles(), self._outcomes(), self._failures(), self._findings()):
            self._write_all(part)
        for part in (self._times(), self._sizes(), self._skipped()):
            self._write_all(part)
        self._write("</main></body></html>\n")

    def _write_all(self, parts: "Iterator[str]") -> None:
        for part in parts:
            self._write(part)

    def _head(self) -> "Iterator[str]":
        about = self._report.about
        words = ", ".join(f"<code>{escaped(command)}</code>" for command in about.commands)
        old = f"; {about.kept:,} of them had not changed since an earlier run" if about.kept else ""
        yield (
            f'<p class="soft">{words} on {count_of(self._figures.pages, "page", "pages")}{old}. '
            f"Made {time.strftime('%d %B %Y, %H:%M', time.gmtime())} UTC "
            f"with {escaped(self._machine())}.</p>\n"
        )
        if not about.is_finished:
            yield '<p class="alert">The run was stopped before its end: '
            yield "the rest of the pages is missing here.</p>\n"
        if not about.export_is_whole:
            yield '<p class="alert">The export is broken: see <a href="#skipped">what was skipped</a>.</p>\n'

    def _machine(self) -> str:
        about = self._report.about
        if about.jobs == 0:
            return "several machines"
        return f"{count_of(about.jobs, 'process', 'processes')} of wtround_cases {about.program}"

    def _tiles(self) -> "Iterator[str]":
        figures, about = self._figures, self._report.about
        tiles = [("", f"{figures.pages:,}", "pages"), ("", spelled_bytes(figures.bytes), "of wikitext")]
        if "wikitext" in figures.outcomes:
            counts = figures.outcomes["wikitext"]
            style = "bad" if counts[DIFFERS] else "good"
            tiles.append((style, share(counts[SAME], sum(counts.values())), "came back byte for byte"))
            tiles.append(("bad" if counts[DIFFERS] else "", f"{counts[DIFFERS]:,}", "came back otherwise"))
        tiles.append(("warn" if figures.failed else "good", f"{figures.failed:,}", "pages with a failure"))
        if "lint" in figures.outcomes:
            tiles.append(
                ("", f"{sum(kind.places for kind in figures.findings.values()):,}", "doubtful places")
            )
        done = figures.pages - about.kept
        tiles.append(("", spelled_time(about.seconds), "this run took"))
        if about.seconds > 0 and done > 0:
            tiles.append(("", f"{done / about.seconds:,.0f}", "pages a second"))
        yield '<div class="tiles">'
        for style, number, word in tiles:
            yield f'<div class="tile {style}"><b>{escaped(number)}</b><span>{escaped(word)}</span></div>'
        yield "</div>\n"

    def _outcomes(self) -> "Iterator[str]":
        yield "<h2>What came of the pages</h2>\n"
        for command, counts in self._figures.outcomes.items():
            whole = sum(counts.values())
            shown = [
                Bar(
                    OUTCOME_WORDS[o],
                    counts[o],
                    f"{counts[o]:,}  ({share(counts[o], whole)})",
                    OUTCOME_STYLES.get(o, "bad"),
                )
                for o in OUTCOMES
                if counts[o]
            ]
            name = f"{command}: what came of {count_of(whole, 'page', 'pages')}"
            note = " (there and back)" if command == "wikitext" else ""
            caption = f"<figcaption><code>{escaped(command)}</code>{note}</figcaption>"
            yield f"<figure>{bars(shown, name)}{caption}</figure>\n"

    def _failures(self) -> "Iterator[str]":
        reasons = self._figures.reasons.most_common()
        yield "<h2>Why pages failed</h2>\n"
        if not reasons:
            yield "<p>Every page was answered.</p>\n"
            return
        shown = [Bar(reason, count, f"{count:,}", "warn") for reason, count in reasons]
        yield f"<figure>{bars(shown, 'Reasons and their counts')}</figure>\n"
        for reason, count in reasons:
            is_open = " open" if count <= 20 else ""
            yield f"<details{is_open}><summary><b>{escaped(reason)}</b>: {count:,}</summary>\n"
            advice = ""
            for failure in self._report.failures(reason, MOST_LISTED):
                said = str(failure.explained.get("advice", ""))
                if said not in ("", advice):
                    advice = said
                    yield f'<p class="soft">{escaped(advice)}</p>\n'
                yield self._failure(failure)
            if count > MOST_LISTED:
                yield f'<p class="soft">And {count - MOST_LISTED:,} more, '
                yield f"in {escaped(self._json_name())}.</p>\n"
            yield "</details>\n"

    def _json_name(self) -> str:
        return self._report.json_path.rpartition("/")[2]

    def _failure(self, failure: Failure) -> str:
        explained = failure.explained
        place = ""
        if "line" in explained:
            where = f"{explained['page']}, " if explained["page"] != failure.title else ""
            place = f" ({escaped(str(where))}line {explained['line']}, column {explained['column']})"
        shown = f"<pre>{escaped(str(explained['shown']))}</pre>" if "shown" in explained else ""
        command = f"<code>{escaped(failure.command)}</code>: {escaped(failure.line)}"
        return f"<div><p>{linked(failure.title, failure.link)} – {command}{place}</p>{shown}</div>\n"

    def _findings(self) -> "Iterator[str]":
        if "lint" not in self._figures.outcomes:
            return
        kinds = sorted(self._figures.findings.items(), key=lambda item: (-item[1].places, item[0]))
        yield "<h2>Doubtful places</h2>\n"
        if not kinds:
            yield "<p>None was found.</p>\n"
            return
        shown = [
            Bar(name, k.places, f"{k.places:,} on {count_of(k.pages, 'page', 'pages')}")
            for name, k in kinds
        ]
        yield f"<figure>{bars(shown, 'Doubtful places by kind')}</figure>\n"
        for name, kind in kinds:
            what = f" – {escaped(KINDS[name])}" if name in KINDS else ""
            yield f"<details><summary><b>{escaped(name)}</b>{what}: {kind.places:,}</summary>\n"
            for count, title, first in kind.examples:
                yield self._example(title, count, first)
            if kind.pages > MOST_EXAMPLES:
                yield f'<p class="soft">The pages with the most; {kind.pages:,} pages have some.</p>\n'
            yield "</details>\n"

    def _example(self, title: str, count: int, first: list) -> str:
        place, shown = "", ""
        if len(first) >= 3:
            place = f", the first in line {first[0]}, column {first[1]}"
            text = self._report.shown_place(title, first[2])
            shown = f"<pre>{escaped(text)}</pre>" if text else ""
        return f"<div><p>{linked(title, self._report.link(title))}: {count:,}{place}</p>{shown}</div>\n"

    def _times(self) -> "Iterator[str]":
        times = self._figures.times
        yield "<h2>How long an answer takes</h2>\n"
        if times:
            steps = range(min(times), max(times) + 1)
            columns = [(spelled_seconds(10 ** (step / STEPS_OF_TIME)), times[step]) for step in steps]
            ticks = [k for k, step in enumerate(steps) if step % STEPS_OF_TIME == 0]
            marks, words = [], []
            for word, part in (("Half", 0.5), ("99 %", 0.99)):
                value = self._report.quantile(part)
                assert value is not None
                marks.append((step_of_time(value) - min(times) + 0.5, f"{word}: {spelled_seconds(value)}"))
                words.append(f"{word} of the answers were there within {spelled_seconds(value)}")
            axis = "processor time, each step 1.6 times the last"
            yield f"<figure>{histogram(columns, 'Answers by their time', axis, ticks, marks)}"
            yield f"<figcaption>{escaped(', '.join(words))}.</figcaption></figure>\n"
        yield "<h3>The slowest</h3>\n"
        rows = (
            (
                linked(title, self._report.link(title)),
                f"<code>{escaped(command)}</code>",
                spelled_seconds(seconds),
                f"{size:,}",
            )
            for seconds, title, command, size in self._figures.slowest
        )
        yield from table(("Page", "Command", "Time", "Bytes"), rows)

    def _sizes(self) -> "Iterator[str]":
        sizes = self._figures.sizes
        yield "<h2>How large the pages are</h2>\n"
        if sizes:
            steps = range(min(sizes), max(sizes) + 1)
            columns = [(spelled_size(step), sizes[step]) for step in steps]
            axis = "bytes, each step twice the last"
            drawn = histogram(columns, "Pages by their size", axis, list(range(len(columns))), [])
            yield f"<figure>{drawn}</figure>\n"
        yield "<h3>The largest</h3>\n"
        rows = (
            (linked(title, self._report.link(title)), f"{size:,}") for size, title in self._figures.largest
        )
        yield from table(("Page", "Bytes"), rows)

    def _skipped(self) -> "Iterator[str]":
        rows = list(zip(range(MOST_LISTED + 1), self._report.skipped()))
        if not rows:
            return
        yield '<h2 id="skipped">What was skipped</h2>\n'
        yield "<p>These stand in the wiki or the list and are no pages that can be tried.</p>\n"
        shown = ((escaped(title or "(no title)"), escaped(why)) for _, (title, why) in rows[:MOST_LISTED])
        yield from table(("Title or file", "Why"), shown)
        if len(rows) > MOST_LISTED:
            yield f'<p class="soft">And more, in {escaped(self._json_name())}.</p>\n'


def spelled_size(step: int) -> str:
    return f"{1 << step}" if step < 10 else f"{1 << step - 10} Ki" if step < 20 else f"{1 << step - 20} Mi"


def table(heads: "tuple[str, ...]", rows: "Iterator[tuple[str, ...]]") -> "Iterator[str]":
    """A table whose cells are HTML already; those of numbers stand at the right."""
    numbers = {"Bytes", "Time"}
    style = ['class="n"' if head in numbers else "" for head in heads]
    yield '<div class="wide"><table><tr>' + "".join(
        f"<th {s}>{h}</th>" for s, h in zip(style, heads)
    ) + "</tr>\n"
    for row in rows:
        yield "<tr>" + "".join(f"<td {s}>{cell}</td>" for s, cell in zip(style, row)) + "</tr>\n"
    yield "</table></div>\n"


def write_html(report: Report, file: TextIO) -> None:
    Page(report, file).write()


def write_files(report: Report) -> None:
    """Writes both files of a report, each whole or not at all."""
    writers: "list[tuple[str, Callable[[Report, TextIO], None]]]" = [
        (report.path, write_html),
        (report.json_path, write_json),
    ]
    for path, write in writers:
        temporary = f"{path}.part-{os.getpid()}"
        with open(temporary, "w", encoding="utf-8", errors="backslashreplace") as file:
            write(report, file)
        os.replace(temporary, path)
