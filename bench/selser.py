#!/usr/bin/env python3
"""Measures what becomes of edits of real texts: of each kind of edit how many change nothing but what was
edited, how many spell more of the block anew, how many are refused, and how many change other blocks or show
something else.

  bench/selser.py PROGRAM [--command selser|edit] [--each N] [--seed S] [--small N] [--only WORDS] [--tell N]
                  [FOLDER ..]

PROGRAM is `wtround_cases` (crates/wtround_cases/out/wtround_cases), FOLDER a folder of pages as wtround
takes them, with its templates (examples/pages without one). On each page each kind of edit is made at N
places (12), which the seed chooses; with --small on that many small random pages instead, each kind at one
place. --only takes the kinds whose names hold these words. The edits are made in the HTML that `html`
writes, as text, and sent to `selser` as they are; `edit` gets those that stand in one block, with a mark.
Every answer is read by `html` again, and compared with what was sent by a reader that is not the program's
(bench/edits/shown.py).

`exact`: the source differs by what was edited alone. `in the block`: more of the touched blocks, or of the
white space beside them, was written anew. `outside`: bytes of other blocks changed. `shows other`: the answer
shows something else than what was sent. The last two must be 0. --tell prints that many of the edits that
weren't exact.
"""
from __future__ import annotations

import argparse
import random
import sys
from collections import Counter, defaultdict
from pathlib import Path
from typing import Dict, List, Optional

TOP = Path(__file__).resolve().parent.parent
sys.dont_write_bytecode = True
sys.path.insert(0, str(TOP / "bench"))

from edits.documents import Part  # noqa: E402
from edits.judging import EXACT, IN_BLOCK, OUTSIDE, judged  # noqa: E402
from edits.kinds import KINDS, Document, Edited, Kind  # noqa: E402
from edits.program import Cases, Page, pages_of  # noqa: E402
from edits.shown import first_difference  # noqa: E402
from edits.small_pages import small_pages  # noqa: E402

SHOWS_OTHER = "shows other"


class Measure:
    """Makes edits of pages and counts what becomes of them."""

    def __init__(self, cases: Cases, given: argparse.Namespace, chance: random.Random) -> None:
        self._cases, self._command, self._chance, self._tell = cases, given.command, chance, given.tell
        self._each = 1 if given.small else given.each
        takes = [kind for kind in KINDS if kind.is_in_block or given.command == "selser"]
        self._kinds = [kind for kind in takes if given.only in kind.name]
        self.counts: "Dict[str, Counter]" = defaultdict(Counter)
        self.unread: List[str] = []  # pages that `html` refuses

    def page(self, page: Page) -> None:
        answer = page.ask(self._cases, "html")
        if answer.status != 0:
            self.unread.append(f"{page.title}: {answer.refusal}")
            return
        document = Document(answer.out.decode())
        for kind in self._kinds:
            self._edits(page, document, kind)

    def _edits(self, page: Page, document: Document, kind: Kind) -> None:
        parts = document.parts(kind.parts)
        left = self._each
        for part in self._chance.sample(parts, len(parts)):
            edited = kind.of(document, part, self._chance)
            if edited is None:
                continue
            if self._command == "edit":
                edited = kind.marked(edited, part)
            self._count(page, kind, part, edited)
            left -= 1
            if left == 0:
                return

    def _count(self, page: Page, kind: Kind, part: Part, edited: Edited) -> None:
        what, why = self._outcome(page, kind, edited)
        self.counts[kind.name][what] += 1
        if what != EXACT and self._tell > 0:
            self._tell -= 1
            start, end = edited.range
            block = page.text[start:end].decode("utf-8", "replace")
            print(f"{kind.name}, {page.title}, {part.attributes.get('id')}: {what}")
            print(f"  {block[:300]!r}\n  {why}")

    def _outcome(self, page: Page, kind: Kind, edited: Edited) -> "tuple[str, str]":
        answer = page.ask(self._cases, self._command, edited.document)
        if answer.status != 0:
            return f"refused: {answer.refusal}", ""
        read = page.changed(answer.out).ask(self._cases, "html")
        if read.status != 0:
            return SHOWS_OTHER, read.line
        difference = first_difference(edited.document, read.out.decode())
        if difference is not None:
            return SHOWS_OTHER, repr(difference)
        return judged(kind, edited, page.text, answer.out), repr(changed_text(edited, page.text, answer.out))


def changed_text(edited: Edited, old: bytes, new: bytes) -> str:
    """What stands where the touched blocks stood."""
    start, end = edited.range
    return new[start : len(new) - (len(old) - end)][:300].decode("utf-8", "replace")


def print_table(counts: "Dict[str, Counter]") -> None:
    print("| edit | edits | exact | in the block | refused | outside | shows other |")
    print("|---|---|---|---|---|---|---|")
    total: Counter = Counter()
    for kind in KINDS:
        if kind.name in counts:
            print_row(kind.name, counts[kind.name])
            total.update(counts[kind.name])
    print_row("all", total)


def print_row(name: str, count: Counter) -> None:
    refused = {what.split(": ", 1)[1]: n for what, n in sorted(count.items()) if what.startswith("refused")}
    n = sum(count.values())
    names = ", ".join(f"{n} `{why}`" for why, n in refused.items()) or "0"
    share = f"{count[EXACT]} ({100 * count[EXACT] / n:.1f} %)" if n else "0"
    others = f"{count[IN_BLOCK]} | {names} | {count[OUTSIDE]} | {count[SHOWS_OTHER]}"
    print(f"| {name} | {n} | {share} | {others} |")


def main(words: Optional[List[str]] = None) -> int:
    parser = argparse.ArgumentParser(usage=(__doc__ or "").split("\n\n")[1].strip())
    parser.add_argument("program")
    parser.add_argument("folders", nargs="*", type=Path, default=[TOP / "examples/pages"])
    parser.add_argument("--command", choices=["selser", "edit"], default="selser")
    parser.add_argument("--each", type=int, default=12)
    parser.add_argument("--seed", type=int, default=1)
    parser.add_argument("--small", type=int, default=0)
    parser.add_argument("--only", default="")
    parser.add_argument("--tell", type=int, default=0)
    given = parser.parse_intermixed_args(words)
    chance = random.Random(given.seed)
    cases = Cases(given.program)
    measure = Measure(cases, given, chance)
    read = [page for folder in given.folders for page in pages_of(folder)]
    pages = small_pages(given.small, chance) if given.small else read
    for page in pages:
        measure.page(page)
    print_table(measure.counts)
    seconds = cases.close()
    print(f"\n{len(pages)} pages, {len(measure.unread)} of them refused {measure.unread or ''}")
    print(f"{seconds:.1f} seconds of the processor")
    wrong = sum(count[OUTSIDE] + count[SHOWS_OTHER] for count in measure.counts.values())
    return 1 if wrong else 0


if __name__ == "__main__":
    sys.exit(main())
