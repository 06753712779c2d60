"""What is done with one page: which templates it takes, and what each command answers."""
from __future__ import annotations

import json
import re
from functools import lru_cache
from typing import Callable, Generator, Generic, Iterable, NamedTuple, Protocol, TypeVar

from .program import Answer, Cases, Died, Failure, Question, TooSlow, case
from .siblings import explainer, importer

from .results import (
    ABSENT, ANSWERED, COMMANDS, DIED, DIFFERS, NO_MEMORY, REFUSED, SAME, SLOW, UNREADABLE, Examined, Known,
    Result,
)  # fmt: skip
from .store import digest_of, taken_digest, unsure
from .wiki import full_name

MEMORY_OF_TEXTS = 32 << 20  # bytes of templates that a worker remembers
GROUP_BYTES = 64 << 10  # of the questions with which those begin that go on side by side
MOST_FINDINGS = 100  # of a page that are kept with their places
# A call whose name is written out. Names that other calls make are found when the program asks for them.
# Blanks beside the name are in it, so that there is one way alone to match.
CALL = re.compile(rb"\{\{([^{}|<>\[\]#]+)(?:\||\}\})")
# A call in whose name another one stands.
CALL_OF_MADE_NAME = re.compile(rb"\{\{[^{}|#]*\{\{")


class Texts(Protocol):
    """Where the texts of a wiki's pages come from."""

    def text(self, title: str) -> "bytes | None":
        ...


class Template(NamedTuple):
    """What is remembered of a page that others take."""

    text: "bytes | None"  # None where it isn't there, as its digest
    digest: "bytes | None"
    called: "list[str]"  # the pages that it calls by names that are written out
    makes_names: bool  # whether it calls others besides

    @classmethod
    def of(cls, text: "bytes | None") -> "Template":
        if text is None:
            return cls(None, None, [], False)
        return cls(text, digest_of(text), called_names(text), makes_names(text))


class Templates:
    """The texts of templates, of which the last used are remembered."""

    def __init__(self, texts: Texts) -> None:
        self._texts = texts
        self._memory: "dict[str, Template]" = {}
        self._bytes = 0

    def _look(self, name: str) -> "Template":
        found = self._memory.get(name)
        if found is None:
            found = Template.of(self._texts.text(name))
            if self._bytes > MEMORY_OF_TEXTS:
                self._memory.clear()
                self._bytes = 0
            self._memory[name] = found
            self._bytes += len(found.text or b"") + 500
        return found

    def text(self, name: str) -> "bytes | None":
        return self._look(name).text

    def digest(self, name: str) -> "bytes | None":
        return self._look(name).digest

    def makes_names(self, name: str) -> bool:
        return self._look(name).makes_names

    def reached(self, names: "Iterable[str]") -> "dict[str, bytes]":
        """The templates of these names that are there, and all that they name themselves."""
        found: "dict[str, bytes]" = {}
        seen, waiting = set(), list(names)
        while waiting:
            name = waiting.pop()
            if name not in seen:
                seen.add(name)
                template = self._look(name)
                if template.text is not None:
                    found[name] = template.text
                    waiting.extend(template.called)
        return found


def makes_names(text: bytes) -> bool:
    """Whether a text may call pages by names that other calls make."""
    return CALL_OF_MADE_NAME.search(text) is not None


def called_names(text: bytes) -> "list[str]":
    """The pages that a text calls by names that are written out."""
    names = (called_name(target.strip()) for target in dict.fromkeys(CALL.findall(text)))
    return list(dict.fromkeys(name for name in names if name is not None))


def guessed_names(title: str, pages: "dict[str, bytes]") -> "list[str]":
    """What a page takes as far as it can be seen: these pages, and what they call."""
    names = dict.fromkeys(pages)
    for text in pages.values():
        names.update(dict.fromkeys(called_names(text)))
    names.pop(title, None)
    return list(names)


@lru_cache(maxsize=1 << 15)
def called_name(target: bytes) -> "str | None":
    """The full name of the page that a call takes; None where it is no title."""
    try:
        text = target.decode()
        is_page = text.startswith(":")
        title = importer.read_title(text[1:] if is_page else text)
        return full_name(title.full_name if is_page or title.namespace else "Template:" + text)
    except (importer.BadTitle, UnicodeDecodeError):
        return None


def first_difference(a: bytes, b: bytes) -> int:
    """The first place at which two texts differ."""
    low, high = 0, min(len(a), len(b))
    while low < high:
        middle = (low + high + 1) // 2
        if a[:middle] == b[:middle]:
            low = middle
        else:
            high = middle - 1
    return low


T = TypeVar("T")
Asking = Generator[Question, Answer, T]  # what gives questions, goes on with their answers, and comes to a T


class Inquiry(Generic[T]):
    """One of several that go on side by side."""

    def __init__(self, asking: "Asking[T]") -> None:
        self._asking = asking
        self.question: "Question | None" = None  # the one that waits for its answer; None at the end
        self.result: "T | None" = None  # at the end
        self.go_on(None)

    def go_on(self, reply: "Answer | Failure | None") -> None:
        try:
            if isinstance(reply, Exception):
                self.question = self._asking.throw(reply)
            else:
                self.question = self._asking.send(reply)
        except StopIteration as ending:
            self.question, self.result = None, ending.value


def answered(cases: Cases, askings: "Iterable[Asking[T]]") -> "list[T]":
    """What all of these come to, in their order. Those that begin with short questions go on side by side."""
    results: "list[T]" = []
    group: "list[Inquiry[T]]" = []
    size = 0
    for inquiry in map(Inquiry, askings):
        length = 0 if inquiry.question is None else len(inquiry.question.line)
        if size + length > GROUP_BYTES:
            results += ended(cases, group)
            group, size = [], 0
        group.append(inquiry)
        size += length
    return results + ended(cases, group)


def ended(cases: Cases, group: "list[Inquiry[T]]") -> "list[T]":
    """What these come to. In each round all their questions are asked at once."""
    while True:
        waiting = [(inquiry, inquiry.question) for inquiry in group if inquiry.question is not None]
        if not waiting:
            return [inquiry.result for inquiry in group]
        replies = cases.ask_all([question for _, question in waiting])
        for (inquiry, _), reply in zip(waiting, replies):
            inquiry.go_on(reply)


class Examiner:
    """What is asked about pages."""

    def __init__(self, texts: Texts, time_limit: float, wants_output: bool) -> None:
        self._texts = texts
        self._templates = Templates(texts)
        self._time_limit = time_limit  # in seconds, for one command on a page
        self._wants_output = wants_output

    def examine(
        self,
        title: str,
        stamp: str,
        commands: "list[str]",
        known: "Known | None" = None,
        held: "tuple[bytes, bytes] | None" = None,
    ) -> "Asking[Examined]":
        """What comes of the page. Results that are held for the same text and templates are not made anew."""
        try:
            text = self._texts.text(title)
            if text is not None:
                return (yield from self._examine(title, text, stamp, commands, known, held))
            failure = self._explained(Result(ABSENT, "no such page"), title, b"")
        except OSError as error:  # of the page, of a template, or of starting the program
            failure = Result(UNREADABLE, f"{error.filename or 'the wiki'}: {error.strerror or error}")
        return Examined(title, 0, Known("", b"", [], b""), {command: failure for command in commands})

    def _examine(
        self,
        title: str,
        text: bytes,
        stamp: str,
        commands: "list[str]",
        known: "Known | None",
        held: "tuple[bytes, bytes] | None",
    ) -> "Asking[Examined]":
        digest = digest_of(text)
        names, is_sure = called_names(text), False
        if known is not None and known.digest == digest:
            names, current = known.names or names, self._digest_of_taken(known.names)
            if known.taken_digest in (current, unsure(current)) and held == (digest, known.taken_digest):
                return Examined(title, len(text), Known(stamp, digest, known.names, held[1]), {})
            is_sure = known.taken_digest == current
        pages = self.pages_of(title, text, names if is_sure else self._templates.reached(names))
        failure = None if is_sure else (yield from self._completed(title, text, pages))
        if failure is None:
            results, asked = yield from self.run(title, text, pages, commands)
        else:
            results, asked = {command: failure for command in commands}, None
        if asked is None:
            guess = guessed_names(title, pages)
            now = Known(stamp, digest, guess, unsure(self._digest_of_taken(guess)))
        else:
            now = Known(stamp, digest, asked, self._digest_of_taken(asked))
        return Examined(title, len(text), now, results)

    def _digest_of_taken(self, names: "list[str]") -> bytes:
        return taken_digest((name, self._templates.digest(name)) for name in names)

    def find_pages(
        self, title: str, text: bytes, known: "Known | None"
    ) -> "Asking[tuple[list[str], dict[str, bytes]]]":
        """The names of the templates that the page takes, and the page with those that are there."""
        if (
            known is not None
            and known.digest == digest_of(text)
            and self._digest_of_taken(known.names) == known.taken_digest
        ):
            names = known.names
        else:
            pages = self.pages_of(title, text, self._templates.reached(called_names(text)))
            _, asked = yield from self.run(title, text, pages, ["expand"])
            names = guessed_names(title, pages) if asked is None else asked
        return names, self.pages_of(title, text, names)

    def pages_of(self, title: str, text: bytes, names: "Iterable[str]") -> "dict[str, bytes]":
        """The page and the templates of these names that are there."""
        pages = {
            name: text for name, text in ((n, self._templates.text(n)) for n in names) if text is not None
        }
        pages[title] = text
        return pages

    def run(
        self, title: str, text: bytes, pages: "dict[str, bytes]", commands: "list[str]"
    ) -> "Asking[tuple[dict[str, Result], list[str] | None]]":
        """What comes of the commands, and the names of the pages that they asked for; None if none could.

        These pages are sent. Where a command asks for more that is there, it is put among them.
        """
        results: "dict[str, Result]" = {}
        asked: "dict[str, None] | None" = None
        html: "Answer | None" = None  # one answer of `html` serves two commands
        for command in sorted(commands, key=COMMANDS.index):
            goes_back = command == "wikitext"
            try:
                if goes_back and html is not None:
                    answer = html
                else:
                    answer = yield from self._asked("html" if goes_back else command, title, pages)
                if answer.line != "no memory":
                    asked = {**(asked or {}), **dict.fromkeys(answer.names)}
                html = answer if command == "html" else html
                if goes_back:
                    results[command] = yield from self._there_and_back(title, text, answer)
                else:
                    results[command] = self._result(command, answer, title, text)
            except (Died, TooSlow) as ending:
                results[command] = self._failed(ending)
        return results, None if asked is None else [name for name in asked if name != title]

    def _completed(self, title: str, text: bytes, pages: "dict[str, bytes]") -> "Asking[Result | None]":
        """Puts the pages among these that are called by made names; or what keeps them from being found.

        `expand` tells them soonest. Names that are written out need no asking.
        """
        others = (name for name in pages if name != title)
        if makes_names(text) or any(map(self._templates.makes_names, others)):
            try:
                yield from self._asked("expand", title, pages)
            except (Died, TooSlow) as ending:
                return self._failed(ending)
        return None

    def _asked(self, command: str, title: str, pages: "dict[str, bytes]") -> "Asking[Answer]":
        """The answer of a command that was sent all pages that it asks for.

        Those that weren't sent and are there are put among the pages, and it is asked again.
        """
        left = self._time_limit
        while True:
            answer = yield Question(case([command, title], b"", pages, wants_names=True), left)
            missing = [n for n in answer.names if n not in pages and self._templates.text(n) is not None]
            if not missing:
                return answer
            left -= answer.seconds
            for name, text in self._templates.reached(missing).items():
                pages.setdefault(name, text)

    def _failed(self, ending: Exception) -> Result:
        if isinstance(ending, TooSlow):
            return Result(SLOW, f"no answer within {self._time_limit:g} seconds", seconds=self._time_limit)
        return Result(DIED, f"the program died: {ending}")

    def _result(self, command: str, answer: Answer, title: str, text: bytes) -> Result:
        if answer.status != 0:
            outcome = NO_MEMORY if answer.line == "no memory" else REFUSED
            return self._explained(Result(outcome, answer.line, seconds=answer.seconds), title, text)
        result = Result(ANSWERED, written=len(answer.out_hex) // 2, seconds=answer.seconds)
        if command == "lint":
            result.findings = findings_of(answer.out.decode("utf-8", "replace"))
        if self._wants_output:
            result.out = answer.out
        return result

    def _there_and_back(self, title: str, text: bytes, html: Answer) -> "Asking[Result]":
        if html.status != 0:
            return self._result("html", html, title, text)
        back = yield Question(case(["wikitext"], html.out_hex), self._time_limit - html.seconds)
        result = self._result("wikitext", back, title, text)
        result.seconds += html.seconds
        if result.outcome == ANSWERED:
            page = back.out
            result.outcome = SAME if page == text else DIFFERS
            if result.outcome == DIFFERS:
                result.line = f"the page that came back differs from byte {first_difference(page, text)} on"
        return result

    def _explained(self, result: Result, title: str, text: bytes) -> Result:
        result.advice = explanation(result.line, title, text, self._templates.text)
        return result


def explanation(line: str, title: str, text: bytes, look: "Callable[[str], bytes | None]") -> str:
    """What `explain` says of a refusal, as JSON; empty where it says nothing."""
    try:
        refusal = explainer().read_refusal(line)
    except explainer().ExplainError:
        return ""
    said: "dict[str, object]" = {"advice": refusal.advice}
    page, data = title, text
    if refusal.title is not None:
        page, data = refusal.title, look(refusal.title) or b""
    place = refusal.locate(data, refusal.number) if refusal.locate is not None else None
    if place is not None:
        spot = explainer().spot(data, place)
        said.update(
            page=page,
            line=spot.line,
            column=spot.column,
            shown=explainer().line_with_caret(spot.before, spot.after),
        )
    return json.dumps(said, ensure_ascii=False)


def findings_of(listing: str) -> str:
    """What `lint` found, as JSON: how many of each kind, and the first of them with their places."""
    counts: "dict[str, int]" = {}
    first: "list[list]" = []
    for line in listing.splitlines():
        kind, _, places = line.partition(" ")
        counts[kind] = counts.get(kind, 0) + 1
        numbers = places.split(" ")
        if len(first) < MOST_FINDINGS and len(numbers) >= 2:
            first.append([kind, *map(int, numbers)])
    return json.dumps({"counts": counts, "first": first}) if counts else ""
