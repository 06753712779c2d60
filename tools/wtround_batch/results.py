"""What can come of a command on a page."""
from __future__ import annotations

import re
from dataclasses import dataclass, field

COMMANDS = ("html", "wikitext", "ranges", "expand", "lint")

ANSWERED = "answered"
SAME = "came back"
DIFFERS = "differs"
REFUSED = "refused"
DIED = "died"
SLOW = "too slow"
NO_MEMORY = "no memory"
ABSENT = "absent"
UNREADABLE = "unreadable"
# In the order in which a report tells them.
OUTCOMES = (ANSWERED, SAME, DIFFERS, REFUSED, DIED, SLOW, NO_MEMORY, ABSENT, UNREADABLE)
# The outcomes that somebody should look at, as a count of pages is told.
FAILURE_WORDS = {
    DIFFERS: "came back otherwise", REFUSED: "refused", DIED: "died", SLOW: "took too long",
    NO_MEMORY: "lacked memory", ABSENT: "are not there", UNREADABLE: "could not be read",
}  # fmt: skip
REASONS = {
    DIFFERS: "the page that came back differs", DIED: "the program died", SLOW: "no answer in time",
    NO_MEMORY: "no memory", ABSENT: "no such page", UNREADABLE: "it could not be read",
}  # fmt: skip
# These may come out otherwise with other limits.
LIMITED = (DIED, SLOW, NO_MEMORY)


@dataclass
class Result:
    """What came of one command on one page."""

    outcome: str
    line: str = ""  # why there is no answer, or where it differs
    advice: str = ""  # JSON of what `explain` says of the line; empty where it says nothing
    written: int = 0  # bytes of output
    seconds: float = 0.0  # of processor time
    findings: str = ""  # JSON of what `lint` found
    out: bytes = field(default=b"", repr=False)

    @property
    def has_output(self) -> bool:
        return self.outcome in (ANSWERED, SAME, DIFFERS)

    @property
    def reason(self) -> str:
        """Why there is no answer, without places and titles, so that like failures have like reasons."""
        if self.outcome in (ANSWERED, SAME):
            return ""
        if self.outcome != REFUSED:
            return REASONS[self.outcome]
        text = re.sub(r" at [0-9]+.*", "", self.line)
        return re.sub(
            r"^(?!page |html |input |expansion ).*(?= not UTF-8$| too long$)", "a template is", text
        )


@dataclass(frozen=True)
class Known:
    """What was found of a page last."""

    stamp: str
    digest: bytes
    names: "list[str]"  # of the templates that it takes, also of those that aren't there
    taken_digest: bytes


@dataclass
class Examined:
    """What came of a page."""

    title: str
    bytes: int
    known: Known
    results: "dict[str, Result]"  # by command; empty where the earlier ones still hold
