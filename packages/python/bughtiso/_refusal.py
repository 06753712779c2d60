"""Why a command gives no answer."""
from __future__ import annotations

import json
import os
import re
from typing import Any, Dict, List, Optional

with open(os.path.join(os.path.dirname(__file__), "refusals.json"), encoding="utf-8") as _file:
    _RULES: List[Dict[str, Any]] = json.load(_file)
for _rule in _RULES:
    _rule["pattern"] = re.compile(_rule["pattern"].replace("(?<", "(?P<"))


class Refusal(ValueError):
    """A page, its HTML or an edit is refused. ``str(refusal)`` is its sentence."""

    #: the name of the refusal, as ``UnmarkedChange``, ``PageNotUtf8`` or ``HtmlRefused``
    name: str
    #: why, for those refusals that have several reasons, as ``Syntax`` of ``HtmlRefused``
    reason: Optional[str]
    #: where, counted as ``place_in`` says: bytes from 0, elements and children from 1, nodes by the number of their ``id``
    place: Optional[int]
    #: ``byte of the page``, ``byte of the template``, ``byte of the HTML``, ``element``, ``node`` or ``child of the body``
    place_in: Optional[str]
    #: the full name of the template in which it lies
    template: Optional[str]
    #: what is wrong, and what to do
    sentence: str
    #: the line that the program writes, without ``wtround: ``
    line: str
    #: the program's exit status, from 1 to 4
    status: int

    def __init__(self, line: str, status: int) -> None:
        self.line = line.strip()
        if self.line.startswith("wtround: "):
            self.line = self.line[len("wtround: ") :]
        self.status = status
        self.reason = self.place = self.place_in = self.template = None
        self.name, self.sentence = "Refused", self.line
        self._read()
        super().__init__(self.sentence)

    def __reduce__(self) -> Any:
        return (Refusal, (self.line, self.status))

    def _read(self) -> None:
        for rule in _RULES:
            found = rule["pattern"].match(self.line)
            if found:
                self._take(rule, found.groupdict())
                return

    def _take(self, rule: Dict[str, Any], groups: Dict[str, Optional[str]]) -> None:
        why = groups.get("why")
        self.name = rule["name"] or why or "Refused"
        self.reason = why if rule["name"] else None
        self.sentence = rule["sentence"] or (rule["sentences"] or {}).get(why, self.line)
        self.template = groups.get("title")
        number = groups.get("number")
        if number is not None:
            self.place = int(number)
            self.place_in = (rule["placesIn"] or {}).get(self.name, rule["placeIn"])
            if self.template is not None:
                self.place_in = "byte of the template"
