"""The unified diff of a page and its new text, in time that doesn't explode."""
from __future__ import annotations

from bisect import bisect_left
from difflib import SequenceMatcher
from typing import Iterator

CONTEXT = 3  # unchanged lines shown round a change
SMALL = 100  # lines of a gap between unique lines that are compared one by one


def unified(old: str, new: str, name: str) -> str:
    """The unified diff of two texts; empty where they are the same."""
    if old == new:
        return ""
    before, after = lines_of(old), lines_of(new)
    shown = [f"--- {name}\n", f"+++ {name}\n"]
    for group in hunks(changes(before, after), len(before)):
        shown.extend(hunk(group, before, after))
    return "".join(shown)


def lines_of(text: str) -> list:
    lines = text.split("\n")
    last = lines.pop()
    return [line + "\n" for line in lines] + ([last] if last else [])


def changes(before: list, after: list) -> list:
    """Slices (start, end, start, end) of the two that aren't the same, in order. What both begin and end with
    isn't looked into."""
    front = shared(before, after)
    back = shared(before[front:][::-1], after[front:][::-1])
    inner = changes_within(before[front : len(before) - back], after[front : len(after) - back])
    return [(a + front, b + front, c + front, d + front) for a, b, c, d in inner]


def shared(before: list, after: list) -> int:
    """How many lines both begin with."""
    pairs = enumerate(zip(before, after))
    return next((place for place, (old, new) in pairs if old != new), min(len(before), len(after)))


def changes_within(before: list, after: list) -> list:
    """The same, where lines that stand once in each, and in the same order, hold the rest in place."""
    found = []
    for a, b, c, d in gaps(before, after):
        if (b - a) <= SMALL and (d - c) <= SMALL:
            codes = SequenceMatcher(None, before[a:b], after[c:d], autojunk=False).get_opcodes()
            found += [(a + i, a + j, c + k, c + m) for tag, i, j, k, m in codes if tag != "equal"]
        else:
            found.append((a, b, c, d))
    return found


def gaps(before: list, after: list) -> Iterator[tuple]:
    """The slices between the lines that hold the rest in place, without what is the same at their ends."""
    a = c = 0
    for b, d in [*anchors(before, after), (len(before), len(after))]:
        end, other_end = b, d
        while a < end and c < other_end and before[a] == after[c]:
            a, c = a + 1, c + 1
        while a < end and c < other_end and before[end - 1] == after[other_end - 1]:
            end, other_end = end - 1, other_end - 1
        if a < end or c < other_end:
            yield a, end, c, other_end
        a, c = b, d


def anchors(before: list, after: list) -> list:
    """The longest run of pairs (place, place) of lines that stand once in each text, ascending in both."""
    others = places_of_single(after)
    pairs = [(i, others[line]) for line, i in places_of_single(before).items() if line in others]
    pairs.sort()
    tails: list = []  # the smallest last places of runs, by their length
    chosen: list = []
    back: list = []
    for k, (_, place) in enumerate(pairs):
        length = bisect_left(tails, place)
        back.append(chosen[length - 1] if length else None)
        tails[length : length + 1] = [place]
        chosen[length : length + 1] = [k]
    run, k = [], chosen[-1] if chosen else None
    while k is not None:
        run.append(pairs[k])
        k = back[k]
    return run[::-1]


def places_of_single(lines: list) -> dict:
    places: dict = {}
    for place, line in enumerate(lines):
        places[line] = None if line in places else place
    return {line: place for line, place in places.items() if place is not None}


def hunks(found: list, length: int) -> Iterator[list]:
    """Changes with few unchanged lines between them, together."""
    group: list = []
    for change in found:
        if group and change[0] - group[-1][1] > 2 * CONTEXT:
            yield group
            group = []
        group.append(change)
    if group:
        yield group


def hunk(group: list, before: list, after: list) -> Iterator[str]:
    start = max(group[0][0] - CONTEXT, 0)
    end = min(group[-1][1] + CONTEXT, len(before))
    lead = group[0][0] - start
    other, other_end = group[0][2] - lead, group[-1][3] + end - group[-1][1]
    yield f"@@ -{place(start, end)} +{place(other, other_end)} @@\n"
    at = start
    for a, b, c, d in group:
        yield from shown(" ", before[at:a])
        yield from shown("-", before[a:b])
        yield from shown("+", after[c:d])
        at = b
    yield from shown(" ", before[at:end])


def place(start: int, end: int) -> str:
    length = end - start
    if length == 1:
        return str(start + 1)
    return f"{start + (1 if length else 0)},{length}"


def shown(sign: str, lines: list) -> Iterator[str]:
    for line in lines:
        yield sign + line
        if not line.endswith("\n"):
            yield "\n\\ No newline at end of file\n"
