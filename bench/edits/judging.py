"""What became of the page's bytes in an edit."""
from __future__ import annotations

import re
from typing import Tuple

from .kinds import Edited, Kind

EXACT = "exact"  # nothing of the page is spelled anew
# Other bytes changed, in the blocks that were touched and the white space beside them alone.
IN_BLOCK = "in the block"
OUTSIDE = "OUTSIDE"  # bytes of other blocks changed
BREAKS = re.compile(rb"[ \t\n]*[*#:;]*[ \t]*")


def judged(kind: Kind, edited: Edited, old: bytes, new: bytes) -> str:
    if not outside_stands(edited.range, old, new):
        return OUTSIDE
    return EXACT if is_exact(kind.exact, edited, old, new) else IN_BLOCK


def outside_stands(touched: Tuple[int, int], old: bytes, new: bytes) -> bool:
    start, end = touched
    while start > 0 and old[start - 1 : start].isspace():
        start -= 1
    while end < len(old) and old[end : end + 1].isspace():
        end += 1
    return len(new) >= start + len(old) - end and new.startswith(old[:start]) and new.endswith(old[end:])


def changed_part(old: bytes, new: bytes) -> Tuple[bytes, bytes]:
    """What went and what came: the two without what they have in common in front and then at the back."""
    shorter = min(len(old), len(new))
    front = next((k for k in range(shorter) if old[k] != new[k]), shorter)
    back = next((k for k in range(shorter - front) if old[-1 - k] != new[-1 - k]), shorter - front)
    return old[front : len(old) - back], new[front : len(new) - back]


def is_exact(rule: str, edited: Edited, old: bytes, new: bytes) -> bool:
    """same: the source has what was typed and no more. breaks: line breaks and the signs of an item came or
    went. goes, comes: something in one place went, or came. length: it is as long as it was."""
    gone, come = changed_part(old, new)
    if rule == "same":
        return is_replaced(edited, old, new)
    if rule == "breaks":
        return bool(BREAKS.fullmatch(gone) and BREAKS.fullmatch(come))
    if rule == "goes":
        return not come
    if rule == "comes":
        return without_heading_signs(old, new, edited) or not gone
    return len(old) == len(new)


def is_replaced(edited: Edited, old: bytes, new: bytes) -> bool:
    """Whether somewhere in the block what should go was replaced by what should come."""
    gone, come = edited.gone.encode(), edited.come.encode()
    if len(new) - len(old) != len(come) - len(gone):
        return False
    shorter = min(len(old), len(new))
    front = next((k for k in range(shorter) if old[k] != new[k]), shorter)
    starts = range(max(0, front - len(gone) - len(come)), front + 1)
    return any(
        old[at : at + len(gone)] == gone and new == old[:at] + come + old[at + len(gone) :] for at in starts
    )


def without_heading_signs(old: bytes, new: bytes, edited: Edited) -> bool:
    """Whether the page is the old one again without the signs of one new heading."""
    start, end = edited.range
    return new == old[:start] + b"== " + old[start:end] + b" ==" + old[end:]
