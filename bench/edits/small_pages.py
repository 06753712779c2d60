"""Small random pages with much that is hard beside each other."""
from __future__ import annotations

import random
from typing import List

from .program import Page

PIECES = [
    "alpha", "beta ]", "[[Page]]s", "'''bold''' x", "''it''", "{{t}}", "a|b", "http://x.y/z.",
    "[http://a.b c]", "&nbsp;z", "<ref>r</ref>", "it's", "<!-- c -->", "x_y", "[x]", "a=b", "<span>q</span>",
    "<nowiki>[[</nowiki>", "l'''amour''",
]  # fmt: skip
ITEM_SIGNS = ["* ", "** ", "# ", "* ", "*# ", ": ", "; "]


def line(chance: random.Random) -> str:
    return " ".join(chance.choice(PIECES) for _ in range(chance.randint(1, 5)))


def block(chance: random.Random) -> str:
    which = chance.randrange(7)
    if which < 3:
        return line(chance) + ("\n" + line(chance) if chance.random() < 0.3 else "")
    if which == 3:
        return f"== {line(chance).replace('<!-- c -->', '')} =="
    if which == 4:
        return "\n".join(chance.choice(ITEM_SIGNS) + line(chance) for _ in range(chance.randint(1, 4)))
    if which == 5:
        return f"<noinclude>\n\n{line(chance)}\n\n</noinclude>"
    return f"{{|\n|-\n| {line(chance)}\n| {line(chance)}\n|-\n! {line(chance)}\n|}}"


def small_pages(count: int, chance: random.Random) -> List[Page]:
    templates = {"Template:T": b"''t''"}
    texts = ["\n\n".join(block(chance) for _ in range(chance.randint(2, 6))) + "\n" for _ in range(count)]
    return [Page(f"Small {k}", text.encode(), templates) for k, text in enumerate(texts)]
