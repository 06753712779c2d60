"""Charts as SVG, drawn by hand: no script, and every number is also a text."""
from __future__ import annotations

import html
from dataclasses import dataclass

WIDTH = 720
LABEL = 230  # columns of a bar chart for its labels
NUMBER = 150  # and for its numbers
ROW = 26
PLOT_HEIGHT = 200


@dataclass(frozen=True)
class Bar:
    label: str
    value: float
    number: str  # the value as it is written
    style: str = "plain"  # a class of the style sheet


def escaped(text: str) -> str:
    return html.escape(text, quote=True)


def bars(bars_: "list[Bar]", title: str) -> str:
    """Bars from left to right, with their labels before and their numbers after them.

    A value above zero is never drawn as nothing.
    """
    most = max((bar.value for bar in bars_), default=0) or 1
    room = WIDTH - LABEL - NUMBER
    rows = []
    for k, bar in enumerate(bars_):
        middle = k * ROW + ROW // 2
        width = max(2.0, room * bar.value / most) if bar.value else 0.0
        rows.append(
            f'<text class="label" x="{LABEL - 10}" y="{middle}" text-anchor="end">'
            f"{escaped(shortened(bar.label))}"
            f"<title>{escaped(bar.label)}</title></text>"
            f'<rect class="{bar.style}" x="{LABEL}" y="{middle - 8}" width="{width:.1f}" height="16" rx="2"/>'
            f'<text class="number" x="{LABEL + width + 8:.1f}" y="{middle}">{escaped(bar.number)}</text>'
        )
    return drawing("".join(rows), len(bars_) * ROW, title)


def shortened(label: str, most: int = 36) -> str:
    return label if len(label) <= most else label[: most - 1] + "…"


def histogram(
    columns: "list[tuple[str, int]]",
    title: str,
    axis: str,
    ticks: "list[int]",
    marks: "list[tuple[float, str]]",
) -> str:
    """Columns side by side, each with the label of its left edge.

    The labels of the columns in `ticks` are written. `marks` are places on the axis, in columns from the
    left, that are marked with a line and a word.
    """
    left, right, top, bottom = 56, 16, 34, 46
    most = max((count for _, count in columns), default=0) or 1
    room, floor = WIDTH - left - right, top + PLOT_HEIGHT
    step = room / max(len(columns), 1)
    parts = [grid(most, left, WIDTH - right, floor)]
    for k, (label, count) in enumerate(columns):
        height = max(1.5, PLOT_HEIGHT * count / most) if count else 0.0
        x = left + k * step
        parts.append(
            f'<rect class="plain" x="{x + 1:.1f}" y="{floor - height:.1f}" '
            f'width="{max(step - 2, 1):.1f}" height="{height:.1f}">'
            f"<title>{escaped(label)}: {count:,}</title></rect>"
        )
        if k in ticks:
            parts.append(
                f'<text class="tick" x="{x:.1f}" y="{floor + 16}" text-anchor="middle">'
                f"{escaped(label)}</text>"
            )
    parts.append(f'<line class="axis" x1="{left}" x2="{WIDTH - right}" y1="{floor}" y2="{floor}"/>')
    parts.append(
        f'<text class="tick" x="{left + room / 2:.1f}" y="{floor + 36}" text-anchor="middle">'
        f"{escaped(axis)}</text>"
    )
    for k, (place, word) in enumerate(marks):
        x = left + min(max(place, 0), len(columns)) * step
        anchor = "end" if k == 0 else "start"
        parts.append(f'<line class="mark" x1="{x:.1f}" x2="{x:.1f}" y1="{top - 6}" y2="{floor}"/>')
        shift = -5 if anchor == "end" else 5
        parts.append(
            f'<text class="mark" x="{x + shift:.1f}" y="{top - 10}" text-anchor="{anchor}">'
            f"{escaped(word)}</text>"
        )
    return drawing("".join(parts), floor + bottom, title)


def grid(most: int, left: int, right: int, floor: int) -> str:
    """Four lines across, with the counts that they stand for."""
    parts = []
    for share in (0.25, 0.5, 0.75, 1):
        y = floor - PLOT_HEIGHT * share
        parts.append(f'<line class="grid" x1="{left}" x2="{right}" y1="{y:.1f}" y2="{y:.1f}"/>')
        if most >= 4 or share == 1:
            count = f"{most * share:,.0f}"
            parts.append(f'<text class="tick" x="{left - 8}" y="{y:.1f}" text-anchor="end">{count}</text>')
    return "".join(parts)


def drawing(content: str, height: int, title: str) -> str:
    return (
        f'<svg viewBox="0 0 {WIDTH} {height}" role="img" aria-label="{escaped(title)}" '
        f'xmlns="http://www.w3.org/2000/svg">{content}</svg>'
    )
