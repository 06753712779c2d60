"""How far a run is: a bar on a terminal, and a line now and then elsewhere."""
from __future__ import annotations

import time
from typing import TextIO

BAR_COLUMNS = 24
BAR_SECONDS = 0.2
LINE_SECONDS = 10.0
MEMORY_SECONDS = 30.0  # the rate is that of about so long


def spelled_time(seconds: float) -> str:
    """A span of time in two units at the most."""
    whole = round(seconds)
    if whole < 60:
        return f"{whole} s"
    if whole < 3600:
        return f"{whole // 60} min {whole % 60:02} s"
    return f"{whole // 3600:,} h {whole % 3600 // 60:02} min"


class Progress:
    def __init__(self, stream: TextIO, is_quiet: bool) -> None:
        self._stream = stream
        self._is_quiet = is_quiet
        self._is_terminal = stream.isatty()
        self._has_line = False
        self._started = time.monotonic()
        self._next = 0.0 if self._is_terminal else self._started + LINE_SECONDS
        self._measured: "list[tuple[float, int]]" = [(self._started, 0)]

    def show(self, done: int, total: int, extra: str) -> None:
        """Tells how many pages are done. `extra` has the counts that a reader wants to see."""
        now = time.monotonic()
        if self._is_quiet or now < self._next:
            return
        self._next = now + (BAR_SECONDS if self._is_terminal else LINE_SECONDS)
        self._measured.append((now, done))
        while len(self._measured) > 2 and now - self._measured[1][0] > MEMORY_SECONDS:
            self._measured.pop(0)
        (start, before), passed = self._measured[0], now - self._measured[0][0]
        rate = (done - before) / passed if passed > 0 else 0.0
        left = f", {spelled_time((total - done) / rate)} left" if rate > 0 and total > done else ""
        text = f"{done:,} of {total:,} pages, {rate:,.0f} a second{left}{extra}"
        if not self._is_terminal:
            self._stream.write(text + "\n")
        else:
            filled = BAR_COLUMNS * done // total if total else BAR_COLUMNS
            bar = "#" * filled + "-" * (BAR_COLUMNS - filled)
            share = 100 * done // total if total else 100
            self._stream.write(f"\r\x1b[K[{bar}] {share} % {text}")
            self._has_line = True
        self._stream.flush()

    def show_reading(self, share: "float | None", pages: int) -> None:
        """Tells how much of an export is read."""
        if self._is_quiet or time.monotonic() < self._next:
            return
        self._next = time.monotonic() + (BAR_SECONDS if self._is_terminal else LINE_SECONDS)
        text = f"reading the export: {'' if share is None else f'{100 * share:.0f} %, '}{pages:,} pages"
        self._stream.write(f"\r\x1b[K{text}" if self._is_terminal else text + "\n")
        self._stream.flush()
        self._has_line = self._is_terminal

    def clear(self) -> None:
        if self._has_line:
            self._stream.write("\r\x1b[K")
            self._stream.flush()
            self._has_line = False
