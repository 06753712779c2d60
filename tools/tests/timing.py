"""How the time of work grows with what it is given: the same on a fast machine and on a slow one."""
import time
import unittest
from typing import Callable, TypeVar

Given = TypeVar("Given")
# Of four times as much, work in proportion takes four times the time, and quadratic work sixteen times.
TIMES_AS_MUCH, MOST_TIMES_AS_LONG = 4, 10
SHORT_SECONDS = 0.02  # of processor time, below which two spans can't be compared
TRIES = 3  # what else the machine does makes one span longer, and goes by


def seconds_of(work: Callable[[Given], object], given: Given) -> float:
    """Of processor time."""
    began = time.process_time()
    work(given)
    return time.process_time() - began


class TimedCase(unittest.TestCase):
    def assert_time_in_proportion(
        self, work: Callable[[Given], object], given: Callable[[int], Given], length: int
    ) -> None:
        """Tries the work with what is given of this length, and of four times the length."""
        spans = []
        for _ in range(TRIES):
            short, long = (seconds_of(work, given(count)) for count in (length, TIMES_AS_MUCH * length))
            if long <= MOST_TIMES_AS_LONG * max(short, SHORT_SECONDS):
                return
            spans.append(f"{short:.2f} and {long:.2f} s")
        self.fail(f"four times as much takes {', '.join(spans)}")
