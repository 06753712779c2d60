"""The server's folder: its titles, and when it tells that nothing was written."""
import os
import sys
import tempfile
import time
import unittest
from pathlib import Path
from typing import Tuple
from unittest import mock

from loading import TOOLS

sys.path.insert(0, str(TOOLS))
sys.dont_write_bytecode = True

from serving.pages import COARSE_STEP, STEP, PageFolder  # noqa: E402

WRITTEN = 1_700_000_000_000_000_000  # nanoseconds, a whole second


class StepsOfTheClock(unittest.TestCase):
    def setUp(self) -> None:
        room = tempfile.TemporaryDirectory()
        self.addCleanup(room.cleanup)
        self.path = Path(room.name)
        (self.path / "Main.wiki").write_text("x")
        self.folder = PageFolder(str(self.path))

    def told(self, written: int, age: int) -> Tuple[bool, bool]:
        """Whether the folder tells its state and its fingerprint, so long after both were written."""

        def times(*_: object, **__: object) -> mock.Mock:
            return mock.Mock(st_mtime_ns=written, st_ctime_ns=written, st_dev=1, st_ino=1, st_size=1)

        entry = mock.Mock(stat=times, is_symlink=lambda: False)
        entry.name = "Main.wiki"
        found = mock.MagicMock()
        found.__enter__.return_value = [entry]
        scandir = mock.patch("serving.pages.os.scandir", return_value=found)
        clock = mock.patch.object(time, "time_ns", return_value=written + age)
        with mock.patch("serving.pages.os.stat", times), scandir, clock:
            return self.folder.state() is not None, self.folder.fingerprint() is not None

    def test_times_in_nanoseconds(self) -> None:
        self.assertEqual(self.told(WRITTEN + 1, STEP // 2), (False, False))
        self.assertEqual(self.told(WRITTEN + 1, 2 * STEP), (True, True))

    def test_times_in_whole_seconds(self) -> None:
        for age in (2 * STEP, COARSE_STEP - STEP):
            self.assertEqual(self.told(WRITTEN, age), (False, False))
        self.assertEqual(self.told(WRITTEN, 2 * COARSE_STEP), (True, True))

    def test_a_real_folder(self) -> None:
        now = time.time_ns()
        with mock.patch.object(time, "time_ns", return_value=now + 2 * COARSE_STEP):
            self.assertIsNotNone(self.folder.state())
            self.assertIsNotNone(self.folder.fingerprint())


class Titles(unittest.TestCase):
    def test_a_file_whose_name_is_not_utf8(self) -> None:
        with tempfile.TemporaryDirectory() as room:
            (Path(room) / "Main.wiki").write_text("x")
            try:
                (Path(room) / os.fsdecode(b"M\xfcnze.wiki")).write_text("x")
            except OSError:
                self.skipTest("this file system has no such names")
            self.assertEqual(PageFolder(room).titles(), ["Main"])


if __name__ == "__main__":
    unittest.main()
