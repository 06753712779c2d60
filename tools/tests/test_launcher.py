"""The launcher runs the program that the gate has made here, as long as no source was put here after it."""
import os
import shutil
import subprocess
import tempfile
import time
import unittest
from pathlib import Path

from loading import TOOLS

STAND_IN = "#!/bin/sh\necho this one\n"


class Current(unittest.TestCase):
    def setUp(self) -> None:
        self._room = tempfile.TemporaryDirectory()
        self.addCleanup(self._room.cleanup)
        self.clone = Path(self._room.name) / "clone"
        self.source = self.clone / "crates/wtround/src/main.rt"
        self.source.parent.mkdir(parents=True)
        self.source.write_text("fn main() {}\n")
        (self.clone / "crates.txt").write_text("wtround:\n")
        shutil.copy(TOOLS.parent / "wtround", self.clone / "wtround")
        self.program = self.clone / "crates/wtround/out/wtround"
        self.program.parent.mkdir()
        self.program.write_text(STAND_IN)
        self.program.chmod(0o755)

    def run_it(self) -> subprocess.CompletedProcess[str]:
        environment = {"PATH": "/usr/bin:/bin", "XDG_CACHE_HOME": str(self.clone / "cache")}
        return subprocess.run([self.clone / "wtround"], env=environment, capture_output=True, text=True)

    def test_the_program_of_these_sources_answers(self) -> None:
        self.assertEqual(self.run_it().stdout, "this one\n")

    def test_other_sources_with_an_older_time_have_no_program(self) -> None:
        while self.source.stat().st_ctime_ns <= self.program.stat().st_mtime_ns:  # up to a step of the clock of files
            time.sleep(0.01)
            self.source.write_text("fn main() { other() }\n")
            os.utime(self.source, (1, 1))
        done = self.run_it()
        self.assertEqual(done.returncode, 127)
        self.assertNotIn("this one", done.stdout)


if __name__ == "__main__":
    unittest.main()
