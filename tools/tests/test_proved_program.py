"""proved-program keeps a program in the user's cache, and of older ones a few."""
import os
import subprocess
import tempfile
import unittest
from pathlib import Path

from loading import TOOLS

STAND_IN_OF_RT = "#!/bin/sh\necho version\n"


class Kept(unittest.TestCase):
    def setUp(self) -> None:
        self._room = tempfile.TemporaryDirectory()
        self.addCleanup(self._room.cleanup)
        self.room = Path(self._room.name)
        self.cache = self.room / "my cache"
        rt = self.room / "bin/rt"
        rt.parent.mkdir()
        rt.write_text(STAND_IN_OF_RT)
        rt.chmod(0o755)
        self.program = self.room / "program"
        self.program.write_text("#!/bin/sh\n")
        self.program.chmod(0o755)

    def run_tool(self, *words: str) -> int:
        environment = {
            **os.environ,
            "PATH": f"{self.room / 'bin'}:{os.environ['PATH']}",
            "XDG_CACHE_HOME": str(self.cache),
        }
        return subprocess.run([TOOLS / "proved-program", *words], env=environment, cwd=self.room).returncode

    def test_of_older_ones_four_are_left_also_where_the_path_has_a_blank(self) -> None:
        beside = self.room / "my"  # what the path is up to its blank
        beside.mkdir()
        kept = self.cache / "bughtiso/proved"
        for number in range(7):
            (kept / f"older{number}").mkdir(parents=True)
            os.utime(kept / f"older{number}", (number, number))
        self.assertEqual(self.run_tool("--keep", str(self.program)), 0)
        self.assertTrue(beside.is_dir())
        names = {folder.name for folder in kept.iterdir()}
        self.assertEqual({name for name in names if name.startswith("older")}, {f"older{n}" for n in range(3, 7)})
        self.assertEqual(len(names), 5)

    def test_what_is_kept_is_taken(self) -> None:
        self.assertEqual(self.run_tool("--keep", str(self.program)), 0)
        taken = self.room / "taken"
        self.assertEqual(self.run_tool(str(taken)), 0)
        self.assertEqual(taken.read_bytes(), self.program.read_bytes())


if __name__ == "__main__":
    unittest.main()
