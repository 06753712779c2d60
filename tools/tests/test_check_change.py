"""check-change: which crates a change touches, and which stored cases are answered otherwise."""
import subprocess
import unittest

from loading import REPOSITORY, load


class Touched(unittest.TestCase):
    def setUp(self) -> None:
        self.tool = load("check-change")

    def test_crates_above_are_those_that_use_it_by_others_too(self) -> None:
        uses = {"low": [], "other": [], "middle": ["low"], "top": ["middle", "other"], "beside": ["other"]}
        self.assertEqual(self.tool.above(uses, ["low"]), ["middle", "top"])
        self.assertEqual(self.tool.above(uses, ["other"]), ["top", "beside"])
        self.assertEqual(self.tool.above(uses, ["top"]), [])

    def test_every_crate_of_the_repository_is_known_with_what_it_uses(self) -> None:
        uses = self.tool.crates()
        folders = {path.parent.name for path in REPOSITORY.glob("crates/*/src")}
        self.assertEqual(set(uses), folders)
        self.assertIn("wt_span", uses["wt_lex"])
        self.assertIn("wtround", self.tool.above(uses, ["wt_span"]))

    def test_cases_that_differ_or_are_missing(self) -> None:
        self.assertEqual(self.tool.differing([b"a", b"b", b"c"], [b"a", b"x", b"c"]), [2])
        self.assertEqual(self.tool.differing([b"a", b"b", b"c"], [b"a"]), [2, 3])
        self.assertEqual(self.tool.differing([b"a"], [b"a", b"b"]), [2])
        self.assertEqual(self.tool.differing([b"a"], [b"a"]), [])

    def test_a_name_that_is_no_crate_is_refused(self) -> None:
        ran = subprocess.run([REPOSITORY / "tools/check-change", "wt_nowhere"], capture_output=True, text=True, check=False)
        self.assertEqual(ran.returncode, 1)
        self.assertIn("check-change [--cases] [CRATE..]", ran.stderr)


if __name__ == "__main__":
    unittest.main()
