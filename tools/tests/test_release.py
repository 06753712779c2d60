"""The manual pages and the completion that a release holds."""
import os
import re
import shutil
import subprocess
import sys
import tempfile
import unittest
from pathlib import Path

from loading import REPOSITORY

DIST = REPOSITORY / "dist"
PAGES = sorted(DIST.glob("*.1"))


class ManualPages(unittest.TestCase):
    @unittest.skipUnless(shutil.which("man"), "there is no man")
    def test_no_warnings(self) -> None:
        for page in PAGES:
            with self.subTest(page=page.name):
                command = ["man", "--warnings", "-l", str(page)]
                environment = {**os.environ, "LC_ALL": "C.UTF-8", "MANWIDTH": "80"}
                done = subprocess.run(command, env=environment, stdout=subprocess.PIPE, stderr=subprocess.PIPE)
                self.assertEqual((done.returncode, done.stderr.decode()), (0, ""))
                self.assertIn("NAME", done.stdout.decode())

    @unittest.skipUnless(shutil.which("mandoc"), "there is no mandoc")
    def test_mandoc_has_no_warnings(self) -> None:
        for page in PAGES:
            with self.subTest(page=page.name):
                done = subprocess.run(["mandoc", "-T", "lint", "-W", "warning", str(page)], stdout=subprocess.PIPE)
                self.assertEqual(done.stdout.decode(), "")

    def test_sections(self) -> None:
        sections = re.findall(r"^\.SH (.*)$", (DIST / "wtround.1").read_text(), re.MULTILINE)
        self.assertEqual(
            sections,
            ["NAME", "SYNOPSIS", "DESCRIPTION", "COMMANDS", "FILES", "EXIT STATUS", "DIAGNOSTICS", "LIMITS", "EXAMPLES", "SEE ALSO"],
        )

    @unittest.skipUnless(shutil.which("man"), "there is no man")
    def test_each_refusal_of_the_program_is_there(self) -> None:
        """The stored cases hold the lines; numbers, titles and reasons stand for P, N, TEMPLATE and WHY."""
        answers = (REPOSITORY / "crates/wtround_cases/stdout").read_text().splitlines()
        lines = {bytes.fromhex(answer.split("\t")[2]).decode() for answer in answers if "\t" in answer}
        environment = {**os.environ, "LC_ALL": "C.UTF-8", "MANWIDTH": "200"}
        shown = subprocess.run(["man", "-l", str(DIST / "wtround.1")], env=environment, stdout=subprocess.PIPE).stdout.decode()
        shown = re.sub("\x1b\\[[0-9;]*m|.\b", "", shown).replace("\u2010", "-")
        texts = set()
        for line in filter(None, lines):
            text = line[len("wtround: ") :].rstrip("\n").partition("|")[0]
            text, reason = re.sub(r" at [0-9]+", " at P", re.sub(r"^element [0-9]+", "element N", text)), ""
            text = re.sub(r"^(?!page |html |input )\S.*(?= not UTF-8 at P$| too long$)|(?<= in )\S.*$", "TEMPLATE", text)
            if ": " in text and not text.startswith("usage"):
                text, _, reason = text.partition(": ")
                for word in re.findall("[A-Z][A-Za-z0-9]+", reason):
                    self.assertRegex(shown, rf"\b{word}\b", "dist/wtround.1 lacks this reason")
            texts.add(text)
        self.assertGreater(len(texts), 5)
        for text in texts:
            with self.subTest(text=text):
                self.assertIn(text, shown, "dist/wtround.1 lacks this line of the program, under DIAGNOSTICS")


@unittest.skipUnless(shutil.which("bash"), "there is no bash")
class Completion(unittest.TestCase):
    def complete(self, *words: str, program: str = "wtround") -> list:
        """What is offered for the last word."""
        with tempfile.TemporaryDirectory() as folder:
            pages = Path(folder) / "pages"
            pages.mkdir()
            for name in ("Opava", "A%2FB", "Template%3ALang_x", "%C3%9Cber"):
                (pages / f"{name}.wiki").touch()
            function = "_" + program.replace("-", "_")
            script = f"source '{DIST}/{program}.bash-completion'; COMP_WORDS=({program} \"$@\"); COMP_CWORD=$#; {function}; "
            script += r"printf '%s\n' ${COMPREPLY[@]+\"${COMPREPLY[@]}\"}".replace('\\"', '"')
            command = ["bash", "--norc", "-c", script, "bash", *words]
            environment = {**os.environ, "LC_ALL": "C.UTF-8"}
            done = subprocess.run(command, cwd=folder, env=environment, stdout=subprocess.PIPE, check=True)
        return done.stdout.decode().split("\n")[:-1]

    def test_commands(self) -> None:
        self.assertEqual(self.complete(""), ["edit", "expand", "gen", "html", "lint", "ranges", "selser", "wikitext"])
        self.assertEqual(self.complete("w"), ["wikitext"])

    def test_titles(self) -> None:
        self.assertEqual(sorted(self.complete("html", "")), ["A/B", "Opava", "Template:Lang_x", "Über"])
        self.assertEqual(self.complete("ranges", "Te"), ["Template:Lang_x"])
        self.assertEqual(self.complete("wikitext", ""), [""])

    def test_words_of_batch(self) -> None:
        commands = ["expand", "html", "lint", "ranges", "wikitext"]
        for words, wanted in {
            ("",): [*commands, "answers", "cases", "gather"],
            ("html,r",): ["html,ranges"],
            ("cases", "w"): ["wikitext"],
            ("wikitext", "pa"): ["pages"],
            ("wikitext", "--re"): ["--report"],
            ("gather", "--"): ["--help", "--pages", "--report", "--state"],
            ("html", "--namespace", "Te"): ["Template"],
            ("html", "--jobs", ""): [""],
        }.items():
            with self.subTest(words=words):
                self.assertEqual(self.complete(*words, program="wtround-batch"), wanted)

    def test_each_option_of_batch_is_completed_and_explained(self) -> None:
        """Those that its --help names stand in the completion and the manual page."""
        command = [sys.executable, str(REPOSITORY / "tools/batch"), "--help"]
        shown = subprocess.run(command, stdout=subprocess.PIPE, check=True).stdout.decode()
        options = set(re.findall(r"(?<![\w-])--[a-z-]+", shown))
        self.assertGreater(len(options), 10)
        completion = (DIST / "wtround-batch.bash-completion").read_text()
        manual = (DIST / "wtround-batch.1").read_text().replace("\\-", "-")
        for option in options:
            with self.subTest(option=option):
                self.assertIn(option, completion)
                self.assertIn(option, manual)


if __name__ == "__main__":
    unittest.main()
