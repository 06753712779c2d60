"""The titles and file names of import-export-xml, by cases whose answers two independent programs gave."""
import unittest
from pathlib import Path

from loading import REPOSITORY, load

tool = load("import-export-xml")
STORED = Path(__file__).with_name("titles.tsv")
OUTSIDE = REPOSITORY.parent / "shared/vectors/titles.tsv"


def stored_cases() -> list:
    """Text and file name (None for no title) of each line: a text, and of a title its link and its file."""
    lines = STORED.read_text(encoding="utf-8").removesuffix("\n").split("\n")
    fields = [line.split("\t") for line in lines]
    return [(line[0], line[2] if len(line) == 3 else None) for line in fields]


def file_of(text: str):
    try:
        return tool.file_name(tool.read_title(text).full_name)
    except tool.BadTitle:
        return None


class Titles(unittest.TestCase):
    def test_stored_cases(self) -> None:
        cases = stored_cases()
        self.assertGreater(len(cases), 150)
        for text, wanted in cases + [(text, None) for text in ("", "\t", "a\tb", "a\nb", "\x01a")]:
            with self.subTest(text=text):
                self.assertEqual(file_of(text), wanted)

    @unittest.skipUnless(OUTSIDE.exists(), "there is no titles.tsv")
    def test_outside_cases(self) -> None:
        count = 0
        for line in OUTSIDE.read_text().splitlines():
            kind, *fields = line.split("\t")
            if kind != "title":
                continue
            count += 1
            fields = [bytes.fromhex(f).decode() if f != "none" and not f.startswith("=") else f for f in fields]
            text, answer = fields[0], fields[1:]
            with self.subTest(text=text):
                if answer == ["none"]:
                    self.assertRaises(tool.BadTitle, tool.read_title, text)
                    continue
                title = tool.read_title(text)
                self.assertEqual([title.namespace, title.name, title.full_name], [answer[0], answer[1], answer[3]])
                fragment = None if answer[2] == "none" else bytes.fromhex(answer[2][1:]).decode()
                self.assertEqual(title.fragment, fragment)
                self.assertEqual(tool.file_name(title.full_name), answer[5])
        self.assertGreater(count, 100)

    def test_reasons(self) -> None:
        for text, reason in {
            "a[b": "the title has the character [",
            "a\tb": "the title has a control character",
            "..": "a part of the title between slashes is . or ..",
            "x" * 256: "the title has more than 255 bytes",
            "%41": "the title has a percent sign with two hexadecimal digits",
        }.items():
            with self.subTest(text=text), self.assertRaises(tool.BadTitle) as raised:
                tool.read_title(text)
            self.assertEqual(str(raised.exception), reason)


if __name__ == "__main__":
    unittest.main()
