"""What a command answers where a device fails, or where its input is cut off: each call of each device, one after the
other, by the program that answers cases over devices in memory."""
import subprocess
import unittest
import urllib.parse
from typing import Dict, List, NamedTuple

from loading import REPOSITORY

PROGRAM = REPOSITORY / "crates/wtround_cases/out/wtround_cases"
FOLDER = REPOSITORY / "examples/pages"


class Answer(NamedTuple):
    """How a call ended: its status, and what standard output and standard error took."""

    status: int
    out: bytes
    err: bytes


# The page of the example, and the templates that it takes.
TITLES = ("Opava", "Template:Infobox row", "Template:Infobox town", "Template:Lang")


def pages() -> Dict[str, bytes]:
    """These pages, by their titles."""
    files = ((title, FOLDER / (urllib.parse.quote(title.replace(" ", "_"), safe="") + ".wiki")) for title in TITLES)
    return {title: file.read_bytes() for title, file in files}


def case(words: List[str], data: bytes = b"", devices: str = "") -> str:
    """A case as a line: words, input, the example's pages, and how the devices behave."""
    held = ",".join(f"{name.encode().hex()}={text.hex()}" for name, text in pages().items())
    return "\t".join([",".join(word.encode().hex() for word in words), data.hex(), held, devices])


def answers(lines: List[str]) -> List[Answer]:
    ran = subprocess.run([PROGRAM], input="\n".join(lines).encode() + b"\n", stdout=subprocess.PIPE, check=True)
    found = [line.split("\t") for line in ran.stdout.decode().splitlines()]
    return [Answer(int(status), bytes.fromhex(out), bytes.fromhex(err)) for status, out, err in found]


@unittest.skipUnless(PROGRAM.is_file(), "wtround_cases is not built here")
class Devices(unittest.TestCase):
    html: bytes
    page: bytes

    @classmethod
    def setUpClass(cls) -> None:
        cls.page = pages()["Opava"]
        (answer,) = answers([case(["html", "Opava"])])
        assert answer.status == 0, answer
        cls.html = answer.out

    def assert_each(self, lines: List[str], expected: List[Answer]) -> None:
        self.assertEqual(len(lines), len(expected))
        for number, (found, wanted) in enumerate(zip(answers(lines), expected), 1):
            with self.subTest(number=number):
                self.assertEqual(found, wanted)

    def test_each_fetch_fails(self) -> None:
        fault = Answer(6, b"", b"wtround: folder fault\n")
        fetches = len(pages())
        lines = [case(["html", "Opava"], devices=f"folder:4194304:{k}") for k in range(1, fetches + 2)]
        # (the call after the last one isn't made)
        self.assert_each(lines, [fault] * fetches + [Answer(0, self.html, b"")])

    def test_each_read_fails(self) -> None:
        fault = Answer(5, b"", b"wtround: read fault\n")
        # so many reads give bytes, and one more tells the end
        reads = -(-len(self.html) // 100) + 1
        lines = [case(["edit", "Opava"], self.html, f"input:100:{k}") for k in range(1, reads + 2)]
        self.assert_each(lines, [fault] * reads + [Answer(0, self.page, b"")])

    def test_each_write_fails(self) -> None:
        lines = [case(["wikitext"], self.html, f"out:1:{k}") for k in range(1, 101)]
        faults = [Answer(7, self.page[: k - 1], b"wtround: write fault\n") for k in range(1, 101)]
        self.assert_each(lines, faults)

    def test_standard_error_fails(self) -> None:
        self.assert_each([case(["gen", "0"], devices="err:100:1")], [Answer(7, b"", b"")])

    def test_a_sink_that_takes_nothing(self) -> None:
        lines = [case(["wikitext"], self.html, "out:0:"), case(["gen", "0"], devices="err:0:")]
        self.assert_each(lines, [Answer(7, b"", b"wtround: write fault\n"), Answer(7, b"", b"")])

    def test_input_is_cut_off_at_each_byte(self) -> None:
        cut = range(len(self.html))
        lines = [case(["wikitext"], self.html[:k]) for k in cut]
        self.assert_each(lines, [Answer(3, b"", f"wtround: html refused at {k}: End\n".encode()) for k in cut])

    def test_the_element_that_nests_too_deep(self) -> None:
        deep = b"<html><body>" + b"<b>" * 199
        # the name of the last of them: the document and its body are two elements
        place = len(deep) - len(b"b>")
        refused = f"wtround: html refused at {place}: TooDeep\n".encode()
        self.assert_each([case(["wikitext"], deep)], [Answer(3, b"", refused)])


if __name__ == "__main__":
    unittest.main()
