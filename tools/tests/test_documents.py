"""The documents: links lead somewhere, examples answer as they say, and the README stays short."""
import re
import subprocess
import unittest
from pathlib import Path
from typing import Iterator, List, Tuple

from loading import REPOSITORY
from serving_case import PROGRAM

MADE = {".git", "target", "out", "node_modules"}
LAUNCHER = "../wtround"
# An example: a line that begins with the prompt, with those that go on behind a backslash.
PROMPT = "    $ "


def documents() -> List[Path]:
    found = REPOSITORY.rglob("*.md")
    return [path for path in found if not MADE.intersection(path.relative_to(REPOSITORY).parts)]


def anchor(heading: str) -> str:
    """The name by which a link calls a heading."""
    return re.sub(r"[^\w\- ]", "", heading.strip().lower()).replace(" ", "-")


def anchors(path: Path) -> List[str]:
    return [anchor(heading) for heading in re.findall(r"(?m)^#+ (.*)$", path.read_text(encoding="utf-8"))]


def links(text: str) -> Iterator[Tuple[str, str]]:
    """File and anchor of each link to a file of the repository, outside of indented code."""
    for link in re.findall(r"\]\(([^)\s]+)\)", re.sub(r"(?m)^    .*$", "", text)):
        if not re.match(r"[a-z]+:", link):
            name, _, place = link.partition("#")
            yield name, place


def stripped(lines: List[str]) -> str:
    return "\n".join(line.rstrip() for line in lines).strip("\n")


def is_output(line: str) -> bool:
    return not line or (line.startswith("    ") and not line.startswith(PROMPT))


def examples(text: str) -> Iterator[Tuple[str, str]]:
    """The command and the output of each example that runs the program from the folder `examples`."""
    lines = text.split("\n")
    at = 0
    while at < len(lines):
        if not lines[at].startswith(PROMPT):
            at += 1
            continue
        command = lines[at][len(PROMPT):]
        at += 1
        while command.endswith("\\"):
            command = command[:-1] + lines[at].strip()
            at += 1
        start = at
        while at < len(lines) and is_output(lines[at]):
            at += 1
        if LAUNCHER in command:
            yield command, stripped([line[4:] for line in lines[start:at]])


class Documents(unittest.TestCase):
    def test_links(self) -> None:
        count = 0
        for path in documents():
            for name, place in links(path.read_text(encoding="utf-8")):
                count += 1
                with self.subTest(document=str(path.relative_to(REPOSITORY)), link=f"{name}#{place}"):
                    leads_to = (path.parent / name).resolve() if name else path
                    self.assertTrue(leads_to.exists())
                    if place:
                        self.assertIn(place, anchors(leads_to))
        self.assertGreater(count, 80)

    def test_length_of_the_readme(self) -> None:
        self.assertLessEqual(len((REPOSITORY / "README.md").read_text(encoding="utf-8").split()), 1800)

    @unittest.skipIf(PROGRAM is None, "wtround is not built here (WTROUND=FILE names another)")
    def test_examples(self) -> None:
        for document, count in {"README.md": 2, "docs/commands.md": 3, "docs/editing.md": 1}.items():
            found = list(examples((REPOSITORY / document).read_text(encoding="utf-8")))
            self.assertGreaterEqual(len(found), count, document)
            for command, output in found:
                with self.subTest(document=document, command=command):
                    ran = subprocess.run(
                        ["bash", "-c", command.replace(LAUNCHER, '"$PROGRAM"')],
                        cwd=REPOSITORY / "examples", env={"PATH": "/usr/bin:/bin", "PROGRAM": str(PROGRAM)},
                        capture_output=True, text=True, encoding="utf-8", check=False,
                    )
                    self.assertEqual((stripped(ran.stdout.split("\n")), ran.stderr), (output, ""))


if __name__ == "__main__":
    unittest.main()
