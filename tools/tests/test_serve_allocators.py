"""The allocator with which the server runs the program."""
import os
import tempfile
import unittest
from pathlib import Path
from unittest import mock

from serving_case import PROGRAM, ServingCase

from serving import allocators  # (serving_case has put the tools on the path)
from serving.allocators import TUNABLE, environment
from serving.program import Program


class Allocators(ServingCase):
    def setUp(self) -> None:
        own = mock.patch.dict(os.environ)  # whoever runs the tests has set nothing
        own.start()
        self.addCleanup(own.stop)
        for name in ("LD_PRELOAD", "GLIBC_TUNABLES", "MIMALLOC_LARGE_OS_PAGES"):
            os.environ.pop(name, None)
        super().setUp()
        environment.cache_clear()
        self.addCleanup(environment.cache_clear)

    def found(self, library: object, path: object = PROGRAM, **own: str) -> dict:
        with mock.patch.object(allocators.ctypes.util, "find_library", return_value=library):
            with mock.patch.dict(os.environ, own):
                return environment(str(path))

    def test_a_machine_without_the_library(self) -> None:
        found = self.found(None, GLIBC_TUNABLES="glibc.malloc.check=0")
        self.assertEqual(found["GLIBC_TUNABLES"], f"glibc.malloc.check=0:{TUNABLE}")
        self.assertIsNone(found.get("LD_PRELOAD"))

    def test_a_library_that_cannot_be_loaded(self) -> None:
        self.assertEqual(self.found("libnothing-of-this-name.so.1").get("LD_PRELOAD"), None)

    def test_a_library_that_a_user_preloads_stays_alone(self) -> None:
        self.assertEqual(self.found("libmimalloc.so.2", LD_PRELOAD="other.so")["LD_PRELOAD"], "other.so")

    def test_large_pages_unless_a_user_wants_none(self) -> None:
        name = "MIMALLOC_LARGE_OS_PAGES"
        self.assertEqual(self.found("libc.so.6")[name], "1")
        environment.cache_clear()
        self.assertEqual(self.found("libc.so.6", **{name: "0"})[name], "0")

    def test_a_program_that_does_not_run(self) -> None:
        for path in ("/nowhere", "/bin/true", "/bin/false"):
            self.assertNotIn("LD_PRELOAD", self.found("libc.so.6", path))

    def test_the_same_answers(self) -> None:
        pages = str(self.pages)
        for is_quick in (True, False):
            program = Program(str(PROGRAM), pages, is_quick=is_quick)
            self.addCleanup(program.close)
            self.assertEqual(program.html("Opava").decode(), self.html("Opava")[0])

    def test_it_is_set_for_the_program_alone(self) -> None:
        with tempfile.TemporaryDirectory() as folder:
            told = Path(folder) / "told"
            script = Path(folder) / "program"
            script.write_text(f'#!/bin/sh\necho "$GLIBC_TUNABLES" >"{told}"\necho "bytes 1"\n')
            script.chmod(0o755)
            for is_quick, wanted in ((True, TUNABLE), (False, "")):
                program = Program(str(script), str(self.pages), is_quick=is_quick)
                self.addCleanup(program.close)
                program.html("Opava")
                self.assertEqual(told.read_text().strip(), wanted)
        self.assertNotIn(TUNABLE, os.environ.get("GLIBC_TUNABLES", ""))


if __name__ == "__main__":
    unittest.main()
