"""gate-times tells by a process's words and folder what it works on, and by what a prover writes what each function takes."""
import os
import re
import signal
import subprocess
import sys
import tempfile
import time
import unittest
from pathlib import Path

from loading import TOOLS, load

gate_times = load("gate-times")
CRATE = "/room/repository/crates/wt_lex"
COPY = "/room/rt-edit-12-ab"


def task(words: str, folder: str = CRATE) -> tuple[str, str]:
    return gate_times.task_of(["rattle", *words.split()], folder)


class Tasks(unittest.TestCase):
    def test_a_library_is_built(self) -> None:
        words = "build --crate-name wt_lex src/lib.rt --statements -o out/rlib/wt_lex.rlib"
        self.assertEqual(task(words), ("wt_lex", "library"))

    def test_a_program_is_checked_and_then_built_twice(self) -> None:
        check = "check --crate-name wtround src/main.rt -o /room/rt-proved-12-ab/checked"
        build = "build --crate-name wtround src/main.rt --crate-checked /room/checked --backend "
        self.assertEqual(task(check), ("wtround", "program"))
        self.assertEqual(task(build + "llvm"), ("wtround", "program"))
        self.assertEqual(task(build + "rattle"), ("wtround", "second compiler"))

    def test_tests_are_built_by_themselves(self) -> None:
        words = "build --crate-name wt_lex src/lib.rt --test --backend llvm -o out/wt_lex_tests.o"
        self.assertEqual(task(words), ("wt_lex", "tests"))

    def test_wrong_bodies_are_checked_in_copies(self) -> None:
        check = "check --crate-name wt_lex src/lib.rt"
        self.assertEqual(task(check, COPY), ("wt_lex", "wrong bodies"))
        self.assertEqual(task(check + " --incremental /room/rt-edits-12-cd/3", COPY), ("wt_lex", "wrong bodies"))
        base = task(check + " --incremental /room/rt-edits-12-cd/seed", COPY)
        self.assertEqual(base, ("wt_lex", "base of wrong bodies"))

    def test_what_names_no_crate_is_other_work(self) -> None:
        self.assertEqual(task("-cc1 module.bc"), gate_times.OTHER)


class Times(unittest.TestCase):
    def test_what_a_prover_starts_does_the_same_work(self) -> None:
        watch = gate_times.Watch(1)
        watch.seen[7, 70] = gate_times.Work(("wtround", "program"))
        found = {1: (0, 1, 0), 7: (1, 70, 9), 8: (7, 80, 2)}
        self.assertEqual(watch.task_seen(7, found), ("wtround", "program"))
        self.assertEqual(watch.task_seen(1, found), gate_times.OTHER)

    def test_the_table_has_sums_and_the_longest_chain(self) -> None:
        row = dict.fromkeys(gate_times.KINDS, 0.0)
        times = {"wt_span": {**row, "library": 60.0}, "wt_lex": {**row, "library": 90.0, "wrong bodies": 30.0}}
        text = gate_times.table(times, 120.0)
        self.assertIn("| wt_lex | 90 |  |  |  |  | 30 |  | 120 |", text)
        self.assertIn("| all, in minutes | 2.5 | 0.0 | 0.0 | 0.0 | 0.0 | 0.5 | 0.0 | 3.0 |", text)
        self.assertIn("On the clock: 2.0 minutes. Longest chain: 2.5 minutes (wt_span, wt_lex", text)

    def test_between_two_looks_time_is_shared_evenly(self) -> None:
        work = gate_times.Work(("wt_lex", "library"))
        work.note(10.0, 100)
        work.note(20.0, 300)
        self.assertEqual([work.taken_at(moment) for moment in (9.0, 10.0, 15.0, 21.0)], [100, 100, 200, 300])


class Functions(unittest.TestCase):
    # What a prover wrote, and when, in seconds after its first look. It takes a whole processor.
    WRITTEN = (
        ("Rattle-wt_lex-specs.Lexemes", 9),
        ("Rattle-wt_lex-proofs.sign.sign.Code.Mir", 10),
        ("Rattle-wt_lex-proofs.sign.sign.Lts", 32),
        ("Rattle-wt_lex-proofs.sign.sign.Tie", 35),
        ("Rattle-wt_lex-proofs.sign.sign.Proof", 42),
        ("Rattle-wt_lex-proofs.tags.+tags.Lts-tag", 52),
        ("Rattle-wt_lex-proofs.tags.+tags.Lts-closing", 60),
        ("Rattle-wt_lex-proofs.tags.+tags.Proof", 65),
        ("Rattle-wt_lex-proofs.short.Lts", 66),
        ("Rattle-wt_lex-proofs.Comments", 90),
        ("Rattle-wt_lex-proofs.Cases.decls", 91),
        ("Rattle-wt_lex", 150),
    )

    def watched(self) -> tuple[dict, dict]:
        watch = gate_times.Watch(1)
        work = watch.seen[7, 70] = gate_times.Work(("wt_lex", "library"))
        for second in range(0, 200, 10):
            work.note(1000.0 + second, second * gate_times.TICKS)
        with tempfile.TemporaryDirectory() as folder:
            for name, second in self.WRITTEN:
                file = Path(folder, f"{name}.oantt")
                file.touch()
                os.utime(file, (1000 + second, 1000 + second))
            work.look_at_written(folder)
        return watch.seconds_by_function()

    def test_a_module_names_its_function_and_what_it_is_of_it(self) -> None:
        function_of = gate_times.function_of
        self.assertEqual(function_of("Rattle-wt_lex-proofs.sign.sign.Lts.Given"), (("wt_lex", "sign.sign"), "Lts"))
        tags = ("wt_lex", "tags.+tags")
        self.assertEqual(function_of("Rattle-wt_lex-proofs.tags.+tags.Lts-tag"), (tags, "Lts-tag"))
        self.assertEqual(function_of("Rattle-wt_lex-proofs.Cases.decls"), (("wt_lex", "Cases"), ""))
        self.assertEqual(gate_times.member_of(("wt_lex", "+all"), "Lts-tags-tag"), "tags.tag")
        self.assertIsNone(function_of("Rattle-wt_lex-proofs.TheLinks.wt_lex-sign")[0])
        self.assertIsNone(function_of("Rattle-wt_lex-specs.contracts.sign.Key")[0])

    def test_a_function_takes_what_its_modules_take(self) -> None:
        seconds, members = self.watched()
        self.assertEqual(seconds["wt_lex", "sign.sign"], {"steps": 22, "proof": 7, "other": 4})
        self.assertEqual(seconds["wt_lex", "tags.+tags"], {"steps": 18, "proof": 5})
        self.assertEqual(seconds["wt_lex", "Comments"], {"other": 24})
        self.assertEqual(members["wt_lex", "tags.+tags"] - {""}, {"tags.tag", "tags.closing"})

    def test_the_table_has_those_over_twenty_seconds_with_their_sizes(self) -> None:
        sizes = {"sign.sign": (200, 30, 4), "tags.tag": (50, 5, 2), "tags.closing": (60, 6, 3), "short": (9, 0, 1)}
        lines = gate_times.function_table(*self.watched(), lambda crate: sizes).splitlines()
        self.assertEqual(
            lines[4:],
            [
                "| `wt_lex` sign.sign | 33 | 22 | 7 | 4 | 200 | 30 | 4 |",
                "| `wt_lex` Comments | 24 |  |  | 24 |  |  |  |",
                "| `wt_lex` tags.+tags (2 functions in one recursion) | 23 | 18 | 5 |  | 110 | 11 | 5 |",
            ],
        )


def catches(process: int, number: int) -> bool:
    """Whether a process handles this signal by now."""
    status = Path(f"/proc/{process}/status").read_text(encoding="utf-8")
    return bool(int(re.findall("SigCgt:\\s*([0-9a-f]+)", status)[0], 16) >> (number - 1) & 1)


class Ending(unittest.TestCase):
    def test_ended_early_it_ends_the_gate_and_prints_what_it_has_seen(self) -> None:
        with tempfile.TemporaryDirectory() as room:
            stand_in = Path(room) / "rt"
            stand_in.write_text("#!/bin/sh\necho begun\nexec sleep 600\n", encoding="utf-8")
            stand_in.chmod(0o755)
            environment = {**os.environ, "PATH": f"{room}:{os.environ['PATH']}"}
            words = [sys.executable, str(TOOLS / "gate-times")]
            run = subprocess.Popen(words, env=environment, stdout=subprocess.PIPE, text=True)
            assert run.stdout is not None
            self.assertEqual(run.stdout.readline(), "begun\n")
            while not catches(run.pid, signal.SIGTERM):
                time.sleep(0.01)
            run.send_signal(signal.SIGTERM)
            printed, _ = run.communicate(timeout=30)
            self.assertIn("On the clock:", printed)
            self.assertIn("Functions over 20 seconds", printed)


if __name__ == "__main__":
    unittest.main()
