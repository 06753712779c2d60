#!/usr/bin/env python3
"""Counts the instructions and the memory that `wtround` takes for pages of each kind, beside those of another
program: what other work on the machine doesn't change. The pages are those of bench/bench.py.

  bench/instructions.py PROGRAM [OTHER] [--only WORD] [--size KIB] [--peaks KIB]

PROGRAM and OTHER are as for bench/bench.py; a build with nothing proved will do, if it has none of the tests
of a try (tools/build-unproved --as-proved). Instructions are counted once by valgrind for pages (or HTML) of
--size KiB (64 where nothing is said), since they are the same in each run, and what an empty page takes is
subtracted; the peak of memory is that of the process for --peaks KiB (1024). Both have to answer the same bytes.
With OTHER there are two ratios: of speed, 2 where PROGRAM takes half the instructions of OTHER, and of memory,
2 where it takes twice the memory. --only WORD measures the rows that have the word in their name.
"""
import argparse
import hashlib
import os
import re
import subprocess
import sys

from bench import (
    BLOCK_KINDS, CALL_KINDS, EDIT_KINDS, HTML_KINDS, INLINE_KINDS, KINDS, REFUSED_KINDS, answer, case, folder_of,
    program_of,
)

COUNTER = ["valgrind", "--tool=cachegrind", "--cache-sim=no", "--cachegrind-out-file=/dev/null"]


def rows(program):
    """Command, kind of page, how a page is made, its templates, and how the input is made of its HTML."""
    for kind, make in {**KINDS, **INLINE_KINDS, **BLOCK_KINDS}.items():
        yield ["html", "Main"], kind, make, {}, None
    for kind, (make, templates) in CALL_KINDS.items():
        yield ["html", "Main"], kind, make, templates, None
    for kind, (make, given, templates) in EDIT_KINDS.items():
        yield ["html", "Main"], f"before {kind}", make, templates, None
        yield ["edit", "Main"], kind, make, templates, given
    for kind, make in {**HTML_KINDS, **REFUSED_KINDS}.items():
        yield ["wikitext"], kind, make, {}, None
    for kind, make in {**INLINE_KINDS, **BLOCK_KINDS}.items():
        yield ["wikitext"], f"HTML of {kind}", lambda size: answer(program, make(size // 8)), {}, None


def ran(words, folder):
    """The status, a hash of the answer, and what stands on standard error."""
    with open(os.path.join(folder, "in"), "rb") as given:
        it = subprocess.run(words, cwd=folder, stdin=given, capture_output=True)
    return (it.returncode, hashlib.sha256(it.stdout).hexdigest()), it.stderr.decode(errors="replace")


def instructions(program, folder, words):
    """What the program answered, and the instructions that it took."""
    answered, told = ran(COUNTER + program + words, folder)
    return answered, int(re.search(r"I +refs: +([\d,]+)", told)[1].replace(",", ""))


def peak(program, folder, words):
    """What the program answered, and the most memory that it had, in KiB."""
    answered, told = ran(["/usr/bin/time", "-q", "-f", "%M"] + program + words, folder)
    return answered, int(told.split()[-1])


def measured(measure, programs, words, made, templates, given):
    """A measure of each program over one page, where all answer alike, and the bytes of their input."""
    page, templates, given = case(programs[0], words, made, templates, given)
    with folder_of(page, templates, given) as folder:
        told = [measure(program, folder, words) for program in programs]
    if len({answered for answered, _ in told}) > 1:
        raise SystemExit(f"the programs don't answer alike: {' '.join(words)}")
    return [it for _, it in told], len(given if words[0] == "wikitext" else page)


def with_nothing(programs, command):
    """What each program takes where the page, or the document, has nothing in it."""
    made = HTML_KINDS["paragraphs"](0) if command[0] == "wikitext" else b""
    counts, _ = measured(instructions, programs, command, made, {}, bytes if command[0] == "edit" else None)
    return counts


def main():
    usage = "bench/instructions.py PROGRAM [OTHER] [--only WORD] [--size KIB] [--peaks KIB]"
    words = argparse.ArgumentParser(usage=usage)
    words.add_argument("program", nargs="+")
    words.add_argument("--only", default="")
    words.add_argument("--size", type=int, default=64)
    words.add_argument("--peaks", type=int, default=1024)
    told = words.parse_args()
    programs = [program_of(it) for it in told.program]
    print("| command and page | instructions a byte | peak MB | speed, memory |")
    print("|---|---|---|---|")
    idle = {}
    for command, kind, make, templates, given in rows(programs[0]):
        if told.only not in f"{command[0]}, {kind}":
            continue
        if command[0] not in idle:
            idle[command[0]] = with_nothing(programs, command)
        counts, length = measured(instructions, programs, command, make(told.size << 10), templates, given)
        counts = [count - less for count, less in zip(counts, idle[command[0]])]
        peaks, _ = measured(peak, programs, command, make(told.peaks << 10), templates, given)
        ratios = [(counts[-1], counts[0]), (peaks[0], peaks[-1])]
        cells = [
            ", ".join(f"{it / length:.0f}" for it in counts), ", ".join(f"{it * 1024 / 1e6:.1f}" for it in peaks),
            ", ".join(f"{a / b:.2f}" for a, b in ratios) if len(programs) == 2 else "",
        ]
        print(f"| {command[0]}, {kind} | {' | '.join(cells)} |", flush=True)
    return 0


if __name__ == "__main__":
    sys.exit(main())
