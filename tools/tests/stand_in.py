#!/usr/bin/env python3
"""A stand-in for wtround_cases: it hands cases on to the real one, named by REAL_CASES, but

- `lint` finds the bold text that nothing closes, and headings of unequal signs;
- a case that has the page `Dies` ends this program, and one that has `Hangs` is never answered;
- one that has `Dies once` ends it where it has answered before, so that a fresh program answers it;
- before each answer it rests for the seconds in PAUSE, so that a run can be met in its middle on any machine.
"""
import os
import re
import signal
import subprocess
import sys
import time

PAUSE = float(os.environ.get("PAUSE", 0))
real = subprocess.Popen([os.environ["REAL_CASES"]], stdin=subprocess.PIPE, stdout=subprocess.PIPE)


def findings(page: bytes) -> str:
    found, start = "", 0
    for number, line in enumerate(page.split(b"\n"), 1):
        if line.count(b"'''") % 2:
            place = line.rindex(b"'''")
            found += f"OpenStyle {number} {place + 1} {start + place} {start + len(line)}\n"
        sides = re.fullmatch(rb"(=+)[^=]+(=+)", line)
        if sides and len(sides[1]) != len(sides[2]):
            found += f"UnequalHeading {number} 1 {start} {start + len(line)}\n"
        start += len(line) + 1
    return found


def main() -> None:
    for count, line in enumerate(sys.stdin.buffer):
        fields = line.rstrip(b"\n").split(b"\t")
        words = [bytes.fromhex(word.decode()).decode() for word in fields[0].split(b",")]
        title = words[-1]
        time.sleep(PAUSE)
        if title == "Dies" or title == "Dies once" and count:
            os.kill(os.getpid(), signal.SIGABRT)
        if title == "Hangs":
            time.sleep(1000)
        if words[0] == "lint":
            pages = dict(entry.split(b"=") for entry in fields[2].split(b","))
            page = bytes.fromhex(pages[title.encode().hex().encode()].decode())
            answer = f"0\t{findings(page).encode().hex()}\t\n".encode()
        else:
            real.stdin.write(line)
            real.stdin.flush()
            answer = real.stdout.readline()
        sys.stdout.buffer.write(answer)
        sys.stdout.buffer.flush()


main()
