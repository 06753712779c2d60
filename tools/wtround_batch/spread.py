"""For several machines: cases are written on one, answered on any number, and gathered on one."""
from __future__ import annotations

import argparse
import binascii
import sys
from contextlib import closing
from typing import BinaryIO, Iterator

from . import command as one_machine
from .examine import Examiner, answered
from .outputs import Lines, read_line
from .program import Cases, case, find_program, settings_for
from .progress import Progress
from .report import About, Report
from .report_html import write_files
from .results import Examined, Known
from .run import Choice, Counts, Source
from .siblings import importer
from .store import Export, Store, digest_of, taken_digest
from .wiki import Folder, Namespaces, Skipped

CASES_EPILOG = """\
Each line has five fields between tabs: the command and the title (in hex), and then a case as wtround_cases
takes it, with the page and only the templates that it takes. `cut -f3-` leaves what wtround_cases takes;
`wtround-batch answers` takes whole lines. A case of `wikitext` is that of its first half, `html`.
"""
ANSWERS_EPILOG = """\
It needs no file but wtround_cases. Each line of standard input is a case with its command and title, as
`wtround-batch cases` writes them; for each a line of JSON is written, as --json of wtround-batch writes it.
A case in which wtround_cases dies, or takes too long, is a line as well. The lines may come in any order.
"""
GATHER_EPILOG = """\
Run it beside the folder of pages, or the file of results, of which the cases were made: then the report
links to the pages.
"""


class Lacking:
    """The pages of one case, as a wiki."""

    def __init__(self, pages: "dict[str, bytes]") -> None:
        self._pages = pages

    def text(self, title: str) -> "bytes | None":
        return self._pages.get(title)


# ---------------------------------------------------------------- cases


def cases_parser() -> argparse.ArgumentParser:
    parser = argparse.ArgumentParser(
        prog="wtround-batch cases",
        description="Write a case for each page of a wiki to standard output.",
        epilog=CASES_EPILOG,
        formatter_class=argparse.RawDescriptionHelpFormatter,
    )
    one_machine.add_wiki_options(parser)
    one_machine.add_common_options(parser)
    return parser


def write_cases(words: "list[str]") -> int:
    arguments = cases_parser().parse_args(words)
    program = find_program(arguments.program)
    memory_limit = one_machine.memory_of(arguments)
    settings = settings_for(program, ["expand"], memory_limit)
    progress = Progress(sys.stderr, arguments.quiet)
    store = Store(arguments.state)
    cases = Cases(program, memory_limit, settings)
    try:
        with closing(one_machine.read_source(arguments, store, progress)) as source:
            examiner = Examiner(source, arguments.time_limit, wants_output=False)
            choice = Choice(Namespaces.chosen(arguments.namespace), arguments.list)
            total = sum(not isinstance(title, Skipped) for title in choice.titles(source))
            for count, title in enumerate(t for t in choice.titles(source) if not isinstance(t, Skipped)):
                write_cases_of_page(title, source, store, cases, examiner, arguments.commands)
                progress.show(count + 1, total, "")
    finally:
        progress.clear()
        cases.close()
        store.close()
    return 0


def write_cases_of_page(
    title: str,
    source: "Folder | Export",
    store: Store,
    cases: Cases,
    examiner: Examiner,
    commands: "list[str]",
) -> None:
    text = source.text(title)
    if text is None:
        print(f"{one_machine.PROGRAM}: {importer.printable(title)}: no such page", file=sys.stderr)
        return
    ((names, pages),) = answered(cases, [examiner.find_pages(title, text, store.known(title))])
    store.set_known(
        title, Known("", digest_of(text), names, taken_digest((n, digest_or_none(pages, n)) for n in names))
    )
    for command in commands:
        words = ["html" if command == "wikitext" else command, title]
        head = command.encode() + b"\t" + binascii.hexlify(title.encode()) + b"\t"
        sys.stdout.buffer.write(head + case(words, b"", pages) + b"\n")


def digest_or_none(pages: "dict[str, bytes]", name: str) -> "bytes | None":
    return digest_of(pages[name]) if name in pages else None


# ---------------------------------------------------------------- answers


def answers_parser() -> argparse.ArgumentParser:
    parser = argparse.ArgumentParser(
        prog="wtround-batch answers",
        description="Answer cases from standard input, a line of JSON each.",
        epilog=ANSWERS_EPILOG,
        formatter_class=argparse.RawDescriptionHelpFormatter,
    )
    parser.add_argument(
        "--no-output", action="store_true", help="leave the output out; say what came of each page alone"
    )
    one_machine.add_common_options(parser)
    return parser


def write_answers(words: "list[str]") -> int:
    arguments = answers_parser().parse_args(words)
    program, memory_limit = find_program(arguments.program), one_machine.memory_of(arguments)
    cases = Cases(program, memory_limit, settings_for(program, ["html"], memory_limit))
    lines = Lines(is_packed=False, has_output=not arguments.no_output)
    status = 0
    for number, line in enumerate(sys.stdin.buffer, 1):
        try:
            examined = answer(line, cases, arguments.time_limit, not arguments.no_output)
        except ValueError:
            print(
                f"{one_machine.PROGRAM}: line {number} is no case of `{one_machine.PROGRAM} cases`",
                file=sys.stderr,
            )
            status = 1
            continue
        sys.stdout.buffer.write(lines.take(examined, ""))
        sys.stdout.buffer.flush()
    cases.close()
    return status


def answer(line: bytes, cases: Cases, time_limit: float, wants_output: bool) -> Examined:
    """What comes of a case. Raises ValueError where the line is none."""
    command, title_hex, _, _, entries = line.rstrip(b"\n").split(b"\t")
    title = binascii.unhexlify(title_hex).decode()
    pages = {}
    for entry in entries.split(b","):
        name, text = entry.split(b"=")
        pages[binascii.unhexlify(name).decode()] = binascii.unhexlify(text)
    if title not in pages:
        raise ValueError
    commands = one_machine.words_of_commands(command.decode())
    examiner = Examiner(Lacking(pages), time_limit, wants_output)
    names = [name for name in pages if name != title]
    ((results, _),) = answered(cases, [examiner.run(title, pages[title], pages, commands)])
    return Examined(title, len(pages[title]), Known("", b"", names, b""), results)


# ---------------------------------------------------------------- gather


def gather_parser() -> argparse.ArgumentParser:
    parser = argparse.ArgumentParser(
        prog="wtround-batch gather",
        description="Write the report of answers that were made on several machines.",
        epilog=GATHER_EPILOG,
        formatter_class=argparse.RawDescriptionHelpFormatter,
    )
    add = parser.add_argument
    add(
        "files",
        nargs="*",
        metavar="FILE",
        help="lines of `wtround-batch answers` (default: standard input)",
    )
    add(
        "-r",
        "--report",
        required=True,
        metavar="FILE",
        help="write FILE as HTML, and beside it one that ends in .json",
    )
    add("--pages", default="pages", metavar="DIR", help="the folder of pages (default: %(default)s)")
    add(
        "--state",
        default=one_machine.STATE,
        metavar="FILE",
        help="the file of results (default: %(default)s)",
    )
    return parser


def gathered(files: "list[str]") -> "Iterator[tuple[str, int, bytes]]":
    """The lines of the files, with where they stand."""
    for name in files or ["-"]:
        stream: BinaryIO = sys.stdin.buffer if name == "-" else open(name, "rb")
        with stream:
            for number, line in enumerate(stream, 1):
                yield name, number, line


def gather(words: "list[str]") -> int:
    arguments = gather_parser().parse_args(words)
    store = Store(arguments.state)
    try:
        run = store.count_up("run")
        store.clear_skipped("list")
        commands, is_whole = take_answers(store, run, arguments.files)
        found: Source = Export(store.path, "") if store.about("export") else Folder(arguments.pages)
        with closing(found) as source:
            about = About(
                source="answers of several machines",
                commands=[command for command in one_machine.COMMANDS if command in commands],
                program="",
                jobs=0,
                seconds=0.0,
                kept=0,
                is_finished=True,
                export_is_whole=True,
            )
            report = Report(store, source, run, about, arguments.report)
            write_files(report)
        print(told_of(report), file=sys.stderr)
    finally:
        store.close()
    return 0 if is_whole else 1


def told_of(report: Report) -> str:
    """What came of the pages of a report, in a line."""
    counts = Counts(pages=report.figures.pages)
    for outcomes in report.figures.outcomes.values():
        counts.outcomes.update(outcomes)
    return one_machine.told(counts, counts.pages)


def take_answers(store: Store, run: int, files: "list[str]") -> "tuple[set[str], bool]":
    """Stores the answers of these files. The commands that they answer, and whether every line was one."""
    commands: "set[str]" = set()
    is_whole = True
    store.begin()
    for name, number, line in gathered(files):
        try:
            examined = read_line(line)
        except (ValueError, KeyError, TypeError):
            print(f"{one_machine.PROGRAM}: {name}: line {number} is no answer", file=sys.stderr)
            is_whole = False
            continue
        for command, result in examined.results.items():
            store.set_result(examined.title, command, examined.known, "", run, examined.bytes, result)
            commands.add(command)
    store.commit()
    return commands, is_whole


WORDS = {"cases": write_cases, "answers": write_answers, "gather": gather}
