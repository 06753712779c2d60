"""The arguments of `wtround-batch`, and what it tells the user."""
from __future__ import annotations

import argparse
import os
import signal
import sqlite3
import sys
from contextlib import closing, contextmanager
from typing import Callable, Iterator

from .nursery import STOPPING, Nursery, NurseryError
from .program import ProgramError, find_program, settings_for
from .progress import Progress, spelled_time
from .results import COMMANDS, DIFFERS, FAILURE_WORDS, OUTCOMES
from .run import Choice, Counts, Run, Source, Target
from .siblings import importer
from .store import Export, Store, StoreError
from .wiki import Folder, Namespaces
from .worker import Orders, work

PROGRAM = "wtround-batch"
STATE = "wtround-batch.sqlite"
WORDS_OF_SPREAD = ("cases", "answers", "gather")
EPILOG = """\
COMMANDS is one of these words, or several joined by commas:

  html      the HTML of each page
  wikitext  there and back: the HTML of each page, and the page that comes back from it, compared
  ranges    what stands where in each page
  expand    each page with its templates expanded
  lint      doubtful places (where the program at hand knows this command)

The pages are those of the folder `pages`, or of EXPORT, a wiki's XML export, plain or packed with gzip,
bzip2 or xz. What came of each page is kept in a file of results: a run that was stopped goes on where it
was, and a later one tries only pages that have changed since, or whose templates have.

Three more words are for several machines (share/doc/bughtiso/scale.md): `%(prog)s cases` writes a case for
each page, `%(prog)s answers` answers cases from standard input, and `%(prog)s gather` reports the answers.
Each has a --help of its own.

exit status:
  0  every page was tried, and of those that went there and back each came back byte for byte; what was
     refused or died is in the report
  1  the run could not begin or end: its export is broken, another run is at work, a file cannot be written
  2  the arguments are wrong, or the program does not know a command
  3  every page was tried, and one came back with other bytes
  130  it was interrupted; the same words go on where it was
"""


def words_of_commands(text: str) -> "list[str]":
    words = [word.strip() for word in text.split(",")]
    unknown = [word for word in words if word not in COMMANDS]
    if unknown:
        known = ", ".join(COMMANDS)
        raise argparse.ArgumentTypeError(
            f"{importer.printable(unknown[0]) or '(nothing)'} is none of {known}"
        )
    return [command for command in COMMANDS if command in words]


def positive(kind: "Callable[[str], float]") -> "Callable[[str], float]":
    def read(text: str) -> float:
        value = kind(text)
        if not 0 < value < 1e9:
            raise ValueError
        return value

    read.__name__ = "number"
    return read


def add_common_options(parser: argparse.ArgumentParser) -> None:
    add = parser.add_argument
    add("--program", metavar="FILE", help="the wtround_cases to use (default: the one beside this tool)")
    add(
        "--time-limit",
        type=positive(float),
        default=60.0,
        metavar="SECONDS",
        help="for one command on a page (default: %(default)g)",
    )
    add(
        "--memory-limit",
        type=positive(int),
        metavar="MB",
        help="of each process of wtround_cases (default: none)",
    )


def add_wiki_options(parser: argparse.ArgumentParser) -> None:
    add = parser.add_argument
    add("commands", type=words_of_commands, metavar="COMMANDS", help="what is done with each page")
    add("export", nargs="?", metavar="EXPORT", help="an XML export (default: the folder of --pages)")
    add("--pages", default="pages", metavar="DIR", help="the folder of pages (default: %(default)s)")
    add("--list", metavar="FILE", help="try the pages of this list alone, a title on each line")
    add(
        "--namespace",
        action="append",
        default=[],
        metavar="NAME",
        help="try the pages of this namespace alone, by name or number (main or 0 is that without a name); "
        "may be repeated",
    )
    add("--state", default=STATE, metavar="FILE", help="the file of results (default: %(default)s)")
    add("--quiet", action="store_true", help="tell no progress")


def parser() -> argparse.ArgumentParser:
    parser = argparse.ArgumentParser(
        prog=PROGRAM,
        description="Convert or check all pages of a wiki, and report what came of them.",
        epilog=EPILOG,
        formatter_class=argparse.RawDescriptionHelpFormatter,
    )
    add_wiki_options(parser)
    add = parser.add_argument
    add(
        "-r",
        "--report",
        metavar="FILE",
        help="write a report: FILE as HTML, and beside it one that ends in .json",
    )
    add("-o", "--output", metavar="DIR", help="write each answer into a file of this folder")
    add("--json", metavar="FILE", help="write a line of JSON for each page into this file")
    add("-z", "--compress", action="store_true", help="pack the output with gzip")
    add(
        "-j",
        "--jobs",
        type=positive(int),
        metavar="N",
        help="processes at once (default: one for each processor)",
    )
    add("--again", action="store_true", help="try all pages anew")
    add_common_options(parser)
    return parser


@contextmanager
def stopped_by_signals(run: Run) -> "Iterator[None]":
    """SIGINT, SIGTERM and SIGHUP stop the run, and are ignored after it: what is left is soon done."""

    def stop(*_: object) -> None:
        run.is_stopped = True

    for number in STOPPING:
        signal.signal(number, stop)
    try:
        yield
    finally:
        for number in STOPPING:
            signal.signal(number, signal.SIG_IGN)


def memory_of(arguments: argparse.Namespace) -> "int | None":
    """The limit of memory in bytes."""
    return None if arguments.memory_limit is None else int(arguments.memory_limit * 1_000_000)


def orders_of(
    arguments: argparse.Namespace, program: str, settings: "dict[str, str]", store: "Store | None"
) -> Orders:
    output = (
        "files" if arguments.output is not None else "lines" if arguments.json is not None else "nothing"
    )
    export = arguments.export
    return Orders(
        program=program,
        settings=settings,
        memory_limit=memory_of(arguments),
        time_limit=arguments.time_limit,
        commands=arguments.commands,
        pages=arguments.pages,
        export=None if export is None or store is None else [store.path, export],
        output=output,
        output_folder=arguments.output or "",
        is_packed=arguments.compress,
    )


def read_source(arguments: argparse.Namespace, store: Store, progress: Progress) -> "Folder | Export":
    """The pages, those of an export once they are read. Raises ExportError or OSError."""
    if arguments.export is None:
        os.scandir(arguments.pages).close()
        return Folder(arguments.pages)
    size = os.path.getsize(arguments.export)
    store.read_export(
        arguments.export, lambda read, pages: progress.show_reading(read / size if size else None, pages)
    )
    progress.clear()
    return Export(store.path, arguments.export)


def told(counts: Counts, total: int) -> str:
    """What came of a run, in a line."""
    words = [f"{counts.outcomes[o]:,} {FAILURE_WORDS.get(o, o)}" for o in OUTCOMES if counts.outcomes[o]]
    text = f"{counts.pages:,} pages" if counts.pages == total else f"{counts.pages:,} of {total:,} pages"
    if words:
        text += ": " + ", ".join(words)
    if counts.skipped:
        text += f"; {counts.skipped:,} skipped"
    if counts.kept:
        text += f"; {counts.kept:,} as before"
    done = counts.pages - counts.kept
    rate = f", {done / counts.seconds:,.0f} pages a second" if done and counts.seconds > 0.5 else ""
    return f"{text}; {spelled_time(counts.seconds)}{rate}" if counts.seconds else text


def run_all(
    arguments: argparse.Namespace,
    program: str,
    settings: "dict[str, str]",
    nursery: Nursery,
    store: Store,
    progress: Progress,
) -> int:
    with closing(read_source(arguments, store, progress)) as source:
        orders = orders_of(arguments, program, settings, store)
        target = Target(store, orders, arguments.json or arguments.output, arguments.again)
        choice = Choice(Namespaces.chosen(arguments.namespace), arguments.list)
        run = Run(store, source, choice, orders, target)
        with stopped_by_signals(run):
            run.go(nursery, jobs_of(arguments), progress)
        progress.clear()
        is_whole = arguments.export is None or store.about("export whole") == "yes"
        if arguments.report is not None:
            write_report(arguments, run, store, source, is_whole)
        print(told(run.counts, run.total), file=sys.stderr)
    if run.is_stopped:
        print(f"{PROGRAM}: stopped; the same words go on from here", file=sys.stderr)
        return 130
    if not is_whole:
        broken = "the export is broken; the pages that could be read were tried"
        print(f"{PROGRAM}: {arguments.export}: {broken}", file=sys.stderr)
        return 1
    return 3 if run.counts.outcomes[DIFFERS] else 0


def jobs_of(arguments: argparse.Namespace) -> int:
    return int(arguments.jobs or len(os.sched_getaffinity(0)))


def write_report(
    arguments: argparse.Namespace, run: Run, store: Store, source: Source, is_whole: bool
) -> None:
    from .report import About, Report  # only where one is wanted, so that the other runs begin sooner
    from .report_html import write_files

    about = About(
        source=source.describe(),
        commands=arguments.commands,
        program=run.program,
        jobs=jobs_of(arguments),
        seconds=run.counts.seconds,
        kept=run.counts.kept,
        is_finished=not run.is_stopped,
        export_is_whole=is_whole,
    )
    write_files(Report(store, source, run.number, about, arguments.report))


def refuse_arguments(parser: argparse.ArgumentParser, arguments: argparse.Namespace) -> None:
    if arguments.output is not None and arguments.json is not None:
        parser.error("--output and --json: one of them")
    if arguments.compress and arguments.output is None and arguments.json is None:
        parser.error("--compress needs --output or --json")
    if arguments.report is not None and os.path.splitext(arguments.report)[1] == ".json":
        parser.error("--report: FILE is the HTML; the JSON lies beside it")
    folders = [os.path.realpath(path) for path in (arguments.output, arguments.pages) if path is not None]
    if len(set(folders)) < len(folders):
        parser.error("--output: the answers of `wikitext` would replace the pages")


def main_of_run(words: "list[str]") -> int:
    this_parser = parser()
    arguments = this_parser.parse_args(words)
    refuse_arguments(this_parser, arguments)
    program = find_program(arguments.program)
    progress = Progress(sys.stderr, arguments.quiet)
    with closing(Nursery(work)) as nursery:
        nursery.start_ahead(jobs_of(arguments))  # while this process gets the pages
        settings = settings_for(program, arguments.commands, memory_of(arguments))
        with closing(Store(arguments.state)) as store:
            try:
                return run_all(arguments, program, settings, nursery, store, progress)
            finally:
                progress.clear()


def main() -> int:
    words = sys.argv[1:]
    sys.stdout.reconfigure(errors="backslashreplace")  # type: ignore[attr-defined]
    try:
        if words and words[0] in WORDS_OF_SPREAD:
            from . import spread  # which uses what stands above

            return spread.WORDS[words[0]](words[1:])
        return main_of_run(words)
    except ProgramError as error:
        print(f"{PROGRAM}: {error}", file=sys.stderr)
        return 2
    except (StoreError, NurseryError, importer.ExportError, sqlite3.Error) as error:
        print(f"{PROGRAM}: {error}", file=sys.stderr)
        return 1
    except OSError as error:
        print(f"{PROGRAM}: {error.filename or 'output'}: {error.strerror or error}", file=sys.stderr)
        return 1
    except KeyboardInterrupt:
        return 130
