#!/usr/bin/env python3
"""Measures the proved `wtround`: `html` on pages of 64 KiB, 512 KiB and 2 MiB, `wikitext` on HTML of 512 KiB,
8 MiB and 64 MiB less a page's frame, of the HTML of pages with comments and entities, and of what `html`
answers for pages of links, URLs, styles and tags (a third of the size for apostrophes); `html` on pages of
lists and tables, and of templates; `expand` on pages of calls; both on calls of functions; `lint` on pages
that are doubtful all over; `gen` of 100, 1,000 and 10,000 sections; `edit` and `selser` on pages of which one word or a
word of each paragraph was changed, and of which paragraphs and items come and go.

  bench/bench.py PROGRAM [OTHER]

PROGRAM is the proved program (crates/wtround/out/wtround, which ./wtround builds); OTHER a second program
that takes the same words, which is run in turn on the same inputs. Either may have words of its own
("FILE --sections"), which come before those of the command. For each command and kind of page it
prints, best of three runs, MB of page or of HTML for each second of processor time (the program has one
thread, and so other work of the machine tells less than it does on a clock), the peak memory, and how the
time grew from one size to the next. With OTHER the last column is the ratio of the speeds: 2 where PROGRAM
takes half the time of OTHER. bench/instructions.py counts instructions of the same pages, which other work on
the machine doesn't change.
"""
import contextlib
import os
import shlex
import subprocess
import sys
import tempfile

SIZES = [64 << 10, 512 << 10, 2 << 20]


def lines(of):
    def page(size):
        out, k = [], 0
        length = 0
        while length < size:
            line = of(k)
            out.append(line)
            length += len(line)
            k += 1
        return "".join(out)[:size].encode()
    return page


WORDS = "the river runs past the town and on to the sea beyond the hills of the north"

KINDS = {
    "paragraphs": lines(lambda k: (WORDS + "\n") * 3 + "\n"),
    "comment and entity in each": lines(lambda k: WORDS + "<!-- a note on this -->\n" + WORDS + "&nbsp;&ndash; " + WORDS + "\n\n"),
    "headings": lines(lambda k: f"== Part {k} ==\n{WORDS}\n\n"),
    "headings of all levels": lines(lambda k: "=" * (k % 6 + 1) + f" {k} " + "=" * (k % 6 + 1) + "\n"),
    "one letter a paragraph": lines(lambda k: "a\n\n"),
    "one long line": lines(lambda k: WORDS + " "),
    "blank lines": lines(lambda k: "\n"),
    "one line of =": lambda size: b"=" * size,
}


def whole(word):
    """One line of words of one kind, each of them whole."""
    return lambda size: (word * (size // len(word))).encode()


# One line of one form again and again: `html` of the page, and `wikitext` of what it answers.
INLINE_KINDS = {
    "links": whole("[[a|b]] "),
    "URLs": whole("http://a.b "),
    "italic": whole("''a'' "),
    "italic within bold": whole("'''''a''b''' "),
    "apostrophes": lambda size: b"'" * (size // 3),
    "tags": whole("<s>a</s>"),
}


# Lines of lists and tables.
BLOCK_KINDS = {
    "list items": lines(lambda k: "* " + WORDS + "\n"),
    "short list items": lines(lambda k: "* a\n"),
    "lists in lists": lines(lambda k: "*" * (1 + k % 4) + " a\n"),
    "lines of 32 signs": lines(lambda k: "*#" * 16 + " a\n"),
    "definitions": lines(lambda k: "; a : b\n"),
    "rules": lines(lambda k: "----\n"),
    "preformatted lines": lines(lambda k: " " + WORDS + "\n"),
    "table cells": lambda size: b"{|\n" + lines(lambda k: "| a || b || c\n")(size - 4),
    "table rows": lambda size: b"{|\n" + lines(lambda k: "|-\n| a || b\n")(size - 4),
    "nested tables": lines(lambda k: "{|\n| a\n" * 16 + "|}\n" * 16),
    "opened tables": lines(lambda k: "{|\n"),
}


def article(k):
    """A section of an article: a heading, a paragraph, a list and a table."""
    return (f"== Part {k} ==\n'''The {WORDS}''', as [[Page {k}|they]] say<!-- note -->, {WORDS}.\n\n"
            f"* {WORDS}\n* [http://a.b/{k} there]\n\n" + "{|\n| a || b\n|-\n| c || ''d''\n|}\n\n")


def one_word(html):
    """One word changed in the paragraph in the middle."""
    at = html.index(b"<p id=", len(html) // 2) + 2
    return html[:at] + b' data-wt-edit="content"' + html[at:].replace(b"river", b"brook", 1)


def each_paragraph(html):
    """One word changed in each paragraph."""
    return html.replace(b"<p id=", b'<p data-wt-edit="content" id=').replace(b"river runs", b"brook runs")


def taking_blocks(html):
    """The body marked as one whose blocks come and go."""
    return html.replace(b"<body ", b'<body data-wt-edit="children" ', 1)


def new_behind_each(html):
    """A new paragraph behind each one."""
    return taking_blocks(html).replace(b"</p>", b"</p><p>new</p>")


def every_second_removed(html):
    """Every second paragraph taken out."""
    parts = taking_blocks(html).split(b"<p ")
    kept = [b"<p " + it if k % 2 else it.partition(b"</p>")[2] for k, it in enumerate(parts[1:], 1)]
    return parts[0] + b"".join(kept)


def new_items(html):
    """A new item behind each one of a list."""
    return html.replace(b"<ul ", b'<ul data-wt-edit="children" ', 1).replace(b"</li>", b"</li><li>new</li>")


def below(of):
    """Pages that have room for what comes."""
    return lambda size: of(size * 3 // 4)


# The templates of a section of an article that has some two calls for each KiB.
WITH_CALLS = {
    "Template%3ABox": b"{|\n! {{{name}}}\n|-\n| {{{1|}}} || {{lang|de|{{{name}}}}}\n|}",
    "Template%3ALang": b"''{{{2}}}''",
    "Template%3ACite": b"<ref>{{{title}}}, p. {{{page|1}}}.</ref>",
}


def called_article(k):
    """A section of an article that takes a box, words and notes from templates."""
    box = "" if k % 4 else f"{{{{box|{k}|name=Part {k}}}}}\n"
    return (f"== Part {k} ==\n{box}'''The {WORDS}''', {{{{lang|cs|reka}}}} {k}, {WORDS}.{{{{cite|title=Atlas|page={k}}}}}\n\n"
            f"* {WORDS}\n* [http://a.b/{k} there] and {WORDS}\n\n" + f"{WORDS}, " * 5 + f"{WORDS}.\n\n")


CALL_KINDS = {
    "an article with templates": (lines(called_article), WITH_CALLS),
    "calls of an absent page": (whole("{{x}}"), {}),
    "calls in list items": (whole("* a {{T}} b\n"), {"Template%3AT": b"''t''"}),
    "a table made by three templates": (
        lambda size: b"{{A}}\n" + whole("{{B|x}}\n")(size) + b"{{C}}",
        {"Template%3AA": b"{|", "Template%3AB": b"|-\n| {{{1}}} || y", "Template%3AC": b"|}"},
    ),
}

# Pages of which the HTML is changed, and the templates that they call.
EDIT_KINDS = {
    "one word of an article": (lines(article), one_word, {}),
    "a word of each paragraph": (lines(lambda k: (WORDS + "\n") * 3 + "\n"), each_paragraph, {}),
    "one word of an article with templates": (lines(called_article), one_word, WITH_CALLS),
    "a new paragraph behind each": (below(lines(lambda k: WORDS + "\n\n")), new_behind_each, {}),
    "every second paragraph removed": (lines(lambda k: WORDS + "\n\n"), every_second_removed, {}),
    "a new item behind each": (below(whole("* a river\n")), new_items, {}),
}


# Pages that are doubtful all over.
LINT_KINDS = {
    "braces and brackets": whole("{{ }} [[ ]] "),
    "open bold paragraphs": whole("'''a\n\n"),
    "stray ends of tables": whole("|}\n"),
    "stray tags": whole("</s>"),
    "one category again and again": whole("[[Category:X]]"),
    "unequal headings": whole("== a ===\n"),
    "brackets": whole("[["),
    "one run of braces": whole("{"),
}

# Pages of which the text is expanded, and the files of the templates that they call.
ARGUMENTS = "|".join(f"a{k}={k}" for k in range(1000))
HANDED = {f"Template%3AL{k}": b"{{L%d|{{{1}}}}}" % (k + 1) for k in range(1, 40)}
EXPAND_KINDS = {
    "calls of one small template": (whole("{{T}}\n"), {"Template%3AT": b"<b>t</b>"}),
    "calls of an absent page": (whole("{{x}}"), {}),
    "calls with 1,000 arguments": (whole("{{T|" + ARGUMENTS + "}}\n"), {"Template%3AT": b"{{{a500}}}"}),
    "a value through 40 templates": (lambda size: b"{{L1|" + b"v" * (size // 2) + b"}}", HANDED | {"Template%3AL40": b"{{{1}}}"}),
}



def chosen_last(size):
    """One `#switch` whose last part is given."""
    parts = size // 8
    return ("{{#switch:z" + "".join(f"|a{k % 1000:03}=b" for k in range(parts)) + "|z=c}}").encode()


# Calls of functions, in the page and in templates: `expand` and `html`.
FUNCTION_KINDS = {
    "calls of #if": (whole("{{#if:x|a|b}}\n"), {}),
    "one #switch": (chosen_last, {}),
    "100 nested #if": (whole("{{#if:x|" * 100 + "a" + "}}" * 100 + "\n"), {}),
    "a template with rows": (
        whole("{{T|a|c=d}}\n"),
        {"Template%3AT": b"{{#if:{{{1|}}}|{{{1}}}}}{{#if:{{{b|}}}|{{{b}}}}}{{#switch:{{{c}}}|a=1|d=2|3}}"},
    ),
}


def html_of(block):
    """HTML of blocks of one kind, as `html` writes it, of about so many bytes."""
    def document(size):
        out, length, at, number = [], 0, 0, 1
        while length < size - 400:
            source, element = block(number, at)
            out.append(element)
            length += len(element)
            at += source
            number += 1
        body = "".join(out)
        head = '<!DOCTYPE html><html><head><meta charset="utf-8"/></head>'
        return f"""{head}<body data-parsoid='{{"dsr":[0,{at},0,0]}}'>{body}</body></html>""".encode()
    return document


def paragraph(text):
    def block(number, at):
        end = at + len(text)
        return len(text) + 2, f"""<p id="mw{number}" data-parsoid='{{"dsr":[{at},{end},0,0]}}'>{text}</p>\n\n"""
    return block


HTML_SIZES = [512 << 10, 8 << 20, 64 << 20]

def marked(number, at):
    """A paragraph with a comment and two entities, as `html` writes it."""
    parts = [(WORDS, None), ("<!-- a note on this -->", "comment"), ("\n" + WORDS, None), ("&nbsp;", "\u00a0"), ("&ndash;", "\u2013"), (" " + WORDS, None)]
    out, place, inner = "", at, 3 * number + number - 3
    first = inner
    for source, kind in parts:
        if kind is None:
            out += source
        else:
            inner += 1
            escaped = source.replace("&", "&amp;").replace("<", "&lt;").replace(">", "&gt;")
            data = f"""id="mw{inner}" data-parsoid='{{"dsr":[{place},{place + len(source)},{len(source)},0],"src":"{escaped}"}}'"""
            out += f'<meta typeof="mw:Comment" {data}/>' if kind == "comment" else f'<span typeof="mw:Entity" {data}>{kind}</span>'
        place += len(source)
    return place - at + 2, f"""<p id="mw{first}" data-parsoid='{{"dsr":[{at},{place},0,0]}}'>{out}</p>\n\n"""


HTML_KINDS = {
    "comment and entity in each": html_of(marked),
    "paragraphs": html_of(paragraph("\n".join([WORDS] * 3))),
    "one letter a paragraph": html_of(paragraph("a")),
    "one long text": html_of(lambda number, at: (7000, "<p data-parsoid='{\"dsr\":[0,0,0,0]}'>" + (WORDS + " ") * 5000 + "</p>\n")),
}

# HTML that is refused after all of it has been read.
REFUSED_KINDS = {
    "empty paragraphs, refused": lambda size: (
        b"""<!DOCTYPE html><html><head><meta charset="utf-8"/></head><body data-parsoid='{"dsr":[0,0,0,0]}'>"""
        + b"<p></p>" * ((size - 400) // 7) + b"</body></html>"
    ),
}


def program_of(words):
    """The words that a program is run by, its file's path whole."""
    file, *more = shlex.split(words)
    return [os.path.abspath(file), *more]


def run(program, folder, words, status_wanted=0):
    """The least processor time in seconds and the most memory in KiB of three runs, or why there is none."""
    best = None
    peak = 0
    timed = ["/usr/bin/time", "-q", "-f", "%M", "-o", "peak"]
    for _ in range(3):
        with open(os.path.join(folder, "out"), "wb") as out, open(os.path.join(folder, "err"), "w+b") as err, \
                open(os.path.join(folder, "in"), "rb") as given:
            it = subprocess.Popen(timed + program + words, cwd=folder, stdout=out, stderr=err, stdin=given)
            _, status, used = os.wait4(it.pid, 0)
            it.returncode = os.waitstatus_to_exitcode(status)
            err.seek(0)
            if it.returncode != status_wanted:
                return None, err.read().decode(errors="replace").strip()
        seconds = used.ru_utime + used.ru_stime
        best = seconds if best is None else min(best, seconds)
        with open(os.path.join(folder, "peak")) as told:
            peak = max(peak, int(told.read().split()[-1]))
    return best, peak


@contextlib.contextmanager
def folder_of(page, templates={}, given=b""):
    """A folder with a page, its templates and, as the file `in`, the input of a command."""
    with tempfile.TemporaryDirectory() as folder:
        os.mkdir(os.path.join(folder, "pages"))
        files = {"pages/Main.wiki": page, "in": given} | {f"pages/{name}.wiki": it for name, it in templates.items()}
        for name, it in files.items():
            with open(os.path.join(folder, name), "wb") as out:
                out.write(it)
        yield folder


def answer(program, page, templates={}):
    """What `html` of a program answers for a page with these templates."""
    with folder_of(page, templates) as folder:
        return subprocess.run([*program, "html", "Main"], cwd=folder, capture_output=True).stdout


def case(program, words, made, templates={}, given=None):
    """The page, the templates and the input of a command, of which `html` of a program may make the input."""
    if words[0] == "wikitext":
        return b"", templates, made
    return made, templates, given(answer(program, made, templates)) if given else b""


def measure(programs, title, words, sizes, make, templates={}, given=None, status_wanted=0):
    last = [None] * len(programs)
    for size in sizes:
        made = make(size)
        with folder_of(*case(programs[0], words, made, templates, given)) as folder:
            cells, spent = [], []
            for n, program in enumerate(programs):
                seconds, peak = run(program, folder, words, status_wanted)
                if seconds is None:
                    cells.append(peak)
                    continue
                rate = len(made) / 1e6 / seconds if seconds > 0 else None
                speed = "      -" if rate is None else f"{rate:7.0f}" if rate >= 10 else f"{rate:7.1f}"
                growth = f"{seconds / last[n]:7.1f}" if last[n] else "      -"
                last[n] = seconds
                spent.append(seconds)
                cells.append(f"{speed} {peak / 1000:8.1f} {growth}")
            if len(programs) == 2:
                cells.append(f"{spent[1] / spent[0]:7.2f}" if len(spent) == 2 and spent[0] > 0 else "      -")
            print(f"{title:34} {size >> 10:5} " + " ".join(cells), flush=True)


def main():
    if len(sys.argv) not in (2, 3):
        print(__doc__)
        return 2
    programs = [program_of(it) for it in sys.argv[1:]]
    print(f"{os.cpu_count()} cores; best of three; MB/s of processor time, MB are 1,000,000 bytes of page or HTML")
    print(f"{'command and page':34} {'KiB':>5} " + " ".join(f"{'MB/s':>7} {'peak MB':>8} {'growth':>7}" for _ in programs)
          + (f" {'ratio':>7}" if len(programs) == 2 else ""))
    for kind, make in KINDS.items():
        measure(programs, f"html, {kind}", ["html", "Main"], SIZES, make)
    for kind, make in INLINE_KINDS.items():
        measure(programs, f"html, {kind}", ["html", "Main"], SIZES, make)
    for kind, make in BLOCK_KINDS.items():
        measure(programs, f"html, {kind}", ["html", "Main"], SIZES, make)
    for kind, (make, templates) in EXPAND_KINDS.items():
        measure(programs, f"expand, {kind}", ["expand", "Main"], SIZES, make, templates)
    for kind, (make, templates) in FUNCTION_KINDS.items():
        measure(programs, f"expand, {kind}", ["expand", "Main"], SIZES, make, templates)
        measure(programs, f"html, {kind}", ["html", "Main"], SIZES, make, templates)
    for kind, (make, templates) in CALL_KINDS.items():
        measure(programs, f"html, {kind}", ["html", "Main"], SIZES, make, templates)
    for kind, make in LINT_KINDS.items():
        measure(programs, f"lint, {kind}", ["lint", "Main"], SIZES, make)
    for sections in (100, 1_000, 10_000):
        measure(programs, f"gen {sections}", ["gen", str(sections)], [67 * sections], lambda size: b"a" * size)
    for kind, (make, given, templates) in EDIT_KINDS.items():
        for command in ("edit", "selser"):  # for which the marks count for nothing
            measure(programs, f"{command}, {kind}", [command, "Main"], SIZES, make, templates, given)
    for kind, make in HTML_KINDS.items():
        measure(programs, f"wikitext, {kind}", ["wikitext"], HTML_SIZES, make)
    for kind, make in REFUSED_KINDS.items():
        measure(programs, f"wikitext, {kind}", ["wikitext"], HTML_SIZES, make, status_wanted=3)
    for kind, make in INLINE_KINDS.items():
        measure(programs, f"wikitext, {kind}", ["wikitext"], SIZES, lambda size: answer(programs[0], make(size)))
    return 0


if __name__ == "__main__":
    sys.exit(main())
