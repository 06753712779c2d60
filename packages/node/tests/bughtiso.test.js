// Tests of the package: the stored cases of the repository, where they are, through the program, and the calls.
import assert from "node:assert/strict";
import { spawnSync } from "node:child_process";
import { existsSync, readFileSync } from "node:fs";
import { test } from "node:test";

import { Refusal, edit, expand, html, lint, ranges, run, wikitext } from "../index.js";

const PAGE = "'''Opava''' is a {{T|town}} in [[Silesia]].\n";
const PAGES = { "Template:T": "''{{{1}}}''" };
const CASES = new URL("../../../crates/wtround_cases/", import.meta.url);
const program = process.env.BUGHTISO_PROGRAM || "wtround";
const skip = spawnSync(program, []).error ? `there is no ${program} here` : false;

function bytesOf(field) {
  const [digits, count = "1"] = field.split("*");
  const one = Buffer.from(digits, "hex");
  return Buffer.alloc(one.length * Number(count), one);
}

/** Whether each name of a case can be that of a file, as the program needs it. */
function hasFiles(it) {
  return [...it.words, ...it.pages.keys()].every((name) => encodeURIComponent(name).length <= 250);
}

function* cases() {
  const answers = readFileSync(new URL("stdout", CASES), "utf8").split("\n");
  for (const [number, line] of readFileSync(new URL("stdin", CASES), "utf8").split("\n").entries()) {
    const [words, input, pages = "", devices = ""] = line.split("\t");
    const wanted = answers[number].split("\t");
    if (line === "" || wanted.length < 3 || devices !== "") continue;
    yield {
      number,
      words: words === "" ? [] : words.split(",").map((word) => Buffer.from(word, "hex").toString()),
      input: bytesOf(input),
      pages: new Map(pages === "" ? [] : pages.split(",").map((entry) => {
        const [name, page] = entry.split("=");
        return [Buffer.from(name, "hex").toString(), bytesOf(page)];
      })),
      wanted,
    };
  }
}

test("stored cases", { skip: skip || (!existsSync(CASES) && "there are none here") }, async () => {
  let tried = 0;
  for (const it of cases()) {
    if (!hasFiles(it)) continue;
    const { status, out, line } = await run(it.words, it.input, it.pages);
    const came = [String(status), out.toString("hex"), Buffer.from(line).toString("hex")];
    assert.deepEqual(came, it.wanted, `case ${it.number}`);
    tried++;
  }
  assert.ok(tried > 0);
});

test("there and back", { skip }, async () => {
  const source = await html(PAGE, PAGES);
  assert.equal(await wikitext(source), PAGE);
  assert.equal(await edit(PAGE, source, PAGES), PAGE);
  assert.equal(await html(Buffer.from(PAGE), new Map(Object.entries(PAGES))), source);
  assert.equal(await expand(PAGE, PAGES), "'''Opava''' is a ''town'' in [[Silesia]].\n");
  assert.deepEqual((await ranges("'''a'''"))[1], { number: 2, kind: "b", start: 0, end: 7, open: 3, close: 3 });
  const found = await lint("a\n'''b [[c");
  const places = found.map((it) => [it.kind, it.line, it.column, it.start, it.end]);
  assert.deepEqual(places, [["OpenStyle", 2, 1, 2, 10], ["OpenLink", 2, 6, 7, 9]]);
  assert.match(found[0].sentence, /apostrophes/);
});

test("an edit, and one without a mark", { skip }, async () => {
  const changed = (await html(PAGE, PAGES)).replace(" in <a", " in Czech <a");
  const marked = changed.replace('<p id="mw1"', '<p data-wt-edit="content" id="mw1"');
  assert.equal(await edit(PAGE, marked, PAGES), PAGE.replace("in [[", "in Czech [["));
  await assert.rejects(edit(PAGE, changed, PAGES), (error) => {
    assert.ok(error instanceof Refusal);
    assert.deepEqual([error.name, error.place, error.placeIn, error.status], ["UnmarkedChange", 1, "node", 4]);
    assert.match(error.sentence, /not marked/);
    return true;
  });
});

test("refusals", { skip }, async () => {
  const wanted = [
    [() => html(Buffer.from([97, 255])), ["PageNotUtf8", null, 1, "byte of the page", null]],
    [() => html("{{A}}", { "Template:A": Buffer.from([255]) }), ["TemplateNotUtf8", null, 0, "byte of the template", "Template:A"]],
    [() => html("x", {}, { title: "A#b" }), ["Usage", null, null, null, null]],
    [() => wikitext("<p"), ["HtmlRefused", "End", 2, "byte of the HTML", null]],
  ];
  for (const [call, expected] of wanted) {
    await assert.rejects(call, (it) => {
      assert.deepEqual([it.name, it.reason, it.place, it.placeIn, it.template], expected);
      return true;
    });
  }
});

test("the page of a call is its text, whatever the pages have under its title", { skip }, async () => {
  const titles = [["Main Page", "Main_Page"], ["Main_Page", "Main Page"], ["main page", "Main Page"], ["2024", "2024"]];
  for (const [title, name] of titles) {
    const pages = { "Template:T": "t", [name]: "old", "Main_Page": "older" };
    assert.equal(await expand("new {{T}}", pages, { title }), "new t");
  }
});

test("a program that isn't there", async () => {
  await assert.rejects(html("x", {}, { program: "/nowhere/wtround" }));
});
