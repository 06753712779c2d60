// @ts-check
/** The module without a browser, over a small DOM. (What it mends: mends.test.js.) */

import { test } from "node:test";
import assert from "node:assert/strict";
import { createRequire } from "node:module";
import { readFileSync } from "node:fs";
import { HtmlRefused, Offsets, describe, hrefOf, isChanged, open } from "../bughtiso.js";
import { prepareSave, rangeOf, renew, save } from "../bughtiso.js";
import { read } from "../lib/markup.js";
import { Original } from "../lib/original.js";
import { outOfProportion } from "./clock.js";
import { TEXT, category, edited, newCategory, opened, page, saved } from "./edited.js";
import { Wiki, examplePages, findProgram, outsideDocuments } from "./pages.js";

const program = findProgram();

test("a document comes back byte for byte", () => {
  const documents = [
    page(""),
    page("<p>a &amp; b &lt;c&gt; \"d\" 'e'</p>"),
    page(`<p id="mw1" data-parsoid='{"o":"&#39;&amp;\\""}'>&#1;&#13;\u{1F600}\ud7ff</p>`),
    page(
      '<table id="mw1">\n<meta typeof="mw:Comment" id="mw2"/><tbody id="mw3"><tr id="mw4">' +
        '<td id="mw5">a</td></tr></tbody></table>',
    ),
    page('<section data-mw-section-id="1" id="x"><h2 id="mw1">a</h2>\n<p id="mw2">b</p></section>'),
  ];
  for (const html of documents) {
    assert.equal(save(opened(html)), html);
    assert.equal(save(opened(html), { marks: true }), html);
    assert.equal(isChanged(opened(html)), false);
  }
});

test("outside documents come back byte for byte", (context) => {
  const documents = outsideDocuments();
  if (documents.length === 0) return context.skip("there are no outside documents here");
  for (const html of documents) {
    const root = opened(html);
    assert.equal(save(root), html);
    assert.equal(save(root, { marks: true }), html);
  }
});

test("in tables carriers stand for what a parser of HTML would move out", () => {
  const category = '<link rel="mw:PageProp/Category" href="./Category:X" id="mw3"/>';
  const group = '<span about="#mwt1" id="mw6"></span>';
  const rows = `<tbody id="mw4"><tr id="mw5">${group}</tr></tbody>`;
  const html = page(`<table id="mw1"><meta typeof="mw:Comment" id="mw2"/>${category}${rows}</table>`);
  const root = opened(html);
  const carriers = root.querySelectorAll("[data-wt-name]").map((element) => element.localName);
  assert.deepEqual(carriers, ["template", "template", "template"]);
  assert.equal(save(root), html);
});

test("what isn't the program's HTML is refused", () => {
  const bodies = ["<p>a", "<p>a</b></p>", "<P>a</P>", "<p x>a</p>", "a & b", "&#xD800;"];
  const documents = ["", "<p>a</p>", ...bodies.map(page)];
  for (const html of documents) assert.throws(() => opened(html), HtmlRefused, html);
});

const MARKS = [
  [
    "the changed block is marked",
    TEXT,
    '<p id="mw1">one <b id="mw2">2</b> three</p>\n\n<p id="mw3">four</p>',
    '<p id="mw1" data-wt-edit="content">one <b id="mw2">2</b> three</p>\n\n<p id="mw3">four</p>',
  ],
  [
    "a split paragraph is a new one, with what can be written anew",
    TEXT,
    '<p id="mw1">one</p><p id="mw1"><b id="mw2">two</b> three</p>\n\n<p id="mw3">four</p>',
    '<p id="mw1" data-wt-edit="content">one</p><p><b>two</b> three</p>\n\n<p id="mw3">four</p>',
  ],
  [
    "of elements that moved as few as can be are new",
    '<p id="mw1"><b id="mw2">a</b><i id="mw3">b</i><b id="mw4">c</b></p>',
    '<p id="mw1"><b id="mw4">c</b><b id="mw2">a</b><i id="mw3">b</i></p>',
    '<p id="mw1" data-wt-edit="content"><b>c</b><b id="mw2">a</b><i id="mw3">b</i></p>',
  ],
  [
    "a reference keeps its number wherever it stands",
    '<p id="mw1">a<span typeof="mw:Extension/ref" id="mw2"></span></p><p id="mw3">b</p>',
    '<p id="mw1">a</p><p id="mw3">b<span typeof="mw:Extension/ref" id="mw2"></span></p>',
    '<p id="mw1" data-wt-edit="content">a</p><p id="mw3" data-wt-edit="content">b' +
      '<span typeof="mw:Extension/ref" id="mw2"></span></p>',
  ],
  [
    "of a split paragraph the half with a reference stays",
    '<p id="mw1">a b<span typeof="mw:Extension/ref" id="mw2" data-parsoid="x"></span></p>',
    '<p id="mw1">a</p><p id="mw1">b<span typeof="mw:Extension/ref" id="mw2" data-parsoid="x"></span></p>',
    '<p>a</p><p id="mw1" data-wt-edit="content">b' +
      '<span typeof="mw:Extension/ref" id="mw2" data-parsoid=\'x\'></span></p>',
  ],
  [
    "of joined paragraphs the one with a reference stays",
    '<p id="mw1">a</p><p id="mw2">b<span typeof="mw:Extension/ref" id="mw3"></span></p>',
    '<p id="mw1">ab<span typeof="mw:Extension/ref" id="mw3"></span></p>',
    '<p id="mw2" data-wt-edit="content">ab<span typeof="mw:Extension/ref" id="mw3"></span></p>',
  ],
  [
    "a changed link has no skip",
    '<p id="mw1"><a rel="mw:WikiLink" href="./A" id="mw2">a<meta typeof="mw:Skip" id="mw3"/>s</a></p>',
    '<p id="mw1"><a rel="mw:WikiLink" href="./A" id="mw2">ab<meta typeof="mw:Skip" id="mw3"/>s</a></p>',
    '<p id="mw1" data-wt-edit="content"><a rel="mw:WikiLink" href="./A" id="mw2">abs</a></p>',
  ],
  [
    "a new item marks its list",
    '<ul id="mw1"><li id="mw2">a</li></ul>',
    '<ul id="mw1"><li id="mw2">a</li><li>b</li></ul>',
    '<ul id="mw1" data-wt-edit="children"><li id="mw2">a</li><li>b</li></ul>',
  ],
  [
    "blanks at the end of a changed cell go",
    '<table id="mw1"><tbody id="mw2"><tr id="mw3"><td id="mw4">a </td></tr></tbody></table>',
    '<table id="mw1"><tbody id="mw2"><tr id="mw3"><td id="mw4">ab </td></tr></tbody></table>',
    '<table id="mw1"><tbody id="mw2"><tr id="mw3"><td id="mw4" data-wt-edit="content">ab</td></tr>' +
      '</tbody></table>',
  ],
];

for (const [name, was, now, wanted] of MARKS) {
  test(`marks: ${name}`, () => assert.equal(saved(was, now, true), wanted));
}

/**
 * @param {string} html
 * @param {[string, string][]} replacements  one after the other, each of the first such text
 */
function replaced(html, replacements) {
  return replacements.reduce((text, [was, now]) => {
    assert.ok(text.includes(was), `there is no ${was}`);
    return text.replace(was, () => now);
  }, html);
}

/**
 * White space between blocks, which no edit compares.
 * @param {string} html
 */
function withoutSeparators(html) {
  return html.replace(/(<\/(?:p|h[1-6]|ul|ol|dl|table)>)[ \t\n]+/g, "$1");
}

/**
 * jsdom, where it is installed; Debian's lies where NODE_PATH=/usr/share/nodejs finds it.
 * @returns {any}
 */
function findJsdom() {
  try {
    return createRequire(import.meta.url)("jsdom").JSDOM;
  } catch {
    return null;
  }
}

const documents = new URL("documents/", import.meta.url);
const shared = readFileSync(new URL("page.html", documents), "utf8");
const cases = JSON.parse(readFileSync(new URL("cases.json", documents), "utf8"));
for (const { name, edited: changes, wanted } of cases) {
  test(`shared document: ${name}`, () => {
    const now = replaced(shared, changes).replace(/<!--(.*?)-->/gs, "<comment>$1</comment>");
    const body = now.slice(now.indexOf(">", now.indexOf("<body")) + 1, now.indexOf("</body>"));
    const html = save(edited(body), { original: shared, marks: true });
    assert.equal(withoutSeparators(html), withoutSeparators(replaced(shared, wanted)));
  });
}

test("outside documents come back from jsdom", (context) => {
  const JSDOM = findJsdom();
  const documents = outsideDocuments();
  if (JSDOM === null) return context.skip("there is no jsdom here");
  if (documents.length === 0) return context.skip("there are no outside documents here");
  const { document } = new JSDOM("").window;
  const root = open(page(""), { document });
  for (const html of documents) {
    assert.equal(save(open(html, { document }), { marks: true }), html);
    renew(root, html);
    assert.equal(save(root), html);
  }
});

/**
 * Renews a root, and looks whether it is then as if the page had been opened.
 * @param {Element} root
 * @param {string} html
 */
function assertRenewed(root, html) {
  renew(root, html);
  assert.equal(save(root), html);
  assert.equal(save(root, { marks: true }), html);
  assert.equal(isChanged(root), false);
}

const DOCS_ITEM = 'style="font-weight:400;font-style:normal" aria-level';
const COPIED = [
  [
    "Google Docs",
    '<b style="font-weight:normal;" id="docs-internal-guid-1">' +
      '<p dir="ltr"><span style="font-weight:400">one </span>' +
      `<span style="font-weight:700">two</span></p><ul><li ${DOCS_ITEM}="1"><p dir="ltr">a</p></li>` +
      `<ul><li ${DOCS_ITEM}="2"><p>b</p></li></ul></ul></b>`,
    "<p>one <b>two</b></p><ul><li><p>a</p></li><ul><li><p>b</p></li></ul></ul>",
  ],
  [
    "Word",
    "<style>p{}</style><p class=MsoNormal><b style='mso-bidi-font-weight:normal'>bold</b> " +
      "<i style='mso-bidi-font-style:normal'>italic</i> " +
      "<span style='mso-bidi-font-weight:bold'>c</span><o:p></o:p></p>",
    "<p><b>bold</b> <i>italic</i> c</p>",
  ],
  [
    "LibreOffice",
    '<p style="font-weight: normal">a <b>b</b> <span style="font-weight: normal">c</span></p>' +
      "<ul><li><p>d</p></li></ul>",
    "<p>a <b>b</b> c</p><ul><li><p>d</p></li></ul>",
  ],
];
for (const [name, copied, wanted] of COPIED) {
  test(`what ${name} puts into the clipboard`, async (context) => {
    const JSDOM = findJsdom();
    if (JSDOM === null) return context.skip("there is no jsdom here");
    const { window } = new JSDOM("");
    Object.assign(globalThis, { document: window.document, DOMParser: window.DOMParser });
    context.after(() => ["document", "DOMParser"].forEach((key) => Reflect.deleteProperty(globalThis, key)));
    const { pasted } = await import("../editor/paste.js");
    const data = { getData: (/** @type {string} */ type) => (type === "text/html" ? copied : "") };
    assert.equal(pasted(/** @type {any} */ (data), window.document.body, new Map()).html, wanted);
  });
}

test("what is read ahead of a save doesn't change what is saved", () => {
  const html = page('<p id="mw1">a <b id="mw2">b</b></p><p id="mw3">c</p>');
  const saved = [true, false].map((isAhead) => {
    const root = opened(html);
    if (isAhead) prepareSave(root);
    const [text] = root.querySelector('[id="mw2"]').childNodes;
    text.data = "d";
    return save(root, { marks: true });
  });
  assert.equal(saved[0], saved[1]);
  assert.match(saved[0], /<p[^>]*data-wt-edit="content"[^>]*>a <b id="mw2">d<\/b><\/p>/);
});

test("a page is renewed where it stands", () => {
  const was = page(`${TEXT}\n<ul id="mw4"><li id="mw5">a</li><li id="mw6">b</li></ul>\n<p id="mw7">last</p>`);
  const now = page(
    '<p id="mw1">one <b id="mw2">two</b> three</p>\n\n<h2 id="mw3">new</h2>\n\n<p id="mw4">four!</p>' +
      '\n<ul id="mw5"><li id="mw6">a</li><li id="mw7">n</li><li id="mw8">b</li></ul>\n<p id="mw9">last</p>',
  );
  const root = opened(was);
  const [first, , list, last] = root.children;
  const items = list.children;
  last.setAttribute("data-own", "x");
  assertRenewed(root, now);
  assert.deepEqual([root.children[0], root.children[3], root.children[4]], [first, list, last]);
  assert.deepEqual([list.children[0], list.children[2]], items);
  assert.equal(last.getAttribute("data-own"), "x");
  assert.equal(last.getAttribute("id"), "mw9");
});

test("a page is renewed whatever an editor left in its place", () => {
  const now = page(TEXT);
  const left = [
    "", "text", "<div>one</div>", '<p id="mw1">one <b id="mw2">two</b> three</p><p id="mw1">four</p>',
    '<p id="mw9" class="c" data-mw="{}">one <b>two</b> three</p>\n\n<comment>x</comment><p>four</p>',
    '<p id="mw3">four</p>\n\n<p id="mw1">one <b id="mw2">two</b> three</p>',
    '<p about="#mwt1" id="mw1">one <b id="mw2">two</b> three</p>\n\n<p id="mw3"><i>four</i></p>',
  ];
  for (const body of left) assertRenewed(edited(body), now);
});

test("a page that isn't the program's renews nothing", () => {
  const root = opened(page(TEXT));
  assert.throws(() => renew(root, page("<p>a")), HtmlRefused);
  assert.equal(save(root), page(TEXT));
});

test("a page of which an earlier state is known is read the same, and its other blocks stay", () => {
  const pieces = [
    "\n", "\n\n", '<p id="mw1">a</p>', '<p id="mw1">ab</p>', "<p>a</p>", '<hr id="mw2"/>',
    '<section data-mw-section-id="0"><p>a</p>\n</section>', "&amp;",
    '<section data-mw-section-id="0"><p>a</p>\n<hr/>b<p>b</p></section>',
    '<section data-mw-section-id="0"><p>a</p><section data-mw-section-id="1"><p>b</p></section></section>',
  ];
  const joined = (/** @type {number} */ most) => {
    let all = [""];
    const found = [...all];
    for (let length = 1; length <= most; length += 1) {
      all = all.flatMap((text) => pieces.map((piece) => text + piece));
      found.push(...all);
    }
    return found.map(page);
  };
  const whole = joined(2).map((html) => new Original(html));
  for (const was of joined(2).map((html) => new Original(html))) {
    for (const now of whole) assert.deepEqual(new Original(now.html, was), now);
  }
  const was = new Original(page(`<hr/>\n${TEXT}\n<p id="mw4">last</p>`));
  const now = new Original(was.html.replace("four", "five"), was);
  const [first, , second, , third, , last] = now.page.children;
  const before = was.page.children;
  assert.deepEqual([first === before[0], second === before[2], last === before[6]], [true, true, true]);
  assert.notEqual(third, before[4]);
  const sections = new Original(page(`<section data-mw-section-id="0">${TEXT}</section>`));
  const [section] = new Original(sections.html.replace("four", "five"), sections).page.children;
  assert.equal(section.children[0], sections.page.children[0].children[0]);
  const other = was.html.replace("<body ", '<body id="x" ');
  assert.deepEqual(new Original(other, was), new Original(other));
  assert.throws(() => new Original(was.html.replace("four</p>", "four"), was), HtmlRefused);
});

test("outside documents are renewed, each in the place of another", (context) => {
  const documents = outsideDocuments();
  if (documents.length === 0) return context.skip("there are no outside documents here");
  const root = opened(page(TEXT));
  for (const html of documents) {
    renew(root, html);
    assert.equal(save(root), html);
  }
});

test("many blocks of which others come and go are renewed in time in proportion", () => {
  const block = (/** @type {number} */ at) => `<p id="mw${at + 1}">a <b>${at}</b></p>`;
  /** @type {(count: number, step: number) => string} */
  const blocks = (count, step) => page(Array.from({ length: count }, (_, at) => block(at * step)).join("\n"));
  const prepare = (/** @type {number} */ count) => ({ root: opened(blocks(count, 2)), html: blocks(count, 3) });
  // (Few enough that it counts for little how the small DOM seeks a child among its siblings, from the first one on.)
  assert.equal(outOfProportion(1000, prepare, ({ root, html }) => renew(root, html)), "");
  const { root, html } = prepare(1000);
  renew(root, html);
  assert.equal(save(root), html);
});

test("new and removed blocks mark the body", () => {
  for (const now of ['<p id="mw1">one <b id="mw2">two</b> three</p>', `${TEXT}<h2>x</h2>`]) {
    const html = save(edited(now), { original: page(TEXT), marks: true });
    assert.match(html, /<body data-parsoid='[^']*' data-wt-edit="children">/);
  }
});

test("saving leaves the DOM as it is", () => {
  const root = edited('<p id="mw1"><strong>a</strong><br/></p><p id="mw1">\u00a0b</p><div>c</div>');
  const before = JSON.stringify(root, ["childNodes", "localName", "data"]);
  save(root, { original: page(TEXT), marks: true });
  assert.equal(JSON.stringify(root, ["childNodes", "localName", "data"]), before);
});

test("many blocks in another order take time in proportion", () => {
  const block = (/** @type {number} */ at) => `<p id="mw${2 * at + 1}">a <b id="mw${2 * at + 2}">b</b></p>`;
  const prepare = (/** @type {number} */ count) => {
    const root = opened(page(Array.from({ length: count }, (_, at) => block(at)).join("\n")));
    root.replaceChildren(...root.childNodes.reverse());
    return root;
  };
  assert.equal(outOfProportion(5000, prepare, (root) => save(root, { marks: true })), "");
  assert.equal(save(prepare(20000), { marks: true }).match(/<p>/g)?.length, 19999);
});

test("copies of a number beside a large block are looked into once each", () => {
  const html = page('<p id="mw1">a <b id="mw2">b</b></p>');
  const reads = (/** @type {number} */ count) => {
    const large = `<p id="mw1">${'<b id="mw2">b</b> '.repeat(200)}</p>`;
    const root = edited(large + '<p id="mw1">c</p>'.repeat(count));
    const element = Object.getPrototypeOf(root);
    const { hasAttribute } = element;
    let found = 0;
    element.hasAttribute = function (/** @type {string} */ name) {
      found += 1;
      return hasAttribute.call(this, name);
    };
    try {
      save(root, { original: html });
    } finally {
      element.hasAttribute = hasAttribute;
    }
    return found;
  };
  const [none, few, many] = [0, 100, 400].map(reads);
  assert.ok(many - none < 5 * (few - none) + 100);
  assert.ok(few - none < 100 * 100);
});

test("places in UTF-16 units", () => {
  const source = "ä\u{1F600}'''b'''";
  const offsets = new Offsets(source);
  const root = opened(page(`<b id="mw1" data-parsoid='{"dsr":[6,13,3,3]}'>b</b>`));
  assert.deepEqual(rangeOf(root.children[0], offsets), { start: 3, end: 10, open: 3, close: 3 });
  assert.equal(source.slice(3, 10), "'''b'''");
  assert.equal(rangeOf(edited("<b>b</b>").children[0], offsets), null);
});

test("names of what can't be edited", () => {
  const call = '{"parts":[{"template":{"i":0,"params":{},"target":{"wt":"Infobox town\\n"}}}]}';
  const choice = '{"parts":[{"template":{"i":0,"params":{},"target":{"function":"if","wt":"#If:a"}}}]}';
  const html = page(
    `<span about="#mwt1" data-mw='${call}' data-parsoid='{"src":"{{Infobox town}}"}'>x</span>` +
      `<span about="#mwt2" data-mw='${choice}' data-parsoid='{"src":"{{#If:a}}"}'>x</span>` +
      '<span typeof="mw:Extension/ref"></span>' +
      `<span typeof="mw:Placeholder" data-parsoid='{"src":"[[File:A b.jpg|thumb]]"}'></span><b>y</b>`,
  );
  const root = opened(html);
  const [group, func, reference, media, bold] = root.children.map(describe);
  assert.deepEqual(group, { kind: "template", name: "Infobox town", source: "{{Infobox town}}" });
  assert.deepEqual(func, { kind: "function", name: "#if", source: "{{#If:a}}" });
  assert.deepEqual(reference, { kind: "extension", name: "ref", source: "" });
  assert.equal(media?.name, "A b.jpg");
  assert.equal(bold, null);
});

/** @param {string} source */
function nameOfComment(source) {
  const data = JSON.stringify({ src: source }).replaceAll("<", "&lt;").replaceAll(">", "&gt;");
  const [comment] = opened(page(`<meta typeof="mw:Comment" data-parsoid='${data}'/>`)).children;
  return describe(comment)?.name;
}

test("a comment in an item or a cell stays on its line when the text before it is replaced", () => {
  const mark = (/** @type {number} */ number, kind = "Comment") => `<meta typeof="mw:${kind}" id="mw${number}"/>`;
  const inner = '<ul id="mw9"><li id="mw10">r</li></ul>';
  const table = (/** @type {string} */ cell) =>
    `<table id="mw1"><tbody id="mw2"><tr id="mw3"><td id="mw4">${cell}</td></tr></tbody></table>`;
  for (const marks of [mark(5), mark(5) + mark(6), mark(5, "Includes/NoInclude")]) {
    const list = (/** @type {string} */ text) => `<ul id="mw1"><li id="mw2">${text}${marks}${inner}</li></ul>`;
    for (const block of [list, (/** @type {string} */ text) => table(`${text}${marks}${inner}`)]) {
      for (const text of ["x", "<b>x</b>", "x ", ""]) {
        assert.equal(saved(block("q\n"), block(text)), block(`${text.trim()}\n`), text);
      }
      assert.equal(saved(block("q\n"), block("x\n")), block("x\n"));
      assert.equal(saved(block("q "), block("x")), block("x"));
    }
  }
});

test("a comment line of a paragraph comes before the line in which it would be", () => {
  const mark = (/** @type {number} */ number, source = "<!--c-->\\n") =>
    `<meta typeof="mw:Comment" id="mw${number}" data-parsoid='{"src":"${source.replaceAll("<", "&lt;").replaceAll(">", "&gt;")}"}'/>`;
  const one = mark(2);
  const two = one + mark(3);
  const p = (/** @type {string} */ inside) => `<p id="mw1">${inside}</p>`;
  for (const marks of [one, two]) {
    for (const [now, wanted] of [
      [`a${marks}b`, `${marks}ab`],
      [`x${marks}b`, `${marks}xb`],
      [`a\n${marks}c`, `a\n${marks}c`],
      [`a\nq${marks}b`, `a\n${marks}qb`],
      [`a\nq <i>r</i>${marks}b\nc`, `a\n${marks}q <i>r</i>b\nc`],
      [`${marks}b`, `${marks}b`],
    ]) {
      assert.equal(saved(p(`a\n${marks}b`), p(now)), p(wanted), now);
    }
  }
  const between = mark(2, "<!--c-->");
  assert.equal(saved(p(`a\n${between}b`), p(`a${between}b`)), p(`a${between}b`));
  const many = (/** @type {string} */ text) =>
    Array.from({ length: 20_000 }, (_, at) => text + mark(at + 2)).join("");
  assert.equal(saved(p(many("a\n")), p(many("a"))), p(many("") + "a".repeat(20_000)));
});

test("the name of a comment is what stands between its signs", () => {
  for (const source of ["<!-- a  b -->", "<!--a  b-->\n", "\n <!--\ta  b\n-->", "<!--a  b"]) {
    assert.equal(nameOfComment(source), "a  b");
  }
  assert.deepEqual(["<!---->", "<!-- -->", ""].map(nameOfComment), ["", "", ""]);
});

test("a run of blanks is looked through once", () => {
  const list = '<ul id="mw1"><li id="mw2">a</li></ul>';
  const look = (/** @type {string} */ blanks) => {
    assert.equal(nameOfComment(`<!--a${blanks}b-->`), `a${blanks}b`);
    assert.equal(saved("<p>x</p>", `<p>x</p><p><b>a${blanks}b</b></p>`), `<p>x</p><p><b>a${blanks}b</b></p>`);
    const item = `a${blanks}b`;
    assert.ok(saved(list, list.replace("a</li>", `${item}</li>`), true).includes(`>${item}</li>`));
    assert.ok(saved("<p>x</p>", `<p>x<a href="./A${blanks}B">y</a></p>`).includes('href="./A'));
  };
  assert.equal(outOfProportion(50_000, (count) => " ".repeat(count), look), "");
});

test("links to titles", () => {
  assert.equal(hrefOf("Opava (river)"), "./Opava_(river)");
  assert.equal(hrefOf("A/B: ä#c d"), "./A/B:_%C3%A4#c_d");
});

test("the program takes what is saved", (context) => {
  if (program === null) return context.skip("there is no wtround here: build it, or name one in WTROUND");
  const wiki = new Wiki(program, examplePages());
  try {
    for (const title of Object.keys(examplePages())) {
      const html = wiki.html(title);
      assert.equal(save(opened(html)), html);
      assert.deepEqual(wiki.run(["edit", title], save(opened(html), { marks: true })).out, wiki.read(title));
    }
    const root = opened(wiki.html("Opava"));
    const { childNodes } = root.querySelector('[id="mw3"]');
    const text = childNodes.find((node) => node.data?.includes("is a town"));
    text.data = text.data.replace("is a town", "is an old\u00a0 town");
    const { status, out } = wiki.run(["edit", "Opava"], save(root, { marks: true }));
    assert.equal(status, 0);
    assert.equal(out, wiki.read("Opava").replace("is a town", "is an old  town"));
  } finally {
    wiki.remove();
  }
});

test("a copy of a category in a block that nobody touched is left out, a new one isn't", (context) => {
  const JSDOM = findJsdom();
  if (JSDOM === null) return context.skip("there is no jsdom here");
  const html = page(`<p id="mw1">a ${category(2)}</p><p id="mw3">b</p>`);
  for (const [title, wanted] of [["X", ""], ["Y", newCategory("Y")]]) {
    const root = open(html, { document: new JSDOM("").window.document });
    root.querySelector("#mw3")?.insertAdjacentHTML("beforeend", newCategory(title));
    assert.equal(save(root), html.replace("b</p>", `b${wanted}</p>`));
  }
});

/**
 * Takes letters out of the first text in which they stand.
 * @param {Element} root
 * @param {string} letters
 */
function deleteLetters(root, letters) {
  const texts = root.ownerDocument.createTreeWalker(root, 4); // text nodes
  while (texts.nextNode()) {
    const text = /** @type {Text} */ (texts.currentNode);
    const at = text.data.indexOf(letters);
    if (at >= 0) return text.deleteData(at, letters.length);
  }
  assert.fail(`there is no ${letters}`);
}

const CATEGORIES = ["[[Category:X]]", "[[Category:Y]]", "[[Category:Z]]"];
const DELETIONS = [
  ["a b\nc", "c", "a b"],
  ["a b\nc", "a b", "c"],
  ["a\n[[Category:X]]", 2, "a"],
  ["a\n[[Category:X]]", "a", "[[Category:X]]"],
  ["a\n[[Category:X]]\nb", "b", "a\n[[Category:X]]"],
  ["a\n[[Category:X]]\nb", 2, "a\nb"],
  [CATEGORIES.join("\n"), 2, CATEGORIES.slice(1).join("\n")],
  [CATEGORIES.join("\n"), 3, `${CATEGORIES[0]}\n${CATEGORIES[2]}`],
  [CATEGORIES.join("\n"), 4, CATEGORIES.slice(0, 2).join("\n")],
  ["__TOC__\na", 2, "a"],
  ["[[File:A.png|thumb]]\na b", 2, "a b"],
  ["[[File:A.png]] a b", 2, "a b"],
  ["a\n<ref>r</ref> b", 2, "a\nb"],
  ["a\n<!--k-->\nb\nc", "b", "a\n<!--k-->\nc"],
  ["a\nb\n\nc", "b", "a\n\nc"],
  ["one two", "one", "two"],
  ["* one two", "one", "* two"],
  ["; one two\n: x", "one", "; two\n: x"],
  ["== one two ==", "one", "== two =="],
  ["== one two ==", "two", "== one =="],
  ["{|\n| one two\n|}", "one", "{|\n| two\n|}"],
  ["a [http://x one two] b", "one", "a [http://x two] b"],
  ["a [http://x one two] b", "two", "a [http://x one] b"],
  ["[[x|one two]]", "one", "[[x|two]]"],
  ["a [[x|one two]]", "two", "a [[x|one]]"],
];

test("of line breaks and blanks that a deletion leaves nothing is written", (context) => {
  const JSDOM = findJsdom();
  if (JSDOM === null) return context.skip("there is no jsdom here");
  if (program === null) return context.skip("there is no wtround here: build it, or name one in WTROUND");
  const wiki = new Wiki(program, {});
  try {
    for (const [source, deleted, wanted] of DELETIONS) {
      wiki.write("Short", source);
      const root = open(wiki.html("Short"), { document: new JSDOM("").window.document });
      if (typeof deleted === "string") deleteLetters(root, deleted);
      else root.querySelector(`#mw${deleted}`)?.remove();
      assert.equal(wiki.run(["selser", "Short"], save(root)).out, wanted, source);
    }
    wiki.write("Short", "a b\nc");
    const root = open(wiki.html("Short"), { document: new JSDOM("").window.document });
    const first = /** @type {Element} */ (root.querySelector("p"));
    const second = /** @type {Element} */ (first.cloneNode(false));
    second.append(/** @type {Text} */ (first.firstChild).splitText("a b\n".length));
    first.after(second);
    assert.equal(wiki.run(["selser", "Short"], save(root)).out, "a b\n\nc");
  } finally {
    wiki.remove();
  }
});
