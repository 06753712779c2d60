// @ts-check
/** The module in a browser: pages go into its DOM and come back. */

import { after, before, test } from "node:test";
import assert from "node:assert/strict";
import { createServer } from "node:http";
import { readFileSync } from "node:fs";
import { join } from "node:path";
import { Browser, findChromium } from "./chromium.js";
import { mutate, randomFrom } from "./mutations.js";
import { REPOSITORY, Wiki, examplePages, findProgram, outsideDocuments } from "./pages.js";

const chromium = findChromium();
const program = findProgram();
const skip = chromium === null ? "there is no Chromium here" : false;
const AT_ONCE = 200;
const SHARE = 10; // each so many-th outside page is changed at random

/** @type {Browser} */
let browser;
/** @type {import("./chromium.js").Tab} */
let tab;
/** @type {import("node:http").Server} */
let server;

before(async () => {
  if (chromium === null) return;
  server = createServer((request, response) => {
    const isModule = /^\/client\/(?:lib\/)?[a-z_]+\.js$/.test(request.url ?? "");
    response.writeHead(200, { "Content-Type": isModule ? "text/javascript" : "text/html" });
    const empty = "<!DOCTYPE html><title>test</title>";
    response.end(isModule ? readFileSync(join(REPOSITORY, request.url ?? "")) : empty);
  });
  await new Promise((done) => server.listen(0, "127.0.0.1", () => done(undefined)));
  browser = new Browser(chromium);
  tab = await browser.tab();
  await tab.go(`http://127.0.0.1:${/** @type {import("node:net").AddressInfo} */ (server.address()).port}/`);
  await tab.js(`import("/client/bughtiso.js").then((module) => { globalThis.module = module; })`);
});

after(async () => {
  if (chromium === null) return;
  await browser.close();
  server.close();
});

/**
 * The places, in a list of documents, of those for which a function in the browser gives another text.
 * @param {string[]} documents
 * @param {string} body  of a function of `html`
 * @returns {Promise<number[]>}
 */
async function changed(documents, body) {
  /** @type {number[]} */
  const places = [];
  for (let from = 0; from < documents.length; from += AT_ONCE) {
    const some = documents.slice(from, from + AT_ONCE);
    const answer = await tab.js(`(() => {
      const back = (html) => { ${body} };
      return ${JSON.stringify(some)}.flatMap((html, at) => back(html) === html ? [] : [at]);
    })()`);
    places.push(...answer.map((/** @type {number} */ at) => from + at));
  }
  return places;
}

/** @returns {string[]} the HTML of outside pages and of the repository's own */
function documents() {
  const own = [];
  if (program !== null) {
    const wiki = new Wiki(program, examplePages());
    for (const title of Object.keys(examplePages())) own.push(wiki.html(title));
    for (let number = 1; number <= 20; number += 1) {
      wiki.write("Made", madePage(number));
      own.push(wiki.html("Made"));
    }
    wiki.remove();
  }
  return [...own, ...outsideDocuments()];
}

/**
 * A page of pieces in an order that the number decides.
 * @param {number} number
 * @returns {string}
 */
function madePage(number) {
  const pieces = [
    "== h ==", "a '''b''' ''c'' [[d|e]]\nf", "* g\n** h\n*# i", "{|\n<!-- c -->\n|-\n| a || b\n|+ c\n|}",
    "; t : d", " p\n q", "----", "{{lang|de|x}}", "{|\n{{lang|a|<!-- -->}}\n|}",
    "<sup>s</sup> [http://a.b c]",
    "x <ref>y</ref> &nbsp; <nowiki>''z''</nowiki>", "__NOTOC__", "<includeonly>i</includeonly>",
    "[[File:A.png]]", "{{{n|m}}}", "\u{1F600}\u0301 \u0001", "<noinclude>\n* k</noinclude>",
  ];
  let state = number;
  const next = () => (state = (state * 48271) % 2147483647) % pieces.length;
  return Array.from({ length: 12 }, () => pieces[next()]).join("\n\n");
}

test("pages come back from the DOM that open makes", { skip }, async (context) => {
  const all = documents();
  if (all.length === 0) return context.skip("there are no pages here: build wtround, or name one in WTROUND");
  assert.deepEqual(await changed(all, "return module.save(module.open(html));"), []);
  const marked =
    "return module.save(module.open(html, { into: document.createElement('div') }), { marks: true });";
  assert.deepEqual(await changed(all, marked), []);
  const bundled = `
    const prepare = (inside) => module.bundle(inside, 2);
    return module.save(module.open(html, { into: document.createElement("div"), prepare }));
  `;
  assert.deepEqual(await changed(all, bundled), []);
  context.diagnostic(`${all.length} pages`);
});

test("pages are renewed, each in the place of another", { skip }, async (context) => {
  const all = documents();
  if (all.length === 0) return context.skip("there are no pages here: build wtround, or name one in WTROUND");
  const body = `
    const into = globalThis.renewed ??= document.createElement("div");
    module.renew(into, html);
    const opened = module.open(html, { into: document.createElement("div") });
    return into.isEqualNode(opened) ? module.save(into) : "";
  `;
  assert.deepEqual(await changed(all, body), []);
  context.diagnostic(`${all.length} pages`);
});

test("the browser's parser makes the nodes of paragraphs and headings as calls do", { skip }, async (context) => {
  const found = documents().flatMap((html) => html.match(/<(p|h[1-6])(?: [^<>]*)?>.*?<\/\1>/gs) ?? []);
  const blocks = [...new Set(found)].filter((_, at, all) => at % Math.ceil(all.length / 3000) === 0);
  const nested = `${"<span>".repeat(70)}x${"</span>".repeat(70)}`;
  const texts = [
    "\n a", "&#39;&nbsp;&quot;&apos;&lt;", "&#128;&#0;", "&#13;", "\r", "\u000c\u0001\ufeff\ufffd", "<br/>a <br />",
    "<b><b><b><b>x</b></b></b></b>", "<i>a<span><b>c</b></span></i>", "<i>a<b>c</b></i><b></b>",
    '<a href="a">b<span>c<a href="d">e</a></span></a>', '<a href="a">b</a><a href="c">d</a>', nested,
    '<span title="&lt;&#39;&amp;amp;" id=\'"\'></span>', '<meta property="a"/>b', "<u><s>a</s></u><code>b</code>",
  ];
  const all = [...blocks, ...texts.flatMap((text) => [`<p>${text}</p>`, `<h2 id="mw1">${text}</h2>`])];
  const pages = all.map((block) => `<html><body>${`${block}\n\n`.repeat(20)}</body></html>`);
  const body = `
    const made = document.createElement("div");
    module.renew(made, html);
    const opened = module.open(html, { into: document.createElement("div") });
    return made.isEqualNode(opened) ? html : "";
  `;
  assert.deepEqual(await changed(pages, body), []);
  context.diagnostic(`${pages.length} blocks`);
});

test("what nobody touched needn't be looked at: the same is saved and renewed", { skip }, async (context) => {
  const all = documents().filter((_, at) => at % SHARE === 0 || at < 30);
  if (all.length === 0) return context.skip("there are no pages here: build wtround, or name one in WTROUND");
  const other = [];
  for (let at = 0; at < all.length; at += AT_ONCE) {
    const some = all.slice(at, at + AT_ONCE);
    const answer = tab.js(`(async () => {
      const { bundle, open, save, renew } = module;
      const unbundled = (root) => {
        const copy = root.cloneNode(true);
        const bundles = copy.querySelectorAll("[data-wt-bundle]");
        for (const element of bundles) element.replaceWith(...element.childNodes);
        return copy;
      };
      const [randomFrom, mutate] = [${randomFrom}, ${mutate}];
      const other = [];
      const all = ${JSON.stringify(some)};
      for (const [at, html] of all.entries()) {
        const prepare = (inside) => at % 2 === 1 && bundle(inside, 2);
        const root = open(html, { into: document.createElement("div"), prepare });
        const [random, aside] = [randomFrom(at), []];
        for (let step = 0; step < 6; step += 1) {
          mutate(root, random, aside);
          if (random(2) === 0) await null;
          const whole = save(root, { marks: true, original: html });
          if (save(root, { marks: true }) !== whole) other.push([${at} + at, step]);
        }
        renew(root, all[(at + 1) % all.length]);
        const anew = open(all[(at + 1) % all.length], { into: document.createElement("div") });
        if (!unbundled(root).isEqualNode(anew)) other.push([${at} + at, "renewed"]);
        mutate(root, random, aside);
        renew(root, html);
        if (save(root) !== html) other.push([${at} + at, "renewed again"]);
      }
      return other;
    })()`);
    other.push(...(await answer));
  }
  assert.deepEqual(other, []);
  context.diagnostic(`${all.length} pages`);
});

test("blocks that were taken out, changed, and put back are saved as they are", { skip }, async () => {
  const html =
    '<!DOCTYPE html><html><head><meta charset="utf-8"/></head><body><section data-mw-section-id="0">' +
    '<p id="mw1">one</p><p id="mw2">two</p></section></body></html>';
  for (const taken of ["p", "section", "p + p"]) {
    const answer = await tab.js(`(async () => {
      const root = module.open(${JSON.stringify(html)}, { into: document.createElement("div") });
      const [block, parent] = [root.querySelector("${taken}"), root.querySelector("${taken}").parentNode];
      block.remove();
      await new Promise((done) => setTimeout(done));
      (block.querySelector("p") ?? block).append("!");
      await new Promise((done) => setTimeout(done));
      parent.prepend(block);
      const original = ${JSON.stringify(html)};
      return [module.save(root, { marks: true }), module.save(root, { marks: true, original })];
    })()`);
    assert.match(answer[0], taken === "p + p" ? />two!</ : />one!</);
    assert.equal(answer[0], answer[1]);
  }
});

test("pages come back after the browser wrote and read its DOM as HTML", { skip }, async (context) => {
  // A parser of HTML takes U+0000 and carriage returns for something else.
  const all = documents().filter((html) => !/&#(?:0|13);/.test(html));
  if (all.length === 0) return context.skip("there are no pages here: build wtround, or name one in WTROUND");
  const body = "const root = module.open(html); root.innerHTML = root.innerHTML; return module.save(root);";
  assert.deepEqual(await changed(all, body), []);
  context.diagnostic(`${all.length} pages`);
});
