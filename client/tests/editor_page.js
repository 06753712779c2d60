// @ts-check
/**
 * What the tests of the editor page have in common: the page in a browser, driven by keys, over the repository's server
 * and program. Each file of tests has a browser and a server of its own, and each test begins with `PAGE`, opened anew.
 */

import { after, before, beforeEach } from "node:test";
import assert from "node:assert/strict";
import { spawnSync } from "node:child_process";
import { Browser, findChromium } from "./chromium.js";
import { Server, Wiki, examplePages, findProgram } from "./pages.js";

const chromium = findChromium();
const program = findProgram();
const hasPython = spawnSync("python3", ["--version"]).status === 0;
/** Why no test of the editor page can be run here; false where they can. */
export const skip =
  chromium === null ? "there is no Chromium here"
  : program === null ? "there is no wtround here: build it, or name one in WTROUND"
  : !hasPython ? "there is no python3 here" : false;

/** @type {Browser} */
let browser;
/** @type {import("./chromium.js").Tab} */
export let tab;
/** @type {Wiki} */
export let wiki;
/** @type {Server} */
export let server;

export const PAGE = [
  "One '''two''' three [[Main Page|four]] five.",
  "Second line with {{lang|de|Troppau}} and more.<ref>a note</ref>",
  "",
  "== Heading ==",
  "Third paragraph.",
  "",
  "* first item",
  "* second item",
  "",
  "{|",
  "| north || south",
  "|}",
  "",
].join("\n");

export const SHOWN =
  "One two three four five. Second line with Troppau and more. Heading Third paragraph. " +
  "first item second item north south";

before(async () => {
  if (skip !== false || chromium === null || program === null) return;
  wiki = new Wiki(program, { ...examplePages(), "Main Page": "x", "A page": PAGE, "Other page": "y" });
  server = await Server.start(wiki);
  browser = new Browser(chromium);
  tab = await browser.tab();
  await tab.size(1100, 800);
});

after(async () => {
  if (skip !== false) return;
  await browser.close();
  await server.stop();
  wiki.remove();
});

beforeEach(async () => {
  if (skip !== false) return;
  wiki.write("A page", PAGE);
  await opened("A page");
});

/** @param {string} title */
export async function opened(title) {
  await tab.go(`${server.url}/editor/${encodeURIComponent(title)}`);
  await tab.until(`document.getElementById("page")?.isContentEditable`);
  await tab.js(`document.getElementById("page").focus()`);
}

/**
 * Selects from one place in the text to another, each said by a text and how many characters of it lie
 * before.
 * @param {string} text
 * @param {number} at
 * @param {string} [endText]
 * @param {number} [endAt]
 */
export async function select(text, at, endText = text, endAt = at) {
  await tab.js(`(() => {
    const find = (text) => {
      const walker = document.createTreeWalker(document.getElementById("page"), NodeFilter.SHOW_TEXT);
      while (walker.nextNode()) if (walker.currentNode.data.includes(text)) return walker.currentNode;
      throw new Error("no such text: " + text);
    };
    const place = (text, at) => [find(text), find(text).data.indexOf(text) + at];
    const start = place(${JSON.stringify(text)}, ${at});
    getSelection().setBaseAndExtent(...start, ...place(${JSON.stringify(endText)}, ${endAt}));
  })()`);
}

/** @returns {Promise<string>} the text that the page shows, white space as one blank */
export function shown() {
  return tab.js(`document.getElementById("page").textContent.replace(/\\s+/g, " ").trim()`);
}

/**
 * @param {string} id  of an element of the editor's own
 * @returns {Promise<string>}
 */
export function textOf(id) {
  return tab.js(`document.getElementById("${id}").textContent`);
}

/**
 * Presses Ctrl+S.
 * @returns {Promise<"changes" | "refusal" | string>} what came: the changes, a refusal, or what was said
 */
export async function save() {
  await tab.js(`document.getElementById("status").textContent = ""`);
  await tab.press("Control+s");
  const dialog = `document.getElementById("changes").open`;
  const refusal = `!document.getElementById("refusal").hidden`;
  const said = `document.getElementById("status").textContent.replace("The server is asked…", "")`;
  await tab.until(`${dialog} || ${refusal} || ${said}`);
  return tab.js(`${dialog} ? "changes" : ${refusal} ? "refusal" : ${said}`);
}

/**
 * Saves, looks at the changes, stores them.
 * @returns {Promise<string>} the page that is stored now
 */
export async function stored() {
  assert.equal(await save(), "changes");
  assert.ok(await tab.js(`document.querySelector("#changes-diff :is(.added, .removed)") !== null`));
  await tab.press("Enter"); // on "Save the page", which has the focus
  await tab.until(`document.getElementById("status").textContent === "The page is saved."`);
  return wiki.read("A page");
}

/**
 * Saves, and is refused; nothing is stored.
 * @returns {Promise<string>} the refusal's line
 */
export async function refused() {
  const before = wiki.read("A page");
  assert.equal(await save(), "refusal");
  assert.equal(wiki.read("A page"), before);
  assert.notEqual(await textOf("refusal-sentence"), "");
  return textOf("refusal-detail");
}
