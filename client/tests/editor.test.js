// @ts-check
/**
 * The editor page in a browser, driven by keys: typing, and what keys and buttons do. Whatever is done ends in a saved
 * page, whose bytes are compared, or in a refusal by name; the text is still there after it. (What may happen between a
 * save and its answer: editor_saving.test.js.)
 */

import { test } from "node:test";
import assert from "node:assert/strict";
import { measured } from "./clock.js";
import { PAGE, SHOWN, opened, refused, save, select, shown, stored, textOf } from "./editor_page.js";
import { server, skip, tab, wiki } from "./editor_page.js";

/**
 * Saves what has new or removed blocks. How many line breaks then stand between blocks isn't promised, so they
 * aren't compared.
 * @param {string} wanted  the page that is saved
 * @param {string} text  what is shown then and before
 */
async function storedBlocks(wanted, text) {
  const letters = async () => (await shown()).replaceAll(" ", "");
  const lines = (/** @type {string} */ page) => page.split(/\n+/);
  assert.equal(await letters(), text.replaceAll(" ", ""));
  assert.deepEqual(lines(await stored()), lines(wanted));
  assert.equal(await letters(), text.replaceAll(" ", ""));
}

/**
 * @param {string} html
 * @param {string} text  what the clipboard holds
 */
async function paste(html, text) {
  await tab.js(`(() => {
    const data = new DataTransfer();
    if (${JSON.stringify(html)}) data.setData("text/html", ${JSON.stringify(html)});
    data.setData("text/plain", ${JSON.stringify(text)});
    const how = { clipboardData: data, bubbles: true, cancelable: true };
    document.activeElement.dispatchEvent(new ClipboardEvent("paste", how));
  })()`);
}

test("nothing changed: nothing is saved", { skip }, async () => {
  assert.equal(await shown(), SHOWN);
  assert.equal(await save(), "Nothing was changed.");
  assert.equal(wiki.read("A page"), PAGE);
});

test("typed words are saved, and no other byte changes", { skip }, async () => {
  await select("three ", 5);
  await tab.type(" and [[a]] ''half''");
  const spelled = "and &#91;&#91;a&#93;&#93; &#39;&#39;half&#39;&#39; ";
  assert.equal(await stored(), PAGE.replace("three ", `three ${spelled}`));
});

test("typing beside a line break of the source leaves it", { skip }, async () => {
  await select("five.", 5);
  await tab.type(" And six.");
  assert.equal(await stored(), PAGE.replace("five.", "five. And six."));
});

test("after a save the page is opened anew and can be saved again", { skip }, async () => {
  await select("Third", 5);
  await tab.type("ly");
  await stored();
  await select("Thirdly", 7);
  await tab.type(",");
  assert.equal(await stored(), PAGE.replace("Third", "Thirdly,"));
});

test("bold and italic by keys, on and off", { skip }, async () => {
  await select("Third", 0, "Third", 5);
  await tab.press("Control+b");
  await select("two", 0, "two", 3);
  await tab.press("Control+b", "Control+i");
  assert.equal(await stored(), PAGE.replace("Third", "'''Third'''").replace("'''two'''", "''two''"));
});

test("bold over a line break of the source", { skip }, async () => {
  await select("five.", 0, "Second", 6);
  await tab.press("Control+b");
  assert.equal(await stored(), PAGE.replace("five.\nSecond", "'''five.'''\n'''Second'''"));
});

test("a link to a page that is found by its title", { skip }, async () => {
  await select("Third", 0, "Third", 5);
  await tab.press("Control+k");
  await tab.until(`document.getElementById("link").open`);
  await tab.type("other");
  await tab.until(`document.querySelectorAll("#link-titles li").length === 1`);
  await tab.press("ArrowDown", "Enter", "Enter");
  await tab.until(`document.querySelector('#page a[href="./Other_page"]') !== null`);
  assert.equal(await stored(), PAGE.replace("Third", "[[Other page|Third]]"));
});

test("a link to an address, with a text of its own; a link is changed and taken off", { skip }, async () => {
  await select("Third", 0);
  await tab.press("Control+k");
  await tab.until(`document.getElementById("link").open`);
  await tab.type("https://example.org/a b");
  await tab.press("Tab");
  await tab.type("Here");
  await tab.press("Enter");
  await tab.until(`document.getElementById("page").textContent.includes("Here")`);
  await select("Here", 4);
  await tab.type(" ");
  assert.equal(await stored(), PAGE.replace("Third", "[https://example.org/a%20b Here] Third"));
  await select("four", 1);
  await tab.press("Control+k");
  await tab.until(`document.getElementById("link").open`);
  await tab.type("New title");
  await tab.press("Enter");
  await tab.until(`document.querySelector('#page a[href="./New_title"]') !== null`);
  await select("Here", 1);
  await tab.press("Control+k");
  await tab.until(`document.getElementById("link").open`);
  await tab.js(`document.getElementById("link-remove").click()`);
  await tab.until(`document.querySelector('#page a[rel="mw:ExtLink"]') === null`);
  const wanted = PAGE.replace("Third", "Here Third").replace("Main Page|four", "New title|four");
  assert.equal(await stored(), wanted);
});

test("Enter splits a paragraph", { skip }, async () => {
  await select("Third paragraph", 6);
  await tab.press("Enter");
  await storedBlocks(PAGE.replace("Third paragraph.", "Third\n\nparagraph.\n"), SHOWN);
});

test("Enter at a paragraph's end begins a new one", { skip }, async () => {
  await select("Third paragraph.", 16);
  await tab.press("Enter");
  await tab.type("Fourth.");
  const wanted = PAGE.replace("Third paragraph.", "Third paragraph.\n\nFourth.\n");
  await storedBlocks(wanted, SHOWN.replace("paragraph.", "paragraph.Fourth."));
});

test("Enter, and Backspace again, changes nothing", { skip }, async () => {
  await select("Third paragraph", 8);
  await tab.press("Enter", "Backspace");
  assert.equal(await save(), "Nothing was changed.");
});

test("Backspace at a block's start joins it to the one before", { skip }, async () => {
  await select("Third", 0);
  await tab.press("Backspace");
  const joined = PAGE.replace("Heading ==\nThird paragraph.\n", "HeadingThird paragraph. ==\n");
  await storedBlocks(joined, SHOWN.replace("Heading Third", "HeadingThird"));
});

test("Enter in an item begins a new item", { skip }, async () => {
  await select("first item", 10);
  await tab.press("Enter");
  await tab.type("between");
  const wanted = PAGE.replace("* first item\n", "* first item\n* between\n");
  await storedBlocks(wanted, SHOWN.replace("first item", "first itembetween"));
});

test("a heading is made of a paragraph", { skip }, async () => {
  await select("Third", 1);
  await tab.js(`(() => {
    const block = document.getElementById("block");
    block.value = "h3";
    block.dispatchEvent(new Event("change"));
  })()`);
  await storedBlocks(PAGE.replace("Third paragraph.\n", "\n=== Third paragraph. ===\n\n\n"), SHOWN);
});

test("two paragraphs are pasted into a paragraph", { skip }, async () => {
  await select("Third ", 6);
  await paste("", "pasted one\n\npasted two");
  const wanted = PAGE.replace("Third paragraph.", "Third pasted one\n\npasted twoparagraph.\n");
  await storedBlocks(wanted, SHOWN.replace("Third ", "Third pasted onepasted two"));
});

test("two paragraphs are pasted into a cell as lines", { skip }, async () => {
  await select("north", 5);
  await paste("<p>pasted <strong>one</strong></p><p style='color:red'>two<script>x</script></p>", "");
  assert.equal(await stored(), PAGE.replace("north ||", "northpasted '''one'''<br>two||"));
});

test("a paragraph is split before a template and a reference, and joined again", { skip }, async () => {
  await select("three ", 5);
  await tab.press("Enter");
  const split = PAGE.replace("three [[", "three\n\n[[");
  await storedBlocks(split, SHOWN);
  if (wiki.read("A page") !== split) return;
  await select("four", 0);
  await tab.press("Backspace");
  await tab.type(" ");
  assert.equal((await stored()).replace(/^\n+/, ""), PAGE);
});

test("a template is selected, then deleted, by Backspace; undo brings it back", { skip }, async () => {
  await select(" and more", 0);
  await tab.press("Backspace");
  assert.equal(await textOf("thing-name"), "Template: lang");
  assert.equal(await shown(), SHOWN);
  await tab.press("Backspace");
  assert.equal(await shown(), SHOWN.replace("Troppau ", ""));
  await tab.press("Control+z");
  assert.equal(await shown(), SHOWN);
  assert.equal(await save(), "Nothing was changed.");
  await tab.press("Control+y");
  assert.equal(await stored(), PAGE.replace("{{lang|de|Troppau}} ", " "));
});

test("a template that is selected by keys shows its name", { skip }, async () => {
  await select(" and more", 0);
  await tab.press("Shift+ArrowLeft");
  await tab.until(`!document.getElementById("thing").hidden`);
  assert.equal(await textOf("thing-name"), "Template: lang");
  assert.equal(await textOf("thing-source"), "{{lang|de|Troppau}}");
  await tab.press("ArrowRight");
  await tab.until(`document.getElementById("thing").hidden`);
  await tab.press("Backspace", "Backspace");
  assert.equal(await shown(), SHOWN.replace("Troppau ", ""));
});

test("a reference is deleted by a click and the key", { skip }, async () => {
  await tab.js(`document.querySelector('[data-thing="reference"]').click()`);
  assert.equal(await textOf("thing-source"), "<ref>a note</ref>");
  await tab.press("Delete");
  assert.equal(await stored(), PAGE.replace("<ref>a note</ref>", ""));
});

test("a template that is cut and pasted in its paragraph moves", { skip }, async () => {
  await tab.js(`document.querySelector('#page [typeof="mw:Transclusion"]').click()`);
  const html = await tab.js(`document.querySelector('#page [typeof="mw:Transclusion"]').outerHTML`);
  await tab.press("Delete");
  await select(" and more", 4);
  await paste(html, "Troppau");
  assert.equal(await stored(), PAGE.replace("{{lang|de|Troppau}} and", " and<nowiki/>{{lang|de|Troppau}}"));
});

test("a copied template becomes its text, a copied reference is left out with a word", { skip }, async () => {
  const html = await tab.js(
    `[...document.querySelectorAll('#page [typeof="mw:Transclusion"], [data-thing="reference"]')]
      .map((element) => element.outerHTML).join("")`,
  );
  await select("Third", 5);
  await paste(html, "");
  assert.match(await textOf("status"), /left out/);
  assert.equal(await stored(), PAGE.replace("Third", "ThirdTroppau"));
});

test("a keyboard that sends no keys selects and deletes a template too", { skip }, async () => {
  await select(" and more", 0);
  await tab.js(`document.execCommand("delete")`);
  await tab.js(`document.execCommand("delete")`);
  assert.equal(await shown(), SHOWN.replace("Troppau ", ""));
});

test("after a save the caret stands where it stood", { skip }, async () => {
  await select("Third", 5);
  await tab.type("ly");
  await stored();
  await tab.type("!");
  assert.equal(await shown(), SHOWN.replace("Third", "Thirdly!"));
});

test("an emptied cell", { skip }, async () => {
  await select("south", 0, "south", 5);
  await tab.press("Delete");
  assert.equal(await stored(), PAGE.replace("|| south", "|| "));
});

test("typing and deleting is undone and done again", { skip }, async () => {
  await tab.js("void (performance.now = () => 0)"); // letters are typed soon, however slow the machine is
  await select("Third", 0, "Third", 5);
  await tab.type("Fourth");
  await select("five", 0, "Second line", 6);
  await tab.press("Backspace");
  await select("paragraph", 0);
  await tab.press("Enter");
  await tab.press("Control+z", "Control+z", "Control+z", "Control+z");
  assert.equal(await shown(), SHOWN);
  assert.equal(await save(), "Nothing was changed.");
  await tab.press("Control+y");
  assert.equal(await stored(), PAGE.replace("Third", "Fourth"));
});

test("a refusal outlines its place", { skip }, async () => {
  wiki.write("A page", "before\n\na [[x]]\n\nnext\n");
  await opened("A page");
  await tab.js(`document.querySelector("a[rel='mw:WikiLink']").setAttribute("href", "./a[b")`);
  await select("a ", 1);
  await tab.type("+");
  assert.equal(await refused(), "edit refused: BadContent 2 Href");
  assert.equal(await tab.js(`document.querySelector("[data-refused]").localName`), "p");
  assert.match(await shown(), /^before ?a\+ x ?next$/);
});

test("the text of an item that holds a list is changed", { skip }, async () => {
  wiki.write("A page", "* item ]\n** inner\n\nnext\n");
  await opened("A page");
  await select("item", 4);
  await tab.type("s");
  await stored();
  assert.equal(wiki.read("A page"), "* items ]\n** inner\n\nnext\n");
});

test("the whole text is deleted and written anew", { skip }, async () => {
  await tab.press("Control+a", "Backspace");
  await tab.type("All new.");
  assert.equal(await shown(), "All new.");
  const answer = await save();
  assert.match(answer, /^(?:changes|refusal)$/);
  assert.equal(await shown(), "All new.");
});

test("a click on Save does what the key does; the list of pages leads to the editor", { skip }, async () => {
  await tab.go(`${server.url}/`);
  await tab.until(`document.querySelectorAll("#pages a").length > 3`);
  await tab.js(`(() => {
    const search = document.getElementById("search");
    search.value = "a pa";
    search.dispatchEvent(new Event("input"));
  })()`);
  assert.equal(await tab.js(`document.querySelector("#pages a").textContent`), "A page");
  await tab.js(`void setTimeout(() => document.querySelector("#pages a").click())`);
  await tab.until(`document.getElementById("page")?.isContentEditable`);
  await select("Third", 5);
  await tab.type("!");
  await tab.js(`document.getElementById("save").click()`);
  await tab.until(`document.getElementById("changes").open`);
  await tab.js(`document.getElementById("changes-save").click()`);
  await tab.until(`document.getElementById("status").textContent === "The page is saved."`);
  assert.equal(wiki.read("A page"), PAGE.replace("Third", "Third!"));
});

/**
 * What each step with a page of 1 MiB may take on the clock of a slow machine that does nothing else. What they
 * took on which machine stands in docs/performance.md.
 */
const MOST_SECONDS = 5;

/**
 * The same of processor time, of the page and the server together: other work makes it longer, too. On a slower
 * machine than those all of these are as much longer as its loop is (clock.js).
 */
const MOST_WORK = 8;

/**
 * Does something until it took no more time than it may, at most three times: what else the machine does
 * comes and goes.
 * @param {string} name
 * @param {import("node:test").TestContext} context
 * @param {() => Promise<unknown>} prepare
 * @param {() => Promise<unknown>} action
 * @param {number} [most]  seconds on the clock
 */
async function takesSeconds(name, context, prepare, action, most = MOST_SECONDS) {
  for (let left = 3; ; left -= 1) {
    await prepare();
    const { clock, stretch, slowness, page, server: programs } = await measured(tab, server, action);
    const seconds = [clock, page, programs].map((time) => `${time.toFixed(2)} s`);
    const text = `${seconds[0]}, of work ${seconds[1]} here and ${seconds[2]} there`;
    const slow = `the machine stretches time by ${stretch.toFixed(1)}, and work by ${slowness.toFixed(1)}`;
    context.diagnostic(`${name}: ${text}; ${slow}`);
    if (clock <= most * stretch * slowness && page + programs <= MOST_WORK * slowness) return;
    assert.ok(left > 1, `${name} takes too long: ${text}`);
  }
}

test("a page of 1 MiB is opened, shows its changes, is stored", { skip }, async (context) => {
  const lines = [];
  for (let bytes = 0, at = 0; bytes < 1 << 20; at += 1) {
    const line = `Paragraph ${at} of a '''long''' page with [[Main Page|links]], ''words'' and a reference.`;
    if (at % 20 === 10) lines.push(at % 100 === 10 ? `== Part ${at} ==` : `=== Part ${at} ===`, "");
    lines.push(`${line}<ref>note ${at}</ref>`, "");
    bytes += lines[lines.length - 2].length + 2;
  }
  let page = lines.join("\n");
  wiki.write("A page", page);
  await takesSeconds("opening", context, () => tab.go("about:blank"), () => opened("A page"));
  const isShown = () => tab.js(`document.getElementById("changes").open`);
  let number = 17;
  const change = async () => {
    if (await isShown()) await tab.press("Escape");
    await select(`Paragraph ${number} `, 9);
    await tab.type("s");
    page = page.replace(`Paragraph ${number} `, `Paragraphs ${number} `);
    number += 1;
  };
  const show = async () => assert.equal(await save(), "changes");
  await takesSeconds("showing changes", context, change, show);
  const store = async () => {
    await tab.press("Enter");
    await tab.until(`document.getElementById("status").textContent === "The page is saved."`);
  };
  const changeAndShow = async () => (await isShown()) || (await change(), await show());
  await takesSeconds("storing", context, changeAndShow, store);
  const saveWhole = async () => (await show(), await store());
  await takesSeconds("a whole save at once", context, change, saveWhole, 1.5 * MOST_SECONDS);
  const isAsked = `performance.getEntriesByType("resource").some(({ name }) => /preview=1/.test(name))`;
  const changeAndWait = async () => {
    await tab.js("performance.clearResourceTimings()");
    await change();
    await tab.until(isAsked);
  };
  await takesSeconds("a whole save after a pause", context, changeAndWait, saveWhole);
  assert.equal(wiki.read("A page"), page);
  assert.equal(await save(), "Nothing was changed.");
  const emptied = await measured(tab, server, () => tab.press("Control+a", "Backspace"));
  context.diagnostic(`deleting all: ${emptied.clock.toFixed(2)} s, of work ${emptied.page.toFixed(2)} s`);
  assert.equal(await shown(), "");
  assert.ok(emptied.page < 2 * MOST_WORK * emptied.slowness);
  await tab.press("Control+z");
  assert.equal(await save(), "Nothing was changed.");
});

test("no script of the pages failed", { skip }, () => assert.deepEqual(tab.errors, []));
