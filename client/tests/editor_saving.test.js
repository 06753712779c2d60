// @ts-check
/**
 * Saving in the editor page in a browser: what is typed meanwhile, what changed on the server, and answers that don't
 * come.
 */

import { test } from "node:test";
import assert from "node:assert/strict";
import { PAGE, SHOWN, opened, refused, save, select, shown, skip, stored, tab, textOf, wiki } from "./editor_page.js";

/**
 * Makes what is to be cut off between the server and the page.
 * @param {string} body  of a function of `path` and `options` that answers for `ask(path, options)`
 */
async function intercept(body) {
  await tab.js(`(() => {
    const ask = fetch;
    globalThis.fetch = async (path, options) => { ${body} };
  })()`);
}

/**
 * Holds what is to be done after a second or more, so that no machine is too slow to type a word at once:
 * `pause()` in the page does it, and tells how much it was.
 */
async function holdPauses() {
  await tab.js(`(() => {
    const [set, clear, held] = [setTimeout, clearTimeout, new Map()];
    globalThis.setTimeout = (action, milliseconds, ...words) => {
      if (!(milliseconds >= 1000)) return set(action, milliseconds, ...words);
      const number = -1 - held.size;
      held.set(number, action);
      return number;
    };
    globalThis.clearTimeout = (number) => held.delete(number) || clear(number);
    globalThis.pause = () => {
      const due = [...held.values()];
      held.clear();
      for (const action of due) action();
      return due.length;
    };
  })()`);
}

test("what is typed while the server is asked changes nothing", { skip }, async () => {
  await select("Third", 5);
  await tab.type("ly");
  await tab.js(`(() => {
    const ask = fetch;
    globalThis.fetch = async (...words) => {
      while (globalThis.isHeld) await new Promise((done) => setTimeout(done, 10));
      return ask(...words);
    };
    globalThis.isHeld = true;
  })()`);
  await tab.press("Control+s", "x", "Backspace", "Enter", "Control+z");
  assert.equal(await shown(), SHOWN.replace("Third", "Thirdly"));
  await tab.js(`void (isHeld = false)`);
  await tab.until(`document.getElementById("changes").open`);
  await tab.js(`isHeld = true; document.getElementById("changes-save").click()`);
  await tab.press("x", "Enter");
  assert.equal(await shown(), SHOWN.replace("Third", "Thirdly"));
  await tab.js(`void (isHeld = false)`);
  await tab.until(`document.getElementById("status").textContent === "The page is saved."`);
  assert.equal(wiki.read("A page"), PAGE.replace("Third", "Thirdly"));
});

test("a stale page is refused, and the text stays", { skip }, async () => {
  await select("Third", 5);
  await tab.type("ly");
  wiki.write("A page", `${PAGE}changed by another\n`);
  await refused();
  assert.equal(await shown(), SHOWN.replace("Third", "Thirdly"));
  assert.ok(await tab.js(`!document.getElementById("refusal-newer").hidden`));
  assert.equal(wiki.read("A page"), `${PAGE}changed by another\n`);
});

test("a page that has become stale when it is stored is refused, and the text stays", { skip }, async () => {
  await select("Third", 5);
  await tab.type("ly");
  assert.equal(await save(), "changes");
  wiki.write("A page", `${PAGE}changed by another\n`);
  await tab.press("Enter");
  await tab.until(`!document.getElementById("refusal").hidden`);
  assert.equal(await shown(), SHOWN.replace("Third", "Thirdly"));
  assert.equal(wiki.read("A page"), `${PAGE}changed by another\n`);
});

test("a template that changed before the page is stored: refused, and the text stays", { skip }, async () => {
  wiki.write("Template:Inner", "inner");
  wiki.write("Template:Name", "Inner");
  wiki.write("A page", `${PAGE}\n{{ {{name}} }}\n`);
  await opened("A page");
  await select("Third", 5);
  await tab.type("ly");
  assert.equal(await save(), "changes");
  wiki.write("Template:Inner", "other");
  await tab.press("Enter");
  await tab.until(`!document.getElementById("refusal").hidden`);
  assert.match(await shown(), /Thirdly/);
  assert.equal(wiki.read("A page"), `${PAGE}\n{{ {{name}} }}\n`);
});

test("while changes are shown nothing is typed; Escape leads back to the caret", { skip }, async () => {
  await select("Third", 5);
  await tab.type("ly");
  assert.equal(await save(), "changes");
  const isInDialog = () => tab.js(`document.getElementById("changes").contains(document.activeElement)`);
  for (const key of ["Tab", "Tab", "Tab", "Shift+Tab", "Shift+Tab", "Shift+Tab", "Shift+Tab"]) {
    await tab.press(key);
    assert.ok(await isInDialog());
  }
  await tab.js(`document.getElementById("page").focus()`);
  assert.ok(await isInDialog());
  await tab.press("x", "Backspace", "Control+z", "Control+s");
  assert.equal(await shown(), SHOWN.replace("Third", "Thirdly"));
  const at = await tab.js(`(() => {
    const { left, top } = document.querySelector("#page p").getBoundingClientRect();
    return document.elementFromPoint(left + 5, top + 5).className;
  })()`);
  assert.equal(at, "shade");
  await tab.press("Escape");
  await tab.until(`!document.getElementById("changes").open`);
  await tab.type("!");
  assert.equal(await stored(), PAGE.replace("Third", "Thirdly!"));
});

test("what was shown before and not stored comes to nothing", { skip }, async () => {
  await select("Third", 5);
  await tab.type("ly");
  assert.equal(await save(), "changes");
  await tab.press("Escape");
  await tab.until(`!document.getElementById("changes").open`);
  await tab.press("Backspace", "Backspace");
  await tab.type("!");
  assert.equal(await stored(), PAGE.replace("Third", "Third!"));
  await tab.type("?");
  assert.equal(await stored(), PAGE.replace("Third", "Third!?"));
});

test("what is typed right after a dialog is left stays where it is typed", { skip }, async () => {
  // The browser tells `close` when it next draws: a letter comes in between.
  const leave = (/** @type {string} */ id, /** @type {string} */ how, /** @type {string} */ letter) => tab.js(`
    (async () => {
      const dialog = document.getElementById("${id}");
      const isTold = new Promise((done) => dialog.addEventListener("close", () => setTimeout(done)));
      ${how};
      for (let step = 0; step < 10; step += 1) await null; // what goes on at once
      document.execCommand("insertText", false, "${letter}");
      await isTold;
    })()`);
  const escape = `dialog.dispatchEvent(new KeyboardEvent("keydown", { key: "Escape", bubbles: true }))`;
  const cancel = `dialog.querySelector("[value=cancel]").click()`;
  await select("Third", 5);
  await tab.type("ly");
  let typed = "";
  for (const [how, letter] of [[escape, "a"], [cancel, "b"]]) {
    assert.equal(await save(), "changes");
    await leave("changes", how, letter);
    typed += letter;
    await tab.press("Control+k");
    await tab.until(`document.getElementById("link").open`);
    await leave("link", cancel, letter.toUpperCase());
    typed += letter.toUpperCase();
  }
  await tab.type("!");
  assert.equal(await stored(), PAGE.replace("Third", `Thirdly${typed}!`));
});

/** Ways in which the page can't be fetched while its changes are shown. */
const NOT_FETCHED = [
  `throw new TypeError("lost")`,
  `return new Response("{}", { status: 410 })`,
  `return new Response(await (await ask(path)).text(), { headers: { ETag: 'W/"1/2"' } })`,
];

test("a page that can't be fetched while changes are shown is fetched when stored", { skip }, async () => {
  for (const [at, answer] of NOT_FETCHED.entries()) {
    const before = wiki.read("A page");
    await opened("A page");
    await select("Third", 5);
    await tab.type(String(at));
    await intercept(`if (/^\\/prepared\\//.test(path)) { ${answer} } return ask(path, options);`);
    assert.equal(await stored(), before.replace("Third", `Third${at}`));
    await tab.type("!");
    assert.equal(await stored(), before.replace("Third", `Third${at}!`));
  }
});

/** An answer that doesn't come, and one that is cut off. */
const LOST_ANSWERS = [
  `throw new TypeError("lost")`,
  `return new Response(new ReadableStream({ start: (stream) => stream.error(new TypeError("lost")) }))`,
];

test("a save that was stored and never answered is known again", { skip }, async () => {
  for (const [at, lost] of LOST_ANSWERS.entries()) {
    const before = wiki.read("A page");
    await opened("A page");
    await select("Third", 5);
    await tab.type(String(at));
    await intercept(`
      const answer = await ask(path, options);
      if (!/^\\/save\\/[^?]*$/.test(path) || globalThis.isLost) return answer;
      globalThis.isLost = true;
      ${lost};
    `);
    assert.equal(await save(), "changes");
    await tab.press("Enter");
    await tab.until(`!document.getElementById("refusal").hidden`);
    assert.match(await textOf("refusal-sentence"), /can't be reached/);
    assert.equal(wiki.read("A page"), before.replace("Third", `Third${at}`));
    assert.equal(await save(), "The page is saved.");
    await tab.type("!");
    assert.equal(await stored(), before.replace("Third", `Third${at}!`));
  }
});

test("a save that never came is stored when it is given again", { skip }, async () => {
  await select("Third", 5);
  await tab.type("ly");
  await intercept(`
    if (/^\\/save\\/[^?]*$/.test(path) && !globalThis.isCut) {
      globalThis.isCut = true;
      throw new TypeError("cut off");
    }
    return ask(path, options);
  `);
  assert.equal(await save(), "changes");
  await tab.press("Enter");
  await tab.until(`!document.getElementById("refusal").hidden`);
  assert.equal(wiki.read("A page"), PAGE);
  assert.equal(await stored(), PAGE.replace("Third", "Thirdly"));
});

test("what the server no longer keeps is sent again", { skip }, async () => {
  await select("Third", 5);
  await tab.type("ly");
  await intercept(`
    if (options?.body === undefined) return ask(path, options);
    globalThis.bodies = [...(globalThis.bodies ?? []), Object.keys(JSON.parse(options.body))[0]];
    const body = options?.body?.replace(/"prepared":"/, '$&0');
    return ask(path, { ...options, body });
  `);
  assert.equal(await stored(), PAGE.replace("Third", "Thirdly"));
  assert.deepEqual(await tab.js("bodies"), ["html", "prepared", "html"]);
});

test("of a long page what would change is asked for behind the typing", { skip }, async () => {
  const long = `Third paragraph.\n\n${"A '''long''' [[page]].\n\n".repeat(4000)}`;
  wiki.write("A page", long);
  await opened("A page");
  await intercept(`
    const isSave = path.startsWith("/save/");
    const answer = await ask(path, options);
    if (!isSave) return answer;
    const what = /preview/.test(path) ? "shown" : "stored";
    const by = Object.keys(JSON.parse(options.body))[0];
    globalThis.asked = [...(globalThis.asked ?? []), what + " " + by];
    return answer;
  `);
  await holdPauses();
  const asked = (/** @type {number} */ count) => tab.until(`globalThis.asked?.length === ${count}`);
  const pause = async () => assert.equal(await tab.js("pause()"), 1);
  await select("Third", 5);
  await tab.type("ly");
  await pause();
  await asked(1);
  assert.equal(await stored(), long.replace("Third", "Thirdly"));
  assert.deepEqual(await tab.js("asked.splice(0)"), ["shown html", "shown prepared", "stored prepared"]);
  await tab.type("x");
  await pause();
  await asked(1);
  await tab.type("y");
  assert.equal(await save(), "changes");
  assert.match(await textOf("changes-diff"), /Thirdlyxy/);
  assert.deepEqual(await tab.js("asked.splice(0)"), ["shown html", "shown html"]);
  await tab.press("Enter");
  await tab.until(`document.getElementById("status").textContent === "The page is saved."`);
  assert.equal(wiki.read("A page"), long.replace("Third", "Thirdlyxy"));
  await tab.js("asked.splice(0)");
  await tab.type("z");
  await pause();
  await asked(1);
  wiki.write("A page", `${long}changed by another\n`);
  assert.match(await refused(), /Stale/);
  assert.match(await shown(), /^Thirdlyxyz/);
});

test("no script of the pages failed", { skip }, () => assert.deepEqual(tab.errors, []));
