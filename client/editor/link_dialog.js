// @ts-check
/** The dialog for links: a page of the folder, found by its title, or an address. */

import { hrefOf, titleOf } from "../bughtiso.js";
import { matching } from "./titles.js";
import { titles } from "./server.js";

const MOST_SHOWN = 8;
const ADDRESS = /^(?:https?|ftp):\/\/[^/]/i;

/**
 * @template {HTMLElement} T
 * @param {string} id
 * @returns {T}
 */
const byId = (id) => /** @type {T} */ (/** @type {unknown} */ (document.getElementById(id)));

/** @typedef {{href: string, rel: string, text: string} | "remove" | null} Wish */

const dialog = /** @type {HTMLDialogElement} */ (byId("link"));
const target = /** @type {HTMLInputElement} */ (byId("link-target"));
const text = /** @type {HTMLInputElement} */ (byId("link-text"));
const list = byId("link-titles");
const advice = byId("link-advice");

/** @type {string[]} */
let all = [];
/** Which of the shown titles is chosen, -1 for none. */
let chosen = -1;
/** @type {(wish: Wish) => void} */
let answer = () => undefined;

/**
 * @param {string} value  what stands in the field
 * @returns {{href: string, rel: string} | null}
 */
function readTarget(value) {
  const written = value.trim();
  if (written === "" || /^[a-z]+:\/\/?$/i.test(written)) return null;
  if (ADDRESS.test(written)) return { href: written, rel: "mw:ExtLink" };
  return /[<>[\]{}|\n]/.test(written) ? null : { href: hrefOf(written), rel: "mw:WikiLink" };
}

function showTitles() {
  const value = target.value;
  const found = ADDRESS.test(value) || value.trim() === "" ? [] : matching(all, value).slice(0, MOST_SHOWN);
  chosen = -1;
  list.replaceChildren(...found.map((title, at) => option(title, at)));
  target.setAttribute("aria-expanded", String(found.length > 0));
  target.removeAttribute("aria-activedescendant");
  const isKnown = all.some((title) => title.toLowerCase() === value.trim().toLowerCase());
  advice.textContent =
    value.trim() === "" ? "The title of a page, or an address that begins with http://, https:// or ftp://."
    : readTarget(value) === null ? "This is no title and no address."
    : ADDRESS.test(value) ? "An address outside this wiki."
    : isKnown ? "" : "No page of this folder has this title yet.";
}

/**
 * @param {string} title
 * @param {number} at
 */
function option(title, at) {
  const item = document.createElement("li");
  item.id = `link-title-${at}`;
  item.setAttribute("role", "option");
  item.setAttribute("aria-selected", "false");
  item.textContent = title;
  item.addEventListener("click", () => take(title));
  return item;
}

/** @param {string} title */
function take(title) {
  target.value = title;
  showTitles();
  list.replaceChildren();
  target.setAttribute("aria-expanded", "false");
  target.focus();
}

/** @param {number} step */
function choose(step) {
  const options = [...list.children];
  if (options.length === 0) return;
  chosen = (chosen + step + options.length + (chosen < 0 && step < 0 ? 1 : 0)) % options.length;
  options.forEach((each, at) => each.setAttribute("aria-selected", String(at === chosen)));
  target.setAttribute("aria-activedescendant", options[chosen].id);
}

/** @param {KeyboardEvent} event */
function key(event) {
  if (event.key === "ArrowDown" || event.key === "ArrowUp") {
    event.preventDefault();
    choose(event.key === "ArrowDown" ? 1 : -1);
  } else if (event.key === "Enter" && chosen >= 0) {
    event.preventDefault();
    take(list.children[chosen].textContent ?? "");
  }
}

/**
 * Closes the dialog, and answers at once: the browser tells `close` when it next draws, and something may be
 * typed into the text before that.
 * @param {Event} event  by which it is left
 * @param {string} how  "apply", "remove" or "cancel"
 */
function leave(event, how) {
  event.preventDefault();
  dialog.close(how);
  answered();
}

function answered() {
  if (dialog.open) return;
  const goal = readTarget(target.value);
  if (dialog.returnValue === "remove") answer("remove");
  else if (dialog.returnValue !== "apply" || goal === null) answer(null);
  else answer({ ...goal, text: text.value });
}

/** @param {Event} event */
function submitted(event) {
  const how = /** @type {SubmitEvent} */ (event).submitter?.getAttribute("value") ?? "apply";
  if (how === "cancel" || readTarget(target.value) !== null) return leave(event, how);
  event.preventDefault();
  target.focus();
}

target.addEventListener("input", showTitles);
target.addEventListener("keydown", key);
byId("link-remove").addEventListener("click", (event) => leave(event, "remove"));
dialog.querySelector("form")?.addEventListener("submit", submitted);
dialog.addEventListener("cancel", (event) => leave(event, "cancel"));
dialog.addEventListener("close", answered); // where the browser closed it without asking

/**
 * Asks what a link is to lead to.
 * @param {{href: string, text: string, isLink: boolean, hasText: boolean}} now  `isLink`: the caret stands in
 *   one, with this `href`; `hasText`: a text is selected or linked already, so that none is asked for
 * @returns {Promise<Wish>}
 */
export function askForLink(now) {
  target.value = ADDRESS.test(now.href) ? now.href : titleOf(now.href);
  text.value = now.text;
  text.hidden = byId("link-text-label").hidden = now.hasText;
  byId("link-remove").hidden = !now.isLink;
  dialog.returnValue = "";
  titles().then((found) => ((all = found), showTitles()), () => undefined);
  showTitles();
  dialog.showModal();
  target.select();
  return new Promise((done) => (answer = done));
}
