// @ts-check
/** The list of a folder's pages, with a search over their titles. */

import { titles, ServerRefused } from "./server.js";
import { matching } from "./titles.js";

const MOST_SHOWN = 500;

const list = /** @type {HTMLElement} */ (document.getElementById("pages"));
const search = /** @type {HTMLInputElement} */ (document.getElementById("search"));
const status = /** @type {HTMLElement} */ (document.getElementById("status"));

/**
 * @param {string} title
 * @returns {HTMLElement}
 */
function entry(title) {
  const item = document.createElement("li");
  const link = document.createElement("a");
  link.href = `/editor/${encodeURIComponent(title)}`;
  link.textContent = title;
  item.append(link);
  return item;
}

/** @param {string[]} all */
function show(all) {
  const found = matching(all, search.value);
  list.replaceChildren(...found.slice(0, MOST_SHOWN).map(entry));
  const more = found.length > MOST_SHOWN ? `, of which the first ${MOST_SHOWN} are shown` : "";
  status.textContent = found.length === 1 ? "1 page" : `${found.length} pages${more}`;
}

try {
  const all = await titles();
  search.addEventListener("input", () => show(all));
  show(all);
} catch (error) {
  status.textContent = error instanceof ServerRefused ? error.sentence : String(error);
}
