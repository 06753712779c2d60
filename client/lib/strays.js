// @ts-check
/**
 * Comments, include tags, skips, switches and categories that an editor moved out of the block that held
 * them, as VisualEditor does with those of a block that it changes: each goes back beside the neighbour that
 * it had.
 */

import { Part } from "./markup.js";
import { Kept, Original } from "./original.js";
import { isHiddenName } from "./kinds.js";
import { append } from "./texts.js";

/** Characters of text on each side by which a place is found again. */
const NEAR = 24;

/** More stay where they are, and the edit is refused by name. */
const MOST_STRAYS = 200;

/** @typedef {{part: Part, kept: Kept}} Stray */

/**
 * @param {Part} page  a mended body, changed in place
 * @param {Original} original
 */
export function putBack(page, original) {
  /** @type {Map<number, Part>} */
  const homes = new Map();
  /** @type {Stray[]} */
  const all = [];
  find(page, 0, original, homes, all);
  const strays = all.filter(({ kept }) => kept.parent !== null && homes.has(kept.parent.part.number));
  if (strays.length === 0 || strays.length > MOST_STRAYS) return;
  remove(page, new Set(strays.map(({ part }) => part)));
  for (const { part, kept } of strays) {
    const parent = /** @type {Kept} */ (kept.parent);
    insert(/** @type {Part} */ (homes.get(parent.part.number)), part, parent.part.children, kept.at);
  }
}

/**
 * Finds the elements that have a number, and the strays.
 * @param {Part} part
 * @param {number} number  of the nearest kept element that it is or stands in, 0 for the body
 * @param {Original} original
 * @param {Map<number, Part>} homes
 * @param {Stray[]} strays
 */
function find(part, number, original, homes, strays) {
  for (const child of part.parts) {
    const kept = original.nodes.get(child.number);
    if (child.attributes.has("about")) continue;
    if (kept !== undefined && isHiddenName(child.name)) {
      if ((kept.parent?.part.number ?? 0) !== number) strays.push({ part: child, kept });
      continue;
    }
    if (kept?.part === child) continue; // nothing in it was changed
    if (kept !== undefined && !homes.has(child.number)) homes.set(child.number, child);
    find(child, kept === undefined ? number : child.number, original, homes, strays);
  }
}

/**
 * Takes parts out; texts on the two sides of one become one text, and a new paragraph that held nothing else
 * goes.
 * @param {Part} part
 * @param {Set<Part>} strays
 * @returns {boolean} whether something was taken out
 */
function remove(part, strays) {
  /** @type {(Part | string)[]} */
  const children = [];
  let isChanged = false;
  for (const child of part.children) {
    if (typeof child === "string") append(children, child);
    else if (strays.has(child)) isChanged = true;
    else {
      const isHollow = remove(child, strays) && child.number === 0 && child.children.length === 0;
      isChanged ||= isHollow;
      if (!isHollow) children.push(child);
    }
  }
  if (isChanged) part.children = children;
  return isChanged;
}

/**
 * @param {Part} home
 * @param {Part} stray
 * @param {(Part | string)[]} siblings  what stood in the home in the page
 * @param {number} at  which of them the stray was
 */
function insert(home, stray, siblings, at) {
  const before = siblings[at - 1];
  const behind = siblings[at + 1];
  const besideBefore = indexOf(home, before);
  const besideBehind = indexOf(home, behind);
  if (besideBefore >= 0) home.children.splice(besideBefore + 1, 0, stray);
  else if (besideBehind >= 0) home.children.splice(besideBehind, 0, stray);
  else if (before === undefined) home.children.unshift(stray);
  else if (typeof before === "string" && insertIntoText(home, stray, before, behind)) return;
  else home.children.push(stray);
}

/**
 * @param {Part} home
 * @param {Part | string | undefined} neighbour  as it stood in the page
 * @returns {number} -1: not there
 */
function indexOf(home, neighbour) {
  if (neighbour === undefined || typeof neighbour === "string" || neighbour.number === 0) return -1;
  return home.children.findIndex((child) => typeof child !== "string" && child.number === neighbour.number);
}

/**
 * Puts a part between two texts that have become one: where their ends meet, or where one of them is.
 * @param {Part} home
 * @param {Part} stray
 * @param {string} before
 * @param {Part | string | undefined} behind
 */
function insertIntoText(home, stray, before, behind) {
  const end = before.slice(-NEAR);
  const start = typeof behind === "string" ? behind.slice(0, NEAR) : "";
  /** @type {[string, number][]} */
  const places = [[end + start, end.length], [end, end.length], [start, 0]];
  for (const [wanted, offset] of places) {
    if (wanted === "") continue;
    const found = home.children.findIndex((child) => typeof child === "string" && child.includes(wanted));
    if (found < 0) continue;
    const text = /** @type {string} */ (home.children[found]);
    const cut = text.indexOf(wanted) + offset;
    const pieces = [text.slice(0, cut), stray, text.slice(cut)].filter((piece) => piece !== "");
    home.children.splice(found, 1, ...pieces);
    return true;
  }
  return false;
}
