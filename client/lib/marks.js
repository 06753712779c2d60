// @ts-check
/**
 * Marks for the command `edit`, which writes anew only what is marked: `content` on blocks whose inside was
 * changed, `children` where blocks or items came or went. docs/editing.md says where a mark may stand.
 */

import { Part } from "./markup.js";
import { Kept, Original } from "./original.js";
import { isSame, withoutEnd } from "./texts.js";
import { CELLS, HEADINGS, ITEMS, LINES } from "./kinds.js";

/** What can be written anew, so that it may stand where it didn't stand in the page. */
const WRITABLE = new Set(["b", "i", "a", "br", "p", ...HEADINGS, "hr", "li"]);

/**
 * @param {Part} page  a mended body
 * @param {Original} original  changed in place
 */
export function addMarks(page, original) {
  const present = new Numbers(page);
  for (const block of page.parts) adopt(block, original, present);
  settle(page, 0, original);
  if (!hasSameChildren(page, original.page)) mark(page, "children");
  for (const child of page.parts) markIn(child, original);
}

/**
 * @param {Part} part
 * @param {"content" | "children"} word
 */
function mark(part, word) {
  part.attributes.set("data-wt-edit", word);
}

/**
 * @param {Part} part
 * @param {Original} original
 */
function markIn(part, original) {
  if (part.name === "section") {
    for (const child of part.parts) markIn(child, original);
    return;
  }
  const kept = original.nodes.get(part.number);
  if (kept === undefined || kept.part === part || part.attributes.has("about")) return;
  if (LINES.has(part.name) || ((ITEMS.has(part.name) || CELLS.has(part.name)) && kept.isInline)) {
    if (isSame(part, kept.part)) return;
    mark(part, "content");
    if (part.name !== "p") dropLastBlanks(part);
    for (const child of part.parts) dropSkips(child, original);
    return;
  }
  const isTopList = (part.name === "ul" || part.name === "ol") && kept.parent === null;
  if (isTopList && !hasSameChildren(part, kept.part)) mark(part, "children");
  for (const child of part.parts) markIn(child, original);
}

/**
 * `edit` would keep blanks at the end of a heading, an item or a cell by a `<nowiki/>` behind them.
 * @param {Part} part
 */
function dropLastBlanks(part) {
  const last = part.children.length - 1;
  const text = part.children[last];
  if (typeof text !== "string") return;
  const rest = withoutEnd(text, " \t\n");
  if (rest !== "") part.children[last] = rest;
  else part.children.pop();
}

/**
 * The letters that joined a link (`[[dog]]s`) stand behind a skip in it, which covers its `]]`; `edit` writes
 * a changed link with all its text between its brackets, so the skip goes.
 * @param {Part} part  in a marked block
 * @param {Original} original
 */
function dropSkips(part, original) {
  const was = original.nodes.get(part.number)?.part;
  if (part.name === "a" && was !== undefined && !part.attributes.has("about") && !isSame(part, was)) {
    const isSkip = (/** @type {Part | string} */ child) =>
      typeof child !== "string" && child.value("typeof") === "mw:Skip";
    part.children = part.children.filter((child) => !isSkip(child));
  }
  if (was !== part) for (const child of part.parts) dropSkips(child, original);
}

/**
 * Whether the same nodes stand directly in both, those of sections counted as the body's.
 * @param {Part} now
 * @param {Part} was
 */
function hasSameChildren(now, was) {
  const [left, right] = [childNumbers(now), childNumbers(was)];
  return left.length === right.length && left.every((number, at) => number === right[at]);
}

/**
 * The numbers of the children, 0 for a new one. What belongs to a group beside its first element isn't
 * counted.
 * @param {Part} part
 * @returns {number[]}
 */
function childNumbers(part) {
  return part.parts.flatMap((child) => {
    if (child.name === "section") return childNumbers(child);
    const isRestOfGroup = child.attributes.has("about") && !child.attributes.has("data-mw");
    return isRestOfGroup ? [] : [child.number];
  });
}

/**
 * @param {Part} part
 * @returns {number[]} the numbers of all elements in it
 */
function numbersIn(part) {
  return part.parts.flatMap((child) => [child.number, ...numbersIn(child)]);
}

// ---- Nodes that moved

/** The numbers that stand in a page, read when they are first asked for. */
class Numbers {
  /** @type {Set<number> | null} */
  #found = null;

  /** @param {Part} page */
  constructor(page) {
    this.page = page;
  }

  /** @param {number} number */
  has(number) {
    return this.#all().has(number);
  }

  /** @param {number} number */
  add(number) {
    this.#all().add(number);
  }

  #all() {
    return (this.#found ??= new Set(numbersIn(this.page)));
  }
}

/**
 * A paragraph, heading or item in which something stands that can't be written anew, all of it from one other
 * block, which is gone, becomes that block: so two blocks that were joined are saved as the second one
 * without the first.
 * @param {Part} block
 * @param {Original} original
 * @param {Numbers} present  those that stand in the page
 */
function adopt(block, original, present) {
  if (block.name === "section" || block.name === "ul" || block.name === "ol") {
    for (const inner of block.parts) adopt(inner, original, present);
    return;
  }
  if (!(LINES.has(block.name) || block.name === "li") || isUntouched(block, original)) return;
  const things = nearestKept(block).filter((part) => !canBeAnew(part));
  const [number, ...others] = new Set(things.map((part) => parentOf(part, original)));
  const gone = original.nodes.get(number)?.part;
  if (others.length > 0 || present.has(number) || gone?.name !== block.name) return;
  block.attributes = new Map(gone.attributes);
  present.add(number);
}

/**
 * Takes the number off what stands elsewhere than in the page, where it can be written anew: its place among
 * the kept nodes of its kept parent is another one. What can't be written keeps its number, and the edit is
 * refused by name.
 * @param {Part} parent
 * @param {number} number  that of the page's node that it is, 0 for the body
 * @param {Original} original
 */
function settle(parent, number, original) {
  for (;;) {
    const kept = nearestKept(parent);
    const atHome = kept.filter((part) => parentOf(part, original) === number);
    const inOrder = heaviestRising(atHome);
    const moved = kept.filter((part) => !inOrder.has(part) && canBeAnew(part));
    if (moved.length === 0) {
      for (const part of kept) {
        const isOne = part.attributes.has("about") || isUntouched(part, original);
        if (!isOne) settle(part, part.number, original);
      }
      return;
    }
    const numbers = new Set(moved.map((part) => part.number));
    makeNew(parent, numbers);
  }
}

/**
 * @param {Part} part
 * @param {Original} original
 * @returns {boolean} whether it is the page's own, not a mended one
 */
function isUntouched(part, original) {
  return original.nodes.get(part.number)?.part === part;
}

/**
 * The kept elements in a part that stand in no other kept element of it.
 * @param {Part} part
 * @returns {Part[]}
 */
function nearestKept(part) {
  return part.parts.flatMap((child) => (child.number !== 0 ? [child] : nearestKept(child)));
}

/**
 * @param {Part} part
 * @param {Original} original
 * @returns {number} the number of its parent in the page
 */
function parentOf(part, original) {
  const kept = original.nodes.get(part.number);
  return kept === undefined ? -1 : kept.parent?.part.number ?? 0;
}

/** @param {Part} part */
function canBeAnew(part) {
  if (part.attributes.has("about")) return false;
  const type = part.value("typeof");
  return WRITABLE.has(part.name) || type === "mw:Entity" || type === "mw:Nowiki" || type === "mw:Skip";
}

/** @typedef {{part: Part, before: Chain | undefined, weight: number}} Chain  parts whose numbers rise */

/** @param {Chain | undefined} chain */
function weightOf(chain) {
  return chain?.weight ?? 0;
}

/**
 * @param {Chain | undefined} left
 * @param {Chain | undefined} right
 */
function heavier(left, right) {
  return weightOf(right) > weightOf(left) ? right : left;
}

/**
 * Of parts in the order of the document those that stay: their numbers rise, and as many stay as can, first
 * of those that can't be written anew.
 * @param {Part[]} parts
 * @returns {Set<Part>}
 */
function heaviestRising(parts) {
  if (parts.every((part, at) => at === 0 || parts[at - 1].number < part.number)) return new Set(parts);
  const numbers = [...new Set(parts.map((part) => part.number))].sort((left, right) => left - right);
  const rank = new Map(numbers.map((number, at) => [number, at + 1]));
  /**
   * The heaviest chain that ends at a rank or below, as a tree of prefixes.
   * @type {(Chain | undefined)[]}
   */
  const best = new Array(rank.size + 1);
  for (const part of parts) {
    const end = /** @type {number} */ (rank.get(part.number));
    /** @type {Chain | undefined} */
    let before;
    for (let at = end - 1; at > 0; at -= at & -at) before = heavier(before, best[at]);
    const chain = { part, before, weight: weightOf(before) + (canBeAnew(part) ? 1 : parts.length + 1) };
    for (let at = end; at < best.length; at += at & -at) best[at] = heavier(best[at], chain);
  }
  const stay = new Set();
  let heaviest = best.reduce(heavier, undefined);
  for (; heaviest !== undefined; heaviest = heaviest.before) stay.add(heaviest.part);
  return stay;
}

/**
 * @param {Part} parent
 * @param {Set<number>} numbers  of the nearest kept parts in it that become new
 */
function makeNew(parent, numbers) {
  parent.children = parent.children.flatMap((child) => {
    if (typeof child === "string") return [child];
    if (child.number === 0) makeNew(child, numbers);
    if (!numbers.has(child.number)) return [child];
    const anew = child.copy();
    for (const name of ["id", "data-parsoid", "data-mw"]) anew.attributes.delete(name);
    const type = anew.value("typeof");
    if (type === "mw:Skip") return [];
    return type === "mw:Entity" || type === "mw:Nowiki" ? anew.children : [anew];
  });
}
