// @ts-check
/**
 * Plain paragraphs and headings by the browser's own parser of HTML, which makes the nodes of a long page in
 * less time than calls of the DOM. What it could take for something else isn't plain: a table, a link in a
 * link, a carriage return.
 */

import { Part } from "./markup.js";
import { LINES } from "./kinds.js";

/** What may stand in a plain block, each closed where the document closes it. */
const PLAIN = new Set(["b", "i", "a", "span", "br", "sup", "sub", "small", "s", "u", "code"]);

/** Characters that a parser changes, and numbers of characters but for the apostrophe's. */
const CHANGED = /[\u0000\r]|&#(?!39;)/;

/** Parsers nest no deeper than some hundreds of elements. */
const DEEPEST = 64;

/** Fewer of them are made sooner than a parser begins. */
const FEWEST = 32;

/**
 * Makes the nodes of plain blocks that stand side by side, and of the text between them.
 * @param {Document} document
 * @param {(Part | string)[]} children  of the body or a section, each of them plain
 * @returns {Node[] | null} null where there are few, or the DOM has no parser
 */
export function parsed(document, children) {
  if (children.length < FEWEST) return null;
  const holder = document.createElement("div");
  if (!("innerHTML" in holder)) return null;
  holder.innerHTML = children.map((child) => (typeof child === "string" ? child : child.written)).join("");
  const nodes = [...holder.childNodes];
  const isSame = nodes.length === children.length && holder.querySelectorAll("*").length === count(children);
  return isSame ? nodes : null;
}

/**
 * @param {Part | string} child  of the body or a section
 * @returns {boolean}
 */
export function isPlain(child) {
  if (typeof child === "string") return /^[ \t\n]+$/.test(child);
  const isRead = LINES.has(child.name) && child.written !== "" && !CHANGED.test(child.written);
  return isRead && holdsPlain(child, false, 0);
}

/**
 * @param {Part} part
 * @param {boolean} isInLink
 * @param {number} depth
 * @returns {boolean}
 */
function holdsPlain(part, isInLink, depth) {
  return depth < DEEPEST && part.children.every((child) => {
    if (typeof child === "string") return true;
    const isLink = child.name === "a";
    return PLAIN.has(child.name) && !(isLink && isInLink) && holdsPlain(child, isInLink || isLink, depth + 1);
  });
}

/**
 * @param {(Part | string)[]} children
 * @returns {number} of the elements among them and in them
 */
function count(children) {
  let sum = 0;
  for (const child of children) if (typeof child !== "string") sum += 1 + count(child.children);
  return sum;
}
