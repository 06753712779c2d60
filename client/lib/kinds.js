// @ts-check
/** The elements that a page may have, and what becomes of others. */

import { Part } from "./markup.js";

/** The attributes that the program writes. */
export const ATTRIBUTES = new Set([
  "about", "typeof", "property", "rel", "href", "class", "colspan", "rowspan", "scope", "lang", "dir", "id",
  "data-mw", "data-parsoid",
]);

/** Those that a new part of a table may have. */
const TABLE_ATTRIBUTES = new Set(["class", "colspan", "rowspan", "scope", "lang", "dir"]);

export const HEADINGS = new Set(["h1", "h2", "h3", "h4", "h5", "h6"]);
export const LISTS = new Set(["ul", "ol", "dl"]);
export const ITEMS = new Set(["li", "dt", "dd"]);
export const CELLS = new Set(["td", "th", "caption"]);

/** Blocks that hold a line or lines of text. */
export const LINES = new Set(["p", ...HEADINGS]);

const OTHER_BLOCKS = ["hr", "pre", "table", "tbody", "tr", "section"];
const BLOCKS = new Set([...LINES, ...LISTS, ...ITEMS, ...CELLS, ...OTHER_BLOCKS]);

/**
 * Elements of other documents that hold blocks, or are one: they stand for a paragraph where they hold text
 * alone.
 */
const BOXES = new Set([
  "div", "article", "aside", "main", "header", "footer", "nav", "figure", "figcaption", "blockquote",
  "center", "address", "details", "summary", "form", "fieldset", "hgroup", "thead", "tfoot", "colgroup",
]);

/** Elements of which nothing is kept. */
const LEFT_OUT = new Set([
  "script", "style", "noscript", "title", "head", "template", "img", "picture", "svg", "math", "canvas",
  "video", "audio", "iframe", "object", "embed", "input", "button", "select", "textarea", "option", "base",
  "col", "wbr", "area", "map",
]);

/** What other editors write for ours. */
const SAME = new Map([
  ["strong", "b"],
  ["em", "i"],
]);

/** The `typeof` of what is one thing: of the program's, and what other editors write for new ones. */
const THING = /(?:^|\s)mw:(?:Extension\/|Placeholder|Transclusion|File|Image|Video|Audio)/;

/** Pairs of tags that stand in a page's text: those of the page stay, new ones can't be written. */
export const TAGS = new Set(["sup", "sub", "small", "s", "u", "code", "span"]);

/** @param {Part} part */
export function isBlock(part) {
  return BLOCKS.has(part.name);
}

/**
 * Our name for an element; `box` where it is a box of another document, empty where nothing of it is kept.
 * @param {Element} element
 * @returns {string}
 */
export function nameOf(element) {
  const name = element.localName;
  if (name === "template") return element.getAttribute("data-wt-name") ?? "";
  if (isThing(element)) return "span";
  if (LEFT_OUT.has(name)) return "";
  if (BOXES.has(name)) return "box";
  return SAME.get(name) ?? name;
}

/**
 * Whether an element of another name is what the program writes as a `span`, as a `figure` or a `sup` of
 * Parsoid's.
 * @param {Element} element
 */
function isThing(element) {
  const isOurs = isHiddenName(element.localName) || element.hasAttribute("about");
  return !isOurs && THING.test(element.getAttribute("typeof") ?? "");
}

/**
 * @param {string} name
 * @returns {boolean} whether an element with our name stands as a block
 */
export function isBlockName(name) {
  return name === "box" || BLOCKS.has(name);
}

/**
 * Comments, include tags, skips, switches, categories: they show nothing.
 * @param {string} name
 */
export function isHiddenName(name) {
  return name === "meta" || name === "link";
}

/**
 * What a category, a switch or the like says: two of one kind are the same for the page.
 * @param {Part} part
 */
export function hiddenKind(part) {
  return ["typeof", "property", "rel", "href"].map((name) => part.value(name)).join(" ");
}

/**
 * @param {Part} part
 * @returns {boolean} a comment, an include tag or a skip, which no edit of texts compares
 */
export function isMark(part) {
  return part.name === "meta" && /^mw:(?:Comment|Skip|Includes\/)/.test(part.value("typeof"));
}

/**
 * An element that is one thing: a group, an extension, what is kept as it stands.
 * @param {(name: string) => string} value
 */
export function isIsland(value) {
  return value("about") !== "" || THING.test(value("typeof"));
}

/**
 * Whether nothing but blanks and line breaks, also those that don't break, stands there.
 * @param {string} text
 */
export function isBlank(text) {
  return /^[ \t\n\r\f\u00a0]*$/.test(text);
}

/**
 * Whether a new element may have an attribute.
 * @param {string} name
 * @param {string} attribute
 * @returns {boolean}
 */
export function mayHave(name, attribute) {
  switch (name) {
    case "table":
    case "tr":
    case "td":
    case "th":
      return TABLE_ATTRIBUTES.has(attribute);
    case "span":
      return attribute === "typeof" || attribute === "data-mw";
    case "meta":
    case "link":
      return ATTRIBUTES.has(attribute) && attribute !== "id" && attribute !== "data-parsoid";
    case "body":
      return attribute === "data-parsoid";
    case "section":
      return /^[a-z][a-z0-9:-]*$/.test(attribute) && attribute !== "data-wt-edit";
    default:
      return false;
  }
}
