// @ts-check
/** What a link leads to: a page of the wiki or an address; and what stands at its edges. */

import { isBlank } from "./kinds.js";
import { Part } from "./markup.js";
import { append, isEmpty, withoutEnd } from "./texts.js";

/** Addresses of other kinds, which no wikitext of ours links to. */
const OTHER_SCHEME =
  /^(?:\/\/|(?:javascript|vbscript|data|blob|about|file|mailto|tel|sms|chrome|view-source):)/i;

/**
 * @param {string} href
 * @param {string} rel  empty where the browser or another editor made the link
 * @param {string} [was]  the `href` that the page's link has, which stays as it is
 * @returns {Map<string, string> | null} `rel` and `href` as the program takes them; null where it can be no
 *   link
 */
export function linkTarget(href, rel, was = "") {
  const address = withoutEnd(href, " \t\n\r").replace(/^[ \t\n\r]+/, "");
  const isAddress = /^(?:https?|ftp):\/\/./i.test(address);
  if (rel !== "" && href === was) return attributes(rel, href);
  if (rel === "mw:WikiLink" || (rel === "mw:ExtLink" && !isAddress)) return attributes(rel, href);
  if (isAddress) return attributes("mw:ExtLink", escapedAddress(address));
  if (address === "" || OTHER_SCHEME.test(address)) return null;
  const isOurs = address.startsWith("./");
  return attributes("mw:WikiLink", isOurs ? address : `./${address.replace(/[ \t\n\r]+/g, "_")}`);
}

/**
 * @param {string} rel
 * @param {string} href
 */
function attributes(rel, href) {
  return new Map([["rel", rel], ["href", href]]);
}

/**
 * An address without what would end it in wikitext, or mean something there: two apostrophes, braces, a bar,
 * an entity.
 * @param {string} address
 */
function escapedAddress(address) {
  return address
    .replace(/&(?:#\d+|#x[\da-f]+|[a-z][a-z\d]*);/gi, (entity) => `${entity.slice(0, -1)}%3B`)
    .replace(/[\u0000- <>"[\]{|}\u007f]|'{2,}/g, (signs) => [...signs].map(escaped).join(""));
}

/** @param {string} sign */
function escaped(sign) {
  return `%${sign.charCodeAt(0).toString(16).toUpperCase().padStart(2, "0")}`;
}

/**
 * The link to a page, as the program writes it.
 * @param {string} title
 * @returns {string}
 */
export function hrefOf(title) {
  const [name, ...fragment] = title.split("#");
  const written = [name, ...(fragment.length > 0 ? [fragment.join("#")] : [])].map((part) =>
    encodeURIComponent(part.trim().replace(/[ _]+/g, "_"))
      .replace(/[']/g, "%27")
      .replace(/%(?:2C|3B|3A|40|2F|24)/g, decodeURIComponent),
  );
  return `./${written.join("#")}`;
}

/**
 * Blanks at a link's edges that the page's link hadn't stand outside it.
 * @param {Part} link
 * @param {string} was  the text of the page's link
 * @returns {(Part | string)[]}
 */
export function withEdgesOutside(link, was) {
  const first = link.children[0];
  const front = typeof first === "string" && !/^\s/.test(was) ? /^[ \t\n\u00a0]*/.exec(first)?.[0] ?? "" : "";
  if (front !== "") link.children[0] = /** @type {string} */ (first).slice(front.length);
  const last = link.children[link.children.length - 1];
  const isOpen = typeof last === "string" && !/\s$/.test(was);
  const back = isOpen ? last.slice(withoutEnd(last, " \t\n\u00a0").length) : "";
  if (typeof last === "string") link.children.splice(-1, 1, last.slice(0, last.length - back.length));
  link.children = link.children.filter((piece) => piece !== "");
  return isEmpty(link.children) ? [front + back] : [front, link, back].filter((piece) => piece !== "");
}

/**
 * What stands in a line, as it is put together. A blank that is left at an edge of a link, where a word of it
 * was deleted, goes where there is one beside it.
 */
export class Line {
  /** @type {(Part | string)[]} */
  #pieces = [];

  /** A blank that a link has left behind it. */
  #edge = "";

  /** @param {Part | string} piece */
  add(piece) {
    if (piece === "") return;
    if (typeof piece !== "string" || !" \t\n".includes(piece[0])) append(this.#pieces, this.#edge);
    this.#edge = "";
    append(this.#pieces, piece);
  }

  /** @param {(Part | string)[]} pieces  a link of the page, and blanks from its edges */
  addLink(pieces) {
    const before = this.#pieces[this.#pieces.length - 1];
    const isBehindBlank = typeof before === "string" && " \t\n".includes(before[before.length - 1]);
    const rest = pieces.slice(isBehindBlank && isBlankText(pieces[0]) ? 1 : 0);
    const edge = rest[rest.length - 1];
    const hasEdge = isBlankText(edge);
    for (const piece of hasEdge ? rest.slice(0, -1) : rest) this.add(piece);
    if (hasEdge) this.#edge = /** @type {string} */ (edge);
  }

  /** @returns {(Part | string)[]} all that was added */
  end() {
    append(this.#pieces, this.#edge);
    return this.#pieces;
  }
}

/** @param {Part | string | undefined} piece */
function isBlankText(piece) {
  return typeof piece === "string" && isBlank(piece);
}
