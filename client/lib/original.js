// @ts-check
/** A page as it was opened: its nodes by their numbers, to compare with what an editor made of them. */

import { Part, readPage, write } from "./markup.js";
import { readAgain } from "./rereading.js";
import { isBlock } from "./kinds.js";

/**
 * What browsers and editors put into a text beside what is typed, and what may be pasted: white space and
 * signs without a width, and what no XML can hold, as the marks of footnotes and cells of a word processor.
 */
export const PUT_SIGNS = /[\0-\x08\v-\x1f\u00a0\u200b\ufeff\ufffe\uffff]/g;

/** A node of the page as it was. */
export class Kept {
  /**
   * @param {Part} part
   * @param {Kept | null} parent  the node that it stands in, null in the body
   * @param {number} at
   */
  constructor(part, parent, at) {
    this.part = part;
    this.parent = parent;
    /** Which child of its parent's element it is. */
    this.at = at;
  }

  get kind() {
    return kindOf(this.part.name, (name) => this.part.value(name));
  }

  /** Whether nothing but text and inline elements stands in it. */
  get isInline() {
    return !this.part.parts.some(isBlock);
  }
}

/**
 * What an element is, in one word: an `id` counts only on an element of the kind that it had.
 * @param {string} name
 * @param {(name: string) => string} value
 */
export function kindOf(name, value) {
  if (value("about") !== "") return "group";
  if (name === "a") return `a ${value("rel")}`;
  if (name === "link") return `link ${value("rel")}`;
  return `${name} ${value("typeof")} ${value("property")}`.trimEnd();
}

export class Original {
  /** @type {Map<number, Kept> | null} */
  #nodes = null;

  /**
   * The signs of the page's text that a browser or an editor may have put, each between its neighbours.
   * @type {Set<string> | null}
   */
  #signs = null;

  /**
   * @param {string} html  as the program wrote it
   * @param {Original} [before]  an earlier state of the page
   */
  constructor(html, before) {
    const { body, start, end } = (before && readAgain(html, before)) ?? readPage(html);
    this.html = html;
    this.page = body;
    /** Where the inside of the body begins and ends in the HTML. */
    this.start = start;
    this.end = end;
  }

  /** The document as `save` would write it. */
  get text() {
    return write(this.page);
  }

  /**
   * The nodes by number; read when they are first asked for.
   * @returns {Map<number, Kept>}
   */
  get nodes() {
    if (this.#nodes === null) {
      this.#nodes = new Map();
      this.#collect(this.page, null, this.#nodes);
    }
    return this.#nodes;
  }

  /**
   * Whether the page's text has a no-break space, a carriage return or a sign without a width between the
   * same two characters.
   * @param {string} three  the sign between its neighbours
   */
  hasSign(three) {
    if (this.#signs === null) {
      const { text } = this.page;
      const places = [...text.matchAll(PUT_SIGNS)].map(({ index }) => index ?? 0);
      this.#signs = new Set(places.map((at) => text.slice(Math.max(at - 1, 0), at + 2)));
    }
    return this.#signs.has(three);
  }

  /**
   * @param {Part} part
   * @param {Kept | null} parent
   * @param {Map<number, Kept>} nodes
   */
  #collect(part, parent, nodes) {
    part.children.forEach((child, at) => {
      if (typeof child === "string") return;
      let kept = parent;
      if (child.number !== 0) {
        kept = new Kept(child, parent, at);
        nodes.set(child.number, kept);
      }
      if (!child.attributes.has("about")) this.#collect(child, kept, nodes);
    });
  }
}
