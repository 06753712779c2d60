// @ts-check
/**
 * Pages of wikitext as HTML, for editors: `open` puts a page into a DOM, `save` writes the document that the
 * program `wtround` takes back, from whatever an editor and a browser have made of this DOM. One module
 * without dependencies, for browsers and for Node with any DOM.
 *
 * `save` only walks over the DOM and never changes it, so undo of the browser goes on working after it. It
 * never uses `innerHTML`: the program reads a strict HTML (each attribute in quotes, each element closed, six
 * escapes by name), and one writer knows its rules. What editors leave behind is mended on the way; README.md
 * lists each mend.
 */

import { Part, write } from "./lib/markup.js";
import { fillBlocks, refill } from "./lib/nodes.js";
import { Original } from "./lib/original.js";
import { Mender } from "./lib/mender.js";
import { addMarks } from "./lib/marks.js";
import { Watch } from "./lib/watch.js";

export { bundle } from "./lib/bundles.js";
export { HtmlRefused } from "./lib/markup.js";
export { Offsets, rangeOf } from "./lib/offsets.js";
export { describe, titleOf } from "./lib/names.js";
export { hrefOf } from "./lib/links.js";

/**
 * What each opened root was, so that `save` can tell what was changed, and what has been touched since.
 * @type {WeakMap<object, {original: Original, watch: Watch}>}
 */
const opened = new WeakMap();

/**
 * Puts a page into a DOM.
 *
 * In tables, where a parser of HTML would move a `meta`, a `link` or an empty `span` out, a *carrier* stands
 * for it: `<template data-wt-name="meta" ..its attributes..>`, which stays where it is, also when the editor
 * writes and reads its DOM as HTML. `save` undoes the carriers.
 * @param {string} html  what `wtround html TITLE` wrote
 * @param {{into?: Element, document?: Document, prepare?: (inside: DocumentFragment) => void}} [options]
 *   `into`: the element that is to hold what stands in the page's body; it is emptied first. Without it a new
 *   document is made, and its body holds the page.
 *   `document`: the document that makes the elements, where there is no `into` and no global `document`, as
 *   in Node. `prepare`: is given what the page's body holds before it is put into the element, so that what
 *   an editor sets on it there is styled once
 * @returns {Element} the element that holds the page: `into`, or the new document's body. It is what `save`
 *   takes.
 * @throws {HtmlRefused} where `html` isn't a document as the program writes it
 */
export function open(html, options = {}) {
  const original = new Original(html);
  const root = options.into ?? newBody(options.document ?? globalThis.document, original.page);
  const inside = root.ownerDocument.createDocumentFragment();
  fillBlocks(inside, root.ownerDocument, original.page);
  options.prepare?.(inside);
  const watch = opened.get(root)?.watch ?? new Watch(root);
  watch.stop();
  root.replaceChildren(inside);
  watch.start(original.page);
  opened.set(root, { original, watch });
  return root;
}

/**
 * Reads a page ahead of `renew`, which then takes less time.
 * @param {string} html  what `wtround html TITLE` wrote
 * @param {Element} [root]  the root that will be renewed: blocks that are written as when it was opened
 *   aren't read again
 * @returns {Original} what `renew` takes in place of the HTML
 * @throws {HtmlRefused} as `open`
 */
export function readAhead(html, root) {
  return new Original(html, root && opened.get(root)?.original);
}

/**
 * Puts a newer state of the page into a root that holds it, as after a save: the numbers and places of its
 * elements are others then, and what was typed is the page's. Afterwards `save` compares with this state.
 *
 * Nodes that hold the same stay, with what the editor put on them. A block in which anything differs is made
 * anew, so a selection in it is lost.
 * @param {Element} root  the root that `open` answered
 * @param {string | Original} html  what `wtround html TITLE` wrote, or what `readAhead` made of it
 * @throws {HtmlRefused} as `open`; the root is as it was
 */
export function renew(root, html) {
  const original = typeof html === "string" ? readAhead(html, root) : html;
  const watch = opened.get(root)?.watch ?? new Watch(root);
  refill(root, root.ownerDocument, original.page, watch);
  watch.start(original.page);
  opened.set(root, { original, watch });
}

/**
 * Reads now what `save` compares the page with, as while nothing is typed. Else the first `save` does it, and
 * takes longer.
 * @param {Element} root  the root that `open` answered
 */
export function prepareSave(root) {
  void opened.get(root)?.original.nodes; // they are read now
}

/**
 * Writes the page as a strict document.
 * @param {Element | Document} dom  the root that `open` answered, another element whose inside is a page's,
 *   or a document
 * @param {{marks?: boolean, original?: string}} [options] `marks`: put the marks that the command `edit` asks
 *   for: `data-wt-edit="content"` on each block whose inside differs from the page that was opened, and
 *   `children` on the body and on its lists where blocks or items came or went. An element that was moved to
 *   another block then loses its `id` where it can be written anew (bold, italic, links, line breaks,
 *   paragraphs, headings, items). `original`: the HTML as the program wrote it, where `dom` wasn't made by
 *   `open`.
 * @returns {string} the document
 */
export function save(dom, options = {}) {
  const root = bodyOf(dom);
  const { original, watch } =
    options.original === undefined ? opened.get(root) ?? {} : { original: new Original(options.original) };
  const page = new Mender(original, watch).page(root);
  if (options.marks) {
    if (original === undefined) {
      throw new TypeError("marks need the page as it was: `open` it, or give `original`");
    }
    addMarks(page, original);
  }
  return write(page);
}

/**
 * Whether what `save` would write shows or holds anything else than the page that was opened.
 * @param {Element} root  the root that `open` answered
 * @returns {boolean}
 */
export function isChanged(root) {
  const { original, watch } = opened.get(root) ?? {};
  return original === undefined || write(new Mender(original, watch).page(root)) !== original.text;
}

/**
 * @param {Document | undefined} document
 * @param {Part} page
 * @returns {HTMLElement}
 */
function newBody(document, page) {
  if (document === undefined) throw new TypeError("there is no document here: give `document` or `into`");
  const body = document.implementation.createHTMLDocument("").body;
  for (const [name, value] of page.attributes) body.setAttribute(name, value);
  return body;
}

/**
 * @param {Element | Document} dom
 * @returns {Element}
 */
function bodyOf(dom) {
  if (dom.nodeType === 9) return /** @type {Document} */ (dom).body;
  const element = /** @type {Element} */ (dom);
  if (element.localName !== "html") return element;
  return [...element.children].find((child) => child.localName === "body") ?? element;
}
