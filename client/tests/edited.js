// @ts-check
/** Documents of the program in a small DOM, and as an editor left them. */

import { open, save } from "../bughtiso.js";
import { Part, read } from "../lib/markup.js";
import { SmallDocument } from "./small_dom.js";

/** What a document of the program begins with. */
const HEAD = '<!DOCTYPE html><html><head><meta charset="utf-8"/></head>';

/**
 * @param {string} body  what stands in it
 * @returns {string}
 */
export function page(body) {
  return `${HEAD}<body data-parsoid='{"dsr":[0,9,0,0]}'>${body}</body></html>`;
}

/** @param {string} html */
export function opened(html) {
  return open(html, { document: new SmallDocument() });
}

/**
 * A DOM as an editor left it: nothing is carried, `<comment>` becomes a comment.
 * @param {string} body
 */
export function edited(body) {
  const document = new SmallDocument();
  fill(document.body, read(`<html>${body}</html>`).root);
  return document.body;
}

/**
 * Puts what a part holds into an element.
 * @param {any} parent
 * @param {Part} part
 */
export function fill(parent, part) {
  const document = parent.ownerDocument;
  for (const child of part.children) {
    if (typeof child === "string") parent.appendChild(document.createTextNode(child));
    else if (child.name === "comment") parent.appendChild(document.createComment(child.text));
    else {
      const element = document.createElement(child.name);
      for (const [name, value] of child.attributes) element.setAttribute(name, value);
      fill(element, child);
      parent.appendChild(element);
    }
  }
}

/**
 * What is saved of an edited body.
 * @param {string} was
 * @param {string} now
 * @param {boolean} [marks]
 */
export function saved(was, now, marks = false) {
  const html = save(edited(now), { original: page(was), marks });
  return html.slice(html.indexOf(">", html.indexOf("<body")) + 1, -"</body></html>".length);
}

export const TEXT = '<p id="mw1">one <b id="mw2">two</b> three</p>\n\n<p id="mw3">four</p>';

/** @param {number} number */
export function category(number) {
  return `<link rel="mw:PageProp/Category" href="./Category:X" id="mw${number}"/>`;
}

/** @param {string} title */
export function newCategory(title) {
  return `<link rel="mw:PageProp/Category" href="./Category:${title}"/>`;
}
