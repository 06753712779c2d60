// @ts-check
/** The blocks of a page in the editor, which stand in the sections of the page or beside them, in bundles. */

import { isBundle, nodesIn } from "../lib/bundles.js";

/**
 * @param {Element | DocumentFragment} holder  the text, or a section of it
 * @returns {Element[]} its blocks, in their order
 */
export function blocksOf(holder) {
  const children = [...holder.children];
  const holds = (/** @type {Element} */ child) => child.localName === "section" || isBundle(child);
  return children.flatMap((child) => (holds(child) ? blocksOf(child) : [child]));
}

/**
 * @param {Element} root  the text
 * @param {string} path  a selector of an element in the body of the page, step by step
 * @returns {Element | null}
 */
export function elementAt(root, path) {
  const [, number, below] = /^body\s*>\s*:nth-child\((\d+)\)(?:\s*>\s*(.*))?$/.exec(path) ?? [];
  if (number === undefined) return root.querySelector(path);
  const elements = nodesIn(root).filter((node) => node.nodeType === Node.ELEMENT_NODE);
  const element = /** @type {Element | undefined} */ (elements[Number(number) - 1]);
  return below === undefined ? element ?? null : element?.querySelector(`:scope > ${below}`) ?? null;
}
