// @ts-check
/**
 * Bundles of blocks of a long page: elements in which an editor puts blocks that stand side by side, so that
 * a browser passes over them together while they are out of sight. What stands in a bundle counts as standing
 * where the bundle stands.
 */

import { isBlockName, isHiddenName, nameOf } from "./kinds.js";

const ELEMENT = 1;
const MARK = "data-wt-bundle";

/** @param {Node} node */
export function isBundle(node) {
  return node.nodeType === ELEMENT && /** @type {Element} */ (node).hasAttribute(MARK);
}

/**
 * @param {Node} holder
 * @returns {Node[]} what stands in it, in the bundles in it too
 */
export function nodesIn(holder) {
  const nodes = [...holder.childNodes];
  return nodes.some(isBundle) ? nodes.flatMap((node) => (isBundle(node) ? nodesIn(node) : [node])) : nodes;
}

/**
 * Puts the blocks of a holder, and of the sections in it, into bundles: each begins with a block, and holds
 * what stands up to the next bundle or section.
 * @param {Element | DocumentFragment} holder  that holds no bundles
 * @param {number} most  blocks in each; how many there are is its `--blocks` in CSS
 */
export function bundle(holder, most) {
  /** @type {Node[]} */
  let nodes = [];
  let count = 0;
  const close = () => {
    if (count > 0) put(holder, nodes, count);
    nodes = [];
    count = 0;
  };
  for (const node of [...holder.childNodes]) {
    const isSection = /** @type {Element} */ (node).localName === "section";
    const isNext = !isSection && isBlock(node);
    if (isSection || (isNext && count === most)) close();
    if (isSection) bundle(/** @type {Element} */ (node), most);
    else if (isNext || count > 0) nodes.push(node);
    if (isNext) count += 1;
  }
  close();
}

/**
 * @param {Element | DocumentFragment} holder
 * @param {Node[]} nodes  that stand side by side in it
 * @param {number} count  of blocks among them
 */
function put(holder, nodes, count) {
  const element = holder.ownerDocument.createElement("div");
  element.setAttribute(MARK, "");
  element.setAttribute("style", `--blocks: ${count}`);
  holder.insertBefore(element, nodes[0]);
  element.append(...nodes);
}

/** @param {Node} node */
function isBlock(node) {
  if (node.nodeType !== ELEMENT) return false;
  const name = nameOf(/** @type {Element} */ (node));
  return isBlockName(name) && !isHiddenName(name);
}
