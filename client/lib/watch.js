// @ts-check
/** Which blocks of a page nobody has touched since it was opened, so that they needn't be looked into. */

import { isBundle, nodesIn } from "./bundles.js";
import { Part } from "./markup.js";
import { ATTRIBUTES, isBlock, isHiddenName, nameOf } from "./kinds.js";

const ELEMENT = 1;

/** What `save` looks at in a DOM. */
const LOOKED_AT = {
  subtree: true,
  childList: true,
  characterData: true,
  attributes: true,
  attributeFilter: [...ATTRIBUTES, "data-wt-name"],
};

export class Watch {
  /**
   * The blocks that are as they were, with what they hold.
   * @type {Map<Node, Part>}
   */
  #parts = new Map();

  /**
   * Null where the DOM tells no changes: then every block counts as touched.
   * @type {MutationObserver | null}
   */
  #observer = null;

  /** @param {Element} root */
  constructor(root) {
    this.root = root;
    const Observer = root.ownerDocument.defaultView?.MutationObserver;
    if (Observer !== undefined) this.#observer = new Observer((records) => this.#note(records));
  }

  /** Forgets all blocks, as before they are changed on purpose. */
  stop() {
    this.#observer?.disconnect();
    this.#parts.clear();
  }

  /**
   * Begins anew.
   * @param {Part} page  what the root holds now, node for node
   */
  start(page) {
    this.stop();
    if (this.#observer === null) return;
    this.#pair(this.root, page);
    this.#observer.observe(this.root, LOOKED_AT);
  }

  /**
   * @param {Node} node
   * @returns {Part | undefined} what a block holds, where it is as it was
   */
  untouched(node) {
    const records = this.#observer?.takeRecords() ?? [];
    if (records.length > 0) this.#note(records);
    return this.#parts.get(node);
  }

  /**
   * @param {Node} parent
   * @param {Part} part
   */
  #pair(parent, part) {
    const nodes = nodesIn(parent);
    part.children.slice(0, nodes.length).forEach((child, at) => {
      if (typeof child !== "string" && nodes[at].nodeType === ELEMENT) this.#take(nodes[at], child);
    });
  }

  /**
   * @param {Node} node  an element
   * @param {Part} part
   */
  #take(node, part) {
    if (nameOf(/** @type {Element} */ (node)) !== part.name) return;
    if (part.name === "section") this.#pair(node, part);
    else if (part.number !== 0 && standsAlone(part)) this.#parts.set(node, part);
  }

  /** @param {MutationRecord[]} records */
  #note(records) {
    for (const { target, removedNodes } of records) {
      /** @type {Node | null} */
      let at = target;
      for (; at !== null && at !== this.root; at = at.parentNode) this.#parts.delete(at);
      for (const node of removedNodes) this.#drop(node); // it may be changed unseen before it comes back
    }
  }

  /** @param {Node} node */
  #drop(node) {
    this.#parts.delete(node);
    const isHolder = /** @type {Element} */ (node).localName === "section" || isBundle(node);
    if (isHolder) for (const child of node.childNodes) this.#drop(child);
  }
}

/**
 * Whether an element of the body is a block of its own, and not part of a paragraph that has no element.
 * @param {Part} part
 */
function standsAlone(part) {
  return isBlock(part) || part.attributes.has("about") || isHiddenName(part.name);
}
