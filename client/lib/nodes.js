// @ts-check
/** The nodes of a DOM for a page that was read: made new, or taken from those that stand there already. */

import { Part } from "./markup.js";
import { nodesIn } from "./bundles.js";
import { ATTRIBUTES } from "./kinds.js";
import { isPlain, parsed } from "./parsing.js";
import { Watch } from "./watch.js";

const ELEMENT = 1;
const TEXT = 3;

/** Where an HTML parser throws out a `meta`, a `link` and an empty `span`. */
const TABLE_PARTS = new Set(["table", "tbody", "tr"]);

/** What an element is: where one of these differs it is another one. */
const KIND = ["about", "typeof", "rel", "property"];

/** Elements that stay where something in them came or went. */
const HOLDERS = new Set(["section", "ul", "ol", "dl", "table", "tbody", "tr"]);

/** So many nodes and children together are passed over at most until both are alike again. */
const REACH = 12;

/**
 * Makes the nodes of a part's inside.
 * @param {Node} parent  that holds them then
 * @param {Document} document
 * @param {Part} part
 */
function fill(parent, document, part) {
  for (const child of part.children) parent.appendChild(made(document, part, child));
}

/**
 * The same for the body and for a section, which may hold many blocks.
 * @param {Node} parent
 * @param {Document} document
 * @param {Part} part
 */
export function fillBlocks(parent, document, part) {
  const { children } = part;
  for (let at = 0, end = 0; at < children.length; at = end) {
    end = at;
    while (end < children.length && isPlain(children[end])) end += 1;
    const nodes = parsed(document, children.slice(at, end));
    end = Math.max(end, at + 1);
    const one = (/** @type {Part | string} */ child) => madeBlock(document, part, child);
    for (const node of nodes ?? children.slice(at, end).map(one)) parent.appendChild(node);
  }
}

/**
 * @param {Document} document
 * @param {Part} parent
 * @param {Part | string} child  of the parent
 * @returns {Node}
 */
function madeBlock(document, parent, child) {
  if (typeof child === "string" || child.name !== "section") return made(document, parent, child);
  const section = withAttributes(document.createElement("section"), child);
  fillBlocks(section, document, child);
  return section;
}

/**
 * @param {Element} element
 * @param {Part} part
 */
function withAttributes(element, part) {
  for (const [name, value] of part.attributes) element.setAttribute(name, value);
  return element;
}

/**
 * @param {Document} document
 * @param {Part} parent
 * @param {Part | string} child  of the parent
 * @returns {Node}
 */
function made(document, parent, child) {
  if (typeof child === "string") return document.createTextNode(child);
  const carried = TABLE_PARTS.has(parent.name) && isLostInTables(child);
  const element = document.createElement(carried ? "template" : child.name);
  if (carried) element.setAttribute("data-wt-name", child.name);
  fill(withAttributes(element, child), document, child);
  return element;
}

/** @param {Part} part */
function isLostInTables(part) {
  return part.name === "meta" || part.name === "link" || (part.name === "span" && part.children.length === 0);
}

/**
 * Makes a parent's inside that of a part. Nodes that hold the same stay, with the attributes of the part;
 * where they differ, nodes go and come until both are alike again.
 * @param {Node} parent
 * @param {Document} document
 * @param {Part} part
 * @param {Watch} [watch]  knows blocks of which needn't be asked what they hold
 */
export function refill(parent, document, part, watch) {
  const nodes = nodesIn(parent);
  const { children } = part;
  let at = 0;
  let next = 0;
  while (at < nodes.length || next < children.length) {
    if (at < nodes.length && next < children.length && becomes(nodes[at], children[next], watch)) {
      at += 1;
      next += 1;
      continue;
    }
    const [gone, come] = untilAlike(nodes.slice(at, at + REACH), children.slice(next, next + REACH));
    const behind = nodes[at + gone] ?? null;
    const holder = behind?.parentNode ?? parent; // a bundle, where it stands in one
    for (const child of children.slice(next, next + come)) {
      holder.insertBefore(made(document, part, child), behind);
    }
    for (const node of nodes.slice(at, at + gone)) remove(node, parent);
    at += gone;
    next += come;
  }
}

/**
 * Takes a node out of a parent or of a bundle in it, which goes when nothing else stands in it.
 * @param {Node} node
 * @param {Node} parent
 */
function remove(node, parent) {
  const holder = node.parentNode ?? parent;
  holder.removeChild(node);
  if (holder !== parent && holder.firstChild === null) remove(holder, parent);
}

/**
 * @param {Node[]} nodes
 * @param {(Part | string)[]} children
 * @returns {[number, number]} how many of each stand before the nearest two that are alike, or before the
 *   ends of both; one of each where there are none, or the one that there is
 */
function untilAlike(nodes, children) {
  const most = Math.min(nodes.length + children.length, REACH);
  for (let sum = 1; sum <= most; sum += 1) {
    for (let gone = Math.min(sum, nodes.length); gone >= 0 && sum - gone <= children.length; gone -= 1) {
      if (isAlike(nodes[gone], children[sum - gone])) return [gone, sum - gone];
    }
  }
  return [Math.min(1, nodes.length), Math.min(1, children.length)];
}

/**
 * @param {Node | undefined} node
 * @param {Part | string | undefined} child
 * @returns {boolean} whether both have the same name and text; of what isn't there, whether both aren't
 */
function isAlike(node, child) {
  if (node === undefined || child === undefined) return node === child;
  if (typeof child === "string") return isText(node, child);
  return node.nodeType === ELEMENT && nameOf(node) === child.name && node.textContent === child.text;
}

/**
 * @param {Node} node
 * @param {string} text
 */
function isText(node, text) {
  return node.nodeType === TEXT && /** @type {Text} */ (node).data === text;
}

/**
 * @param {Node} node  an element
 * @returns {string} the name of the part for which it stands
 */
function nameOf(node) {
  const element = /** @type {Element} */ (node);
  const name = element.localName;
  return name === "template" ? element.getAttribute("data-wt-name") ?? name : name;
}

/**
 * Makes a node that of a child, where it holds the same.
 * @param {Node} node
 * @param {Part | string} child
 * @param {Watch} [watch]
 * @returns {boolean} whether it does; else some of its attributes may be others now
 */
function becomes(node, child, watch) {
  if (typeof child === "string") return isText(node, child);
  const was = watch?.untouched(node);
  if (was === child) return true;
  if (was !== undefined && hasSameShape(was, child)) {
    if (was.written === "" || was.written !== child.written) turn(/** @type {Element} */ (node), was, child);
    return true;
  }
  if (node.nodeType !== ELEMENT || nameOf(node) !== child.name) return false;
  const element = /** @type {Element} */ (node);
  if (KIND.some((name) => (element.getAttribute(name) ?? "") !== child.value(name))) return false;
  if (HOLDERS.has(child.name)) refill(element, element.ownerDocument, child, watch);
  else if (!childrenBecome(element, child)) return false;
  for (const name of element.getAttributeNames()) {
    if (ATTRIBUTES.has(name) && !child.attributes.has(name)) element.removeAttribute(name);
  }
  for (const [name, value] of child.attributes) {
    if (element.getAttribute(name) !== value) element.setAttribute(name, value);
  }
  return true;
}

/**
 * @param {Part} was
 * @param {Part} now
 * @returns {boolean} whether both are the same but for attributes that don't say what an element is
 */
function hasSameShape(was, now) {
  if (was.written !== "" && was.written === now.written) return true;
  if (was.name !== now.name || was.children.length !== now.children.length) return false;
  if (KIND.some((name) => was.value(name) !== now.value(name))) return false;
  return now.children.every((child, at) => {
    const other = was.children[at];
    const isText = typeof child === "string" || typeof other === "string";
    return isText ? child === other : hasSameShape(other, child);
  });
}

/**
 * Gives an element the attributes of another part of the same shape, inside too.
 * @param {Element} element
 * @param {Part} was  what it holds
 * @param {Part} now
 */
function turn(element, was, now) {
  for (const name of was.attributes.keys()) if (!now.attributes.has(name)) element.removeAttribute(name);
  for (const [name, value] of now.attributes) {
    if (was.attributes.get(name) !== value) element.setAttribute(name, value);
  }
  let node = element.firstChild;
  now.children.forEach((child, at) => {
    if (typeof child !== "string") {
      turn(/** @type {Element} */ (node), /** @type {Part} */ (was.children[at]), child);
    }
    node = node?.nextSibling ?? null;
  });
}

/**
 * @param {Element} element
 * @param {Part} part
 * @returns {boolean}
 */
function childrenBecome(element, part) {
  const { childNodes } = element;
  if (childNodes.length !== part.children.length) return false;
  let at = 0;
  for (const node of childNodes) {
    if (!becomes(node, part.children[at])) return false;
    at += 1;
  }
  return true;
}
