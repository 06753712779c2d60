// @ts-check
/**
 * What can't be edited in the text: each is one thing with a name, which can be selected and deleted as a
 * whole.
 */

import { describe } from "../bughtiso.js";

const THINGS = [
  "[about]",
  'span[typeof^="mw:Extension/"]',
  'span[typeof="mw:Placeholder"]',
  'meta:not([typeof="mw:Skip"])',
  "link",
  "pre",
].join(", ");

/** Blocks in which white space is text. */
const TEXT_BLOCKS = "p,h1,h2,h3,h4,h5,h6,li,dt,dd,td,th,caption";

/** @type {Record<string, string>} */
const EXTENSIONS = {
  ref: "Reference",
  references: "List of references",
  gallery: "Gallery",
  math: "Formula",
  pre: "Preformatted text",
};

/** @type {Record<string, (name: string) => string>} */
const NAMES = {
  template: (name) => `Template: ${name}`,
  argument: (name) => `Argument ${name}`,
  extension: (name) => EXTENSIONS[name] ?? `Extension: ${name}`,
  media: (name) => `Media: ${name}`,
  function: (name) => `Function ${name}`,
  tag: (name) => `Tag ${name}`,
  comment: () => "Comment",
  include: (name) => `Tag <${name}>`,
  switch: (name) => `Switch: ${name}`,
  category: (name) => `Category: ${name.replace(/^Category:\s*|#.*$/g, "")}`,
  other: (name) => name || "Part of the page's source",
};

/**
 * The things of a page.
 * @typedef {{sizes: Map<string, number>, byId: Map<string, HTMLElement[]>}} Things  `sizes`: how many
 *   elements each group has; `byId`: the elements of each thing that has an `id`
 */

/**
 * Shows the things of a page as such.
 * @param {ParentNode} page  the text, or what will stand in it
 * @returns {Things}
 */
export function nameThings(page) {
  /** @type {Things} */
  const things = { sizes: new Map(), byId: new Map() };
  /** @type {Map<string, HTMLElement[]>} */
  const groups = new Map();
  let references = 0;
  /** @type {HTMLElement | null} */
  let last = null;
  for (const element of /** @type {NodeListOf<HTMLElement>} */ (page.querySelectorAll(THINGS))) {
    const about = element.getAttribute("about") ?? "";
    if (about !== "") things.sizes.set(about, (things.sizes.get(about) ?? 0) + 1);
    if (last?.contains(element)) continue;
    last = element;
    if (isReference(element)) nameReference(element, (references += 1));
    else nameThing(element);
    const elements = (about !== "" && groups.get(about)) || [];
    elements.push(element);
    if (about !== "") groups.set(about, elements);
    if (element.id !== "") things.byId.set(element.id, elements);
  }
  return things;
}

/** @param {Element} element */
function isReference(element) {
  return element.getAttribute("typeof") === "mw:Extension/ref" && !element.hasAttribute("about");
}

/**
 * @param {Element} element
 * @param {number} number
 */
function nameReference(element, number) {
  const label = `[${number}]`;
  if (element.getAttribute("data-label") === label) return; // it has this name
  put(element, "contenteditable", "false");
  put(element, "data-thing", "reference");
  show(element, `${EXTENSIONS.ref} ${number}`, label);
}

/** @param {Element} element */
function nameThing(element) {
  const thing = describe(element);
  put(element, "contenteditable", "false");
  put(element, "data-thing", thing?.kind ?? "other");
  if (element.hasAttribute("about") && !element.hasAttribute("data-mw")) return;
  const name = thing === null ? "Preformatted text" : NAMES[thing.kind](thing.name);
  show(element, name, name);
}

/**
 * @param {Element} element
 * @param {string} name
 * @param {string} label  what stands in its place where it shows nothing
 */
function show(element, name, label) {
  put(element, "data-name", name);
  put(element, "data-label", label);
  put(element, "title", name);
  if (!(element.textContent ?? "").trim()) put(element, "data-hollow", "");
  if (!/^(?:table|ul|ol|dl|pre|meta|link)$/.test(element.localName)) {
    put(element, "role", "group");
    put(element, "aria-label", name);
  }
}

/**
 * Sets an attribute, unless it is set: that is much faster for a page that is shown.
 * @param {Element} element
 * @param {string} name
 * @param {string} value
 */
function put(element, name, value) {
  if (!element.isConnected || element.getAttribute(name) !== value) element.setAttribute(name, value);
}

/**
 * @param {Node | null} node
 * @param {HTMLElement} root
 * @returns {HTMLElement | null} the thing that a node stands in
 */
export function thingAt(node, root) {
  const element = node?.nodeType === 1 ? /** @type {Element} */ (node) : node?.parentElement ?? null;
  const thing = /** @type {HTMLElement | null} */ (element?.closest("[data-thing]") ?? null);
  return thing && root.contains(thing) ? thing : null;
}

/**
 * All elements of a thing: of a group each that has its `about`.
 * @param {HTMLElement} thing
 * @param {HTMLElement} root
 * @returns {HTMLElement[]}
 */
export function elementsOf(thing, root) {
  const about = thing.getAttribute("about");
  if (about === null) return [thing];
  const all = root.querySelectorAll(`[about="${CSS.escape(about)}"]`);
  return [.../** @type {NodeListOf<HTMLElement>} */ (all)];
}

/**
 * The thing directly beside the caret, which a press of Backspace or Delete would take.
 * @param {HTMLElement} root
 * @param {boolean} isBefore
 * @returns {HTMLElement | null}
 */
export function thingBeside(root, isBefore) {
  const selection = document.getSelection();
  if (!selection?.isCollapsed || !selection.anchorNode || !root.contains(selection.anchorNode)) return null;
  const { anchorNode: node, anchorOffset: offset } = selection;
  if (node.nodeType === 3) {
    const text = /** @type {Text} */ (node).data;
    if ((isBefore ? text.slice(0, offset) : text.slice(offset)) !== "") return null;
  } else {
    const child = node.childNodes[isBefore ? offset - 1 : offset];
    if (child !== undefined) return edgeThing(child, isBefore, root);
  }
  /** @type {Node | null} */
  let at = node;
  while (at !== null && at !== root) {
    let beside = isBefore ? at.previousSibling : at.nextSibling;
    while (beside?.nodeType === 3 && isPassedOver(/** @type {Text} */ (beside))) {
      beside = isBefore ? beside.previousSibling : beside.nextSibling;
    }
    if (beside) return edgeThing(beside, isBefore, root);
    at = at.parentNode;
  }
  return null;
}

/**
 * White space between blocks.
 * @param {Text} text
 */
function isPassedOver(text) {
  return text.data === "" || (!/\S/.test(text.data) && !text.parentElement?.closest(TEXT_BLOCKS));
}

/**
 * The thing at a node's end or beginning.
 * @param {Node} node
 * @param {boolean} isBefore
 * @param {HTMLElement} root
 */
function edgeThing(node, isBefore, root) {
  /** @type {Node | null} */
  let at = node;
  while (at) {
    const thing = thingAt(at, root);
    if (thing || at.nodeType === 3) return thing;
    at = isBefore ? at.lastChild : at.firstChild;
  }
  return null;
}

/**
 * The thing that is selected by keys or by the pointer, and nothing beside it.
 * @param {HTMLElement} root
 * @returns {HTMLElement | null}
 */
export function selectedThing(root) {
  const selection = document.getSelection();
  if (!selection?.rangeCount || selection.isCollapsed || !root.contains(selection.anchorNode)) return null;
  const { startContainer, startOffset, endContainer, endOffset } = selection.getRangeAt(0);
  const first = thingAt(nodeBehind(startContainer, startOffset), root);
  const last = thingAt(nodeBefore(endContainer, endOffset), root);
  if (first === null || last === null) return null;
  const [whole] = elementsOf(first, root);
  return elementsOf(last, root)[0] === whole ? whole : null;
}

/**
 * @param {Node} node
 * @param {number} offset
 * @returns {Node | null} what a place in a text or an element stands directly before; null in a text
 */
function nodeBehind(node, offset) {
  if (node.nodeType !== 3) return node.childNodes[offset] ?? null;
  return offset === /** @type {Text} */ (node).data.length ? node.nextSibling : null;
}

/**
 * @param {Node} node
 * @param {number} offset
 * @returns {Node | null} what a place in a text or an element stands directly behind; null in a text
 */
function nodeBefore(node, offset) {
  if (node.nodeType !== 3) return node.childNodes[offset - 1] ?? null;
  return offset === 0 ? node.previousSibling : null;
}

/**
 * Selects a thing as a whole.
 * @param {HTMLElement} thing
 * @param {HTMLElement} root
 */
export function selectThing(thing, root) {
  const elements = elementsOf(thing, root);
  const range = document.createRange();
  range.setStartBefore(elements[0]);
  range.setEndAfter(elements[elements.length - 1]);
  const selection = document.getSelection();
  selection?.removeAllRanges();
  selection?.addRange(range);
}

/**
 * Takes a thing out and puts the caret where it stood.
 * @param {HTMLElement} thing
 * @param {HTMLElement} root
 */
export function deleteThing(thing, root) {
  const elements = elementsOf(thing, root);
  const range = document.createRange();
  range.setStartBefore(elements[0]);
  range.collapse(true);
  for (const element of elements) element.remove();
  const selection = document.getSelection();
  selection?.removeAllRanges();
  selection?.addRange(range);
}

/**
 * Takes out what is left of groups of which a part was deleted.
 * @param {HTMLElement} root
 * @param {Map<string, number>} sizes
 */
export function deleteRests(root, sizes) {
  const now = groupSizes(root);
  for (const [about, size] of now) {
    if (size >= (sizes.get(about) ?? size)) continue;
    for (const element of root.querySelectorAll(`[about="${CSS.escape(about)}"]`)) element.remove();
  }
}

/**
 * How many elements each group has.
 * @param {HTMLElement} root
 * @returns {Map<string, number>}
 */
export function groupSizes(root) {
  /** @type {Map<string, number>} */
  const sizes = new Map();
  for (const element of root.querySelectorAll("[about]")) {
    const about = element.getAttribute("about") ?? "";
    sizes.set(about, (sizes.get(about) ?? 0) + 1);
  }
  return sizes;
}
