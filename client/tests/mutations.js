// @ts-check
/** What editors, browsers and extensions may do to the DOM of a page, at random. */

/**
 * @param {number} seed
 * @returns {(below: number) => number} numbers from 0, always the same ones
 */
export function randomFrom(seed) {
  let state = (seed * 7919 + 1) % 2147483647;
  return (below) => (state = (state * 48271) % 2147483647) % below;
}

/**
 * Changes something below a root. It needs nothing but its parameters, so that its text may run in a browser.
 * @param {Element} root
 * @param {(below: number) => number} random
 * @param {Element[]} aside  what was taken out and may come back, changed meanwhile
 */
export function mutate(root, random, aside) {
  const { ownerDocument: document } = root;
  const elements = [...root.querySelectorAll("*")];
  const holds = (/** @type {Element | null} */ parent) => parent === root || parent?.localName === "section";
  const blocks = elements.filter((element) => holds(element.parentElement));
  const pick = (/** @type {Element[]} */ list) => list[random(list.length)];
  if (blocks.length === 0) {
    root.append(document.createElement("p"), "text");
    return;
  }
  const [element, other, block] = [pick(elements), pick(elements), pick(blocks)];
  const takeOut = (/** @type {Element} */ taken) => (taken.remove(), aside.push(taken));
  const actions = [
    () => element.append("typed"),
    () => element.firstChild?.nodeType === 3 && (element.firstChild.nodeValue += "letters"),
    () => element.remove(),
    () => block.after(block.cloneNode(true)),
    () => block.before(element.cloneNode(true)),
    () => element.contains(block) || block.append(element),
    () => element.contains(other) || other.contains(element) || element.replaceWith(other),
    () => element.setAttribute("id", other.getAttribute("id") ?? "mw1"),
    () => element.setAttribute(["class", "rel", "typeof", "data-mw"][random(4)], "x"),
    () => element.removeAttribute(["id", "about", "data-parsoid"][random(3)]),
    () => {
      const half = /** @type {Element} */ (block.cloneNode(false));
      half.append(...[...block.childNodes].slice(block.childNodes.length >> 1));
      block.after(half);
    },
    () => takeOut(block),
    () => takeOut(block.closest("section") ?? block),
    () => {
      const taken = aside.pop();
      if (taken === undefined) return;
      (taken.querySelector("p") ?? taken).append("while nobody looked");
      block.before(taken);
    },
    () => {
      const section = document.createElement("section");
      block.replaceWith(section);
      section.append(block);
    },
    () => element.replaceWith(...element.childNodes),
    () => (block.innerHTML = block.innerHTML),
    () => root.prepend("loose", document.createComment("c")),
  ];
  actions[random(actions.length)]();
}
