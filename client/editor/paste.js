// @ts-check
/** What is pasted, as paragraphs, headings, lists, bold, italic and links. */

import { isPlain, saysBold, saysItalic } from "../lib/styles.js";
import { withoutEnd } from "../lib/texts.js";

/** @type {Record<string, string>} */
const SAME = {
  ...{ strong: "b", em: "i", b: "b", i: "i", p: "p", ul: "ul", ol: "ol", li: "li", br: "br" },
  ...{ h1: "h2", h2: "h2", h3: "h3", h4: "h4", h5: "h5", h6: "h6" },
};
const LEFT_OUT = new Set([
  "script", "style", "noscript", "title", "head", "meta", "link", "template", "svg", "math", "img", "input",
  "button", "select", "textarea",
]);
const BOXES = new Set([
  "div", "section", "article", "blockquote", "table", "tbody", "tr", "dl", "dt", "dd", "pre", "figure",
  "header", "footer", "main",
]);
const BLOCKS = "p,h1,h2,h3,h4,h5,h6,ul,ol,div,table,tr,dt,dd,pre,blockquote";

/**
 * What the clipboard holds, as HTML of ours.
 * @param {DataTransfer} data
 * @param {HTMLElement} root  the text
 * @param {Map<string, HTMLElement[]>} things  what can't be edited, as the page was opened: a template or
 *   reference that was cut out of the text comes back as it was
 * @returns {{html: string, leftOut: number}} `leftOut`: how many templates and references couldn't be copied
 */
export function pasted(data, root, things) {
  const html = data.getData("text/html");
  if (html === "") return { html: fromText(data.getData("text/plain")), leftOut: 0 };
  const page = new DOMParser().parseFromString(html, "text/html");
  const out = document.createElement("div");
  const cleaner = new Cleaner(root, things);
  cleaner.copy(page.body, out);
  return { html: out.innerHTML, leftOut: cleaner.leftOut };
}

/** @param {string} text */
function fromText(text) {
  const out = document.createElement("div");
  const lines = withoutEnd(text.replace(/\r\n?/g, "\n"), "\n");
  const paragraphs = lines.replace(/^\n+/, "").split(/\n[ \t]*\n\s*/);
  if (paragraphs.length === 1) {
    out.textContent = paragraphs[0].replaceAll("\n", " ");
    return out.innerHTML;
  }
  for (const paragraph of paragraphs) {
    const element = document.createElement("p");
    element.textContent = paragraph.replaceAll("\n", " ");
    out.append(element);
  }
  return out.innerHTML;
}

class Cleaner {
  leftOut = 0;

  /**
   * @param {HTMLElement} root
   * @param {Map<string, HTMLElement[]>} things
   */
  constructor(root, things) {
    this.root = root;
    this.things = things;
  }

  /**
   * @param {Node} from
   * @param {Element} to
   */
  copy(from, to) {
    for (const node of from.childNodes) {
      if (node.nodeType === 3) to.append(/** @type {Text} */ (node).data.replace(/[\n\t\r]+/g, " "));
      else if (node.nodeType === 1) this.#element(/** @type {HTMLElement} */ (node), to);
    }
  }

  /**
   * @param {HTMLElement} element
   * @param {Element} to
   */
  #element(element, to) {
    const name = element.localName;
    const isLink = name === "a" && /^(?:https?|ftp):\/\/|^\.\//i.test(element.getAttribute("href") ?? "");
    const same = SAME[name];
    const isStyle = same === "b" || same === "i";
    if (element.hasAttribute("data-thing")) this.#thing(element, to);
    else if (LEFT_OUT.has(name)) return;
    else if (isLink) this.#link(element, to);
    else if (same && !(isStyle && isPlain(element, same))) this.#same(element, to);
    else if (BOXES.has(name)) this.#box(element, to);
    else this.#styled(element, to);
  }

  /**
   * A template or reference: one that was cut out moves, others can't be copied.
   * @param {HTMLElement} element
   * @param {Element} to
   */
  #thing(element, to) {
    const elements = this.things.get(element.getAttribute("id") ?? "") ?? [];
    const isCut = elements.length > 0 && !elements.some((each) => this.root.contains(each));
    if (isCut) to.append(...elements.map((each) => each.cloneNode(true)));
    else if (element.hasAttribute("about") && !element.hasAttribute("id")) return;
    else if ((element.textContent ?? "") !== "") to.append(element.textContent ?? "");
    else this.leftOut += 1;
  }

  /**
   * @param {HTMLElement} element
   * @param {Element} to
   */
  #link(element, to) {
    const href = element.getAttribute("href") ?? "";
    const link = document.createElement("a");
    link.setAttribute("rel", href.startsWith("./") ? "mw:WikiLink" : "mw:ExtLink");
    link.setAttribute("href", href);
    this.copy(element, link);
    to.append(link);
  }

  /**
   * @param {HTMLElement} element
   * @param {Element} to
   */
  #same(element, to) {
    const copy = document.createElement(SAME[element.localName]);
    this.copy(element, copy);
    to.append(copy);
  }

  /**
   * A box with text alone is a paragraph.
   * @param {HTMLElement} element
   * @param {Element} to
   */
  #box(element, to) {
    if (element.querySelector(BLOCKS) !== null) {
      this.copy(element, to);
      return;
    }
    const paragraph = document.createElement("p");
    this.copy(element, paragraph);
    if ((paragraph.textContent ?? "").trim() !== "") to.append(paragraph);
  }

  /**
   * @param {HTMLElement} element
   * @param {Element} to
   */
  #styled(element, to) {
    let into = to;
    for (const name of [...(saysBold(element) ? ["b"] : []), ...(saysItalic(element) ? ["i"] : [])]) {
      const inner = document.createElement(name);
      into.append(inner);
      into = inner;
    }
    this.copy(element, into);
  }
}
