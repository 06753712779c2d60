// @ts-check
/** As much of a DOM as `open`, `renew` and `save` need: the module's tests run where no other DOM is. */

class SmallNode {
  /**
   * @param {SmallDocument} ownerDocument
   * @param {number} nodeType
   */
  constructor(ownerDocument, nodeType) {
    this.ownerDocument = ownerDocument;
    this.nodeType = nodeType;
  }
}

class SmallText extends SmallNode {
  constructor(ownerDocument, data) {
    super(ownerDocument, 3);
    this.data = data;
  }

  get textContent() {
    return this.data;
  }
}

class SmallComment extends SmallNode {
  constructor(ownerDocument, data) {
    super(ownerDocument, 8);
    this.data = data;
  }

  get textContent() {
    return "";
  }
}

class SmallElement extends SmallNode {
  constructor(ownerDocument, localName) {
    super(ownerDocument, 1);
    this.localName = localName;
    this.childNodes = [];
    this.values = new Map();
  }

  get attributes() {
    return [...this.values].map(([name, value]) => ({ name, value }));
  }

  get children() {
    return this.childNodes.filter((node) => node.nodeType === 1);
  }

  get textContent() {
    return this.childNodes.map((node) => node.textContent).join("");
  }

  getAttribute(name) {
    return this.values.get(name) ?? null;
  }

  getAttributeNames() {
    return [...this.values.keys()];
  }

  hasAttribute(name) {
    return this.values.has(name);
  }

  setAttribute(name, value) {
    this.values.set(name, String(value));
  }

  removeAttribute(name) {
    this.values.delete(name);
  }

  appendChild(node) {
    this.childNodes.push(node);
    return node;
  }

  insertBefore(node, behind) {
    const at = behind === null ? this.childNodes.length : this.childNodes.indexOf(behind);
    if (at < 0) throw new Error("what it is to stand before isn't there");
    this.childNodes.splice(at, 0, node);
    return node;
  }

  removeChild(node) {
    const at = this.childNodes.indexOf(node);
    if (at < 0) throw new Error("it isn't there");
    this.childNodes.splice(at, 1);
    return node;
  }

  replaceChildren(...nodes) {
    this.childNodes = nodes.flatMap((node) => (node.nodeType === 11 ? node.childNodes : [node]));
  }

  /** Knows selectors of attributes alone: `[name]` and `[name="value"]`. */
  querySelectorAll(selector) {
    const [, name, value] = /^\[([a-z-]+)(?:="([^"]*)")?\]$/.exec(selector);
    return this.children.flatMap((child) => {
      const fits = child.hasAttribute(name) && (value === undefined || child.getAttribute(name) === value);
      return [...(fits ? [child] : []), ...child.querySelectorAll(selector)];
    });
  }

  querySelector(selector) {
    return this.querySelectorAll(selector)[0] ?? null;
  }
}

export class SmallDocument {
  constructor() {
    this.nodeType = 9;
    this.body = new SmallElement(this, "body");
    this.implementation = { createHTMLDocument: () => new SmallDocument() };
  }

  createElement(name) {
    return new SmallElement(this, name);
  }

  createDocumentFragment() {
    const fragment = new SmallElement(this, "");
    fragment.nodeType = 11;
    return fragment;
  }

  createTextNode(data) {
    return new SmallText(this, data);
  }

  createComment(data) {
    return new SmallComment(this, data);
  }
}
