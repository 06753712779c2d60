// @ts-check
/**
 * The HTML that the program writes and reads: its reader, its writer, and the tree between them. The grammar
 * is that of "The HTML that is read" in docs/profile.md; a document as the program writes it comes back byte
 * for byte.
 */

/** An element without its own surroundings. */
export class Part {
  /**
   * @param {string} name  in small letters
   * @param {Map<string, string>} [attributes]  in the order in which they are written
   * @param {(Part | string)[]} [children]  elements and texts
   */
  constructor(name, attributes = new Map(), children = []) {
    this.name = name;
    this.attributes = attributes;
    this.children = children;
    /** How the program wrote it, of a block that was read and not changed; else empty. */
    this.written = "";
  }

  /**
   * A copy, also of what stands in it, to be changed.
   * @returns {Part}
   */
  copy() {
    const children = this.children.map((child) => (typeof child === "string" ? child : child.copy()));
    return new Part(this.name, new Map(this.attributes), children);
  }

  /**
   * @param {string} name
   * @returns {string} the attribute's value; empty where it isn't there
   */
  value(name) {
    return this.attributes.get(name) ?? "";
  }

  /** The number of the page's node that it stands for, 0 where there is none. */
  get number() {
    return numberOf(this.value("id"));
  }

  /**
   * All texts in it, one after the other.
   * @returns {string}
   */
  get text() {
    return this.children.map((child) => (typeof child === "string" ? child : child.text)).join("");
  }

  /** @returns {Part[]} */
  get parts() {
    return /** @type {Part[]} */ (this.children.filter((child) => typeof child !== "string"));
  }
}

/**
 * The number in an `id` of the program, as `mw12`; 0 of any other.
 * @param {string | null} id
 * @returns {number}
 */
export function numberOf(id) {
  if (id === null || id.length > 12 || !id.startsWith("mw")) return 0;
  let number = 0;
  for (let at = 2; at < id.length; at += 1) {
    const digit = id.charCodeAt(at) - 48;
    if (digit < 0 || digit > 9 || (digit === 0 && at === 2)) return 0;
    number = 10 * number + digit;
  }
  return number <= 0xffffffff ? number : 0;
}

/** The HTML isn't what the program writes. */
export class HtmlRefused extends Error {
  /**
   * @param {number} place  where, in UTF-16 units from the beginning
   * @param {string} why  what is wrong there
   */
  constructor(place, why) {
    super(`html refused at ${place}: ${why}`);
    this.name = "HtmlRefused";
    this.place = place;
  }
}

const VOID = new Set(["br", "hr", "meta", "link", "base"]);
const DOCTYPE = /[ \t\r\n]*(?:<!doctype html>)?[ \t\r\n]*/iy;
const START =
  /<([a-z][a-z0-9]*)((?:[ \t\r\n]+[a-z0-9:-]+[ \t\r\n]*=[ \t\r\n]*(?:"[^"]*"|'[^']*'))*)[ \t\r\n]*(\/?)>/y;
const END = /<\/([a-z][a-z0-9]*)[ \t\r\n]*>/y;
const ATTRIBUTE = /([a-z0-9:-]+)[ \t\r\n]*=[ \t\r\n]*(?:"([^"]*)"|'([^']*)')/g;
const ESCAPE = /&(?:(amp|lt|gt|quot|apos|nbsp);|#([0-9]{1,7});|#x([0-9a-fA-F]{1,6});)?/g;
const NAMED = { amp: "&", lt: "<", gt: ">", quot: '"', apos: "'", nbsp: "\u00a0" };

/**
 * @param {string} text
 * @param {number} place
 * @returns {string}
 */
function unescaped(text, place) {
  if (!text.includes("&")) return text;
  return text.replace(ESCAPE, (all, name, decimal, hexadecimal, offset) => {
    if (name) return NAMED[/** @type {keyof NAMED} */ (name)];
    const code = decimal ? parseInt(decimal, 10) : parseInt(hexadecimal, 16);
    const isScalar = code <= 0x10ffff && (code < 0xd800 || code > 0xdfff);
    if (!isScalar) throw new HtmlRefused(place + offset, "no escape");
    return String.fromCodePoint(code);
  });
}

/**
 * @param {string} written  all attributes of a tag
 * @param {number} place  the tag's
 */
function readAttributes(written, place) {
  /** @type {Map<string, string>} */
  const attributes = new Map();
  ATTRIBUTE.lastIndex = 0;
  for (let found = ATTRIBUTE.exec(written); found !== null; found = ATTRIBUTE.exec(written)) {
    if (attributes.has(found[1])) throw new HtmlRefused(place, `${found[1]} comes twice`);
    attributes.set(found[1], unescaped(found[2] ?? found[3], place));
  }
  return attributes;
}

/** Elements whose children are the page's blocks. */
const HOLD_BLOCKS = new Set(["body", "section"]);

/** Reads a document or a part of it, piece after piece. */
class Reader {
  /** Where the inside of the body begins and ends. */
  inside = { start: 0, end: 0 };

  /**
   * @param {string} html
   * @param {number} place  where it begins to read
   * @param {Part} top  what is read stands in it; without a name it is the document
   */
  constructor(html, place, top) {
    this.html = html;
    this.place = place;
    this.top = top;
    /** The open elements, the innermost last. */
    this.stack = [top];
    /** Where each of them begins. */
    this.starts = [place];
  }

  /** @param {number} end  where no piece stands over */
  readTo(end) {
    while (this.place < end) {
      if (this.html[this.place] !== "<") this.text();
      else if (this.html[this.place + 1] === "/") this.end();
      else this.start();
    }
  }

  get parent() {
    return this.stack[this.stack.length - 1];
  }

  text() {
    const end = this.html.indexOf("<", this.place);
    const text = this.html.slice(this.place, end < 0 ? this.html.length : end);
    if (this.parent.name !== "") this.parent.children.push(unescaped(text, this.place));
    else if (/[^ \t\r\n]/.test(text)) throw new HtmlRefused(this.place, "text outside the document");
    this.place += text.length;
  }

  end() {
    END.lastIndex = this.place;
    const end = END.exec(this.html);
    if (end === null || this.parent === this.top) throw new HtmlRefused(this.place, "no end tag");
    const { name } = this.parent;
    if (end[1] !== name) throw new HtmlRefused(this.place, `the end of ${name} is missing`);
    if (name === "body") this.inside.end = this.place;
    this.place = END.lastIndex;
    const part = /** @type {Part} */ (this.stack.pop());
    this.#close(part, /** @type {number} */ (this.starts.pop()));
  }

  start() {
    START.lastIndex = this.place;
    const start = START.exec(this.html);
    if (start === null) throw new HtmlRefused(this.place, "no tag");
    const part = new Part(start[1], readAttributes(start[2], this.place));
    const begin = this.place;
    this.parent.children.push(part);
    this.place = START.lastIndex;
    if (part.name === "body") this.inside.start = this.place;
    if (VOID.has(part.name)) {
      this.#close(part, begin);
      return;
    }
    if (start[3]) throw new HtmlRefused(begin, `${part.name} can't close itself`);
    this.stack.push(part);
    this.starts.push(begin);
  }

  /**
   * @param {Part} part  whose end was read
   * @param {number} start
   */
  #close(part, start) {
    if (HOLD_BLOCKS.has(this.parent.name)) part.written = this.html.slice(start, this.place);
  }
}

/**
 * Reads a document.
 * @param {string} html
 * @returns {{root: Part, start: number, end: number}} its root element, and where the inside of a body begins
 *   and ends
 */
export function read(html) {
  DOCTYPE.lastIndex = 0;
  DOCTYPE.exec(html);
  const reader = new Reader(html, DOCTYPE.lastIndex, new Part(""));
  reader.readTo(html.length);
  const [root, ...others] = reader.top.parts;
  if (reader.parent !== reader.top || root === undefined || others.length > 0) {
    throw new HtmlRefused(html.length, "no whole document");
  }
  return { root, ...reader.inside };
}

/**
 * Reads a document of a page.
 * @param {string} html
 * @returns {{body: Part, start: number, end: number}} its body, and where the inside of that begins and ends
 */
export function readPage(html) {
  const { root, start, end } = read(html);
  const body = root.parts.find((part) => part.name === "body");
  if (root.name !== "html" || body === undefined) throw new HtmlRefused(0, "no html with a body");
  return { body, start, end };
}

/**
 * Reads blocks of a document that stand side by side in its body.
 * @param {string} html
 * @param {number} start  where the first of them begins
 * @param {number} end  where the last one ends
 * @returns {(Part | string)[]}
 */
export function readBlocks(html, start, end) {
  const reader = new Reader(html, start, new Part("body"));
  reader.readTo(end);
  if (reader.parent !== reader.top || reader.place !== end) throw new HtmlRefused(end, "a block is cut off");
  return reader.top.children;
}

const TEXT_SIGNS = /[&<>\u0000-\u0008\u000b-\u001f\ud800-\udfff]/;
const TEXT_SIGN = /[&<>\u0000-\u0008\u000b-\u001f]|[\ud800-\udbff][\udc00-\udfff]|[\ud800-\udfff]/g;

/** @param {string} sign  a character, or half of one */
function escapedSign(sign) {
  if (sign.length === 2) return sign;
  switch (sign) {
    case "&":
      return "&amp;";
    case "<":
      return "&lt;";
    case ">":
      return "&gt;";
    default:
      return sign >= "\ud800" ? "\ufffd" : `&#${sign.charCodeAt(0)};`;
  }
}

/**
 * @param {string} text
 * @returns {string} as it is written
 */
export function escaped(text) {
  return TEXT_SIGNS.test(text) ? text.replace(TEXT_SIGN, escapedSign) : text;
}

/**
 * @param {string} name
 * @param {string} value
 */
function attributeText(name, value) {
  return name === "data-mw" || name === "data-parsoid"
    ? ` ${name}='${escaped(value).replaceAll("'", "&#39;")}'`
    : ` ${name}="${escaped(value).replaceAll('"', "&quot;")}"`;
}

/**
 * @param {Part | string} child
 * @param {string[]} out
 */
function writeChild(child, out) {
  if (typeof child === "string") {
    out.push(escaped(child));
    return;
  }
  if (child.written !== "") {
    out.push(child.written);
    return;
  }
  out.push("<", child.name);
  for (const [name, value] of child.attributes) out.push(attributeText(name, value));
  if (VOID.has(child.name)) {
    out.push("/>");
    return;
  }
  out.push(">");
  for (const inner of child.children) writeChild(inner, out);
  out.push("</", child.name, ">");
}

/**
 * Writes the document with this body.
 * @param {Part} body
 * @returns {string}
 */
export function write(body) {
  const out = ['<!DOCTYPE html><html><head><meta charset="utf-8"/></head>'];
  writeChild(body, out);
  out.push("</html>");
  return out.join("");
}
