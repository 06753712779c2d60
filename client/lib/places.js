// @ts-check
/**
 * What stands where no page can have it, as text behind a list in an item or a row without a table, is put
 * where it may stand. Groups stay where they are.
 */

import { Part } from "./markup.js";
import { Original } from "./original.js";
import { CELLS, ITEMS, LINES, LISTS, isBlank, isBlock, isHiddenName } from "./kinds.js";
import { append, isLineBreak, tidy } from "./texts.js";

/** @typedef {(Part | string)[]} Pieces */

const IN_CELL = new Set([...LINES, ...LISTS, "hr", "pre", "table"]);
const IN_BODY = new Set([...IN_CELL, "section"]);

export class Places {
  /** @param {Original | undefined} original  the page as it was, whose own parts aren't looked into */
  constructor(original) {
    this.original = original;
  }

  /**
   * Puts what is in an element where it may be.
   * @param {Part} part
   * @returns {Part} the element
   */
  fit(part) {
    const { name } = part;
    if (isGroup(part) || this.original?.nodes.get(part.number)?.part === part) return part;
    if (name === "body" || name === "section") part.children = this.#blocks(part.children, IN_BODY);
    else if (LISTS.has(name)) part.children = this.#items(part.children, name);
    else if (ITEMS.has(name)) part.children = this.#item(part.children);
    else if (CELLS.has(name)) part.children = this.#cell(part.children);
    else if (name === "table") part.children = this.#table(part.children);
    else if (name === "tbody") part.children = this.#filled(part.children, new Set(["tr"]), "tbody", "tr");
    else if (name === "tr") part.children = this.#filled(part.children, new Set(["td", "th"]), "tr", "td");
    return part;
  }

  /**
   * @param {string} name
   * @param {Pieces} pieces
   */
  #new(name, pieces) {
    return this.fit(tidy(new Part(name, new Map(), pieces), this.original));
  }

  /**
   * Blocks: text among them is a new paragraph, and a block that may not stand there is its inside.
   * @param {Pieces} pieces
   * @param {Set<string>} mayBe  names of those that may stand there
   * @returns {Pieces}
   */
  #blocks(pieces, mayBe) {
    /** @type {Pieces} */
    const out = [];
    /** @type {Pieces} */
    let line = [];
    const close = () => {
      if (line.some((piece) => isShown(piece, mayBe === IN_BODY))) out.push(this.#new("p", line));
      else for (const piece of line) if (!isLineBreak(piece)) append(out, asSeparator(piece));
      line = [];
    };
    for (const piece of pieces) {
      if (typeof piece === "string" || !isBlock(piece)) {
        line.push(piece);
        continue;
      }
      close();
      if (mayBe.has(piece.name) || isGroup(piece)) out.push(this.fit(piece));
      else for (const inner of this.#blocks(piece.children, mayBe)) out.push(inner);
    }
    close();
    return out;
  }

  /**
   * Items of a list, each of its kind.
   * @param {Pieces} pieces
   * @param {string} list  the list's name
   * @returns {Pieces}
   */
  #items(pieces, list) {
    const kinds = list === "dl" ? ["dd", "dt"] : ["li"];
    const items = pieces.map((piece) => {
      if (typeof piece === "string" || isGroup(piece)) return piece;
      const isOther = ITEMS.has(piece.name) && !kinds.includes(piece.name);
      return isOther ? new Part(kinds[0], new Map(), piece.children) : piece;
    });
    return this.#filled(items, new Set(kinds), list, kinds[0]);
  }

  /**
   * An item: text behind a list in it is an indented line behind that list.
   * @param {Pieces} pieces
   * @returns {Pieces}
   */
  #item(pieces) {
    const begin = pieces.findIndex((piece) => typeof piece !== "string" && LISTS.has(piece.name));
    if (begin < 0) return pieces;
    const out = pieces.slice(0, begin);
    /** @type {Pieces} */
    let line = [];
    const close = () => {
      if (line.some((piece) => isShown(piece, false))) {
        const list = out[out.length - 1];
        const indented = this.#new("dd", withoutBreaks(line));
        if (typeof list !== "string" && isNamed(list, "dl")) {
          out[out.length - 1] = new Part("dl", new Map(list.attributes), [...list.children, indented]);
        } else {
          out.push(new Part("dl", new Map(), [indented]));
        }
      } else {
        for (const piece of line) if (!isLineBreak(piece)) append(out, piece);
      }
      line = [];
    };
    for (const piece of pieces.slice(begin)) {
      if (typeof piece === "string" || !LISTS.has(piece.name)) {
        line.push(piece);
        continue;
      }
      close();
      out.push(this.fit(piece));
    }
    close();
    return out;
  }

  /**
   * A cell: text behind a block in it is a new paragraph.
   * @param {Pieces} pieces
   * @returns {Pieces}
   */
  #cell(pieces) {
    const begin = pieces.findIndex((piece) => typeof piece !== "string" && isBlock(piece));
    return begin < 0 ? pieces : [...pieces.slice(0, begin), ...this.#blocks(pieces.slice(begin), IN_CELL)];
  }

  /**
   * A table: all its rows are in one `tbody`, that of the page where it is there.
   * @param {Pieces} pieces
   * @returns {Pieces}
   */
  #table(pieces) {
    const mayStand = new Set(["caption", "tbody"]);
    const held = pieces.filter((piece) => !isFree(piece, mayStand) && !isNamed(piece, "caption"));
    const bodies = /** @type {Part[]} */ (held.filter((piece) => isNamed(piece, "tbody")));
    let body = bodies.find((part) => part.number !== 0) ?? bodies[0] ?? new Part("tbody");
    if (held.length > 1 || bodies.length === 0) {
      const rows = held.flatMap((piece) =>
        typeof piece !== "string" && isNamed(piece, "tbody") ? piece.children : [piece],
      );
      body = new Part("tbody", new Map(body.attributes), rows);
    }
    this.fit(body);
    const holds = new Set(held);
    /** @type {Pieces} */
    const out = [];
    let isPut = false;
    for (const piece of pieces) {
      if (typeof piece !== "string" && isNamed(piece, "caption")) out.push(this.fit(piece));
      else if (!holds.has(piece)) append(out, asSeparator(piece));
      else if (!isPut) isPut = out.push(body) > 0;
    }
    return out;
  }

  /**
   * Items, rows or cells: what is none is in a new one.
   * @param {Pieces} pieces
   * @param {Set<string>} mayBe  names of those that may stand there
   * @param {string} outer  the name of what holds them; one in another is its inside
   * @param {string} name  of a new one
   * @returns {Pieces}
   */
  #filled(pieces, mayBe, outer, name) {
    /** @type {Pieces} */
    const out = [];
    /** @type {Pieces} */
    let inside = [];
    const close = () => {
      if (inside.length > 0) out.push(this.#new(name, inside));
      inside = [];
    };
    for (const piece of pieces) {
      const isOuter = isNamed(piece, outer);
      const isFit = isFree(piece, mayBe) || isOuter || (typeof piece !== "string" && mayBe.has(piece.name));
      if (!isFit || isOfGroup(piece, inside[inside.length - 1])) {
        inside.push(piece);
        continue;
      }
      close();
      if (typeof piece === "string" || isFree(piece, mayBe)) out.push(asSeparator(piece));
      else if (!isOuter) out.push(this.fit(piece));
      else for (const inner of this.#filled(piece.children, mayBe, outer, name)) out.push(inner);
    }
    close();
    return out;
  }
}

/** @param {Part} part */
function isGroup(part) {
  return part.attributes.has("about");
}

/**
 * @param {Part | string} piece
 * @param {string} name
 * @returns {boolean} whether it is an element of this name and no group
 */
function isNamed(piece, name) {
  return typeof piece !== "string" && piece.name === name && !isGroup(piece);
}

/**
 * Whether a piece is a further element of the group before it.
 * @param {Part | string} piece
 * @param {Part | string | undefined} before
 */
function isOfGroup(piece, before) {
  if (typeof piece === "string" || before === undefined || typeof before === "string") return false;
  return isGroup(piece) && !piece.attributes.has("data-mw") && piece.value("about") === before.value("about");
}

/**
 * Whether a piece may stand where it is without being looked into: blanks, what shows nothing, a group of a
 * kind that may be there.
 * @param {Part | string} piece
 * @param {Set<string>} mayBe  names of elements that may be there
 */
function isFree(piece, mayBe) {
  if (typeof piece === "string") return isBlank(piece);
  return isHiddenName(piece.name) || (isGroup(piece) && (mayBe.has(piece.name) || !isLine(piece)));
}

/**
 * Whether a group is one that shows something and begins here; one that shows nothing is an empty `span`,
 * which may be anywhere.
 * @param {Part} part
 */
function isLine(part) {
  return part.attributes.has("data-mw") && (part.name !== "span" || part.children.length > 0);
}

/**
 * Whether a piece of text needs a block.
 * @param {Part | string} piece
 * @param {boolean} isInBody  where the page may have an inline group by itself
 */
function isShown(piece, isInBody) {
  if (typeof piece === "string") return !isBlank(piece);
  if (isGroup(piece)) return !isInBody && isLine(piece);
  return !isHiddenName(piece.name) && !isLineBreak(piece);
}

/**
 * Blanks as they may stand between blocks.
 * @param {Part | string} piece
 */
function asSeparator(piece) {
  return typeof piece === "string" ? piece.replace(/[^ \t\n\r]/g, " ") : piece;
}

/**
 * A line without the blanks and the line breaks in front of it.
 * @param {Pieces} line
 */
function withoutBreaks(line) {
  const begin = line.findIndex((piece) => !(typeof piece === "string" ? isBlank(piece) : isLineBreak(piece)));
  return line.slice(begin);
}
