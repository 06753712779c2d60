// @ts-check
/** What is mended in the texts of a block that an editor changed. */

import { Part } from "./markup.js";
import { Kept, Original, PUT_SIGNS } from "./original.js";
import { CELLS, ITEMS, isBlank, isBlock, isHiddenName, isIsland, isMark } from "./kinds.js";

/**
 * Puts a piece at the end; texts that meet become one.
 * @param {(Part | string)[]} pieces
 * @param {Part | string} piece
 */
export function append(pieces, piece) {
  if (piece === "") return;
  const last = pieces.length - 1;
  if (typeof piece === "string" && typeof pieces[last] === "string") pieces[last] += piece;
  else pieces.push(piece);
}

/**
 * @param {Part | string} piece
 * @returns {boolean} a line break that an editor made
 */
export function isLineBreak(piece) {
  return typeof piece !== "string" && piece.name === "br" && piece.number === 0;
}

/**
 * Whether nothing but white space and the line break that a browser puts into an empty block stands there.
 * @param {(Part | string)[]} pieces
 */
export function isEmpty(pieces) {
  return pieces.filter((piece) => !(typeof piece === "string" && isBlank(piece))).every(isLineBreak);
}

/**
 * Whether nothing but line breaks that an editor made stands there.
 * @param {(Part | string)[]} pieces
 */
export function isBare(pieces) {
  return pieces.every((piece) => piece === "" || isLineBreak(piece));
}

/**
 * Whether nothing in it is mended.
 * @param {Part} part
 */
function isLeaf(part) {
  const value = (/** @type {string} */ name) => part.value(name);
  return isHiddenName(part.name) || isIsland(value) || value("typeof") !== "";
}

/**
 * Mends a block with text whose inside isn't that of the page: the line break at its end, which shows
 * nothing; blanks at its ends, no-break spaces, carriage returns and line breaks that the page hadn't there;
 * and line breaks that it had before comments and include tags.
 * @param {Part} block
 * @param {Original | undefined} original
 * @returns {Part} the block
 */
export function tidy(block, original) {
  const kept = original?.nodes.get(block.number);
  if (kept === undefined && block.number !== 0) return block;
  if (kept !== undefined && isSame(block, kept.part)) return block;
  const end = block.children.findIndex((piece) => typeof piece !== "string" && isBlock(piece));
  const lead = end < 0 ? block.children : block.children.slice(0, end);
  dropLastBreak(lead, end >= 0);
  const was = kept?.part.text ?? "";
  new Texts(was, block.text, original).mend(block, lead);
  trimEdges(block, lead, kept, was);
  block.children = [...lead.filter((piece) => piece !== ""), ...(end < 0 ? [] : block.children.slice(end))];
  const holdsBlocks = ITEMS.has(block.name) || CELLS.has(block.name);
  if (kept !== undefined && holdsBlocks) block.children = withLines(block.children, kept.part.children);
  if (kept !== undefined && block.name === "p") block.children = withCommentLines(block.children, kept.part.children);
  return block;
}

/**
 * What an item or a cell holds, each comment and include tag of it on a line of its own if it was on one:
 * with the text before it a browser takes away the line break, which nobody sees.
 * @param {(Part | string)[]} now
 * @param {(Part | string)[]} was
 */
function withLines(now, was) {
  const numbers = onLines(was);
  /** @type {(Part | string)[]} */
  const out = [];
  for (const piece of now) {
    if (typeof piece !== "string" && numbers.has(piece.number) && !endsLine(out.at(-1))) append(out, "\n");
    append(out, piece);
  }
  return out;
}

/**
 * What a paragraph holds, where the line break before a comment line is gone, as where the words on both sides of it
 * were joined: the comment comes before the line in which it would be, for it ends with a line break of its own.
 * @param {(Part | string)[]} now
 * @param {(Part | string)[]} was
 */
function withCommentLines(now, was) {
  const numbers = commentLines(was);
  if (numbers.size === 0) return now;
  /** @type {(Part | string)[]} */
  const out = [];
  /** @type {(Part | string)[]} the line that is begun, and before it the comments that were in it */
  let line = [];
  /** @type {Part[]} */
  let comments = [];
  const isMoved = (/** @type {Part | string | undefined} */ piece) => piece !== undefined && piece === comments.at(-1);
  const end = () => {
    for (const piece of [...comments, ...line]) append(out, piece);
    line = [];
    comments = [];
  };
  now.forEach((piece, at) => {
    if (typeof piece === "string") {
      const start = piece.lastIndexOf("\n") + 1;
      append(line, piece.slice(0, start));
      if (start > 0) end();
      append(line, piece.slice(start));
    } else if (numbers.has(piece.number) && (isMoved(now[at - 1]) || !endsLine(now[at - 1]))) {
      comments.push(piece);
    } else {
      line.push(piece);
    }
  });
  end();
  return out;
}

/**
 * @param {(Part | string)[]} pieces
 * @returns {Set<number>} the numbers of the comments on lines of their own: they end with a line break
 */
function commentLines(pieces) {
  const numbers = onLines(pieces);
  for (const piece of pieces) {
    if (typeof piece === "string" || !numbers.has(piece.number)) continue;
    const { src } = JSON.parse(piece.value("data-parsoid") || "{}");
    if (typeof src !== "string" || !src.endsWith("\n")) numbers.delete(piece.number);
  }
  return numbers;
}

/**
 * @param {(Part | string)[]} pieces
 * @returns {Set<number>} the numbers of the comments and include tags that come directly after a line break
 */
function onLines(pieces) {
  const numbers = new Set();
  let isOnLine = false;
  for (const piece of pieces) {
    if (typeof piece === "string") isOnLine = endsLine(piece);
    else if (!isMark(piece)) isOnLine = false;
    else if (isOnLine && piece.number !== 0) numbers.add(piece.number);
  }
  return numbers;
}

/**
 * Whether a comment or an include tag that comes after this piece is on a line of its own still, or after
 * another one.
 * @param {Part | string | undefined} piece
 */
function endsLine(piece) {
  if (piece === undefined) return false;
  return typeof piece === "string" ? withoutEnd(piece, " \t").endsWith("\n") : isMark(piece);
}

/**
 * Whether two elements are the same, inside too.
 * @param {Part} now
 * @param {Part} was
 * @returns {boolean}
 */
export function isSame(now, was) {
  if (now.name !== was.name || now.children.length !== was.children.length) return false;
  for (const [name, value] of was.attributes) {
    if (now.value(name) !== value && name !== "data-parsoid" && name !== "data-mw") return false;
  }
  return now.children.every((child, at) => {
    const other = was.children[at];
    return typeof child === "string" || typeof other === "string" ? child === other : isSame(child, other);
  });
}

/**
 * @param {(Part | string)[]} lead  the pieces of a block before any block in it
 * @param {boolean} isBeforeBlock
 */
function dropLastBreak(lead, isBeforeBlock) {
  let last = lead.length - 1;
  while (last >= 0 && isBlankText(lead[last])) last -= 1;
  if (last < 0 || !isLineBreak(lead[last])) return;
  lead.splice(last, 1);
  if (!isBeforeBlock) lead.splice(last);
}

/** @param {Part | string} piece */
function isBlankText(piece) {
  return typeof piece === "string" && isBlank(piece);
}

/**
 * Takes blanks off a block's ends where the page's block has none there.
 * @param {Part} block
 * @param {(Part | string)[]} lead
 * @param {Kept | undefined} kept
 * @param {string} was
 */
function trimEdges(block, lead, kept, was) {
  if (block.name === "pre") return;
  if (typeof lead[0] === "string" && !/^[ \t\n]/.test(was)) lead[0] = lead[0].replace(/^[ \t\n]+/, "");
  const last = lead.length - 1;
  const isItemWithList = ITEMS.has(block.name) && lead.length < block.children.length;
  const text = lead[last];
  if (typeof text !== "string" || isItemWithList || kept?.isInline === false) return;
  if (!/[ \t\n]$/.test(was)) lead[last] = withoutEnd(text, " \t\n");
}

/**
 * A text without what stands at its end, in time in proportion, which a pattern for it wouldn't take.
 * @param {string} text
 * @param {string} signs  each that goes
 */
export function withoutEnd(text, signs) {
  let end = text.length;
  while (end > 0 && signs.includes(text[end - 1])) end -= 1;
  return text.slice(0, end);
}

/**
 * A text without blanks at the ends of its lines but the last.
 * @param {string} text
 */
function withoutTrails(text) {
  const lines = text.split("\n");
  return lines.map((line, at) => (at < lines.length - 1 ? withoutEnd(line, " \t") : line)).join("\n");
}

const PUT = new RegExp(`\r\n|${PUT_SIGNS.source}`, "g");

/**
 * What becomes of signs that browsers and editors put; of others nothing.
 * @type {Record<string, string>}
 */
const MENDED = { "\r": "\n", "\u00a0": " ", "\v": " ", "\f": " " };

/**
 * The texts of a block beside those that the page has. Before and behind what was changed the page's white
 * space is put back: browsers put no-break spaces for blanks, and blanks for line breaks, next to what is
 * typed.
 */
class Texts {
  /**
   * @param {string} was
   * @param {string} now
   * @param {Original | undefined} original
   */
  constructor(was, now, original) {
    const most = Math.min(was.length, now.length);
    let back = 0;
    while (back < most && isSameSign(was[was.length - 1 - back], now[now.length - 1 - back])) back += 1;
    let front = 0;
    while (front < most - back && isSameSign(was[front], now[front])) front += 1;
    this.was = was;
    this.now = now;
    this.original = original;
    this.from = front;
    this.to = now.length - back;
    /** How much longer the text has become. */
    this.longer = now.length - was.length;
    /** Where in the block's text the next piece begins. */
    this.at = 0;
    /** The signs that the page has in what was changed. */
    this.signs = new Set(was.slice(front, was.length - back).match(PUT_SIGNS));
  }

  /**
   * @param {Part} block
   * @param {(Part | string)[]} lead
   */
  mend(block, lead) {
    this.#pieces(lead, block.name === "p" || block.name === "pre", false);
    if (block.name !== "p") return;
    const split = lead.flatMap(splitAtLines);
    lead.length = 0;
    for (const piece of split) lead.push(piece); // there may be more than a call takes
    const hasIndents = /\n[ \t]/.test(this.was);
    const hasTrails = /[ \t]\n/.test(this.was);
    lead.forEach((piece, at) => {
      if (typeof piece !== "string") return;
      const mended = hasIndents ? piece : piece.replace(/\n[ \t]+/g, "\n");
      lead[at] = hasTrails ? mended : withoutTrails(mended);
    });
  }

  /**
   * @param {(Part | string)[]} pieces
   * @param {boolean} isParagraph  whether line breaks may stand among them
   * @param {boolean} isNew  whether they stand in a new element that holds no line breaks
   */
  #pieces(pieces, isParagraph, isNew) {
    pieces.forEach((piece, at) => {
      if (typeof piece === "string") {
        const mended = this.#text(piece, isParagraph);
        pieces[at] = isNew ? mended.replaceAll("\n", " ") : mended;
      } else if (isLeaf(piece)) {
        this.at += piece.text.length;
      } else {
        const isSplit = isParagraph && isNewStyle(piece);
        this.#pieces(piece.children, isSplit, isNew || (piece.number === 0 && !isSplit));
      }
    });
  }

  /**
   * @param {string} text
   * @param {boolean} isParagraph
   * @returns {string}
   */
  #text(text, isParagraph) {
    const start = this.at;
    const end = (this.at += text.length);
    const from = Math.min(Math.max(this.from, start), end);
    const to = Math.min(Math.max(this.to, from), end);
    const front = this.was.slice(start, from);
    const back = this.was.slice(to - this.longer, end - this.longer);
    return front + this.#typed(from, to, isParagraph) + back;
  }

  /**
   * @param {number} from  where what was typed or pasted begins in the block's text
   * @param {number} to
   * @param {boolean} isParagraph
   */
  #typed(from, to, isParagraph) {
    const mended = this.now.slice(from, to).replace(PUT, (found, at) =>
      this.#isOfPage(from + at) ? found : MENDED[found[0]] ?? "",
    );
    return isParagraph ? mended.replace(/\n(?:[ \t]*\n)+/g, "\n") : mended.replace(/\n+/g, " ");
  }

  /**
   * Whether a sign stays: the page has one in what was changed, or between the same characters anywhere, as
   * where the text was moved into a new block.
   * @param {number} at  where it stands in the block's text
   */
  #isOfPage(at) {
    if (this.signs.has(this.now[at])) return true;
    return this.original?.hasSign(this.now.slice(Math.max(at - 1, 0), at + 2)) ?? false;
  }
}

/**
 * @param {Part | string} piece
 * @returns {boolean} bold or italic that an editor made
 */
function isNewStyle(piece) {
  return typeof piece !== "string" && piece.number === 0 && (piece.name === "b" || piece.name === "i");
}

/**
 * The lines of a text, with a line break between two of them, and without the blanks beside it.
 * @param {string} text
 * @returns {string[]}
 */
function linesAndBreaks(text) {
  const [first, ...others] = withoutTrails(text).split("\n");
  return [first, ...others.flatMap((line) => ["\n", line.replace(/^[ \t]+/, "")])];
}

/**
 * Bold and italic end with a line in wikitext: what an editor made over several lines of a paragraph begins
 * anew on each.
 * @param {Part | string} piece
 * @returns {(Part | string)[]}
 */
function splitAtLines(piece) {
  if (typeof piece === "string" || !isNewStyle(piece)) return [piece];
  const inner = piece.children.flatMap((child) =>
    typeof child === "string" ? linesAndBreaks(child) : splitAtLines(child),
  );
  /** @type {(Part | string)[]} */
  const out = [];
  let line = new Part(piece.name, new Map(piece.attributes));
  const close = () => {
    if (line.children.length > 0) out.push(line);
    line = new Part(piece.name, new Map(piece.attributes));
  };
  for (const child of inner) {
    if (child === "\n") close(), append(out, child);
    else append(line.children, child);
  }
  close();
  return out;
}

/**
 * Whether a character of the page is the same now, or is white space for which a browser put a blank.
 * @param {string} was
 * @param {string} now
 */
function isSameSign(was, now) {
  return was === now || ((now === " " || now === "\u00a0") && (was === " " || was === "\n" || was === "\t"));
}
