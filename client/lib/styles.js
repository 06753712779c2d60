// @ts-check
/** Bold and italic text: what an attribute `style` says of it, and where a new style stands. */

import { CELLS, ITEMS, LINES, isBlank, isBlock, isHiddenName } from "./kinds.js";
import { Part } from "./markup.js";
import { Original } from "./original.js";
import { append, isLineBreak, tidy } from "./texts.js";

/**
 * @param {Element} element
 * @returns {boolean | null} whether its text is bold; null where the style doesn't say it
 */
export function saysBold(element) {
  const value = declared(element, "font-weight");
  if (/^(?:bold|bolder)$/.test(value)) return true;
  if (/^(?:normal|lighter)$/.test(value)) return false;
  return /^\d+(?:\.\d+)?$/.test(value) ? Number(value) >= 600 : null;
}

/**
 * @param {Element} element
 * @returns {boolean | null} whether its text is italic; null where the style doesn't say it
 */
export function saysItalic(element) {
  const value = declared(element, "font-style");
  if (/^(?:italic|oblique)\b/.test(value)) return true;
  return value === "normal" ? false : null;
}

/**
 * Whether a `b` or an `i` that an editor made shows no style of its own: other programs put `b` with a normal
 * weight round all that they copy.
 * @param {Element} element
 * @param {string} name  `b` or `i`
 */
export function isPlain(element, name) {
  return (name === "b" ? saysBold(element) : saysItalic(element)) === false;
}

/**
 * The value of a property, the last one where there are several. Properties whose names only end so, as
 * `mso-bidi-font-weight`, are others.
 * @param {Element} element
 * @param {string} property
 * @returns {string} in small letters; empty where there is none
 */
function declared(element, property) {
  let value = "";
  for (const declaration of (element.getAttribute("style") ?? "").toLowerCase().split(";")) {
    const [name, ...rest] = declaration.split(":");
    if (name.trim() === property) value = rest.join(":").replace(/!\s*important/, "").trim();
  }
  return value;
}

/**
 * What a style that an editor made stands round. Where blocks are among it the style is in each of them that
 * holds text, since no style goes from one block to another in wikitext.
 * @param {(Part | string)[]} pieces
 * @param {string} name  of the style
 * @param {Original | undefined} original
 * @returns {(Part | string)[]}
 */
export function styledPieces(pieces, name, original) {
  /** @type {(Part | string)[]} */
  const out = [];
  /** @type {(Part | string)[]} */
  let line = [];
  const close = () => {
    if (line.every(showsNothing)) out.push(...line);
    else out.push(new Part(name, new Map(), without(line, name)));
    line = [];
  };
  for (const piece of pieces) {
    if (typeof piece === "string" || !isBlock(piece)) {
      line.push(piece);
      continue;
    }
    close();
    out.push(styledBlock(piece, name, original));
  }
  close();
  return out;
}

/**
 * @param {Part} block
 * @param {string} name  of a style
 * @param {Original | undefined} original
 * @returns {Part} the block with the style in it; groups, rules and preformatted text stay as they are
 */
function styledBlock(block, name, original) {
  if (block.attributes.has("about") || block.name === "pre") return block;
  const { children } = block;
  if (LINES.has(block.name) || ITEMS.has(block.name) || CELLS.has(block.name)) {
    const styled = styledPieces(children, name, original);
    return tidy(new Part(block.name, new Map(block.attributes), styled), original);
  }
  const inside = children.map((child) =>
    typeof child === "string" ? child : styledBlock(child, name, original),
  );
  return new Part(block.name, new Map(block.attributes), inside);
}

/** @param {Part | string} piece */
function showsNothing(piece) {
  return typeof piece === "string" ? isBlank(piece) : isLineBreak(piece) || isHiddenName(piece.name);
}

/**
 * @param {(Part | string)[]} pieces
 * @param {string} name  of a style, which is in none of them afterwards
 * @returns {(Part | string)[]}
 */
function without(pieces, name) {
  /** @type {(Part | string)[]} */
  const out = [];
  for (const piece of pieces) {
    const isOne = typeof piece === "string" || piece.attributes.has("about");
    const inside = isOne ? [] : without(piece.children, name);
    if (isOne) append(out, piece);
    else if (piece.name !== name) out.push(new Part(piece.name, piece.attributes, inside));
    else for (const inner of inside) append(out, inner);
  }
  return out;
}

/** @param {(Part | string)[]} pieces */
export function hasBlocks(pieces) {
  return pieces.some((piece) => typeof piece !== "string" && isBlock(piece));
}
