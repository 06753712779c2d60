// @ts-check
/**
 * White space of paragraphs that HTML doesn't show and wikitext can't hold: empty lines, and blanks at the
 * ends of lines. An editor leaves it where it takes out what stood beside it.
 */

import { Part } from "./markup.js";
import { Original } from "./original.js";
import { append, withoutEnd } from "./texts.js";

/** @typedef {(Part | string)[]} Pieces */

/**
 * Of the paragraphs in a mended part, changed in place. Those of a page that isn't known stay as they are,
 * and those in which the page has an empty line.
 * @param {Part} part
 * @param {Original | undefined} original
 */
export function dropEmptyLines(part, original) {
  for (const child of part.parts) {
    const kept = original?.nodes.get(child.number);
    if (child.attributes.has("about") || kept?.part === child) continue; // nothing in it was changed
    const were = kept?.part.children ?? [];
    if (child.name !== "p") dropEmptyLines(child, original);
    else if (kept === undefined ? child.number === 0 : !hasEmptyLines(were)) {
      child.children = withoutEmptyLines(child.children, were);
    }
  }
}

/** @param {Pieces} pieces */
function hasEmptyLines(pieces) {
  return shownLines(pieces).length < linesOf(pieces).length;
}

/**
 * What stands in a paragraph, without empty lines and without blanks at the ends of its lines. Such blanks
 * stay where the page's paragraph has some.
 * @param {Pieces} pieces
 * @param {Pieces} were  what stood in the page's paragraph
 * @returns {Pieces}
 */
function withoutEmptyLines(pieces, were) {
  const hasSome = (/** @type {RegExp} */ blanks) =>
    were.some((piece) => typeof piece === "string" && blanks.test(piece));
  const hasIndents = hasSome(/\n[ \t]/);
  const hasTrails = hasSome(/[ \t]\n/);
  const lines = shownLines(pieces);
  /** @type {Pieces} */
  const out = [];
  lines.forEach((line, at) => {
    if (at > 0) append(out, "\n");
    const last = line.length - 1;
    if (!(at > 0 ? hasIndents : beginsBlank(were[0]))) line[0] = withoutIndent(line[0]);
    if (!(at < lines.length - 1 ? hasTrails : endsBlank(were[were.length - 1]))) {
      line[last] = withoutTrail(line[last]);
    }
    for (const piece of line) append(out, piece);
  });
  return out;
}

/**
 * The lines of a paragraph that aren't empty. Comments that are alone on a line between others, which
 * wikitext doesn't count as one, come before the next line. Any other element has a place in the source, also
 * one that shows nothing.
 * @param {Pieces} pieces
 * @returns {Pieces[]}
 */
function shownLines(pieces) {
  /** @type {Pieces[]} */
  const shown = [];
  /** @type {Pieces} */
  let comments = [];
  for (const line of linesOf(pieces)) {
    if (!line.every(isNothing)) {
      shown.push([...comments, ...line]);
      comments = [];
    } else if (line.every((piece) => typeof piece === "string")) {
      continue;
    } else if (shown.length > 0) {
      for (const piece of line) comments.push(piece);
    } else {
      shown.push(line);
    }
  }
  return comments.length > 0 ? [...shown, comments] : shown;
}

/**
 * @param {Pieces} pieces
 * @returns {Pieces[]} each has a piece at least
 */
function linesOf(pieces) {
  /** @type {Pieces} */
  let line = [];
  const lines = [line];
  for (const piece of pieces) {
    if (typeof piece !== "string") {
      line.push(piece);
      continue;
    }
    const [first, ...others] = piece.split("\n");
    line.push(first);
    for (const text of others) lines.push((line = [text]));
  }
  return lines;
}

/**
 * Whether a piece is blanks or a comment.
 * @param {Part | string} piece
 */
function isNothing(piece) {
  return typeof piece === "string" ? /^[ \t]*$/.test(piece) : piece.value("typeof") === "mw:Comment";
}

/** @param {Part | string | undefined} piece */
function beginsBlank(piece) {
  return typeof piece === "string" && /^[ \t\n]/.test(piece);
}

/** @param {Part | string | undefined} piece */
function endsBlank(piece) {
  return typeof piece === "string" && /[ \t\n]$/.test(piece);
}

/**
 * @param {Part | string} piece
 * @returns {Part | string} a text without the blanks at its beginning
 */
function withoutIndent(piece) {
  return typeof piece === "string" ? piece.replace(/^[ \t]+/, "") : piece;
}

/**
 * @param {Part | string} piece
 * @returns {Part | string} a text without the blanks at its end
 */
function withoutTrail(piece) {
  return typeof piece === "string" ? withoutEnd(piece, " \t") : piece;
}
