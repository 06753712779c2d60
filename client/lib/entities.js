// @ts-check
/** Entities of the page in which letters were typed. */

import { Part } from "./markup.js";

/** @typedef {(Part | string)[]} Pieces */

/**
 * What stands in an entity, with the entity itself in place of its character.
 * @param {Pieces} pieces
 * @param {string} character
 * @param {Part} entity
 * @returns {Pieces | null} null where the character isn't there
 */
export function withEntity(pieces, character, entity) {
  for (const [at, piece] of pieces.entries()) {
    const isText = typeof piece === "string";
    const inside = isText ? cutAt(piece, character, entity) : withEntity(piece.children, character, entity);
    if (inside === null) continue;
    const put = isText ? inside : [new Part(piece.name, piece.attributes, inside)];
    return [...pieces.slice(0, at), ...put, ...pieces.slice(at + 1)];
  }
  return null;
}

/**
 * @param {string} text
 * @param {string} character
 * @param {Part} entity
 * @returns {Pieces | null} the text with the entity for its character; null where that isn't there
 */
function cutAt(text, character, entity) {
  const at = character === "" ? -1 : text.indexOf(character);
  if (at < 0) return null;
  return [text.slice(0, at), entity, text.slice(at + character.length)].filter((piece) => piece !== "");
}
