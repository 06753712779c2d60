// @ts-check
/** What a refusal means to a person who edits, and what to do: docs/editing.md has each refusal's cause. */

const UNDO = "Undo takes it back (Ctrl+Z).";

/** @type {Record<string, string>} */
const BY_NAME = {
  InTemplate: "This part comes from a template or function: change it there or in the page's source. " + UNDO,
  Moved: `A template, a reference or a table would be in another block: that can't be saved yet. ${UNDO}`,
  UnknownId: "This was pasted from another page and can't be written here. " + UNDO,
  RepeatedId: `This is a copy of something that can't be written twice, such as a template or a reference. ${UNDO}`,
  UnmarkedChange:
    `So far this can only be changed in the page's source (an item with a list, a table's rows). ${UNDO}`,
  NotEditable: "So far this can only be changed in the page's source. " + UNDO,
  BadContent: "A paragraph can't hold this. " + UNDO,
  "BadContent Element": "A paragraph, an item or a cell can't hold this here. " + UNDO,
  "BadContent Href": "This is no address and no title: change where the link leads, or remove the link.",
  "BadContent LineBreak": "There can be no line break here: use a space.",
  "BadContent Nested": "A link can't hold a link: remove one of them.",
  "BadContent EmptyList": "A list can't lose all its items yet. " + UNDO,
  Tangled:
    `This paragraph can only be edited as source: its source begins or ends in its neighbours. ${UNDO}`,
  NewPageTooLong: "The page is too long: remove something.",
  NewExpansion: "The page takes too many templates or functions: remove some.",
  Unspelled: "This can't be written so that it shows the same. Write it in another way, or undo it (Ctrl+Z).",
  HtmlRefused: "This text can't be sent as it is. " + UNDO,
  ElementDoesNotFit: "This can't be here. " + UNDO,
};

const STALE =
  "This page was changed in the meantime. Your text is still here: " +
  "open the newer page in a new tab, and make your change there.";

/**
 * @param {import("./server.js").ServerRefused} refused
 * @returns {string}
 */
export function sentenceFor(refused) {
  if (refused.status === 412) return STALE;
  return BY_NAME[`${refused.error} ${refused.why}`] ?? BY_NAME[refused.error] ?? refused.sentence;
}
