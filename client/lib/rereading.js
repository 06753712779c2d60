// @ts-check
/** Reading a page of which an earlier state was read: what is written the same isn't read again. */

import { HtmlRefused, Part, escaped, readBlocks } from "./markup.js";

/**
 * @typedef {{html: string, page: Part, start: number, end: number}} State  a document, its body, and where
 *   the inside of that begins and ends
 */

/** The end of a section, as the program writes it. */
const SECTION_END = "</section>";

/**
 * @param {string} html
 * @param {State} before
 * @returns {{body: Part, start: number, end: number} | null} what `readPage` answers; the blocks in front of
 *   the first one that differs and behind the last are those of the earlier state. Null where what stands
 *   round the body's inside differs, or the sections do
 */
export function readAgain(html, before) {
  const { start, page } = before;
  const foot = before.html.slice(before.end);
  const end = html.length - foot.length;
  if (end < start || !html.startsWith(before.html.slice(0, start)) || !html.endsWith(foot)) return null;
  try {
    const children = insideAgain(html, page.children, start, end);
    return { body: new Part(page.name, page.attributes, children), start, end };
  } catch (error) {
    if (error instanceof HtmlRefused) return null; // it is read whole, and refused there if it is to be
    throw error;
  }
}

/**
 * The inside of the body or of a section.
 * @param {string} html
 * @param {(Part | string)[]} children  what stood in it
 * @param {number} start
 * @param {number} end
 * @returns {(Part | string)[]}
 */
function insideAgain(html, children, start, end) {
  let [front, from] = [0, start];
  for (; front < children.length && standsAt(html, from, children[front]); front += 1) {
    from += writtenOf(children[front]).length;
  }
  let [behind, to] = [children.length, end];
  for (; behind > front; behind -= 1) {
    const place = to - writtenOf(children[behind - 1]).length;
    if (place < from || !standsAt(html, place, children[behind - 1])) break;
    to = place;
  }
  const others = children.slice(front, behind);
  const middle = sectionAgain(html, others, from, to) ?? readBlocks(html, from, to);
  return [...children.slice(0, front), ...middle, ...children.slice(behind)];
}

/**
 * @param {string} html
 * @param {(Part | string)[]} were  what stood where the HTML is read
 * @param {number} from
 * @param {number} to
 * @returns {Part[] | null} the section that stands there, where one of the same number stood there alone
 */
function sectionAgain(html, were, from, to) {
  const [was] = were;
  if (were.length !== 1 || typeof was === "string" || was.name !== "section") return null;
  const head = was.written.slice(0, was.written.indexOf(">") + 1);
  const [start, end] = [from + head.length, to - SECTION_END.length];
  if (end < start || !html.startsWith(head, from) || !html.startsWith(SECTION_END, end)) return null;
  const section = new Part(was.name, was.attributes, insideAgain(html, was.children, start, end));
  section.written = html.slice(from, to);
  return [section];
}

/**
 * @param {Part | string} child
 * @returns {string} how the program wrote it
 */
function writtenOf(child) {
  return typeof child === "string" ? escaped(child) : child.written;
}

/**
 * Whether a child of the body or a section stands at a place, whole: a text between two tags. (No text or
 * attribute that the program writes has a bare `<` or `>`, so what begins and ends as an element does is
 * one.)
 * @param {string} html
 * @param {number} place
 * @param {Part | string} child
 */
function standsAt(html, place, child) {
  const written = writtenOf(child);
  const end = place + written.length;
  if (written === "" || html.slice(place, end) !== written) return false; // `startsWith` takes much longer
  return typeof child !== "string" || (html[place - 1] === ">" && html[end] === "<");
}
