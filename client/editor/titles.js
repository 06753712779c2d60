// @ts-check
/** The search over titles. */

/**
 * The titles that hold a text, without regard to case; those that begin with it come first.
 * @param {string[]} titles
 * @param {string} text
 * @returns {string[]}
 */
export function matching(titles, text) {
  const wanted = folded(text);
  if (wanted === "") return titles;
  const found = titles.filter((title) => folded(title).includes(wanted));
  const begins = (/** @type {string} */ title) => folded(title).startsWith(wanted);
  return [...found.filter(begins), ...found.filter((title) => !begins(title))];
}

/** @param {string} text */
function folded(text) {
  return text.trim().replaceAll("_", " ").toLowerCase();
}
