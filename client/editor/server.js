// @ts-check
/** What the editor asks of the server. */

/** The server didn't do what was asked. */
export class ServerRefused extends Error {
  /**
   * @param {{error: string, status: number, sentence: string, why?: string | null, line?: string | null,
   *   node?: string | null, path?: string | null}} answer
   */
  constructor(answer) {
    super(`${answer.error}: ${answer.sentence}`);
    this.name = "ServerRefused";
    /** The refusal's name, as `InTemplate`. */
    this.error = answer.error;
    /** The status of HTTP; 0 where no answer came. */
    this.status = answer.status;
    /** Its reason, as `Href`; empty where it has none. */
    this.why = answer.why ?? "";
    /** What to do. */
    this.sentence = answer.sentence;
    /** What the program wrote. */
    this.line = answer.line ?? "";
    /** The node's `id`, or a selector of it in the body; empty where it is no node's. */
    this.node = answer.node ?? answer.path ?? "";
  }
}

/**
 * @template T
 * @param {Promise<T>} coming
 * @returns {Promise<T>}
 */
async function reached(coming) {
  try {
    return await coming;
  } catch {
    const sentence = "The server can't be reached. Your text is still here: try again when it runs.";
    throw new ServerRefused({ error: "Unreachable", status: 0, sentence });
  }
}

/**
 * @param {string} path
 * @param {RequestInit} [options]
 * @returns {Promise<{text: string, etag: string}>} the answer, whole
 */
async function ask(path, options) {
  const response = await reached(fetch(path, { cache: "no-store", ...options }));
  const etag = response.headers.get("ETag") ?? "";
  if (response.ok) return { text: await reached(response.text()), etag };
  const answer = await response.json().catch(() => ({}));
  throw new ServerRefused({
    error: `Status ${response.status}`,
    sentence: "The server refused this.",
    ...answer,
    status: response.status,
  });
}

/** @returns {Promise<string[]>} the titles of the folder's pages */
export async function titles() {
  return JSON.parse((await ask("/titles")).text).titles;
}

/**
 * Of elements' data its HTML has what tells a source alone, and no places, which the editor doesn't need: so
 * what wasn't changed is written the same after a save.
 */
const SHAPE = "data_parsoid=sources&offsetType=none";

/** In which form it is given back. */
const FORM = { mended: true, offsetType: "none" };

/**
 * @param {string} title
 * @returns {Promise<{html: string, etag: string}>} a page, and the name of this state of it
 */
export async function page(title) {
  const { text, etag } = await ask(`/localhost/v3/page/html/${encodeURIComponent(title)}?${SHAPE}`);
  return { html: text, etag };
}

/**
 * @param {string} title
 * @param {string} query
 * @param {string} etag
 * @param {object} body
 * @returns {Promise<any>}
 */
async function give(title, query, etag, body) {
  const headers = { "Content-Type": "application/json", "If-Match": etag };
  const path = `/save/${encodeURIComponent(title)}${query}`;
  return JSON.parse((await ask(path, { method: "POST", headers, body: JSON.stringify(body) })).text);
}

/**
 * @typedef {{changed: boolean, diff: string, bytes_before: number, bytes_after: number, revision: number,
 *   prepared: string}} Preview `prepared`: the word with which it is stored; `revision`: the number that the
 *   page has then
 */

/**
 * Asks what an edit would change.
 * @param {string} title
 * @param {string} html  as `save` of the module writes it, without marks
 * @param {string} etag  of the page that was opened
 * @param {string} [instead]  the word of an edit that won't be stored
 * @returns {Promise<Preview>}
 */
export function preview(title, html, etag, instead) {
  return give(title, "?preview=1", etag, { html, ...FORM, instead });
}

/**
 * Asks again what an edit would change, now.
 * @param {string} title
 * @param {string} prepared  the word of its preview
 * @param {string} etag  of the page that was opened
 * @returns {Promise<Preview | null>} null where the server has forgotten it
 */
export async function previewAgain(title, prepared, etag) {
  try {
    return await give(title, "?preview=1", etag, { prepared });
  } catch (error) {
    if (!(error instanceof ServerRefused) || error.error !== "NotPrepared") throw error;
    return null;
  }
}

/**
 * Asks for the page as it will be once an edit that was shown is stored.
 * @param {string} title
 * @param {string} prepared  the word of its preview
 * @returns {Promise<{html: string, etag: string}>}
 */
export async function pageThen(title, prepared) {
  const { text, etag } = await ask(`/prepared/${encodeURIComponent(title)}/${prepared}?${SHAPE}`);
  return { html: text, etag };
}

/**
 * Stores an edit.
 * @param {string} title
 * @param {string} prepared  the word of its preview
 * @param {string} html  the same edit, where the server has forgotten it
 * @param {string} etag  of the page that was opened
 * @returns {Promise<string>} the name of the page's state that is stored then
 */
export async function store(title, prepared, html, etag) {
  try {
    return (await give(title, "", etag, { prepared })).etag;
  } catch (error) {
    if (!(error instanceof ServerRefused) || error.error !== "NotPrepared") throw error;
    return (await give(title, "", etag, { html, ...FORM })).etag;
  }
}

/**
 * @param {string} etag
 * @returns {number} the revision of a page that has this name
 */
export function revisionOf(etag) {
  return Number(/^(?:W\/)?"(\d+)\//.exec(etag)?.[1] ?? -1);
}
