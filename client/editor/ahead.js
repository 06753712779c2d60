// @ts-check
/**
 * Asks ahead what an edit of a long page would change, once nothing was typed for a while, so that it is
 * shown without a wait. What was asked ahead is shown only of exactly the same document, and the server looks
 * again whether the page is still the one that was edited.
 */

import { preview, previewAgain } from "./server.js";

/** @typedef {import("./server.js").Preview} Preview */

/** Nothing was typed for so long. */
const QUIET_MILLISECONDS = 1000;

/** Of shorter pages the answer comes at once. */
const LONG_HTML = 300_000;

export class Ahead {
  /** @type {ReturnType<typeof setTimeout> | undefined} */
  #timer = undefined;

  /**
   * What was asked last, of which state of the page, and the answer; null where it was refused.
   * @type {{document: string, etag: string, answer: Promise<Preview | null>} | null}
   */
  #asked = null;

  #isAsking = false;

  /**
   * @param {string} title
   * @param {() => {html: string, etag: string, written: () => string} | null} state  the page as it was
   *   opened, and what writes the edit of it; null while it can't be edited
   */
  constructor(title, state) {
    this.title = title;
    this.state = state;
  }

  /** Something was changed. */
  changed() {
    clearTimeout(this.#timer);
    this.#timer = setTimeout(() => this.#ask(), QUIET_MILLISECONDS);
  }

  async #ask() {
    if (this.#isAsking) return this.changed();
    const state = this.state();
    if (state === null || state.html.length < LONG_HTML) return;
    const [document, { etag }] = [state.written(), state];
    if (document === state.html || (this.#asked?.document === document && this.#asked.etag === etag)) return;
    this.#isAsking = true;
    const before = (await this.#asked?.answer)?.prepared;
    const answer = preview(this.title, document, etag, before).catch(() => null);
    this.#asked = { document, etag, answer };
    await answer;
    this.#isAsking = false;
  }

  /**
   * @param {string} document
   * @param {string} etag
   * @returns {Promise<Preview>} what an edit would change
   */
  async preview(document, etag) {
    clearTimeout(this.#timer);
    const asked = this.#asked;
    const isSame = asked?.document === document && asked.etag === etag;
    const early = isSame ? await asked.answer : null;
    const answer = early && (await previewAgain(this.title, early.prepared, etag));
    return answer ?? preview(this.title, document, etag);
  }
}
