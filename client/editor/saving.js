// @ts-check
/** Saving: what would change is shown before it is stored; a refusal shows its place and what to do. */

import { readAhead, save } from "../bughtiso.js";
import { Ahead } from "./ahead.js";
import { elementAt } from "./blocks.js";
import { ServerRefused, page as readPage, pageThen, revisionOf, store } from "./server.js";
import { shownDiff } from "./diff.js";
import { layOver } from "./overlay.js";
import { sentenceFor } from "./sentences.js";

/**
 * @template {HTMLElement} T
 * @param {string} id
 * @returns {T}
 */
const byId = (id) => /** @type {T} */ (/** @type {unknown} */ (document.getElementById(id)));

const WAITING = "The server is asked…";

/**
 * @typedef {{title: string, root: HTMLElement, html: () => string, etag: () => string, say: (text: string) =>
 *   void, saved: (state: State) => void, bookmark: () => () => void}} Page  `html`: the page as it was
 *   opened, `etag`: the name of this state of it, `saved`: takes the state that is stored
 */
/**
 * @typedef {{html: string, etag: string, read?: ReturnType<typeof readAhead>}} State  of a page; `read`: its
 *   HTML where it was read ahead
 */

export class Saving {
  /** @param {Page} page */
  constructor(page) {
    this.page = page;
    this.button = /** @type {HTMLButtonElement} */ (byId("save"));
    this.dialog = /** @type {HTMLDialogElement} */ (byId("changes"));
    this.refusal = byId("refusal");
    /** What is shown in the dialog, and what the server said of it. */
    this.document = "";
    /** @type {import("./server.js").Preview | null} */
    this.answer = null;
    /**
     * The state that it leads to, which is fetched and read while the changes are looked at; null where that
     * went wrong.
     * @type {Promise<State | null>}
     */
    this.coming = Promise.resolve(null);
    /**
     * An edit that was given to be stored, of which no answer came, and the revision that it makes.
     * @type {{document: string, revision: number} | null}
     */
    this.unanswered = null;
    this.isBusy = false;
    this.ahead = new Ahead(page.title, () => {
      if (this.isLocked) return null;
      return { html: page.html(), etag: page.etag(), written: () => save(page.root) };
    });
    /**
     * The element that a refusal is about.
     * @type {Element | null}
     */
    this.place = null;
    /**
     * Puts the caret back to where it was.
     * @type {() => void}
     */
    this.restore = () => undefined;
    layOver(this.dialog, () => this.restore());
    this.button.addEventListener("click", () => this.preview());
    byId("changes-save").addEventListener("click", () => this.#store());
    byId("refusal-close").addEventListener("click", () => (this.clear(), this.restore()));
    byId("refusal-show").addEventListener("click", () => this.#goToPlace());
  }

  /** Whether nothing in the text may change: the server is asked, or what would be stored is shown. */
  get isLocked() {
    return this.isBusy || this.dialog.open;
  }

  /** Shows what would change. */
  async preview() {
    if (this.isBusy || document.querySelector("dialog[open]") !== null) return;
    this.clear();
    this.restore = this.page.bookmark();
    this.document = save(this.page.root);
    if (this.document === this.page.html()) {
      this.page.say("Nothing was changed.");
      return;
    }
    await this.#busy(async () => {
      if (await this.#isStored()) return this.page.say("The page is saved.");
      const answer = await this.ahead.preview(this.document, this.page.etag());
      this.answer = answer;
      if (!answer.changed) return this.page.say("Nothing would change in the page's source.");
      const longer = answer.bytes_after - answer.bytes_before;
      const way = longer > 0 ? "longer" : "shorter";
      const much = longer === 0 ? "as long as before" : `${Math.abs(longer)} bytes ${way}`;
      byId("changes-size").textContent = `The source will be ${much}. Nothing else in it changes.`;
      byId("changes-diff").replaceChildren(...shownDiff(answer.diff));
      this.dialog.show();
      this.coming = this.#readThen(answer.prepared);
    });
    if (!this.dialog.open && this.refusal.hidden) this.restore();
  }

  /**
   * @param {string} prepared  the word of a preview
   * @returns {Promise<State | null>}
   */
  async #readThen(prepared) {
    try {
      const state = await pageThen(this.page.title, prepared);
      await idle();
      return this.isLocked ? { ...state, read: readAhead(state.html, this.page.root) } : null;
    } catch {
      return null; // it is asked for again once the edit is stored
    }
  }

  async #store() {
    let isStored = false;
    const asking = this.#busy(async () => {
      const { prepared, revision } = /** @type {import("./server.js").Preview} */ (this.answer);
      this.unanswered = { document: this.document, revision };
      const etag = await store(this.page.title, prepared, this.document, this.page.etag());
      const coming = await this.coming;
      this.page.saved(coming?.etag === etag ? coming : await readPage(this.page.title));
      this.unanswered = null;
      isStored = true;
    });
    this.dialog.close();
    await asking;
    if (!isStored) return;
    this.page.root.focus({ preventScroll: true });
    this.page.say("The page is saved.");
  }

  /**
   * Whether this edit was stored before, and its answer lost, as where the server was ended meanwhile.
   * @returns {Promise<boolean>}
   */
  async #isStored() {
    const lost = this.unanswered;
    if (lost === null || lost.document !== this.document) return false;
    const state = await readPage(this.page.title);
    this.unanswered = null;
    if (revisionOf(state.etag) !== lost.revision) return false;
    this.page.saved(state);
    return true;
  }

  /**
   * Asks the server for something; until it has answered nothing can be typed, which else would be neither
   * shown nor stored.
   * @param {() => Promise<void>} action
   */
  async #busy(action) {
    this.#setBusy(true);
    this.page.say(WAITING);
    try {
      await action();
      if (byId("status").textContent === WAITING) this.page.say("");
    } catch (error) {
      this.page.say("");
      if (!(error instanceof ServerRefused)) throw error;
      if (error.status >= 400 && error.status < 500) this.unanswered = null;
      this.#setBusy(false);
      this.#showRefusal(error);
    } finally {
      this.#setBusy(false);
    }
  }

  /** @param {boolean} isBusy */
  #setBusy(isBusy) {
    this.isBusy = isBusy;
    this.button.disabled = isBusy;
  }

  /** @param {ServerRefused} refused */
  #showRefusal(refused) {
    const isStale = refused.status === 412;
    this.place = this.#find(refused.node);
    this.place?.setAttribute("data-refused", "");
    byId("refusal-sentence").textContent = sentenceFor(refused);
    byId("refusal-detail").textContent = refused.line || refused.error;
    byId("refusal-show").hidden = this.place === null;
    const newer = /** @type {HTMLAnchorElement} */ (byId("refusal-newer"));
    newer.hidden = !isStale;
    newer.href = `/editor/${encodeURIComponent(this.page.title)}`;
    this.refusal.hidden = false;
    this.refusal.focus();
    this.place?.scrollIntoView({ block: "center" });
  }

  /**
   * @param {string} node  an id of the program or a selector in the body
   * @returns {Element | null}
   */
  #find(node) {
    if (node === "") return null;
    const root = this.page.root;
    try {
      return /^mw\d+$/.test(node) ? root.querySelector(`[id="${node}"]`) : elementAt(root, node);
    } catch {
      return null;
    }
  }

  #goToPlace() {
    if (this.place === null) return;
    this.place.scrollIntoView({ block: "center" });
    this.page.root.focus({ preventScroll: true });
    document.getSelection()?.collapse(this.place, 0);
  }

  /** Takes a refusal off. */
  clear() {
    this.refusal.hidden = true;
    this.place?.removeAttribute("data-refused");
    this.place = null;
  }
}

/** @returns {Promise<void>} when the browser has drawn what is to be shown, and nothing is typed */
export function idle() {
  return new Promise((done) => {
    if ("requestIdleCallback" in window) requestIdleCallback(() => done(), { timeout: 500 });
    else setTimeout(done, 50);
  });
}
