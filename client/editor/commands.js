// @ts-check
/** What the toolbar and the keys do with the text. */

import { History } from "./history.js";
import { askForLink } from "./link_dialog.js";

/** A link that the browser has just made. */
const NEW_LINK = "#new-link-of-the-editor";

/** @type {Record<string, string>} */
const KEYS = { b: "bold", i: "italic", k: "link", z: "undo", y: "redo" };

export class Commands {
  /**
   * @param {HTMLElement} root  the text
   * @param {History} history
   * @param {(text: string) => void} say
   */
  constructor(root, history, say) {
    this.root = root;
    this.history = history;
    this.say = say;
    /**
     * What was last selected in the text.
     * @type {Range | null}
     */
    this.range = null;
    this.buttons = /** @type {NodeListOf<HTMLButtonElement>} */ (document.querySelectorAll("[data-command]"));
    this.block = /** @type {HTMLSelectElement} */ (document.getElementById("block"));
    for (const button of this.buttons) {
      button.addEventListener("mousedown", (event) => event.preventDefault());
      button.addEventListener("click", () => this.run(button.dataset.command ?? ""));
    }
    this.block.addEventListener("pointerdown", () => (this.isByPointer = true));
    this.block.addEventListener("keydown", () => (this.isByPointer = false));
    this.block.addEventListener("change", () => this.#chooseBlock());
    document.addEventListener("selectionchange", () => this.show());
    root.addEventListener("keydown", (event) => this.#key(event));
    this.#rememberSelection();
  }

  /** Keeps the selection in the text while another control has the focus. */
  #rememberSelection() {
    document.addEventListener("selectionchange", () => {
      const selection = document.getSelection();
      const isHere = selection?.rangeCount && this.root.contains(selection.anchorNode);
      if (isHere) this.range = selection.getRangeAt(0).cloneRange();
    });
  }

  /** Puts the focus, and where the selection left the text the last one there, back into it. */
  focus() {
    const { range } = this;
    const selection = document.getSelection();
    const isHere = document.activeElement === this.root && this.root.contains(selection?.anchorNode ?? null);
    if (isHere) return;
    this.root.focus({ preventScroll: true });
    if (range === null || !this.root.contains(range.startContainer)) return;
    selection?.removeAllRanges();
    selection?.addRange(range);
  }

  /**
   * Remembers the selection while a dialog is open.
   * @returns {() => void} puts it back, and the focus
   */
  bookmark() {
    this.focus();
    const selection = document.getSelection();
    const range = selection?.rangeCount ? selection.getRangeAt(0).cloneRange() : null;
    return () => {
      this.root.focus({ preventScroll: true });
      if (range === null || !this.root.contains(range.startContainer)) return;
      selection?.removeAllRanges();
      selection?.addRange(range);
    };
  }

  /** @param {KeyboardEvent} event */
  #key(event) {
    if (!(event.ctrlKey || event.metaKey) || event.altKey) return;
    const key = event.key.toLowerCase();
    const command = key === "z" && event.shiftKey ? "redo" : KEYS[key];
    if (command === undefined) {
      if (key === "u") event.preventDefault();
      return;
    }
    event.preventDefault();
    this.run(command);
  }

  /** @param {string} command */
  run(command) {
    if (command === "undo" || command === "redo") {
      this.history[command]();
      this.show();
      return;
    }
    this.focus();
    if (command === "link") this.#link();
    else this.history.step(() => document.execCommand(command));
    this.show();
  }

  /** Whoever chooses by keys stays in the list. */
  #chooseBlock() {
    this.#formatBlock(this.block.value);
    if (this.isByPointer === false) this.block.focus();
  }

  /** @param {string} name */
  #formatBlock(name) {
    if (name === "") return;
    this.focus();
    if (this.#isIn("li,dt,dd,td,th,caption")) {
      this.say("A list or a table can't hold a heading.");
      this.show();
      return;
    }
    this.history.step(() => document.execCommand("formatBlock", false, name));
    this.show();
  }

  /** Shows in the toolbar what the selection is. */
  show() {
    const selection = document.getSelection();
    const isHere = Boolean(selection?.anchorNode && this.root.contains(selection.anchorNode));
    for (const button of this.buttons) {
      const command = button.dataset.command ?? "";
      if (command === "undo") button.disabled = !this.history.canUndo;
      else if (command === "redo") button.disabled = !this.history.canRedo;
      else if (isHere) button.setAttribute("aria-pressed", String(this.#isOn(command)));
    }
    if (isHere) this.block.value = this.#blockName();
  }

  /** @param {string} command */
  #isOn(command) {
    return command === "link" ? this.#isIn("a") : document.queryCommandState(command);
  }

  #blockName() {
    const name = this.#closest("p,h1,h2,h3,h4,h5,h6,li,dt,dd,td,th,caption")?.localName ?? "";
    return /^(?:p|h[1-6])$/.test(name) ? name : "";
  }

  /**
   * @param {string} selector
   * @returns {Element | null} the nearest such element round the caret, in the text
   */
  #closest(selector) {
    const node = document.getSelection()?.focusNode ?? null;
    const element = node?.nodeType === 1 ? /** @type {Element} */ (node) : node?.parentElement ?? null;
    const found = element?.closest(selector) ?? null;
    return found !== null && found !== this.root && this.root.contains(found) ? found : null;
  }

  /** @param {string} selector */
  #isIn(selector) {
    return this.#closest(selector) !== null;
  }

  async #link() {
    const link = /** @type {HTMLAnchorElement | null} */ (this.#closest("a"));
    const selection = document.getSelection();
    if (!selection?.rangeCount) return;
    const text = selection.toString();
    const hasText = link !== null || text.trim() !== "";
    const href = link?.getAttribute("href") ?? text.trim();
    const restore = this.bookmark();
    const wish = await askForLink({ href, text: "", isLink: link !== null, hasText });
    restore();
    if (wish === null) return;
    this.history.step(() => {
      if (wish === "remove") unwrap(/** @type {Element} */ (link));
      else if (link !== null) setTarget(link, wish);
      else if (hasText) this.#linkSelection(wish);
      else this.#insertLink(wish);
    });
    this.show();
  }

  /** @param {{href: string, rel: string}} target */
  #linkSelection(target) {
    document.execCommand("createLink", false, NEW_LINK);
    for (const link of this.root.querySelectorAll(`a[href="${NEW_LINK}"]`)) setTarget(link, target);
  }

  /** @param {{href: string, rel: string, text: string}} wish */
  #insertLink(wish) {
    const range = document.getSelection()?.getRangeAt(0);
    if (range === undefined) return;
    const link = document.createElement("a");
    setTarget(link, wish);
    const title = decodeURIComponent(wish.href.replace(/^\.\//, "")).replaceAll("_", " ");
    link.textContent = wish.text.trim() || (wish.rel === "mw:WikiLink" ? title : wish.href);
    range.insertNode(link);
    range.collapse(false);
  }
}

/**
 * @param {Element} link
 * @param {{href: string, rel: string}} target
 */
function setTarget(link, target) {
  link.setAttribute("rel", target.rel);
  link.setAttribute("href", target.href);
}

/** @param {Element} element */
function unwrap(element) {
  element.replaceWith(...element.childNodes);
}
