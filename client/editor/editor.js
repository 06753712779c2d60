// @ts-check
/** The editor of one page: it reads the page from the server, lets it be edited, and gives it back. */

import { bundle, isChanged, open, prepareSave, renew } from "../bughtiso.js";
import { blocksOf } from "./blocks.js";
import { Commands } from "./commands.js";
import { History } from "./history.js";
import { pasted } from "./paste.js";
import { Saving, idle } from "./saving.js";
import { ServerRefused, page as readPage } from "./server.js";
import { deleteRests, deleteThing, elementsOf, nameThings, selectThing } from "./things.js";
import { selectedThing, thingAt, thingBeside } from "./things.js";

/** From so many on, blocks out of sight aren't laid out. */
const MANY_BLOCKS = 500;

/** So many of them are laid out together. The browser looks at each such bundle again whenever it draws. */
const BUNDLED_BLOCKS = 50;

/**
 * @template {HTMLElement} T
 * @param {string} id
 * @returns {T}
 */
const byId = (id) => /** @type {T} */ (/** @type {unknown} */ (document.getElementById(id)));

/** @returns {string} the title that the address names */
function titleOfAddress() {
  return decodeURIComponent(location.pathname.replace(/^\/editor\//, ""));
}

class Editor {
  constructor() {
    this.title = titleOfAddress();
    this.root = byId("page");
    /** The page as it was opened, and the server's name for this state of it. */
    this.html = "";
    this.etag = "";
    /**
     * The things of the page as it was opened.
     * @type {import("./things.js").Things}
     */
    this.things = { sizes: new Map(), byId: new Map() };
    /**
     * The thing that is selected as a whole.
     * @type {HTMLElement | null}
     */
    this.thing = null;
    this.history = new History(this.root, () => this.#changed());
    this.commands = new Commands(this.root, this.history, (text) => this.say(text));
    this.saving = new Saving({
      title: this.title,
      root: this.root,
      html: () => this.html,
      etag: () => this.etag,
      say: (text) => this.say(text),
      saved: (state) => this.#renew(state),
      bookmark: () => this.commands.bookmark(),
    });
    this.#listen();
    document.title = `${this.title} – editor`;
    byId("title").textContent = this.title;
  }

  /** While the server is asked, and while changes are shown, nothing in the text changes. */
  #lockWhileBusy() {
    const stop = (/** @type {Event} */ event) => {
      const isLeaving = event instanceof KeyboardEvent && event.key === "Tab";
      if (!this.saving.isLocked || isLeaving) return;
      event.preventDefault();
      event.stopImmediatePropagation();
    };
    for (const name of ["keydown", "beforeinput", "cut", "paste", "drop"]) {
      this.root.addEventListener(name, stop, { capture: true });
    }
    const tools = /** @type {Element} */ (document.querySelector(".tools"));
    for (const name of ["click", "change"]) tools.addEventListener(name, stop, { capture: true });
  }

  #listen() {
    this.#lockWhileBusy();
    this.root.addEventListener("keydown", (event) => this.#key(event));
    this.root.addEventListener("beforeinput", (event) => this.#beforeInput(event));
    this.root.addEventListener("paste", (event) => this.#paste(event));
    this.root.addEventListener("drop", (event) => this.#drop(event));
    this.root.addEventListener("click", (event) => this.#click(event));
    document.addEventListener("selectionchange", () => this.#selected());
    document.addEventListener("keydown", (event) => {
      if ((event.ctrlKey || event.metaKey) && event.key.toLowerCase() === "s") {
        event.preventDefault();
        this.saving.preview();
      }
    });
    byId("thing-delete").addEventListener("click", () => this.saving.isLocked || this.#deleteThing());
    byId("thing-close").addEventListener("click", () => (this.#showThing(null), this.commands.focus()));
    window.addEventListener("beforeunload", (event) => {
      if (this.history.canUndo && isChanged(this.root)) event.preventDefault();
    });
  }

  /** Reads the page from the server and shows it. */
  async read() {
    try {
      const state = await readPage(this.title);
      open(state.html, { into: this.root, prepare: (inside) => this.#prepare(state, inside) });
      byId("save").removeAttribute("disabled");
      byId("waiting").hidden = true;
      this.history.forget();
      idle().then(() => prepareSave(this.root));
    } catch (error) {
      byId("waiting").textContent = error instanceof ServerRefused ? error.sentence : String(error);
      byId("waiting").hidden = false;
    } finally {
      this.root.setAttribute("aria-busy", "false");
    }
  }

  /**
   * Takes a page that will stand in the text, which is edited from now on.
   * @param {import("./saving.js").State} state
   * @param {DocumentFragment} inside
   */
  #prepare(state, inside) {
    this.#take(state, inside);
    if (this.root.classList.contains("long")) bundle(inside, BUNDLED_BLOCKS);
    this.root.contentEditable = "true";
    document.execCommand("defaultParagraphSeparator", false, "p");
    document.execCommand("styleWithCSS", false, "false");
  }

  /**
   * Shows the page as it was stored. The caret stands where it stood; it is put there before anything looks
   * at it, since the browser takes seconds for a caret that stands in no text of a long page.
   * @param {import("./saving.js").State} state
   */
  #renew(state) {
    const scrolled = window.scrollY;
    const caret = caretIn(this.root);
    document.getSelection()?.removeAllRanges();
    renew(this.root, state.read ?? state.html);
    this.#take(state, this.root);
    window.scrollTo(0, scrolled);
    if (caret !== null) putCaret(this.root, caret);
    this.history.forget();
    idle().then(() => prepareSave(this.root));
  }

  /**
   * Takes a page as the one that is edited.
   * @param {import("./saving.js").State} state
   * @param {Element | DocumentFragment} holder  what its blocks stand in
   */
  #take({ html, etag }, holder) {
    this.html = html;
    this.etag = etag;
    this.root.classList.toggle("long", blocksOf(holder).length > MANY_BLOCKS);
    this.things = nameThings(holder);
  }

  /** @param {string} text */
  say(text) {
    byId("status").textContent = text;
  }

  #changed() {
    this.commands?.show();
    this.saving?.clear();
    this.saving?.ahead.changed();
    if (byId("status").textContent !== "") this.say("");
  }

  // ---- Things

  /** @param {KeyboardEvent} event */
  #key(event) {
    if (event.key === "Escape") this.#showThing(null);
    if (event.key !== "Backspace" && event.key !== "Delete") return;
    if (event.ctrlKey || event.metaKey || event.altKey) return;
    if (this.#takesThing(event.key === "Backspace")) event.preventDefault();
  }

  /**
   * Deletes the thing that is selected, or selects the one beside the caret.
   * @param {boolean} isBackward
   * @returns {boolean} whether there was one
   */
  #takesThing(isBackward) {
    if (this.thing !== null) {
      this.#deleteThing();
      return true;
    }
    const beside = thingBeside(this.root, isBackward);
    if (beside !== null) this.#select(beside);
    return beside !== null;
  }

  /** @param {HTMLElement} thing */
  #select(thing) {
    selectThing(thing, this.root);
    this.#showThing(thing);
  }

  #deleteThing() {
    const thing = this.thing;
    if (thing === null) return;
    this.#showThing(null);
    this.root.focus({ preventScroll: true });
    this.history.step(() => deleteThing(thing, this.root));
    this.say(`${thing.dataset.name ?? "It"} is deleted. Undo takes this back (Ctrl+Z).`);
  }

  /** @param {MouseEvent} event */
  #click(event) {
    const thing = thingAt(/** @type {Node} */ (event.target), this.root);
    if (thing !== null) {
      event.preventDefault();
      this.#select(elementsOf(thing, this.root)[0]);
    } else if (/** @type {Element} */ (event.target).closest("a")) {
      event.preventDefault();
    }
  }

  #selected() {
    if (this.thing === null) {
      const selected = selectedThing(this.root);
      if (selected !== null) this.#showThing(selected);
      return;
    }
    const selection = document.getSelection();
    const range = selection?.rangeCount && !selection.isCollapsed ? selection.getRangeAt(0) : null;
    const isWhole = range?.intersectsNode(this.thing) ?? false;
    if (!isWhole && document.activeElement === this.root) this.#showThing(null);
  }

  /** @param {HTMLElement | null} thing */
  #showThing(thing) {
    for (const element of this.root.querySelectorAll("[data-selected]")) {
      element.removeAttribute("data-selected");
    }
    this.thing = thing;
    byId("thing").hidden = thing === null;
    if (thing === null) return;
    for (const element of elementsOf(thing, this.root)) element.setAttribute("data-selected", "");
    byId("thing-name").textContent = thing.dataset.name ?? "";
    byId("thing-advice").textContent = "can be changed in the page's source alone. Delete takes it out.";
    byId("thing-source").textContent = sourceOf(thing);
  }

  // ---- What is typed and pasted

  /**
   * Takes out the whole text, where it is selected and long: the browser would take out block by block, each
   * in time in proportion to their number, and a page of 1 MiB would take minutes. Undo puts the caret at the
   * text's start, since to select it all takes as long.
   * @returns {boolean} whether it did
   */
  #emptiesAll() {
    if (!this.root.classList.contains("long") || !isAllSelected(this.root)) return false;
    document.getSelection()?.collapseToStart();
    this.history.step(() => {
      const paragraph = document.createElement("p");
      paragraph.append(document.createElement("br"));
      this.root.replaceChildren(paragraph);
      document.getSelection()?.collapse(paragraph, 0);
    });
    return true;
  }

  /** @param {InputEvent} event */
  #beforeInput(event) {
    const takesSelection = event.cancelable && /^(?:delete|insert(?:Text|Paragraph)$)/.test(event.inputType);
    if (takesSelection && this.#emptiesAll()) {
      if (event.inputType.startsWith("delete")) event.preventDefault();
      return;
    }
    // Keyboards of phones send no key for these.
    const [, direction] = /^deleteContent(Backward|Forward)$/.exec(event.inputType) ?? [];
    if (direction && event.cancelable && this.#takesThing(direction === "Backward")) event.preventDefault();
    if (/^format(?!Bold|Italic|Remove)/.test(event.inputType)) event.preventDefault();
    if (event.inputType.startsWith("delete")) setTimeout(() => deleteRests(this.root, this.things.sizes));
  }

  /** @param {ClipboardEvent} event */
  #paste(event) {
    event.preventDefault();
    if (event.clipboardData === null) return;
    const { html, leftOut } = pasted(event.clipboardData, this.root, this.things.byId);
    if (html !== "") this.#emptiesAll();
    if (html !== "") this.history.step(() => document.execCommand("insertHTML", false, html));
    if (leftOut > 0) this.say("Templates and references can't be copied: they were left out.");
  }

  /** @param {DragEvent} event */
  #drop(event) {
    event.preventDefault();
    this.say("Text can't be dragged here: cut and paste it.");
  }
}

/**
 * Whether nothing that is written stands before or behind the selection.
 * @param {HTMLElement} root
 */
function isAllSelected(root) {
  const selection = document.getSelection();
  if (!selection?.rangeCount || selection.isCollapsed || !root.contains(selection.anchorNode)) return false;
  const selected = selection.getRangeAt(0);
  const [before, behind] = [selected.cloneRange(), selected.cloneRange()];
  before.collapse(true);
  before.setStart(root, 0);
  behind.collapse(false);
  behind.setEnd(root, root.childNodes.length);
  return [before, behind].every((range) => range.toString().trim() === "");
}

/**
 * Where the caret stands: in which block of the page, behind how many characters of it.
 * @param {HTMLElement} root
 * @returns {{block: number, characters: number} | null}
 */
function caretIn(root) {
  const selection = document.getSelection();
  if (!selection?.rangeCount || !root.contains(selection.anchorNode)) return null;
  const blocks = blocksOf(root);
  const block = blocks.findIndex((child) => child.contains(selection.anchorNode));
  if (block < 0) return null;
  const range = selection.getRangeAt(0).cloneRange();
  range.setStart(blocks[block], 0);
  return { block, characters: range.toString().length };
}

/**
 * @param {HTMLElement} root
 * @param {{block: number, characters: number}} caret
 */
function putCaret(root, caret) {
  const blocks = blocksOf(root);
  const block = blocks[Math.min(caret.block, blocks.length - 1)];
  if (block === undefined) return;
  const walker = document.createTreeWalker(block, NodeFilter.SHOW_TEXT);
  let left = caret.characters;
  while (walker.nextNode()) {
    const text = /** @type {Text} */ (walker.currentNode);
    if (left <= text.data.length && !text.parentElement?.closest("[data-thing]")) {
      document.getSelection()?.collapse(text, left);
      return;
    }
    left = Math.max(0, left - text.data.length);
  }
}

/**
 * @param {HTMLElement} thing
 * @returns {string} its wikitext
 */
function sourceOf(thing) {
  try {
    return JSON.parse(thing.getAttribute("data-parsoid") ?? "{}").src ?? "";
  } catch {
    return "";
  }
}

const editor = new Editor();
await editor.read();
