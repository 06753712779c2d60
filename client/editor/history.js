// @ts-check
/**
 * Undo and redo. Each change of the DOM below the root is noted, whoever made it (typing, the browser's
 * commands, our own), and taken back in reverse order; so nodes stay the same ones, and nothing is read as
 * HTML anew.
 */

/** Letters typed or deleted one after the other, each within this time of the last one, are one step. */
const SAME_STEP_MILLISECONDS = 1000;
const LETTERS = /^(insert|delete)(?:Text|CompositionText|ContentBackward|ContentForward)$/;

/** @typedef {{node: Node, offset: number, endNode: Node, endOffset: number} | null} Place */
/** @typedef {{undo: () => void, redo: () => void}} Change */
/**
 * @typedef {{changes: Change[], before: Place, after: Place, typing: string, time: number}} Step `typing`:
 *   "insert" or "delete" where letters were typed or deleted one after the other, else empty
 */

export class History {
  /** @type {Step[]} */
  #done = [];
  /** @type {Step[]} */
  #undone = [];
  /**
   * Where the selection was before the next change.
   * @type {Place}
   */
  #before = null;
  #typing = "";

  /**
   * @param {HTMLElement} root
   * @param {() => void} changed  called after each change, undo and redo
   */
  constructor(root, changed) {
    this.root = root;
    this.changed = changed;
    this.observer = new MutationObserver((records) => this.#note(records));
    this.observer.observe(root, {
      subtree: true,
      childList: true,
      characterData: true,
      characterDataOldValue: true,
      attributeOldValue: true,
      attributeFilter: ["href", "rel"],
    });
    root.addEventListener("beforeinput", (event) => this.#prepare(event));
    document.addEventListener("selectionchange", () => {
      if (this.observer.takeRecords().length === 0) this.#before = place(root) ?? this.#before;
    });
  }

  get canUndo() {
    return this.#done.length > 0;
  }

  get canRedo() {
    return this.#undone.length > 0;
  }

  /** Forgets all steps, as after a page was opened. */
  forget() {
    this.observer.takeRecords();
    this.#done = [];
    this.#undone = [];
    this.changed();
  }

  /**
   * Does something as one step of its own.
   * @param {() => void} action
   */
  step(action) {
    this.#note(this.observer.takeRecords());
    this.#typing = "";
    this.#before = place(this.root);
    action();
    this.#note(this.observer.takeRecords());
  }

  undo() {
    this.#note(this.observer.takeRecords());
    const step = this.#done.pop();
    if (step === undefined) return;
    for (const change of [...step.changes].reverse()) change.undo();
    this.#settle(step, step.before, this.#undone);
  }

  redo() {
    this.#note(this.observer.takeRecords());
    const step = this.#undone.pop();
    if (step === undefined) return;
    for (const change of step.changes) change.redo();
    this.#settle(step, step.after, this.#done);
  }

  /**
   * @param {Step} step
   * @param {Place} selection
   * @param {Step[]} steps  where the step goes
   */
  #settle(step, selection, steps) {
    this.observer.takeRecords();
    steps.push({ ...step, typing: "" });
    select(selection);
    this.changed();
  }

  /** @param {InputEvent} event */
  #prepare(event) {
    if (event.inputType === "historyUndo" || event.inputType === "historyRedo") {
      event.preventDefault();
      if (event.inputType === "historyUndo") this.undo();
      else this.redo();
      return;
    }
    this.#typing = LETTERS.exec(event.inputType)?.[1] ?? "";
    this.#before = place(this.root);
  }

  /** @param {MutationRecord[]} records */
  #note(records) {
    if (records.length === 0) return;
    const time = performance.now();
    const changes = changesOf(records);
    const after = place(this.root);
    const last = this.#done[this.#done.length - 1];
    const isLike = last !== undefined && this.#typing !== "" && last.typing === this.#typing;
    const isSoon = isLike && time - last.time < SAME_STEP_MILLISECONDS;
    if (isSoon && isSamePlace(last.after, this.#before)) {
      last.changes.push(...changes);
      last.after = after;
      last.time = time;
    } else {
      this.#done.push({ changes, before: this.#before, after, typing: this.#typing, time });
    }
    this.#undone = [];
    this.#before = after;
    this.changed();
  }
}

/**
 * @param {HTMLElement} root
 * @returns {Place} where the selection is, if it is in the root
 */
function place(root) {
  const selection = document.getSelection();
  if (!selection?.anchorNode || !selection.focusNode || !root.contains(selection.anchorNode)) return null;
  return {
    node: selection.anchorNode,
    offset: selection.anchorOffset,
    endNode: selection.focusNode,
    endOffset: selection.focusOffset,
  };
}

/**
 * Whether two carets stand at the same place.
 * @param {Place} left
 * @param {Place} right
 */
function isSamePlace(left, right) {
  if (left === null || right === null) return false;
  const isCaret = right.node === right.endNode && right.offset === right.endOffset;
  return isCaret && left.node === right.node && left.offset === right.offset;
}

/** @param {Place} selection */
function select(selection) {
  if (selection === null || !selection.node.isConnected || !selection.endNode.isConnected) return;
  const within = (/** @type {Node} */ node, /** @type {number} */ offset) =>
    Math.min(offset, node.nodeType === 3 ? /** @type {Text} */ (node).data.length : node.childNodes.length);
  document
    .getSelection()
    ?.setBaseAndExtent(
      selection.node, within(selection.node, selection.offset),
      selection.endNode, within(selection.endNode, selection.endOffset),
    );
}

/**
 * @param {MutationRecord[]} records
 * @returns {Change[]}
 */
function changesOf(records) {
  /**
   * What a text or an attribute became: what the next record of it says that it was.
   * @type {Map<Node, Map<string, string | null>>}
   */
  const later = new Map();
  return [...records]
    .reverse()
    .map((record) => {
      if (record.type === "childList") return childChange(record);
      const { target, oldValue, attributeName } = record;
      const key = attributeName ?? "";
      if (!later.has(target)) later.set(target, new Map());
      const values = /** @type {Map<string, string | null>} */ (later.get(target));
      const became = values.has(key) ? values.get(key) ?? null : valueOf(target, attributeName);
      values.set(key, oldValue);
      return {
        undo: () => setValue(target, attributeName, oldValue),
        redo: () => setValue(target, attributeName, became),
      };
    })
    .reverse();
}

/**
 * @param {Node} node
 * @param {string | null} attribute
 * @returns {string | null}
 */
function valueOf(node, attribute) {
  if (attribute === null) return /** @type {CharacterData} */ (node).data;
  return /** @type {Element} */ (node).getAttribute(attribute);
}

/**
 * @param {Node} node
 * @param {string | null} attribute
 * @param {string | null} value
 */
function setValue(node, attribute, value) {
  if (attribute === null) /** @type {CharacterData} */ (node).data = value ?? "";
  else if (value === null) /** @type {Element} */ (node).removeAttribute(attribute);
  else /** @type {Element} */ (node).setAttribute(attribute, value);
}

/**
 * @param {MutationRecord} record
 * @returns {Change}
 */
function childChange(record) {
  const { target, previousSibling, nextSibling } = record;
  const added = [...record.addedNodes];
  const removed = [...record.removedNodes];
  const put = (/** @type {Node[]} */ nodes) => {
    const before = nextSibling ?? (previousSibling ? previousSibling.nextSibling : target.firstChild);
    for (const node of nodes) target.insertBefore(node, before?.parentNode === target ? before : null);
  };
  const take = (/** @type {Node[]} */ nodes) => {
    for (const node of nodes) if (node.parentNode === target) target.removeChild(node);
  };
  return {
    undo: () => (take(added), put(removed)),
    redo: () => (take(removed), put(added)),
  };
}
