// @ts-check
/**
 * From what an editor and a browser left in a DOM to a tree that the program reads. Nothing is changed in the
 * DOM.
 *
 * Where a page is known as it was opened, an element is *kept* if it has the `id` of a node of the page and
 * is of that node's kind; any other is new.
 */

import { isBundle } from "./bundles.js";
import { Part, numberOf } from "./markup.js";
import { Original, kindOf } from "./original.js";
import { withEntity } from "./entities.js";
import { dropEmptyLines } from "./lines.js";
import { Line, linkTarget, withEdgesOutside } from "./links.js";
import { Places } from "./places.js";
import { putBack } from "./strays.js";
import { hasBlocks, isPlain, saysBold, saysItalic, styledPieces } from "./styles.js";
import { append, isBare, isEmpty, tidy } from "./texts.js";
import { Watch } from "./watch.js";
import { Weights, valuesOf, withNumbers } from "./weights.js";
import {
  ATTRIBUTES, CELLS, ITEMS, LINES, LISTS, TAGS, hiddenKind, isBlank, isBlock, isBlockName, isHiddenName,
  isIsland, isMark, mayHave, nameOf,
} from "./kinds.js";

/** @typedef {(Part | string)[]} Pieces */

const ELEMENT = 1;
const TEXT = 3;

/**
 * @param {Node} node
 * @returns {string} the text of a text node
 */
function textOf(node) {
  return /** @type {Text} */ (node).data;
}

export class Mender {
  /**
   * Which element has a number, of several that have it.
   * @type {Map<number, Element>}
   */
  #owners = new Map();

  #weights = new Weights();

  /** Whether what is read stands in a link. */
  #inLink = false;

  /**
   * In which of bold and italic (`b`, `i`) what is read stands.
   * @type {Set<string>}
   */
  #styles = new Set();

  /**
   * The blocks that nobody has touched, with the page's parts that they are.
   * @type {Map<Element, Part>}
   */
  #asOpened = new Map();

  /**
   * The kinds of the page's categories, switches and the like that are still there.
   * @type {Set<string> | null}
   */
  #hiddenKinds = null;

  /**
   * @param {Original | undefined} original  the page as it was, where that is known
   * @param {Watch} [watch]  what tells which blocks nobody has touched since it was opened
   */
  constructor(original, watch) {
    this.original = original;
    this.watch = watch;
  }

  /**
   * @param {Element} root  the element whose inside is the page's
   * @returns {Part} its body
   */
  page(root) {
    if (!this.#claimTouched(root)) this.#claim(root.querySelectorAll("[id]"));
    const attributes = this.original?.page.attributes ?? this.#attributes(root, "body", 0);
    const page = new Part("body", new Map(attributes), this.#blocks(root.childNodes));
    new Places(this.original).fit(page);
    if (this.original !== undefined) putBack(page, this.original);
    dropEmptyLines(page, this.original);
    return page;
  }

  // ---- Numbers

  /**
   * Finds the owner of each number: of several elements of the right kind, as the halves of a paragraph that
   * was split, the one that holds most of what can't be written anew; of those the first that shows
   * something, else the first.
   * @param {Iterable<Element>} elements  those that have an `id`, in the order of the document
   */
  #claim(elements) {
    for (const element of elements) {
      const number = numberOf(element.getAttribute("id"));
      if (number === 0) continue;
      const owner = this.#owners.get(number);
      if (owner === undefined || this.#isBetter(element, owner, number)) this.#owners.set(number, element);
    }
  }

  /**
   * Finds the owners of the numbers in the blocks that were touched. The others needn't be looked into,
   * unless a number stands in one of them too.
   * @param {Element} root
   * @returns {boolean} whether that is enough
   */
  #claimTouched(root) {
    if (this.watch === undefined) return false;
    /** @type {Element[]} */
    const touched = [];
    this.#sort(root, this.watch, touched);
    this.#claim(touched.flatMap((element) => [...withNumbers(element)]));
    const asOpened = new Set(this.#asOpened.values());
    for (const number of this.#owners.keys()) {
      let kept = this.#kept(number);
      while (kept?.parent) kept = kept.parent;
      if (kept === undefined || !asOpened.has(kept.part)) continue;
      this.#owners.clear();
      this.#asOpened.clear();
      return false;
    }
    return true;
  }

  /**
   * @param {Element} holder  of blocks
   * @param {Watch} watch
   * @param {Element[]} touched  where those go that aren't as they were opened
   */
  #sort(holder, watch, touched) {
    for (const element of holder.children) {
      const part = watch.untouched(element);
      const isSection = element.localName === "section" && !element.hasAttribute("id");
      if (part !== undefined) this.#asOpened.set(element, part);
      else if (isSection || isBundle(element)) this.#sort(element, watch, touched);
      else touched.push(element);
    }
  }

  /**
   * @param {Element} element
   * @param {Element} owner  one that came before it
   * @param {number} number  of both
   */
  #isBetter(element, owner, number) {
    if (!this.#isOfKind(element, number)) return false;
    if (!this.#isOfKind(owner, number)) return true;
    const [now, before] = [this.#weights.of(element), this.#weights.of(owner)];
    const isShown = before.isHollow && !now.isHollow;
    return now.things > before.things || (now.things === before.things && isShown);
  }

  /**
   * Whether the element can be the page's node of this number.
   * @param {Element} element
   * @param {number} number
   */
  #isOfKind(element, number) {
    if (this.original === undefined) return true;
    const kept = this.original.nodes.get(number);
    if (kept === undefined || kindOf(nameOf(element), valuesOf(element)) !== kept.kind) return false;
    const data = element.getAttribute("data-parsoid");
    return data === null || data === kept.part.value("data-parsoid");
  }

  /**
   * @param {Element} element
   * @returns {number} its number, where it is the one that has it; else 0
   */
  #numberOf(element) {
    const number = numberOf(element.getAttribute("id"));
    const isOwner = number !== 0 && this.#owners.get(number) === element;
    return isOwner && this.#isOfKind(element, number) ? number : 0;
  }

  /**
   * The page's own block, where the element is as it was opened.
   * @param {Element} element
   * @returns {Part | undefined}
   */
  #untouched(element) {
    const kept = this.#kept(numberOf(element.getAttribute("id")));
    return kept !== undefined && this.#isUntouched(element, kept.part) ? kept.part : undefined;
  }

  /**
   * @param {Element} element
   * @param {Part} part
   * @returns {boolean}
   */
  #isUntouched(element, part) {
    if (element.localName !== part.name && element.getAttribute("data-wt-name") !== part.name) return false;
    for (const [name, value] of part.attributes) if (element.getAttribute(name) !== value) return false;
    const { number } = part;
    if (number !== 0 && this.#owners.get(number) !== element) return false;
    if (element.hasAttribute("id") && !part.attributes.has("id")) return false;
    const { childNodes } = element;
    if (childNodes.length !== part.children.length) return false;
    let at = 0;
    for (const node of childNodes) {
      const child = part.children[at];
      at += 1;
      const isSame =
        typeof child === "string"
          ? node.nodeType === TEXT && textOf(node) === child
          : node.nodeType === ELEMENT && this.#isUntouched(/** @type {Element} */ (node), child);
      if (!isSame) return false;
    }
    return true;
  }

  /** @param {number} number */
  #kept(number) {
    return this.original?.nodes.get(number);
  }

  /**
   * The attributes that stay: of a kept element those that it had, of a new one those that its kind may have.
   * @param {Element} element
   * @param {string} name
   * @param {number} number
   * @returns {Map<string, string>}
   */
  #attributes(element, name, number) {
    const had = this.#kept(number)?.part.attributes;
    /** @type {Map<string, string>} */
    const attributes = new Map();
    for (const attribute of element.attributes) {
      if (number === 0 ? mayHave(name, attribute.name) : ATTRIBUTES.has(attribute.name)) {
        if (had === undefined || had.has(attribute.name)) attributes.set(attribute.name, attribute.value);
      }
    }
    return attributes;
  }

  /**
   * @param {Element} element
   * @param {string} name
   * @param {Pieces} children
   * @returns {Part}
   */
  #part(element, name, children) {
    return new Part(name, this.#attributes(element, name, this.#numberOf(element)), children);
  }

  /**
   * A block with text, mended.
   * @param {Element} element
   * @param {string} name
   * @param {Pieces} children
   */
  #tidied(element, name, children) {
    return tidy(this.#part(element, name, children), this.original);
  }

  // ---- Blocks

  /**
   * What stands in the body, in a section, in a box: blocks, and white space between them. Text and inline
   * elements that stand there directly are a new paragraph.
   * @param {Iterable<Node>} nodes
   * @returns {Pieces}
   */
  #blocks(nodes) {
    /** @type {Pieces} */
    const out = [];
    /** @type {Node[]} */
    let loose = [];
    const close = () => {
      if (loose.length > 0) out.push(...this.#paragraphs(loose));
      loose = [];
    };
    for (const node of nodes) {
      if (node.nodeType === TEXT) {
        if (loose.length > 0 || !isBlank(textOf(node))) loose.push(node);
        else append(out, textOf(node).replace(/[^ \t\n\r]/g, " "));
      } else if (node.nodeType === ELEMENT) {
        const element = /** @type {Element} */ (node);
        const name = nameOf(element);
        const asOpened = this.#asOpened.get(element);
        if (asOpened !== undefined) {
          close();
          out.push(asOpened);
        } else if (name === "") {
          continue;
        } else if (this.#standsInBody(element, name, loose.length > 0)) {
          close();
          for (const piece of this.#block(element, name)) if (!this.#hasVanished(piece)) append(out, piece);
        } else {
          loose.push(element);
        }
      }
    }
    close();
    return out;
  }

  /**
   * Whether an element directly in the body belongs there; else it stands in a paragraph whose own element is
   * gone.
   * @param {Element} element
   * @param {string} name
   * @param {boolean} isInLine  whether such a paragraph has begun
   */
  #standsInBody(element, name, isInLine) {
    if (!element.hasAttribute("about") && !isHiddenName(name)) return isBlockName(name);
    const kept = this.#kept(this.#numberOf(element));
    if (kept?.parent === null) return true;
    if (kept !== undefined && (isInLine || !isHiddenName(name))) return false;
    return !isInLine || isBlockName(name);
  }

  /**
   * A paragraph or heading of which nothing is left.
   * @param {Part | string} piece
   */
  #hasVanished(piece) {
    if (typeof piece === "string" || !LINES.has(piece.name) || piece.attributes.has("about")) return false;
    if (this.original === undefined && piece.number !== 0) return false;
    const kept = this.#kept(piece.number);
    return isEmpty(piece.children) && (kept === undefined || !isEmpty(kept.part.children));
  }

  /**
   * @param {Node[]} nodes  texts and inline elements without a block
   * @returns {Pieces}
   */
  #paragraphs(nodes) {
    return this.#lines(new Map(), "p", this.#inline(nodes)).filter((piece) => !this.#hasVanished(piece));
  }

  /**
   * @param {Element} element
   * @param {string} name  our name for it
   * @returns {Pieces}
   */
  #block(element, name) {
    const untouched = this.#untouched(element);
    if (untouched !== undefined) return [untouched];
    if (element.hasAttribute("about")) return [this.#asItStands(element, name)];
    if (isHiddenName(name)) return this.#hidden(element, name);
    if (LINES.has(name)) {
      const attributes = this.#attributes(element, name, this.#numberOf(element));
      return this.#lines(attributes, name, this.#inline(element.childNodes));
    }
    if (LISTS.has(name)) return this.#list(element, name);
    if (name === "hr") return [this.#part(element, name, [])];
    if (name === "pre") {
      return [this.#tidied(element, name, this.#flat(this.#inline(element.childNodes), () => false))];
    }
    if (name === "section") return [this.#part(element, name, this.#blocks(element.childNodes))];
    if (name === "table" || name === "tbody" || name === "tr") return [this.#tablePart(element, name)];
    return this.#blocks(element.childNodes);
  }

  /**
   * A paragraph or heading; where blocks stand in it, it is split round them, and its first part that isn't
   * empty stays what it was.
   * @param {Map<string, string>} attributes
   * @param {string} name
   * @param {Pieces} content
   * @returns {Pieces}
   */
  #lines(attributes, name, content) {
    if (!hasBlocks(content)) {
      return [tidy(new Part(name, attributes, content), this.original)];
    }
    /** @type {Pieces} */
    const out = [];
    /** @type {Part | null} */
    let line = null;
    let isFirst = true;
    for (const piece of content) {
      if (typeof piece !== "string" && isBlock(piece)) {
        line = null;
        out.push(piece);
        continue;
      }
      if (line === null) {
        if (typeof piece === "string" && isBlank(piece)) continue;
        line = isFirst ? new Part(name, attributes) : new Part("p");
        isFirst = false;
        out.push(line);
      }
      append(line.children, piece);
    }
    for (const piece of out) {
      if (typeof piece !== "string" && LINES.has(piece.name)) tidy(piece, this.original);
    }
    return out;
  }

  /**
   * @param {Element} element
   * @param {string} name
   * @returns {Pieces}
   */
  #list(element, name) {
    const list = this.#part(element, name, []);
    const itemName = name === "dl" ? "dd" : "li";
    /** @type {Part | null} */
    let item = null;
    for (const node of element.childNodes) {
      if (node.nodeType === TEXT && isBlank(textOf(node))) {
        append(list.children, textOf(node).replace(/[^ \t\n\r]/g, " "));
      } else if (node.nodeType === TEXT) {
        item = tidy(new Part(itemName, new Map(), [textOf(node)]), this.original);
        list.children.push(item);
      } else if (node.nodeType === ELEMENT) {
        item = this.#inList(list, /** @type {Element} */ (node), itemName, item);
      }
    }
    const hasItems = list.parts.some((part) => !isHiddenName(part.name));
    return hasItems || isEmpty(this.#kept(list.number)?.part.children ?? ["a"]) ? [list] : list.parts;
  }

  /**
   * @param {Part} list
   * @param {Element} element  a child of it
   * @param {string} itemName  what its items are
   * @param {Part | null} last  its last item so far
   * @returns {Part | null} its last item then
   */
  #inList(list, element, itemName, last) {
    const name = nameOf(element);
    if (name === "") return last;
    if (element.hasAttribute("about") || isHiddenName(name)) {
      list.children.push(...this.#block(element, name));
      return last;
    }
    if (LISTS.has(name)) {
      const item = last ?? new Part(itemName);
      if (last === null) list.children.push(item);
      for (const piece of this.#list(element, name)) item.children.push(piece);
      return item;
    }
    const isItem = ITEMS.has(name);
    const made = () => new Part(itemName, new Map(), this.#flat(this.#inlineElement(element), isList));
    const item = isItem ? this.#item(element, name) : tidy(made(), this.original);
    if (isEmpty(item.children) && !(isItem && item.number !== 0)) return last;
    list.children.push(item);
    return item;
  }

  /**
   * @param {Element} element
   * @param {string} name
   * @returns {Part}
   */
  #item(element, name) {
    const content = this.#inline(element.childNodes);
    const isLast = blocksBehindText(content);
    const stays = (/** @type {Part} */ part) => isList(part) && (part.number !== 0 || isLast(part));
    return this.#tidied(element, name, this.#flat(content, stays));
  }

  /**
   * @param {Element} element
   * @param {string} name
   * @returns {Part}
   */
  #tablePart(element, name) {
    const part = this.#part(element, name, []);
    for (const node of element.childNodes) {
      if (node.nodeType === TEXT) append(part.children, textOf(node));
      if (node.nodeType !== ELEMENT) continue;
      const child = /** @type {Element} */ (node);
      const childName = nameOf(child);
      if (childName === "") continue;
      const isCell = CELLS.has(childName) && !child.hasAttribute("about");
      const isBlock = isBlockName(childName) || isHiddenName(childName);
      if (isCell) part.children.push(this.#cell(child, childName));
      else part.children.push(...(isBlock ? this.#block(child, childName) : this.#inlineElement(child)));
    }
    return part;
  }

  /**
   * A cell or caption: new paragraphs in it, before any block of the page, are lines of its text.
   * @param {Element} element
   * @param {string} name
   * @returns {Part}
   */
  #cell(element, name) {
    const content = this.#inline(element.childNodes);
    const isLast = blocksBehindText(content);
    let isBehindBlock = false;
    const stays = (/** @type {Part} */ part) => {
      const isNew = part.number === 0 && !part.attributes.has("about");
      isBehindBlock ||= !isNew || (isLast(part) && !LINES.has(part.name));
      return isBehindBlock;
    };
    return this.#tidied(element, name, this.#flat(content, stays));
  }

  // ---- What stands in a line

  /**
   * @param {Iterable<Node>} nodes
   * @returns {Pieces} texts, inline elements, and the blocks that stand among them
   */
  #inline(nodes) {
    const line = new Line();
    for (const node of nodes) {
      if (node.nodeType === TEXT) line.add(textOf(node));
      if (node.nodeType !== ELEMENT) continue;
      const element = /** @type {Element} */ (node);
      const pieces = this.#inlineElement(element);
      if (nameOf(element) === "a" && this.#numberOf(element) !== 0) line.addLink(pieces);
      else for (const piece of pieces) line.add(piece);
    }
    return line.end();
  }

  /**
   * @param {Element} element
   * @returns {Pieces}
   */
  #inlineElement(element) {
    const name = nameOf(element);
    if (name === "") return [];
    if (element.hasAttribute("about")) return [this.#asItStands(element, name)];
    if (isHiddenName(name)) return this.#hidden(element, name);
    if (CELLS.has(name)) return [this.#cell(element, name)];
    if (ITEMS.has(name)) return [this.#item(element, name)];
    if (isBlockName(name)) return this.#block(element, name);
    if (name === "br") return [this.#part(element, name, [])];
    if (name === "a") return this.#link(element);
    if (name === "span" && element.hasAttribute("typeof")) return this.#special(element);
    const isKept = this.#numberOf(element) !== 0;
    if (name === "b" || name === "i" || (isKept && TAGS.has(name))) return this.#styled(element, name);
    return name === "span" || name === "font" ? this.#byStyle(element) : this.#inline(element.childNodes);
  }

  /**
   * Bold, italic, a pair of tags; it vanishes where its inside did. New bold round blocks is in each of them.
   * @param {Element} element
   * @param {string} name
   */
  #styled(element, name) {
    const isStyle = name === "b" || name === "i";
    const isNew = this.#numberOf(element) === 0;
    if (isStyle && isNew && isPlain(element, name)) return this.#byStyle(element);
    if (isStyle && this.#styles.has(name) && !this.#hasAbove(element, name)) {
      return this.#inline(element.childNodes);
    }
    const pieces = this.#within(isStyle ? [name] : [], element.childNodes);
    if (isNew && hasBlocks(pieces)) return styledPieces(pieces, name, this.original);
    const children = this.#flat(pieces, () => false);
    return isBare(children) && this.#mayVanish(element) ? children : [this.#part(element, name, children)];
  }

  /**
   * Whether the page has the element inside another one of this name; of a page that isn't known, whether it
   * may have it so.
   * @param {Element} element
   * @param {string} name
   */
  #hasAbove(element, name) {
    if (this.original === undefined) return this.#numberOf(element) !== 0;
    let above = this.#kept(this.#numberOf(element))?.parent;
    while (above && above.part.name !== name) above = above.parent;
    return Boolean(above);
  }

  /**
   * What stands in bold or italic text: bold in bold is its inside, since no apostrophes say it.
   * @param {string[]} styles  those that begin here
   * @param {Iterable<Node>} nodes
   * @returns {Pieces}
   */
  #within(styles, nodes) {
    const begun = styles.filter((name) => !this.#styles.has(name));
    for (const name of begun) this.#styles.add(name);
    const pieces = this.#inline(nodes);
    for (const name of begun) this.#styles.delete(name);
    return pieces;
  }

  /**
   * Whether an element without an inside is what is left of one: it is new, or the page's has an inside.
   * @param {Element} element
   */
  #mayVanish(element) {
    const number = this.#numberOf(element);
    const kept = this.#kept(number);
    return kept === undefined ? number === 0 : !isEmpty(kept.part.children);
  }

  /**
   * A `span` or `font` of another document: bold and italic by its style, else its inside.
   * @param {Element} element
   */
  #byStyle(element) {
    const styles = [...(saysItalic(element) ? ["i"] : []), ...(saysBold(element) ? ["b"] : [])];
    const begun = styles.filter((name) => !this.#styles.has(name));
    let pieces = this.#within(begun, element.childNodes);
    if (isEmpty(pieces)) return pieces;
    for (const name of begun) pieces = styledPieces(pieces, name, this.original);
    return pieces;
  }

  /**
   * @param {Element} element  an `a`
   * @returns {Pieces}
   */
  #link(element) {
    if (this.#inLink) return this.#inline(element.childNodes);
    this.#inLink = true;
    const content = this.#flat(this.#inline(element.childNodes), () => false);
    this.#inLink = false;
    const kept = this.#kept(this.#numberOf(element));
    const rel = kept?.part.value("rel") ?? element.getAttribute("rel") ?? "";
    const href = element.getAttribute("href") ?? "";
    const isNew = this.#numberOf(element) === 0;
    const target = linkTarget(href, rel, kept?.part.value("href") ?? (isNew ? "" : href));
    if (target === null || (isBare(content) && this.#mayVanish(element))) return content;
    const link = isNew ? new Part("a", target, content) : this.#part(element, "a", content);
    for (const [name, value] of target) if (link.value(name) !== value) link.attributes.set(name, value);
    if (kept?.part.text === link.text || (kept === undefined && !isNew)) return [link];
    return withEdgesOutside(link, kept?.part.text ?? "");
  }

  /**
   * A `span` with a `typeof`: an entity, a nowiki, an island.
   * @param {Element} element
   * @returns {Pieces}
   */
  #special(element) {
    const type = element.getAttribute("typeof") ?? "";
    const isKept = this.#numberOf(element) !== 0;
    if (isIsland(valuesOf(element))) {
      const island = this.#part(element, "span", []);
      return isKept ? [island, ...this.#inline(element.childNodes)] : [island];
    }
    if (!isKept || (type !== "mw:Entity" && type !== "mw:Nowiki")) return this.#inline(element.childNodes);
    const part = this.#part(element, "span", this.#inline(element.childNodes));
    if (type === "mw:Entity") return this.#entity(part);
    if (!part.parts.every((child) => child.value("typeof") === "mw:Entity")) return part.children;
    return isEmpty(part.children) && this.#mayVanish(element) ? [] : [part];
  }

  /**
   * An entity holds its character alone: what was typed at its edges stands beside it, and an entity whose
   * character was changed is text.
   * @param {Part} part
   * @returns {Pieces}
   */
  #entity(part) {
    const was = this.#kept(part.number)?.part.text;
    if (was === undefined || (part.children.length === 1 && part.children[0] === was)) return [part];
    const whole = new Part(part.name, part.attributes, [was]);
    const now = part.text;
    const isBlankStill = now !== "" && isBlank(now) && isBlank(was) && part.parts.length === 0;
    return isBlankStill ? [whole] : withEntity(part.children, was, whole) ?? part.children;
  }

  /**
   * A comment, an include tag, a skip, a switch, a category: those of the page; and of new ones what the
   * program refuses by name, and not passes over.
   * @param {Element} element
   * @param {string} name
   * @returns {Pieces}
   */
  #hidden(element, name) {
    const values = valuesOf(element);
    const isOurs = ["typeof", "property", "rel"].some((name) => values(name).startsWith("mw:"));
    const part = this.#part(element, name, []);
    const isKept = this.original === undefined || this.#numberOf(element) !== 0;
    return isOurs && (isKept || !(isMark(part) || this.#isCopy(part))) ? [part] : [];
  }

  /**
   * Whether the page has such a category or switch, which is still there.
   * @param {Part} part  a new one
   */
  #isCopy(part) {
    if (this.#hiddenKinds === null) {
      const blocks = new Set(this.#asOpened.values());
      const kinds = [...(this.original?.nodes ?? [])].map(([number, kept]) =>
        isHiddenName(kept.part.name) && this.#isStillThere(number, blocks) ? hiddenKind(kept.part) : "",
      );
      this.#hiddenKinds = new Set(kinds);
    }
    return this.#hiddenKinds.has(hiddenKind(part));
  }

  /**
   * @param {number} number  of a node of the page
   * @param {Set<Part>} blocks  those that nobody has touched
   */
  #isStillThere(number, blocks) {
    const owner = this.#owners.get(number);
    if (owner !== undefined) return this.#numberOf(owner) !== 0;
    let kept = this.#kept(number);
    while (kept?.parent) kept = kept.parent;
    return kept !== undefined && blocks.has(kept.part);
  }

  /**
   * A group or a part of one: nothing in it is mended.
   * @param {Element} element
   * @param {string} name
   * @returns {Part}
   */
  #asItStands(element, name) {
    const number = this.#numberOf(element);
    const part = new Part(name === "box" ? element.localName : name);
    for (const attribute of element.attributes) {
      const isLost = number === 0 && (attribute.name === "id" || attribute.name === "data-parsoid");
      if (ATTRIBUTES.has(attribute.name) && !isLost) part.attributes.set(attribute.name, attribute.value);
    }
    for (const node of element.childNodes) {
      if (node.nodeType === TEXT) append(part.children, textOf(node));
      if (node.nodeType !== ELEMENT) continue;
      const child = /** @type {Element} */ (node);
      const childName = nameOf(child);
      const own = child.localName === "template" ? childName : child.localName;
      if (childName !== "") part.children.push(this.#asItStands(child, own));
    }
    return part;
  }

  /**
   * Blocks where none may stand become their inside, with a line break to what stands before and behind them;
   * groups stay.
   * @param {Pieces} pieces
   * @param {(block: Part) => boolean} stays  whether a block may stand there
   * @returns {Pieces}
   */
  #flat(pieces, stays) {
    /** @type {Pieces} */
    const out = [];
    let isBehindBlock = false;
    for (const piece of pieces) {
      const isOne = typeof piece !== "string" && isBlock(piece);
      const isInner = isOne && !piece.attributes.has("about") && !stays(piece);
      const content = isInner ? this.#flat(piece.children, () => false) : [piece];
      if (isEmpty(content) && (isInner || isBehindBlock)) continue;
      const isStaying = isOne && !isInner;
      if ((isInner || isBehindBlock) && !isStaying && !isEmpty(out)) append(out, new Part("br"));
      for (const inner of content) append(out, inner);
      isBehindBlock = isInner;
    }
    return out;
  }
}

/** @param {Part} part */
function isList(part) {
  return LISTS.has(part.name);
}

/**
 * In an item or a cell blocks stand behind all text.
 * @param {Pieces} pieces
 * @returns {(block: Part) => boolean} whether one of them does
 */
function blocksBehindText(pieces) {
  const isText = (/** @type {Part | string} */ piece) =>
    typeof piece === "string" ? !isBlank(piece) : !isBlock(piece) && !isHiddenName(piece.name);
  const end = pieces.map(isText).lastIndexOf(true);
  const behind = new Set(pieces.slice(end + 1));
  return (block) => behind.has(block);
}
