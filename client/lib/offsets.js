// @ts-check
/**
 * Where elements stand in the page, in the units of JavaScript's strings. The program counts bytes (`dsr` in
 * `data-parsoid`); a string in JavaScript counts UTF-16 units, of which a letter has one and most emoji two.
 */

/** The places of a page, from bytes to UTF-16 units. */
export class Offsets {
  /** @param {string} source  the page's wikitext */
  constructor(source) {
    const bytes = new TextEncoder().encode(source).length;
    this.isAscii = bytes === source.length;
    /** The unit at each byte; those inside a character have that of its beginning. */
    this.units = new Uint32Array(this.isAscii ? 0 : bytes + 1);
    if (!this.isAscii) this.#fill(source);
  }

  /** @param {string} source */
  #fill(source) {
    let byte = 0;
    let unit = 0;
    for (const character of source) {
      const code = /** @type {number} */ (character.codePointAt(0));
      const end = byte + (code < 0x80 ? 1 : code < 0x800 ? 2 : code < 0x10000 ? 3 : 4);
      this.units.fill(unit, byte, end);
      byte = end;
      unit += character.length;
    }
    this.units[byte] = unit;
  }

  /**
   * @param {number} byte  a place in the page, at a character's beginning
   * @returns {number} the same in UTF-16 units
   */
  at(byte) {
    return this.isAscii ? byte : this.units[byte];
  }
}

/**
 * Where an element stands in its page.
 * @param {Element} element  one with `data-parsoid`, as the program writes it
 * @param {Offsets} offsets  those of the page's wikitext
 * @returns {{start: number, end: number, open: number, close: number} | null} its range and the widths of its
 *   two delimiters, in UTF-16 units; null where the element doesn't tell
 */
export function rangeOf(element, offsets) {
  const data = element.getAttribute("data-parsoid");
  if (data === null) return null;
  /** @type {[number, number, number, number]} */
  const [start, end, open, close] = JSON.parse(data).dsr;
  const first = offsets.at(start);
  const last = offsets.at(end);
  const widths = { open: offsets.at(start + open) - first, close: last - offsets.at(end - close) };
  return { start: first, end: last, ...widths };
}
