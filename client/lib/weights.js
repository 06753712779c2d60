// @ts-check
/** Which of several elements that have the `id` of one node of the page keeps it. */

import { isBlank, isIsland } from "./kinds.js";

/** What tells it. Each element is looked into once, however many others have its number. */
export class Weights {
  /** @type {Map<Element, {things: number, isHollow: boolean}>} */
  #known = new Map();

  /**
   * @param {Element} element
   * @returns {{things: number, isHollow: boolean}} how many groups, extensions and other islands stand in it;
   *   whether it shows nothing
   */
  of(element) {
    const known = this.#known.get(element);
    if (known !== undefined) return known;
    const weight = { things: thingsIn(element), isHollow: isHollow(element) };
    this.#known.set(element, weight);
    return weight;
  }
}

/**
 * @param {Element} element
 * @returns {(name: string) => string}
 */
export function valuesOf(element) {
  return (name) => element.getAttribute(name) ?? "";
}

/**
 * @param {Element} element
 * @returns {Element[]} those in it that have an `id`, itself too
 */
export function withNumbers(element) {
  const inside = [...element.querySelectorAll("[id]")];
  return element.hasAttribute("id") ? [element, ...inside] : inside;
}

/**
 * Whether an element shows nothing, as the half of a split paragraph that keeps nothing but its `br`.
 * @param {Element} element
 */
function isHollow(element) {
  return isBlank(element.textContent ?? "") && element.querySelector("[id]") === null;
}

/**
 * How many groups, extensions and other islands stand in an element.
 * @param {Element} element
 */
function thingsIn(element) {
  return [...element.querySelectorAll("[id]")].filter((inner) => isIsland(valuesOf(inner))).length;
}
