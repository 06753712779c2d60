// @ts-check
/**
 * A dialog over the text. It isn't a modal one of the browser, which would style each element of the text
 * anew when it comes and when it goes: half a second for a page of 1 MiB. So the rest is put out of reach
 * here: a shade lies over it, Tab goes round in the dialog, a focus that leaves comes back, and Escape closes
 * it. That nothing is typed into the text meanwhile is the editor's to see to.
 */

const STOPS = "button:enabled, a[href], input:enabled, [tabindex='0']";

/**
 * @param {HTMLDialogElement} dialog  with an element of the class `shade` before it, and a form
 * @param {() => void} left  called where it is left by Escape or by a button that submits its form, at once:
 *   the browser tells `close` when it next draws, and something may be typed before that
 */
export function layOver(dialog, left) {
  dialog.setAttribute("aria-modal", "true");
  const stops = () => /** @type {HTMLElement[]} */ ([...dialog.querySelectorAll(STOPS)]);
  const leave = (/** @type {Event} */ event) => {
    event.preventDefault();
    dialog.close();
    left();
  };
  dialog.addEventListener("submit", leave);
  document.addEventListener("keydown", (event) => dialog.open && keyIn(stops(), leave, event), true);
  document.addEventListener("focusin", (event) => {
    if (dialog.open && !dialog.contains(/** @type {Node} */ (event.target))) stops()[0]?.focus();
  });
}

/**
 * @param {HTMLElement[]} stops  what Tab goes to in the dialog
 * @param {(event: Event) => void} leave
 * @param {KeyboardEvent} event
 */
function keyIn(stops, leave, event) {
  if (event.isComposing) return;
  if (event.key === "Escape") leave(event);
  if (event.key !== "Tab" || stops.length === 0) return;
  event.preventDefault();
  const at = stops.indexOf(/** @type {HTMLElement} */ (document.activeElement));
  const next = event.shiftKey ? (at > 0 ? at - 1 : stops.length - 1) : (at + 1) % stops.length;
  stops[next].focus();
}
