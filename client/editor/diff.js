// @ts-check
/** A unified diff, to be read: changed lines with what changed in them. */

/**
 * @param {string} diff
 * @returns {Node[]}
 */
export function shownDiff(diff) {
  /** @type {Node[]} */
  const out = [];
  const lines = diff.replace(/\n$/, "").split("\n");
  for (let at = 0; at < lines.length; ) {
    const line = lines[at];
    if (line.startsWith("--- ") || line.startsWith("+++ ")) at += 1;
    else if (line.startsWith("@@")) {
      if (out.length > 0) out.push(document.createElement("hr"));
      at += 1;
    } else if (line.startsWith("-") || line.startsWith("+")) {
      const removed = run(lines, at, "-");
      const added = run(lines, at + removed.length, "+");
      out.push(...changedLines(removed, added));
      at += removed.length + added.length;
    } else {
      out.push(shownLine("same", " ", [line.slice(1)], ""));
      at += 1;
    }
  }
  return out;
}

/**
 * @param {string[]} lines
 * @param {number} from
 * @param {string} sign
 * @returns {string[]} those that begin with it
 */
function run(lines, from, sign) {
  let end = from;
  while (end < lines.length && lines[end].startsWith(sign)) end += 1;
  return lines.slice(from, end).map((line) => line.slice(1));
}

/**
 * @param {string[]} removed
 * @param {string[]} added
 * @returns {Node[]}
 */
function changedLines(removed, added) {
  const isPaired = removed.length === added.length;
  const pairs = removed.map((line, at) => (isPaired ? cut(line, added[at]) : null));
  return [
    ...removed.map((line, at) => shownLine("removed", "−", pairs[at]?.[0] ?? ["", line, ""], "del")),
    ...added.map((line, at) => shownLine("added", "+", pairs[at]?.[1] ?? ["", line, ""], "ins")),
  ];
}

/**
 * @param {string | undefined} sign
 * @returns {boolean} whether it belongs to a word
 */
function isOfWord(sign) {
  return sign !== undefined && /[\p{L}\p{N}\ud800-\udfff]/u.test(sign);
}

/**
 * Two lines, each cut where they begin and stop to differ, and never in a word.
 * @param {string} left
 * @param {string} right
 * @returns {[string[], string[]]}
 */
function cut(left, right) {
  const most = Math.min(left.length, right.length);
  let front = 0;
  while (front < most && left[front] === right[front]) front += 1;
  while (isOfWord(left[front - 1]) && (isOfWord(left[front]) || isOfWord(right[front]))) front -= 1;
  const fromEnd = (/** @type {string} */ line, /** @type {number} */ signs) => line[line.length - signs];
  let back = 0;
  while (back < most - front && fromEnd(left, back + 1) === fromEnd(right, back + 1)) back += 1;
  const isInWord = () => isOfWord(fromEnd(left, back + 1)) || isOfWord(fromEnd(right, back + 1));
  while (back > 0 && isOfWord(fromEnd(left, back)) && isInWord()) back -= 1;
  const parts = (/** @type {string} */ line) => {
    const end = line.length - back;
    return [line.slice(0, front), line.slice(front, end), line.slice(end)];
  };
  return [parts(left), parts(right)];
}

/**
 * @param {string} kind
 * @param {string} sign
 * @param {string[]} parts  before, changed, behind
 * @param {string} name
 */
function shownLine(kind, sign, parts, name) {
  const line = document.createElement("div");
  line.className = `line ${kind}`;
  const mark = document.createElement("span");
  mark.className = "sign";
  mark.textContent = sign;
  const text = document.createElement("span");
  text.className = "text";
  parts.forEach((part, at) => {
    if (at !== 1) {
      text.append(part);
      return;
    }
    const changed = document.createElement(name);
    changed.textContent = part;
    if (part !== "") text.append(changed);
  });
  line.append(mark, text);
  return line;
}
