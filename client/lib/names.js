// @ts-check
/** Names for what an editor shows as one thing. */

/**
 * @typedef {{kind: "template" | "argument" | "extension" | "media" | "function" | "tag" | "comment" |
 *   "include" | "switch" | "category" | "other", name: string, source: string}} Description
 */

/**
 * What an element is that can't be edited: a group (what a template or a function gave), an extension,
 * what is kept as it stands, a comment, an include tag, a switch, a category. Of a group ask its first
 * element, the one with an `id`.
 * @param {Element} element
 * @returns {Description | null} null where it is none of these. `name` is that of the template, of the
 *   function with its `#`, of the extension, of the category; `source` is its wikitext, empty where the
 *   element doesn't tell.
 */
export function describe(element) {
  const type = element.getAttribute("typeof") ?? "";
  const rel = element.getAttribute("rel") ?? "";
  const property = element.getAttribute("property") ?? "";
  const source = sourceOf(element);
  if (element.hasAttribute("about")) return describeGroup(element, source);
  const [, , name = ""] = /^mw:(Extension|Includes|PageProp)\/(.*)$/.exec(type || property) ?? [];
  if (type.startsWith("mw:Extension/")) return { kind: "extension", name, source };
  if (type.startsWith("mw:Includes/")) return { kind: "include", name, source };
  if (property.startsWith("mw:PageProp/")) return { kind: "switch", name, source };
  if (type === "mw:Placeholder") return describePlaceholder(source);
  if (type === "mw:Comment") {
    return { kind: "comment", name: insideOfComment(source), source };
  }
  if (rel !== "mw:PageProp/Category") return null;
  return { kind: "category", name: titleOf(element.getAttribute("href") ?? ""), source };
}

/**
 * What stands between the signs of a comment, in time in proportion to it, however much white space it has.
 * @param {string} source  with the line break of its own that a comment may have, and perhaps without an end
 * @returns {string}
 */
function insideOfComment(source) {
  const text = source.trim();
  const start = text.startsWith("<!--") ? "<!--".length : 0;
  const end = text.endsWith("-->") ? text.length - "-->".length : text.length;
  return text.slice(start, end).trim();
}

/**
 * @param {Element} element
 * @returns {string}
 */
function sourceOf(element) {
  try {
    const data = JSON.parse(element.getAttribute("data-parsoid") ?? "{}");
    return typeof data.src === "string" ? data.src : "";
  } catch {
    return "";
  }
}

/**
 * @param {Element} element
 * @param {string} source
 * @returns {Description}
 */
function describeGroup(element, source) {
  /** @type {any[]} */
  let parts = [];
  try {
    parts = JSON.parse(element.getAttribute("data-mw") ?? "{}").parts ?? [];
  } catch {
    parts = [];
  }
  const targets = parts.filter((part) => part.template).map((part) => part.template.target);
  if (targets.length > 0) {
    const names = targets.map((target) => (target.function ? `#${target.function}` : target.wt.trim()));
    const kind = targets.every((target) => target.function) ? "function" : "template";
    return { kind, name: names.join(", "), source };
  }
  const argument = parts.find((part) => part.param);
  if (argument) return { kind: "argument", name: argument.param.wt, source };
  return { kind: "other", name: "", source };
}

/**
 * @param {string} source
 * @returns {Description}
 */
function describePlaceholder(source) {
  const media = /^\[\[\s*(?:File|Image)\s*:\s*([^|\]]*)/i.exec(source);
  if (media) return { kind: "media", name: media[1].trim(), source };
  const call = /^\{\{\s*(#?[^:|}]*)/.exec(source);
  if (call) return { kind: "function", name: call[1], source };
  if (source.startsWith("<")) return { kind: "tag", name: source, source };
  return { kind: "other", name: source, source };
}

/**
 * The title that a link leads to, to be read.
 * @param {string} href
 * @returns {string}
 */
export function titleOf(href) {
  const text = href.replace(/^\.\//, "");
  try {
    return decodeURIComponent(text).replaceAll("_", " ");
  } catch {
    return text.replaceAll("_", " ");
  }
}
