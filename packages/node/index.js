// @ts-check
/**
 * Converts between MediaWiki wikitext and annotated HTML for visual editors, and writes edits back byte for byte, by the
 * program `wtround`, in a process for each call. index.d.ts says what each call takes and gives.
 */
import { spawn } from "node:child_process";
import { readFileSync } from "node:fs";
import { mkdir, mkdtemp, rm, writeFile } from "node:fs/promises";
import { tmpdir } from "node:os";
import { join } from "node:path";

/** @typedef {import("./index.js").Text} Text @typedef {import("./index.js").Pages} Pages */
/** @typedef {import("./index.js").Options} Options @typedef {import("./index.js").Answer} Answer */

const RULES = JSON.parse(readFileSync(new URL("refusals.json", import.meta.url), "utf8")).map((rule) => ({
  ...rule,
  pattern: new RegExp(rule.pattern, "u"),
}));

const SENTENCES = JSON.parse(readFileSync(new URL("findings.json", import.meta.url), "utf8"));

export class Refusal extends Error {
  /** @param {string} line @param {number} status */
  constructor(line, status) {
    const told = line.trim().replace(/^wtround: /, "");
    const rule = RULES.find((it) => it.pattern.test(told)) ?? {};
    const found = rule.pattern?.exec(told).groups ?? {};
    super(rule.sentence ?? rule.sentences?.[found.why] ?? told);
    this.name = rule.name ?? found.why ?? "Refused";
    this.reason = rule.name ? (found.why ?? null) : null;
    this.place = found.number === undefined ? null : Number(found.number);
    this.template = found.title ?? null;
    this.placeIn = this.place === null ? null : countedIn(rule, this.name, this.template);
    this.sentence = this.message;
    this.line = told;
    this.status = status;
  }
}

/** @param {any} rule @param {string} name @param {string | null} template */
function countedIn(rule, name, template) {
  return template === null ? (rule.placesIn?.[name] ?? rule.placeIn) : "byte of the template";
}

/** @param {Text} text @param {Pages} [pages] @param {Options} [options] */
export async function html(text, pages, options) {
  return written(await runWithPage("html", text, "", pages, options));
}

/** @param {Text} text @param {Text} edited @param {Pages} [pages] @param {Options} [options] */
export async function edit(text, edited, pages, options) {
  return written(await runWithPage("edit", text, edited, pages, options));
}

/** @param {Text} source @param {Options} [options] */
export async function wikitext(source, options) {
  return written(await run(["wikitext"], source, {}, options));
}

/** @param {Text} text @param {Pages} [pages] @param {Options} [options] */
export async function expand(text, pages, options) {
  return written(await runWithPage("expand", text, "", pages, options));
}

/** @param {Text} text @param {Pages} [pages] @param {Options} [options] */
export async function ranges(text, pages, options) {
  const lines = written(await runWithPage("ranges", text, "", pages, options)).split("\n").slice(0, -1);
  return lines.map((line) => {
    const [number, kind, ...places] = line.split(" ");
    const [start, end, open, close] = places.map(Number);
    return { number: Number(number.slice(2)), kind, start, end, open, close };
  });
}

/** @param {Text} text @param {Pages} [pages] @param {Options} [options] */
export async function lint(text, pages, options) {
  const lines = written(await runWithPage("lint", text, "", pages, options)).split("\n").slice(0, -1);
  return lines.map((told) => {
    const [kind, ...places] = told.split(" ");
    const [line, column, start, end] = places.map(Number);
    return { kind, line, column, start, end, sentence: SENTENCES[kind] ?? kind };
  });
}

/** @param {string[]} words @param {Text} [input] @param {Pages} [pages] @param {Options} [options] @returns {Promise<Answer>} */
export async function run(words, input = "", pages = {}, options = {}) {
  const folder = await mkdtemp(join(tmpdir(), "bughtiso-"));
  try {
    await mkdir(join(folder, "pages"));
    if (words.length > 1) await writePages(join(folder, "pages"), pages);
    return await runIn(folder, options.program ?? (process.env.BUGHTISO_PROGRAM || "wtround"), words, input);
  } finally {
    await rm(folder, { recursive: true, force: true });
  }
}

/** @param {string} folder @param {Pages} pages */
async function writePages(folder, pages) {
  for (const [name, page] of pages instanceof Map ? pages : Object.entries(pages)) {
    const file = fileName(name);
    // A page whose name has no file can't be fetched, and the program says so where it is wanted.
    if (file.length <= 255) await writeFile(join(folder, file), page);
  }
}

/** The file of a page, as the program names it. @param {string} name */
function fileName(name) {
  const bytes = Buffer.from(name.replaceAll(" ", "_"), "utf8").toString("latin1");
  const escape = (/** @type {string} */ byte) => "%" + byte.charCodeAt(0).toString(16).toUpperCase().padStart(2, "0");
  return bytes.replace(/[^A-Za-z0-9_.-]/g, escape) + ".wiki";
}

/** @param {string} folder @param {string} program @param {string[]} words @param {Text} input @returns {Promise<Answer>} */
function runIn(folder, program, words, input) {
  return new Promise((resolve, reject) => {
    const child = spawn(program, words, { cwd: folder });
    const out = /** @type {Buffer[]} */ ([]);
    const err = /** @type {Buffer[]} */ ([]);
    child.stdout.on("data", (/** @type {Buffer} */ it) => out.push(it));
    child.stderr.on("data", (/** @type {Buffer} */ it) => err.push(it));
    child.on("error", reject);
    child.on("close", (status, signal) => {
      if (status === null) reject(new Error(`${program} was ended by ${signal}`));
      else resolve({ status, out: Buffer.concat(out), line: Buffer.concat(err).toString("utf8") });
    });
    // A command that doesn't read its input may end before it is written.
    child.stdin.on("error", () => {});
    child.stdin.end(input);
  });
}

/** A command over the page of this text. @param {string} command @param {Text} text @param {Text} input @param {Pages} [pages] @param {Options} [options] */
function runWithPage(command, text, input, pages = {}, options = {}) {
  const title = options.title ?? "Page";
  const own = title.replace(/[ _]+/g, " ").trim().replace(/^[a-z]/, (first) => first.toUpperCase());
  const entries = [...(pages instanceof Map ? pages : Object.entries(pages))];
  const all = new Map(entries.filter(([name]) => fileName(name) !== fileName(own)));
  return run([command, title], input, all.set(own, text), options);
}

/** What a command wrote, or what it throws. @param {Answer} answer */
function written({ status, out, line }) {
  if (status === 0) return out.toString("utf8");
  if (status <= 4) throw new Refusal(line, status);
  throw new Error(line.trim() || `wtround ended with status ${status}`);
}
