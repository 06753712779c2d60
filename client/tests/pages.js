// @ts-check
/** Pages for tests, the program, and the server of the repository. */

import { spawn, spawnSync } from "node:child_process";
import { accessSync, constants, existsSync, mkdtempSync, mkdirSync, readFileSync } from "node:fs";
import { readdirSync, rmSync, writeFileSync } from "node:fs";
import { tmpdir } from "node:os";
import { dirname, join } from "node:path";
import { fileURLToPath } from "node:url";

export const REPOSITORY = join(dirname(fileURLToPath(import.meta.url)), "../..");

/** @returns {string | null} where the program is: $WTROUND, else the one that this clone has built */
export function findProgram() {
  const path = process.env.WTROUND ?? join(REPOSITORY, "crates/wtround/out/wtround");
  try {
    accessSync(path, constants.X_OK);
    return path;
  } catch {
    return null;
  }
}

/** A folder with pages, and the program over it. */
export class Wiki {
  /**
   * @param {string} program
   * @param {Record<string, string>} pages  texts by title
   */
  constructor(program, pages) {
    this.program = program;
    this.folder = mkdtempSync(join(tmpdir(), "bughtiso-wiki-"));
    mkdirSync(join(this.folder, "pages"));
    for (const [title, text] of Object.entries(pages)) this.write(title, text);
  }

  /** @param {string} title */
  #path(title) {
    const escaped = (/** @type {string} */ sign) => `%${sign.charCodeAt(0).toString(16).toUpperCase()}`;
    const name = encodeURIComponent(title.replaceAll(" ", "_")).replace(/[!'()*~]/g, escaped);
    return join(this.folder, "pages", `${name}.wiki`);
  }

  /**
   * @param {string} title
   * @param {string} text
   */
  write(title, text) {
    writeFileSync(this.#path(title), text);
  }

  /**
   * @param {string} title
   * @returns {string}
   */
  read(title) {
    return readFileSync(this.#path(title), "utf8");
  }

  /**
   * @param {string[]} words
   * @param {string} [input]
   * @returns {{status: number | null, out: string, line: string}}
   */
  run(words, input = "") {
    const how = { cwd: this.folder, input, maxBuffer: 1 << 30 };
    const { status, stdout, stderr } = spawnSync(this.program, words, how);
    return { status, out: stdout.toString(), line: stderr.toString().trim() };
  }

  /**
   * @param {string} title
   * @returns {string} its HTML
   */
  html(title) {
    const { status, out, line } = this.run(["html", title]);
    if (status !== 0) throw new Error(line);
    return out;
  }

  remove() {
    rmSync(this.folder, { recursive: true, force: true });
  }
}

/** The server of the repository over a wiki. */
export class Server {
  /**
   * @param {Wiki} wiki
   * @returns {Promise<Server>}
   */
  static async start(wiki) {
    const options = ["--port", "0", "--program", wiki.program, "--quiet"];
    const words = [join(REPOSITORY, "tools/serve"), join(wiki.folder, "pages"), ...options];
    const child = spawn("python3", words, { stdio: ["ignore", "pipe", "inherit"] });
    const url = await new Promise((done, failed) => {
      let said = "";
      child.stdout.on("data", (data) => {
        said += data;
        const found = /http:\/\/[^\s/]+/.exec(said);
        if (found) done(found[0]);
      });
      child.on("exit", () => failed(new Error(`the server ended: ${said}`)));
    });
    return new Server(child, url);
  }

  /**
   * @param {import("node:child_process").ChildProcess} child
   * @param {string} url
   */
  constructor(child, url) {
    this.child = child;
    this.url = url;
  }

  async stop() {
    if (this.child.exitCode !== null) return;
    const ended = new Promise((done) => this.child.once("exit", done));
    this.child.kill("SIGTERM");
    await ended;
  }
}

/** @param {string} name  a file's */
function titleOfFile(name) {
  return decodeURIComponent(name.slice(0, -".wiki".length)).replaceAll("_", " ");
}

/**
 * The HTML of outside pages, where they are beside the repository or in the folder $BUGHTISO_CASES: what
 * `html` answers in each case that is answered.
 * @returns {string[]}
 */
export function outsideDocuments() {
  const folder = process.env.BUGHTISO_CASES ?? join(REPOSITORY, "../shared/vectors");
  if (!existsSync(folder)) return [];
  return readdirSync(folder)
    .filter((name) => name.endsWith("-html.tsv"))
    .flatMap((name) => readFileSync(join(folder, name), "utf8").split("\n"))
    .map((line) => line.split("\t"))
    .filter((fields) => fields[3] === "0")
    .map((fields) => Buffer.from(fields[4], "hex").toString());
}

/** @returns {Record<string, string>} the pages that the repository shows as examples, by title */
export function examplePages() {
  const folder = join(REPOSITORY, "examples/pages");
  return Object.fromEntries(
    readdirSync(folder)
      .filter((name) => name.endsWith(".wiki"))
      .map((name) => [titleOfFile(name), readFileSync(join(folder, name), "utf8")]),
  );
}
