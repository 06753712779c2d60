// @ts-check
/** A browser for tests: Chromium, driven over the pipe of its debugging protocol (no port, no WebSocket). */

import { spawn } from "node:child_process";
import { accessSync, constants, mkdtempSync, rmSync, writeFileSync } from "node:fs";
import { tmpdir } from "node:os";
import { delimiter, join } from "node:path";

const NAMES = ["chromium", "chromium-browser", "google-chrome"];

/** @returns {string | null} where a Chromium is, null where there is none */
export function findChromium() {
  for (const folder of (process.env.PATH ?? "").split(delimiter)) {
    for (const name of NAMES) {
      const path = join(folder, name);
      try {
        accessSync(path, constants.X_OK);
        return path;
      } catch {
        continue;
      }
    }
  }
  return null;
}

export class Browser {
  #number = 0;
  /** @type {Map<number, {done: (value: any) => void, failed: (error: Error) => void}>} */
  #waiting = new Map();
  /** @type {((message: any) => void)[]} */
  #listeners = [];

  /** @param {string} path  Chromium's */
  constructor(path) {
    this.profile = mkdtempSync(join(tmpdir(), "bughtiso-chromium-"));
    const flags = [
      "--headless=new", "--no-sandbox", "--disable-gpu", "--no-first-run", "--disable-extensions",
      "--hide-scrollbars", "--disable-background-networking", "--disable-component-update", "--disable-sync",
      "--disable-dev-shm-usage", `--user-data-dir=${this.profile}`, "--remote-debugging-pipe", "about:blank",
    ];
    this.process = spawn(path, flags, { stdio: ["ignore", "ignore", "ignore", "pipe", "pipe"] });
    this.to = /** @type {import("node:stream").Writable} */ (this.process.stdio[3]);
    const from = /** @type {import("node:stream").Readable} */ (this.process.stdio[4]);
    /** @type {Buffer[]} */
    let pieces = [];
    from.on("data", (/** @type {Buffer} */ data) => {
      for (let end = data.indexOf(0); end >= 0; end = data.indexOf(0)) {
        pieces.push(data.subarray(0, end));
        this.#receive(JSON.parse(Buffer.concat(pieces).toString()));
        pieces = [];
        data = data.subarray(end + 1);
      }
      if (data.length > 0) pieces.push(data);
    });
    this.process.on("exit", () => {
      for (const { failed } of this.#waiting.values()) failed(new Error("the browser ended"));
    });
  }

  /** @param {any} message */
  #receive(message) {
    const waiting = this.#waiting.get(message.id);
    if (waiting === undefined) {
      for (const listener of this.#listeners) listener(message);
      return;
    }
    this.#waiting.delete(message.id);
    if (message.error) waiting.failed(new Error(message.error.message));
    else waiting.done(message.result);
  }

  /**
   * @param {string} method
   * @param {object} [params]
   * @param {string} [session]
   * @returns {Promise<any>}
   */
  call(method, params = {}, session) {
    this.#number += 1;
    const id = this.#number;
    this.to.write(`${JSON.stringify({ id, method, params, sessionId: session })}\0`);
    return new Promise((done, failed) => this.#waiting.set(id, { done, failed }));
  }

  /**
   * @param {string} session
   * @param {string} method
   * @returns {Promise<any>} the next event of this name
   */
  next(session, method) {
    return new Promise((done) => {
      const listener = (/** @type {any} */ message) => {
        if (message.sessionId !== session || message.method !== method) return;
        this.#listeners.splice(this.#listeners.indexOf(listener), 1);
        done(message.params);
      };
      this.#listeners.push(listener);
    });
  }

  /** @param {(message: any) => void} listener */
  listen(listener) {
    this.#listeners.push(listener);
  }

  /** @returns {Promise<Tab>} */
  async tab() {
    const { targetId } = await this.call("Target.createTarget", { url: "about:blank" });
    const { sessionId } = await this.call("Target.attachToTarget", { targetId, flatten: true });
    const tab = new Tab(this, sessionId, targetId);
    await tab.call("Page.enable");
    await tab.call("Runtime.enable");
    return tab;
  }

  async close() {
    await this.call("Browser.close").catch(() => undefined);
    if (this.process.exitCode === null) await new Promise((done) => this.process.once("exit", done));
    rmSync(this.profile, { recursive: true, force: true, maxRetries: 5, retryDelay: 100 });
  }
}

/**
 * Keys that are no characters: their codes, and the text that they type.
 * @type {Record<string, {code: number, text?: string}>}
 */
const KEYS = {
  Enter: { code: 13, text: "\r" },
  Backspace: { code: 8 },
  Delete: { code: 46 },
  Tab: { code: 9 },
  Escape: { code: 27 },
  ArrowLeft: { code: 37 },
  ArrowUp: { code: 38 },
  ArrowRight: { code: 39 },
  ArrowDown: { code: 40 },
  Home: { code: 36 },
  End: { code: 35 },
};
/** @type {Record<string, number>} */
const MODIFIERS = { Alt: 1, Control: 2, Meta: 4, Shift: 8 };

export class Tab {
  /**
   * @param {Browser} browser
   * @param {string} session
   * @param {string} target
   */
  constructor(browser, session, target) {
    this.browser = browser;
    this.session = session;
    this.target = target;
    /**
     * What scripts of the page threw and wrote to the console as errors.
     * @type {string[]}
     */
    this.errors = [];
    browser.listen((message) => {
      if (message.sessionId !== session) return;
      if (message.method === "Runtime.exceptionThrown") {
        const { exceptionDetails } = message.params;
        this.errors.push(exceptionDetails.exception?.description ?? exceptionDetails.text);
      }
      if (message.method === "Page.javascriptDialogOpening") {
        this.call("Page.handleJavaScriptDialog", { accept: true });
      }
    });
  }

  /**
   * @param {string} method
   * @param {object} [params]
   * @returns {Promise<any>}
   */
  call(method, params) {
    return this.browser.call(method, params, this.session);
  }

  /** @param {string} url */
  async go(url) {
    const loaded = this.browser.next(this.session, "Page.loadEventFired");
    await this.call("Page.navigate", { url });
    await loaded;
  }

  /**
   * The value of an expression, or what its promise gives.
   * @param {string} expression
   * @returns {Promise<any>}
   */
  async js(expression) {
    const how = { awaitPromise: true, returnByValue: true };
    const { result, exceptionDetails } = await this.call("Runtime.evaluate", { expression, ...how });
    if (exceptionDetails) throw new Error(exceptionDetails.exception?.description ?? "script failed");
    return result.value;
  }

  /**
   * Waits until an expression is true.
   * @param {string} expression
   * @param {number} [milliseconds]
   */
  async until(expression, milliseconds = 60000) {
    const end = Date.now() + milliseconds;
    // While a page goes and another comes there is nothing to ask.
    const isTrue = () => this.js(`Boolean(${expression})`).catch((error) => {
      if (!/navigated|context/i.test(String(error))) throw error;
      return false;
    });
    while (!(await isTrue())) {
      if (Date.now() > end) throw new Error(`not true within ${milliseconds} ms: ${expression}`);
      await new Promise((done) => setTimeout(done, 20));
    }
  }

  /**
   * Presses keys, each a character or a name, with modifiers before it: "Control+b".
   * @param {...string} keys
   */
  async press(...keys) {
    for (const key of keys) {
      const names = key.length === 1 ? [key] : key.split("+");
      const last = /** @type {string} */ (names.pop());
      const modifiers = names.reduce((sum, name) => sum + MODIFIERS[name], 0);
      const named = KEYS[last];
      const text = modifiers & ~MODIFIERS.Shift ? undefined : named ? named.text : last;
      const upper = last.toUpperCase();
      const event = {
        modifiers,
        key: last,
        code: named ? last : /[a-z]/i.test(last) ? `Key${upper}` : "",
        windowsVirtualKeyCode: named?.code ?? (/[a-z0-9 ]/i.test(last) ? upper.charCodeAt(0) : 0),
      };
      const type = text === undefined ? "rawKeyDown" : "keyDown";
      await this.call("Input.dispatchKeyEvent", { type, text, ...event });
      await this.call("Input.dispatchKeyEvent", { type: "keyUp", ...event });
    }
  }

  /**
   * Types a text, a key event for each character.
   * @param {string} text
   */
  async type(text) {
    for (const character of text) await this.press(character);
  }

  /**
   * @param {number} width
   * @param {number} height
   * @param {boolean} [isPhone]
   */
  async size(width, height, isPhone = false) {
    await this.call("Emulation.setDeviceMetricsOverride", {
      width, height, deviceScaleFactor: isPhone ? 2 : 1, mobile: isPhone,
    });
  }

  /** @param {string} path  a PNG's */
  async shot(path) {
    const { data } = await this.call("Page.captureScreenshot", { format: "png" });
    writeFileSync(path, Buffer.from(data, "base64"));
  }

  async close() {
    await this.browser.call("Target.closeTarget", { targetId: this.target });
  }
}
