// @ts-check
/** Times by the clock and of the processor, on a machine that may be slow and may have other work to do. */

import { spawn } from "node:child_process";
import { readFileSync } from "node:fs";

/** So many processes work at once in what is measured: the browser's page, its other threads, the program. */
const AT_ONCE = 3;

/**
 * Works for a fifth of a second of processor time, and tells how many times as long that took, and how many rounds
 * of the work a second of processor time has.
 */
const WORK = `
  const start = process.cpuUsage(), began = performance.now();
  const worked = () => { const { user, system } = process.cpuUsage(start); return (user + system) / 1000; };
  let rounds = 0;
  for (; worked() < 200; rounds += 1) for (let at = 0, sum = 0; at < 100000; at += 1) sum += at % 7;
  console.log(JSON.stringify([(performance.now() - began) / worked(), (rounds / worked()) * 1000]));
`;

/** As many rounds of that work a machine has done in a second that was busy with other work, too. */
const USUAL_ROUNDS = 4000;

/**
 * @typedef {{stretch: number, slowness: number}} Speed  how many times as long work takes here: by the clock, for
 *   what else the machine does; and in processor time, as the machine is slow. Both are 1 at least.
 */

/** @returns {Promise<Speed>} */
export async function speed() {
  const found = await Promise.all(Array.from({ length: AT_ONCE }, speedOfOne));
  const stretch = Math.max(1, ...found.map(([stretched]) => stretched));
  return { stretch, slowness: Math.max(1, ...found.map(([, rounds]) => USUAL_ROUNDS / rounds)) };
}

/** @returns {Promise<[number, number]>} */
function speedOfOne() {
  const child = spawn(process.execPath, ["-e", WORK], { stdio: ["ignore", "pipe", "inherit"] });
  let told = "";
  child.stdout.on("data", (data) => (told += data));
  return new Promise((done, failed) => {
    child.on("error", failed);
    child.on("close", () => done(JSON.parse(told)));
  });
}

/**
 * @param {number} pid
 * @returns {number} seconds of processor time that a process took, with those of its children that ended; 0
 *   where the system doesn't tell
 */
export function secondsOf(pid) {
  try {
    const fields = readFileSync(`/proc/${pid}/stat`, "utf8").replace(/^.*\) /s, "").split(" ");
    return fields.slice(11, 15).reduce((sum, ticks) => sum + Number(ticks), 0) / 100;
  } catch {
    return 0;
  }
}

/**
 * @typedef {{clock: number, page: number, server: number} & Speed} Times in seconds: by the clock, of the
 *   browser's main thread, of the server and the programs that it ran; the speed is the lower one of before and
 *   behind
 */

/**
 * Measures what is done in a browser over a server.
 * @param {import("./chromium.js").Tab} tab
 * @param {import("./pages.js").Server} server
 * @param {() => Promise<unknown>} action
 * @returns {Promise<Times>}
 */
export async function measured(tab, server, action) {
  // The time of a thread, in which other work on the machine counts for little.
  await tab.call("Performance.enable", { timeDomain: "threadTicks" });
  const worked = async () => {
    const { metrics } = await tab.call("Performance.getMetrics");
    return metrics.find((/** @type {{name: string}} */ metric) => metric.name === "TaskDuration").value;
  };
  const before = await speed();
  const [page, process, start] = [await worked(), secondsOf(server.child.pid ?? 0), performance.now()];
  await action();
  await tab.js("new Promise((done) => requestAnimationFrame(() => setTimeout(done)))"); // it is drawn
  const clock = (performance.now() - start) / 1000;
  const times = { clock, page: (await worked()) - page, server: secondsOf(server.child.pid ?? 0) - process };
  const behind = await speed();
  const stretch = Math.max(before.stretch, behind.stretch);
  return { ...times, stretch, slowness: Math.max(before.slowness, behind.slowness) };
}

/** Of four times as much, work in proportion takes four times the time, and quadratic work sixteen times. */
const [TIMES_AS_MUCH, MOST_TIMES_AS_LONG] = [4, 10];
const SHORT = 20_000; // microseconds, below which two spans can't be compared
const TRIES = 3; // what else the machine does makes one span longer, and goes by

/**
 * Whether work takes processor time in proportion to what it is given.
 * @template T
 * @param {number} count
 * @param {(count: number) => T} prepare  makes what it is given, of this length and of four times the length
 * @param {(given: T) => unknown} work
 * @returns {string} empty, or how long it took
 */
export function outOfProportion(count, prepare, work) {
  const spans = [];
  work(prepare(count)); // so that it is compiled
  for (let left = TRIES; left > 0; left -= 1) {
    const [short, long] = [count, TIMES_AS_MUCH * count].map((length) => {
      const given = prepare(length);
      const start = process.cpuUsage();
      work(given);
      return process.cpuUsage(start).user;
    });
    if (long <= MOST_TIMES_AS_LONG * Math.max(short, SHORT)) return "";
    spans.push(`${short} and ${long} microseconds`);
  }
  return `four times as much takes ${spans.join(", ")}`;
}
