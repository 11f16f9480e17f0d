// Runs a scene over a window whose names are global, and prints what it answers and the milliseconds of processor time that its parts took at each turn, as
// JSON: `node run.js PLAYER SCENE [TURNS]`. The part `ready` is what it took until there was a window. `own` has the times of the thread that runs the
// program, where the system tells them, and `times` those of the whole process, with the engine's compiler and collector.
import { readFileSync } from "node:fs";

import { WINDOWS } from "../players.js";
import { SCENES } from "./scenes.js";

const [player, scene, turns = "6"] = process.argv.slice(2);

/** What a library finds without saying `window.`, beside what node has. */
const AS_GLOBAL = /^(?:[A-Z].*|document|navigator|location|history|getComputedStyle|getSelection|requestAnimationFrame|cancelAnimationFrame|innerHeight|innerWidth)$/;
const OF_NODE = /^(?:Array|Object|Function|Promise|Error|.*Error|Symbol|Map|Set|Weak.*|Proxy|Reflect|JSON|Math|Date|RegExp|String|Number|Boolean|BigInt.*|.*Array|ArrayBuffer|DataView|Intl|WebAssembly|Atomics|SharedArrayBuffer|Infinity|NaN|FinalizationRegistry|Iterator|Buffer|URL.*|Abort.*|Text(?:En|De)coder.*|MessageChannel|MessagePort|Blob|Headers|Performance.*|Escape.*)$/;

function makeGlobal(window) {
  for (const name of Object.getOwnPropertyNames(window).filter((it) => AS_GLOBAL.test(it) && !OF_NODE.test(it))) {
    Object.defineProperty(globalThis, name, { value: window[name], writable: true, configurable: true });
  }
  Object.defineProperty(globalThis, "window", { value: window, writable: true, configurable: true });
}

const times = {};
const own = {};

const THREAD = "/proc/thread-self/schedstat";

/** The milliseconds of processor time that this thread has taken, or NaN. */
function ownTime() {
  try {
    return Number(readFileSync(THREAD, "latin1").split(" ")[0]) / 1e6;
  } catch {
    return NaN;
  }
}

const now = () => ({ own: ownTime(), whole: process.cpuUsage() });

function took(name, before) {
  const { user, system } = process.cpuUsage(before.whole);
  (times[name] ??= []).push((user + system) / 1000);
  (own[name] ??= []).push(ownTime() - before.own);
}

function timed(name, does) {
  const before = now();
  does();
  took(name, before);
}

const start = now();
const window = await WINDOWS[player]();
// (what a page loads when it is first needed is loaded here, as jsdom has loaded it)
void window.document.body.style;
window.document.querySelector("a > b");
took("ready", start);
makeGlobal(window);
const answer = await SCENES[scene][0](window, timed, Number(turns));
process.stdout.write(JSON.stringify({ answer, times, own }), () => process.exit(0));
