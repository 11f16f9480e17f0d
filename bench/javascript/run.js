// Nanoseconds of processor time a step of scenes, by this package and by jsdom where that is there, with NODE_PATH at the folder that has jsdom
// (Debian's node-jsdom: /usr/share/nodejs): `node bench/javascript/run.js [--count N] [--times N] [--scene NAME]`.
//
// Each scene has a process of its own, in which both run it in turn, each time over new objects, until its time is over. The table has the quickest run of
// each, when the engine has compiled the hot code. Beside it is the ratio of the first runs, which are mostly compiling. The ratio is jsdom's over ours:
// other work on the machine slows down both.
import { spawnSync } from "node:child_process";
import { readFileSync } from "node:fs";
import { createRequire } from "node:module";
import { fileURLToPath } from "node:url";
import { parseArgs } from "node:util";

import { SCENES } from "./scenes.js";

const HELP = `Nanoseconds of processor time a step of scenes, by this package and by jsdom where that is there.

  --count N     how many steps a scene has (20000); some have a share of it
  --times N     how often each runs a scene at most (7), and at least twice
  --seconds N   after how many seconds of processor time a scene is not run again (1)
  --scene NAME  only this scene; more of them with commas between: ${Object.keys(SCENES).join(", ")}
  --help        this text
`;

const OPTIONS = {
  count: { type: "string", default: "20000" },
  times: { type: "string", default: "7" },
  seconds: { type: "string", default: "1" },
  scene: { type: "string" },
  inside: { type: "boolean" },
  help: { type: "boolean" },
};

const LEAST = 2;

function found(name) {
  try {
    return createRequire(import.meta.url)(name);
  } catch {
    return null;
  }
}

/** A window of each, with how it reads and writes HTML; ours is a page where the scene needs one. */
const WINDOWS = {
  huckleport: async ({ needsPage = false }) => {
    const { createWindow, parse, serialize } = await import("../../bindings/javascript/lib/index.js");
    const window = needsPage ? (await import("../../bindings/javascript/lib/page/index.js")).createPage() : createWindow();
    return Object.assign(window, { serializing: (node) => () => serialize(node), parsing: (text) => parse(text) });
  },
  jsdom: async () => {
    const { JSDOM } = found("jsdom");
    return Object.assign(new JSDOM("").window, { serializing: (node) => () => node.outerHTML, parsing: (text) => new JSDOM(text) });
  },
};

const countOf = (scene, count) => Math.ceil(count * (SCENES[scene].share ?? 1));

/** Whether a scene needs a library which is not there. */
const lacks = (scene) => scene === "updates" && found("preact") === null;

const THREAD = "/proc/thread-self/schedstat";

/**
 * Returns the microseconds of processor time of the thread that runs the program; if the system does not report them, those of the process. Other work on the
 * machine affects them less than the time by the clock. So does the engine's collector, which marks the objects that the other has left.
 */
function taken() {
  // (the system adds up a thread's time at its ticks, and when it is asked for the process's)
  const { user, system } = process.cpuUsage();
  try {
    return Number(readFileSync(THREAD, "utf8").split(" ")[0]) / 1000;
  } catch {
    return user + system;
  }
}

/** Waits until the program would wait, and what the engine compiles beside it is done; young objects that the other has left are collected. */
async function settled() {
  await new Promise((does) => void setTimeout(does, 50));
  for (let time = 0; time < 2; time++) globalThis.gc({ type: "minor" });
}

/** Runs a scene once; returns whether it runs at all. */
async function runOnce(by, window, scene, count) {
  try {
    await timed(by, window, scene, count);
    return true;
  } catch (fault) {
    if (by === "huckleport") throw fault;
    return false;
  }
}

async function timed(by, window, scene, count) {
  const does = SCENES[scene].ready(window, countOf(scene, count));
  await settled();
  const before = taken();
  does();
  process.stdout.write(`${by} ${((taken() - before) * 1000) / countOf(scene, count)}\n`);
}

/** Runs a scene a few times by each in turn, and prints the nanoseconds a step of each time. */
async function runAll(scene, { count, times, seconds }) {
  let players = found("jsdom") ? ["huckleport", "jsdom"] : ["huckleport"];
  const windows = {};
  for (const by of players) windows[by] = await WINDOWS[by](SCENES[scene]);
  const end = taken() + 1e6 * seconds;
  for (let time = 0; time < LEAST || (time < times && taken() < end); time++) {
    for (const by of [...players]) if (!(await runOnce(by, windows[by], scene, count))) players = players.filter((it) => it !== by);
  }
  process.exit(0);
}

/** The nanoseconds a step of the quickest run of each, and of the first. */
function measured(scene, { count, times, seconds }) {
  const words = ["--inside", "--scene", scene, "--count", `${count}`, "--times", `${times}`, "--seconds", `${seconds}`];
  const ran = spawnSync(process.execPath, ["--expose-gc", fileURLToPath(import.meta.url), ...words], { encoding: "utf8", stdio: ["ignore", "pipe", "inherit"] });
  const told = ran.stdout.trim().split("\n").map((line) => line.split(" "));
  const of = (by) => told.filter(([its]) => its === by).map(([, its]) => Number(its));
  return Object.fromEntries(Object.keys(WINDOWS).map((by) => [by, { quickest: Math.min(...of(by)), first: of(by)[0] ?? NaN }]));
}

const shown = (number) => (Number.isFinite(number) ? Math.round(number).toLocaleString("en") : "");
const ratio = (its, own) => (Number.isFinite(its / own) ? (its / own).toPrecision(2) : "");

function row(scene, given) {
  const { huckleport: own, jsdom: its } = measured(scene, given);
  const figures = [shown(own.quickest), shown(its.quickest), ratio(its.quickest, own.quickest), ratio(its.first, own.first)];
  return `| ${scene}: ${SCENES[scene].says} | ${figures.join(" | ")} |\n`;
}

function table(given) {
  if (!found("jsdom")) process.stdout.write("left out: jsdom, since it is not installed\n");
  process.stdout.write(`| scene of ${given.count} | ns a step | jsdom | ratio | of first runs |\n|---|---|---|---|---|\n`);
  for (const scene of given.scenes) process.stdout.write(lacks(scene) ? `left out: ${scene}, since preact is not installed\n` : row(scene, given));
}

function main() {
  const { values } = parseArgs({ options: OPTIONS });
  const [count, times, seconds] = [values.count, values.times, values.seconds].map(Number);
  const scenes = values.scene ? values.scene.split(",") : Object.keys(SCENES);
  if (values.help) return void process.stdout.write(HELP);
  if (!(count >= 100 && times >= 1 && seconds >= 0) || scenes.some((it) => !(it in SCENES))) {
    process.stderr.write(HELP);
    process.exit(2);
  }
  return values.inside ? runAll(values.scene, { count, times, seconds }) : table({ count, times, seconds, scenes });
}

await main();
