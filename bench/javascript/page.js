// Milliseconds of processor time that libraries take over a page and over jsdom: `node bench/javascript/page.js [--times N] [--turns N] [--scene NAME]`,
// with NODE_PATH at the folder that has the libraries (Debian's: /usr/share/nodejs).
//
// Each scene of the page's tests is run a few times by each, in turn, and each time in a process of its own. The table has medians: of the time until there
// is a window, of the first turn of a process, of the next few, and of the last ones, when the engine has compiled the code. The time is that of the thread
// that runs the program, for which a test waits; with --whole that of the process, with the engine's compiler and collector beside it.
import { spawnSync } from "node:child_process";
import { fileURLToPath } from "node:url";
import { parseArgs } from "node:util";

import { installed, NEEDED } from "../../bindings/javascript/tests/page/players.js";
import { SCENES } from "../../bindings/javascript/tests/page/libraries/scenes.js";

const HELP = `Milliseconds of processor time that libraries take over a page and over jsdom.

  --times N     how many processes each scene has by each (5)
  --turns N     how many turns a process has (20)
  --whole       the time of the whole process, and not of the thread that runs the program
  --scene NAME  only this scene: ${Object.keys(SCENES).join(", ")}
  --help        this text
`;

const OPTIONS = {
  times: { type: "string", default: "5" },
  turns: { type: "string", default: "20" },
  scene: { type: "string" },
  whole: { type: "boolean", default: false },
  help: { type: "boolean" },
};

const RUN = fileURLToPath(new URL("../../bindings/javascript/tests/page/libraries/run.js", import.meta.url));
const PLAYERS = ["page", "jsdom"];
/** The turns of a process that each column shows, by its name. */
const TOLD = { "first turn": [0, 1], "turns 2 to 5": [1, 5], "last 5 turns": [-5, undefined] };

function median(numbers) {
  const sorted = [...numbers].sort((one, other) => one - other);
  return sorted[Math.floor(sorted.length / 2)];
}

/** The times of the parts of a scene, in one process. */
function once(player, scene, { turns, whole }) {
  const env = { ...process.env, NODE_ENV: "production" };
  const ran = spawnSync(process.execPath, [RUN, player, scene, `${turns}`], { encoding: "utf8", env, maxBuffer: 2 ** 28 });
  if (ran.status !== 0) throw new Error(`${scene} over ${player}: ${ran.stderr}`);
  return JSON.parse(ran.stdout)[whole ? "times" : "own"];
}

/** The times of all processes of a scene, by the player: those of each part. */
function measured(scene, given) {
  const all = { page: [], jsdom: [] };
  for (let time = 0; time < given.times; time++) for (const player of PLAYERS) all[player].push(once(player, scene, given));
  return all;
}

function cell(all, part, [from, to]) {
  const [own, its] = PLAYERS.map((player) => median(all[player].flatMap((it) => it[part].slice(from, to))));
  return `${own.toFixed(0)} / ${its.toFixed(0)} = ${(its / own).toFixed(1)}`;
}

function rows(scene, given) {
  const all = measured(scene, given);
  const parts = Object.keys(all.page[0]).filter((part) => part !== "ready");
  const ready = `| ${scene}: until there is a window | ${cell(all, "ready", [0, 1])} | | |\n`;
  return ready + parts.map((part) => `| ${part} | ${Object.values(TOLD).map((its) => cell(all, part, its)).join(" | ")} |\n`).join("");
}

const isThere = (scene) => [...NEEDED, "jsdom", ...SCENES[scene][1]].every(installed);

function main() {
  const { values } = parseArgs({ options: OPTIONS });
  const [times, turns] = [Number(values.times), Number(values.turns)];
  const scenes = values.scene ? [values.scene] : Object.keys(SCENES);
  if (values.help) return void process.stdout.write(HELP);
  if (!(times >= 1 && turns >= 6) || scenes.some((it) => !(it in SCENES))) {
    process.stderr.write(HELP);
    process.exit(2);
  }
  process.stdout.write(`| ms over the page / over jsdom = ratio | ${Object.keys(TOLD).join(" | ")} |\n|---|---|---|---|\n`);
  for (const scene of scenes) process.stdout.write(isThere(scene) ? rows(scene, { times, turns, whole: values.whole }) : `left out: ${scene}, since a package is not installed\n`);
  return undefined;
}

main();
