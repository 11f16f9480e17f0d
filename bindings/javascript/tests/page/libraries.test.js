// Libraries over a page and over jsdom: each does its main job and changes after it, and the two are the same. The times of both are printed.
import assert from "node:assert/strict";
import { spawnSync } from "node:child_process";
import test from "node:test";
import { fileURLToPath } from "node:url";

import { installed, NEEDED, skipWithout } from "./players.js";
import { SCENES } from "./libraries/scenes.js";

const RUN = fileURLToPath(new URL("./libraries/run.js", import.meta.url));
const MODES = { react: ["production", "development"] };

function run(player, scene, mode) {
  const env = { ...process.env, NODE_ENV: mode };
  const ran = spawnSync(process.execPath, [RUN, player, scene], { encoding: "utf8", env, maxBuffer: 2 ** 28 });
  assert.equal(ran.status, 0, `${scene} over ${player}: ${ran.stderr}`);
  return JSON.parse(ran.stdout);
}

const shown = (number) => `${number.toFixed(1)} ms`;

function compare(t, own, its) {
  for (const [name, turns] of Object.entries(own.times)) {
    const [time, other] = [turns, its.times[name]].map((it) => Math.min(...it));
    t.diagnostic(`${name}: ${shown(time)} of processor time, over jsdom ${shown(other)}, ${(other / time).toFixed(1)} times as long`);
  }
}

/** Markup as parse5 reads and writes it: jsdom writes < and > in attributes as they are. */
const plain = (markup) => installed("parse5").serialize(installed("parse5").parseFragment(markup));

const PLAIN = {
  dompurify: (answer) => ({ ...answer, answers: answer.answers.map((all) => all.map(plain)) }),
};

const asPlain = (scene, answer) => PLAIN[scene]?.(answer) ?? answer;

for (const [scene, [, packages]] of Object.entries(SCENES)) {
  for (const mode of MODES[scene] ?? ["production"]) {
    test(`${scene} (${mode}) does over a page what it does over jsdom`, { skip: skipWithout(...NEEDED, "jsdom", ...packages) }, (t) => {
      const own = run("page", scene, mode);
      const its = run("jsdom", scene, mode);
      assert.deepEqual(asPlain(scene, own.answer), asPlain(scene, its.answer));
      compare(t, own, its);
    });
  }
}
