#!/usr/bin/env node
// Runs the tests of a Web Platform Tests checkout, or of a part of one, over the package.
import { statSync } from "node:fs";
import { availableParallelism } from "node:os";
import { resolve } from "node:path";
import { parseArgs } from "node:util";

import { Checkout } from "./checkout.js";
import { judgeFile, readExpectations, update } from "./expectations.js";
import { runFiles } from "./processes.js";
import { listing, progress, summary } from "./table.js";

const HELP = `usage: node bindings/javascript/wpt/run.js FOLDER [options]

Runs each test file in dom/nodes, dom/ranges and dom/traversal of the checkout FOLDER that needs no layout, styles, events or shadow trees, and
counts its subtests: passed, failed, not applicable and differing by the profile. Of a folder that has none of the three, all tests are run. Subtests that
are known not to pass are listed with their reasons in expectations.json, beside this script. Another subtest that does not pass is a failure, and so is a
listed one that does. The status is 0 if nothing failed.

  --only WORD      only files whose paths have this in them
  --jobs N         how many files are run at once (the processors, at most 4)
  --limit SECONDS  how long a file may take (120)
  --player NAME    huckleport, or jsdom to see where the two differ (huckleport)
  --expect FILE    another file of expectations
  --list           each subtest that does not pass, with its reason
  --failures N     how many failures are shown (20)
  --update         writes what this run found into the file of expectations; reasons that are there are kept
  --help           this text
`;

const OPTIONS = {
  only: { type: "string", default: "" },
  jobs: { type: "string", default: String(Math.min(availableParallelism(), 4)) },
  limit: { type: "string", default: "120" },
  player: { type: "string", default: "huckleport" },
  expect: { type: "string" },
  list: { type: "boolean", default: false },
  failures: { type: "string", default: "20" },
  update: { type: "boolean", default: false },
  help: { type: "boolean", default: false },
};

function refuse(fault) {
  process.stderr.write(`${fault}\nnode bindings/javascript/wpt/run.js --help says how it is used\n`);
  process.exit(2);
}

function whole(word, name) {
  const found = Number(word);
  return Number.isInteger(found) && found > 0 ? found : refuse(`--${name} needs a whole number above 0`);
}

function words() {
  const { values, positionals } = parseArgs({ options: OPTIONS, allowPositionals: true });
  if (values.help) {
    process.stdout.write(HELP);
    process.exit(0);
  }
  if (positionals.length !== 1) refuse("one folder is due");
  if (!statSync(positionals[0], { throwIfNoEntry: false })?.isDirectory()) refuse(`there is no folder ${positionals[0]}`);
  if (!["huckleport", "jsdom"].includes(values.player)) refuse(`there is no player ${values.player}`);
  const numbers = Object.fromEntries(["jobs", "limit", "failures"].map((name) => [name, whole(values[name], name)]));
  return { ...values, ...numbers, folder: resolve(positionals[0]), expect: values.expect && resolve(values.expect) };
}

function given() {
  try {
    return words();
  } catch (fault) {
    return refuse(fault.message);
  }
}

const say = (lines) => process.stdout.write(lines.map((it) => `${it}\n`).join(""));

// Runs the files, and returns what became of each, in the order of their paths. A file that needs one that the checkout lacks is left out.
async function play(paths, expectations, words) {
  const files = [];
  await runFiles(words.folder, paths, words, (result) => {
    const lacks = result.missing.filter((it) => it.endsWith(".js"));
    const judgements = lacks.length ? [] : judgeFile(result, expectations[result.path]);
    files.push({ ...result, judgements, lacks });
    say([lacks.length ? `${files.length}/${paths.length} ${result.path}: left out, the checkout lacks ${lacks.join(", ")}` : progress(result, judgements, files.length, paths.length)]);
  });
  return files.sort((a, b) => (a.path < b.path ? -1 : 1));
}

// The package has to be there: else each file would fail.
async function seePackage() {
  await import("../lib/index.js").catch((fault) => refuse(fault.message));
}

async function main() {
  const words = given();
  if (words.player === "huckleport") await seePackage();
  const tests = new Checkout(words.folder).tests().filter((it) => it.path.includes(words.only));
  const expectations = words.player === "jsdom" ? {} : readExpectations(words.expect);
  const found = await play(tests.filter((it) => !it.leftOut).map((it) => it.path), expectations, words);
  const files = found.filter((it) => !it.lacks.length);
  const leftOut = [...tests.filter((it) => it.leftOut), ...found.filter((it) => it.lacks.length).map(({ path }) => ({ path, leftOut: "a file that the checkout lacks" }))];
  say(summary(files, leftOut.map(({ path, leftOut: reason }) => ({ path, reason })), words.failures));
  if (words.list) say(listing(files));
  if (words.update) update(files, expectations, words.expect);
  process.exitCode = files.some((it) => it.judgements.some(({ as }) => as === "failed")) || !files.length ? 1 : 0;
}

await main();
