// Tests the runner: over pages of our own, which need no checkout; that a core whose replies are altered makes failures; and what the runner itself refuses.
import assert from "node:assert/strict";
import { spawnSync } from "node:child_process";
import { cpSync, existsSync, mkdtempSync, readFileSync, rmSync, writeFileSync } from "node:fs";
import { tmpdir } from "node:os";
import { join } from "node:path";
import { after, test } from "node:test";
import { fileURLToPath, pathToFileURL } from "node:url";

import { Checkout } from "./checkout.js";
import { judgeFile } from "./expectations.js";
import { find } from "./libraries.js";

const place = (path) => fileURLToPath(new URL(path, import.meta.url));
const RUN = place("run.js");
const TESTS = place("tests");
const EXPECTED = place("tests/expectations.json");
const MODULE = place("../out/huckleport.wasm");
const folder = mkdtempSync(join(tmpdir(), "huckleport-wpt-"));
after(() => rmSync(folder, { recursive: true }));

function whyLeftOut() {
  if (!existsSync(MODULE)) return "there is no module (bindings/javascript/make.py puts it there)";
  return find("parse5") || existsSync("/usr/share/nodejs/parse5") ? false : "there is no parse5 (Debian's node-parse5)";
}

const skip = whyLeftOut();

function run(words, environment = {}) {
  const ran = spawnSync(process.execPath, [RUN, ...words], { encoding: "utf8", env: { ...process.env, ...environment } });
  return { status: ran.status, said: ran.stdout, faults: ran.stderr };
}

// The numbers of the last row of the table: files, subtests, passed, failed, not applicable, differ.
const counts = (said) => /^all\s+(.*)$/m.exec(said)[1].trim().split(/\s+/).map((it) => Number(it.replaceAll(",", "")));

test("the pages of our own pass, and absent features are counted", { skip }, () => {
  const { status, said } = run([TESTS, "--expect", EXPECTED]);
  assert.equal(status, 0, said);
  const [files, subtests, passed, failed, notApplicable, differs] = counts(said);
  const listed = Object.values(JSON.parse(readFileSync(EXPECTED, "utf8")));
  assert.equal(files, listed.length);
  assert.equal(subtests, listed.reduce((sum, it) => sum + it.subtests, 0));
  assert.deepEqual([failed, notApplicable, differs, passed], [0, 2, 0, subtests - 2]);
});

// A module that hands each call on but some, which are altered: node loads a script first that stands between the package and what it instantiates.
function altered(name, text) {
  const file = join(folder, `${name}.mjs`);
  const around = `
    const { Instance } = WebAssembly;
    WebAssembly.Instance = function (...given) {
      const { exports } = new Instance(...given);
      const calls = { ...exports };
      const numbers = () => new Uint32Array(exports.memory.buffer, exports.numbers(), 16);
      ${text}
      return { exports: calls };
    };`;
  writeFileSync(file, around);
  return { NODE_OPTIONS: `--import=${pathToFileURL(file)}` };
}

const OFF_BY_ONE = `
calls.hp_replace_data = (session, node, offset, count, place, length) => exports.hp_replace_data(session, node, offset, count + 1, place, length);
`;

// A split that leaves the ends of live ranges in the node that is split, at its end.
const RANGES_STAY = `
const ranges = [];
calls.hp_create_range = (session, document) => {
  const status = exports.hp_create_range(session, document);
  if (status === 0) ranges.push(numbers()[0]);
  return status;
};
calls.hp_split_text = (session, node, offset) => {
  const status = exports.hp_split_text(session, node, offset);
  const [tail] = numbers();
  for (const range of status === 0 ? ranges : []) {
    if (exports.hp_range(session, range) !== 0) continue;
    const [startNode, , endNode] = numbers();
    if (endNode === tail) exports.hp_set_end(session, range, node, offset);
    if (startNode === tail) exports.hp_set_start(session, range, node, offset);
  }
  numbers()[0] = tail;
  return status;
};
`;

for (const [what, text] of [["replaced data are off by one", OFF_BY_ONE], ["a split moves no live range", RANGES_STAY]]) {
  test(`the count finds a core that is wrong: ${what}`, { skip }, () => {
    const { status, said } = run([TESTS, "--expect", EXPECTED, "--only", "core/"], altered(what.replaceAll(" ", "_"), text));
    assert.equal(status, 1, said);
    assert.ok(counts(said)[3] > 0, said);
    assert.match(said, /failed\n {2}core\//);
  });
}

test("a file that does not end, one that fails, and one that the checkout can't serve are reported", { skip }, () => {
  const checkout = join(folder, "checkout");
  cpSync(join(TESTS, "resources"), join(checkout, "resources"), { recursive: true });
  const harness = '<script src="/resources/testharness.js"></script>\n<script src="/resources/testharnessreport.js"></script>\n';
  writeFileSync(join(checkout, "endless.html"), `${harness}<script>while (true);</script>`);
  writeFileSync(join(checkout, "lost.html"), `${harness}<script src="nowhere.js"></script>`);
  writeFileSync(join(checkout, "wrong.html"), `${harness}<script>test(() => assert_true(false), "it fails");</script>`);
  const { status, said } = run([checkout, "--expect", EXPECTED, "--limit", "8", "--jobs", "1"]);
  assert.equal(status, 1, said);
  assert.match(said, /endless\.html: \(the file\)\n\s+it did not end within 8 seconds/);
  assert.match(said, /wrong\.html: it fails/);
  assert.match(said, /lost\.html: left out, the checkout lacks nowhere\.js/);
  assert.deepEqual(counts(said).slice(0, 4), [2, 2, 0, 2], said);
});

test("a run can write what it found", { skip }, () => {
  const file = join(folder, "expectations.json");
  writeFileSync(file, "{}\n");
  run([TESTS, "--expect", file, "--update"]);
  assert.deepEqual(JSON.parse(readFileSync(file, "utf8")), JSON.parse(readFileSync(EXPECTED, "utf8")));
});

const result = (...subtests) => ({ path: "a.html", status: 0, message: null, missing: [], subtests });

test("each change shows", () => {
  const expected = { subtests: 2, differs: { names: ["b*"] } };
  const failures = (...subtests) => judgeFile(result(...subtests), expected).filter((it) => it.as === "failed").map((it) => it.message);
  assert.deepEqual(failures(["a", 0], ["b1", 1, "no"]), []);
  assert.deepEqual(failures(["a", 0], ["b1", 0]), ["it passes, but is listed: names"]);
  assert.deepEqual(failures(["a", 1, "no"], ["b1", 1, "no"]), ["no"]);
  assert.deepEqual(failures(["a", 0], ["a2", 0]), ["it is listed, and there is no such subtest"]);
  assert.deepEqual(failures(["b1", 1, "no"]), ["1 subtests fewer than are listed"]);
});

test("what a file that is not known lacks says why", () => {
  const reasons = (message, name = "a") => judgeFile(result([name, 1, message]), undefined).map((it) => [it.as, it.reason])[0];
  assert.deepEqual(reasons("not in this profile: shadow trees"), ["notApplicable", "shadow trees"]);
  assert.deepEqual(reasons("XMLSerializer is not defined"), ["notApplicable", "parsing"]);
  assert.deepEqual(reasons('assert_throws_dom: function "() => document.createElement(it)" did not throw'), ["differs", "newer names"]);
  assert.deepEqual(reasons('assert_throws_dom: function "() => document.createProcessingInstruction(it, 1)" did not throw'), ["differs", "targets of processing instructions"]);
  assert.deepEqual(reasons('assert_throws_dom: function "() => document.createElement(it)" did not throw', 'createElement("")'), ["failed", undefined]);
  assert.deepEqual(reasons("something else"), ["failed", undefined]);
});

test("which files are tests", () => {
  const paths = new Checkout(TESTS).tests().map((it) => it.path);
  assert.ok(paths.includes("core/names.any.js") && paths.includes("pages/written-in-xml.xhtml"));
  assert.ok(!paths.includes("pages/support/frame.html") && !paths.includes("core/names.js"));
});

test("words that are not known are refused", () => {
  assert.equal(run(["--help"]).status, 0);
  for (const words of [[], ["nowhere"], [TESTS, "--jobs", "0"], [TESTS, "--player", "other"], [TESTS, "--nosuch"]]) {
    const { status, faults } = run(words);
    assert.equal(status, 2);
    assert.match(faults, /--help says how it is used/);
  }
});
