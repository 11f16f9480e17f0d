// The page in test runners: node:test and mocha by the global object, jest and vitest by environments of their documented shapes.
import assert from "node:assert/strict";
import { spawnSync } from "node:child_process";
import { mkdirSync, mkdtempSync, rmSync, symlinkSync, writeFileSync } from "node:fs";
import { tmpdir } from "node:os";
import { dirname, join } from "node:path";
import test, { after, before, describe } from "node:test";
import { fileURLToPath } from "node:url";
import { runInContext } from "node:vm";

import { NEEDED, skipWithout } from "./players.js";

const PACKAGE = fileURLToPath(new URL("../..", import.meta.url));
const NODE_PATH = [process.env.NODE_PATH, "/usr/share/nodejs"].filter(Boolean).join(":");
const skip = skipWithout(...NEEDED);
const hasProgram = (name) => spawnSync(name, ["--version"], { stdio: "ignore" }).status === 0;

// What each runner is asked: lines of a test, by a function `assert` of node's.
const LINES = `
  assert.equal(window, globalThis);
  document.body.innerHTML = "<p>x</p>";
  assert.ok(document.querySelector("p") instanceof HTMLElement);
  let heard = 0;
  window.addEventListener("click", () => heard++);
  document.querySelector("p").click();
  document.body.dispatchEvent(new CustomEvent("click", { bubbles: true }));
  assert.equal(heard, 2);
  assert.equal(new FormData(document.createElement("form")).get("a"), null);
  assert.throws(() => structuredClone(document), { name: "DataCloneError" });
  assert.match(navigator.userAgent, /huckleport/);
`;

// jest's own environment for node, as far as its documentation goes: a context, its global object, fake timers.
const NODE_ENVIRONMENT = `
const vm = require("node:vm");
class FakeTimers { constructor(given) { Object.assign(this, given); } }
class NodeEnvironment {
  constructor({ projectConfig }) {
    this.context = vm.createContext();
    this.global = vm.runInContext("this", this.context);
    this.fakeTimersModern = new FakeTimers({ config: projectConfig, global: this.global });
  }
  async setup() {}
  async teardown() { this.context = null; }
  exportConditions() { return ["node"]; }
  getVmContext() { return this.context; }
}
exports.TestEnvironment = exports.default = NodeEnvironment;
`;

describe("a page", { skip }, () => {
  let folder;
  before(() => {
    folder = mkdtempSync(join(tmpdir(), "huckleport-runners-"));
    mkdirSync(join(folder, "node_modules"));
    symlinkSync(PACKAGE, join(folder, "node_modules/huckleport"));
  });
  after(() => rmSync(folder, { recursive: true }));

  function written(name, text) {
    mkdirSync(dirname(join(folder, name)), { recursive: true });
    writeFileSync(join(folder, name), text);
    return name;
  }

  function ran(program, ...words) {
    // (a runner within a runner of node's would report to the outer one)
    const env = { ...process.env, NODE_PATH, NODE_TEST_CONTEXT: undefined };
    const { status, stdout, stderr } = spawnSync(program, words, { cwd: folder, encoding: "utf8", env });
    assert.equal(status, 0, `${stdout}${stderr}`);
    return stdout;
  }

  test("is global for node:test", () => {
    const file = written("global.test.mjs", `import assert from "node:assert/strict";\nimport test from "node:test";\ntest("a page", () => {${LINES}});`);
    ran(process.execPath, "--import", "huckleport/global", "--test", file);
  });

  test("is global for mocha", { skip: hasProgram("mocha") ? false : "there is no mocha" }, () => {
    const file = written("global.spec.cjs", `const assert = require("node:assert/strict");\nit("has a page", () => {${LINES}});\nit("waits", (done) => void setTimeout(done, 1));`);
    // (mocha's own limit is two seconds, which a busy machine exceeds)
    assert.match(ran("mocha", "--timeout", "60000", "--require", "./node_modules/huckleport/lib/global.js", file), /2 passing/);
  });

  test("goes from the global object again", () => {
    const lines = `
      import assert from "node:assert/strict";
      import { install } from "huckleport/install";
      const before = Object.getOwnPropertyNames(globalThis);
      const { setTimeout, Event } = globalThis;
      const remove = install({ html: "<p>y</p>", url: "http://page.test/" });
      assert.equal(document.body.innerHTML + location.host, "<p>y</p>page.test");
      assert.equal(globalThis.setTimeout, setTimeout);
      assert.notEqual(globalThis.Event, Event);
      remove();
      assert.deepEqual(Object.getOwnPropertyNames(globalThis).sort(), before.sort());
      assert.equal(globalThis.Event, Event);
    `;
    ran(process.execPath, written("removed.mjs", lines));
  });

  test("is an environment of jest", { skip: hasProgram("jest") ? false : "there is no jest; its shape is tested" }, () => {
    written("package.json", JSON.stringify({ jest: { testEnvironment: "huckleport/jest", testMatch: ["**/*.jest.js"], transform: {} } }));
    written("page.jest.js", `const assert = require("node:assert/strict");\ntest("a page", () => {${LINES}});`);
    ran("jest", "--no-cache", "--watchman=false");
  });

  test("has the shape of an environment of jest", () => {
    written("node_modules/jest-environment-node/package.json", "{}");
    written("node_modules/jest-environment-node/index.js", NODE_ENVIRONMENT);
    const lines = `
      import assert from "node:assert/strict";
      import vm from "node:vm";
      import Environment from "huckleport/jest";
      const projectConfig = { testEnvironmentOptions: { url: "http://page.test/a", html: "<b>x</b>" } };
      const environment = new Environment({ projectConfig, globalConfig: {} }, {});
      await environment.setup();
      const say = (text) => vm.runInContext(text, environment.getVmContext());
      assert.equal(say("location.href + document.body.innerHTML"), "http://page.test/a<b>x</b>");
      assert.equal(say("window === globalThis && document.body instanceof HTMLElement && document.querySelectorAll('b') instanceof NodeList"), true);
      assert.equal(say("document").defaultView, environment.global);
      assert.equal(environment.fakeTimersModern.global, environment.global);
      assert.deepEqual(environment.exportConditions(), ["browser"]);
      await environment.teardown();
      assert.equal(environment.getVmContext(), null);
    `;
    ran(process.execPath, written("jest.mjs", lines));
  });

  test("has the shape of an environment of vitest", async () => {
    const { default: environment } = await import("../../lib/vitest.js");
    assert.deepEqual([environment.name, environment.transformMode, environment.viteEnvironment], ["huckleport", "web", "client"]);
    const inContext = await environment.setupVM({ huckleport: { url: "http://page.test/", html: "<i>z</i>" } });
    const say = (text) => runInContext(text, inContext.getVmContext());
    assert.equal(say("document.body.innerHTML + location.host"), "<i>z</i>page.test");
    assert.equal(say("window === globalThis && typeof process === 'object' && [] instanceof Array"), true);
    inContext.teardown();
    const before = globalThis.document;
    const { teardown } = environment.setup(globalThis, { huckleport: { html: "<u>w</u>" } });
    assert.equal(globalThis.document.body.innerHTML, "<u>w</u>");
    teardown(globalThis);
    assert.equal(globalThis.document, before);
  });
});
