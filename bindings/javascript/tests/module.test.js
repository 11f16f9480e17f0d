// The module by itself: what it takes from its host, and what its guard refuses.
import assert from "node:assert/strict";
import { readFileSync } from "node:fs";
import test from "node:test";

const OPEN = [4294967295, 1048576];
const STUCK = 255;
const STACK = 1048576;
const compiled = new WebAssembly.Module(readFileSync(new URL("../out/huckleport.wasm", import.meta.url)));

/** A module of its own, whose host does something each time the memory grows. */
async function opened(onGrown) {
  let its;
  const { exports } = await WebAssembly.instantiate(compiled, { env: { grown: () => its && onGrown(its) } });
  its = exports;
  assert.equal(exports.open(...OPEN), 0);
  return exports;
}

/** Makes Texts until the memory has grown once more. */
function grow(module) {
  const before = module.memory.buffer.byteLength;
  const place = module.room(200000) >>> 0;
  let status = 0;
  while (status === 0 && module.memory.buffer.byteLength === before) status = module.hp_create_text(0, 0, place, 100000);
  return status;
}

test("it takes one word of its host, and calls nothing through a table", () => {
  assert.deepEqual(WebAssembly.Module.imports(compiled), [{ module: "env", name: "grown", kind: "function" }]);
  const kinds = new Set(WebAssembly.Module.exports(compiled).map((it) => it.kind));
  assert.deepEqual(kinds, new Set(["function", "memory"]));
});

test("its data stand behind its stack", async () => {
  const module = await opened(() => {});
  assert.ok(module.numbers() >= STACK, `${module.numbers()}`);
});

test("a call within a call is refused, and the call goes on", async () => {
  const said = [];
  const module = await opened((its) => said.push(its.hp_count(0), its.open(...OPEN), its.close(0), its.room(1)));
  assert.equal(grow(module), 0);
  assert.deepEqual(said.slice(0, 4), [STUCK, STUCK, STUCK, 0]);
  assert.equal(module.hp_new_document(0), 0);
});

test("after a call that did not end, none is answered", async () => {
  let isBroken = false;
  const module = await opened(() => {
    if (isBroken) throw new Error("the host ends the call");
  });
  isBroken = true;
  assert.throws(() => grow(module), /the host ends the call/u);
  isBroken = false;
  assert.equal(module.hp_new_document(0), STUCK);
  assert.equal(module.open(...OPEN), STUCK);
  assert.equal(module.close(0), STUCK);
});

test("sessions are identified by an index, which is used again", async () => {
  const module = await opened(() => {});
  const numbers = () => new Uint32Array(module.memory.buffer, module.numbers(), 2);
  assert.equal(module.open(...OPEN), 0);
  assert.equal(numbers()[0], 1);
  assert.equal(module.close(0), 0);
  assert.equal(module.hp_count(0), module.hp_count(7));
  assert.notEqual(module.hp_count(0), 0);
  assert.equal(module.open(...OPEN), 0);
  assert.equal(numbers()[0], 0);
});
