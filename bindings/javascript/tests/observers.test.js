// Observers are notified in a microtask, once for all changes before it.
import assert from "node:assert/strict";
import test from "node:test";

import { createDocument, createWindow, MutationObserver, NodeList } from "../lib/index.js";
import { sessionOf } from "../lib/wrappers.js";

const microtask = () => Promise.resolve();

/**
 * Two observers for which a record waits. The callback of the first does something, once, before the turn of the second. The answer has which of them
 * was called, and with how many records.
 */
function twoInTurn(does, options = {}) {
  const { document, MutationObserver: Observer } = createWindow({ empty: true, ...options });
  const told = [];
  const first = new Observer((records) => {
    told.push(["first", records.length]);
    if (told.length === 1) does(second, document);
  });
  const second = new Observer((records) => told.push(["second", records.length]));
  for (const it of [first, second]) it.observe(document, { childList: true });
  document.appendChild(document.createComment("c"));
  return told;
}

test("observers are notified in a microtask, with records in order", async () => {
  const document = createDocument();
  const told = [];
  const observer = new MutationObserver((records, its) => told.push({ records, its }));
  observer.observe(document, { childList: true, subtree: true, attributes: true, attributeOldValue: true, characterData: true });
  const element = document.appendChild(document.createElement("p"));
  element.setAttribute("a", "1");
  element.setAttribute("a", "2");
  const text = element.appendChild(document.createTextNode("t"));
  text.data = "u";
  assert.equal(told.length, 0);
  await microtask();
  assert.equal(told.length, 1);
  const [{ records, its }] = told;
  assert.equal(its, observer);
  assert.deepEqual(records.map((it) => it.type), ["childList", "attributes", "attributes", "childList", "characterData"]);
  assert.ok(records[0].addedNodes instanceof NodeList);
  assert.deepEqual([...records[0].addedNodes], [element]);
  assert.equal(records[0].target, document);
  assert.deepEqual(records.slice(1, 3).map((it) => [it.attributeName, it.oldValue]), [["a", null], ["a", "1"]]);
  assert.equal(records[4].oldValue, null);
  await microtask();
  assert.equal(told.length, 1);
});

test("records can be taken, and a disconnected observer is not notified", async () => {
  const document = createDocument();
  let calls = 0;
  const observer = new MutationObserver(() => calls++);
  observer.observe(document, { childList: true });
  document.appendChild(document.createComment("c"));
  assert.equal(observer.takeRecords().length, 1);
  document.appendChild(document.createComment("d"));
  observer.disconnect();
  document.appendChild(document.createComment("e"));
  await microtask();
  assert.equal(calls, 0);
});

test("observers are notified of a callback's changes in a further microtask", async () => {
  const document = createDocument();
  const counts = [];
  const observer = new MutationObserver((records) => {
    counts.push(records.length);
    if (counts.length < 3) document.appendChild(document.createComment("again"));
  });
  observer.observe(document, { childList: true });
  document.appendChild(document.createComment("once"));
  for (let turn = 0; turn < 5; turn++) await microtask();
  assert.deepEqual(counts, [1, 1, 1]);
});

test("an observer that an earlier callback disconnected is not called", async () => {
  const told = twoInTurn((second) => second.disconnect());
  await microtask();
  assert.deepEqual(told, [["first", 1]]);
});

test("an observer whose records an earlier callback took is not called", async () => {
  const taken = [];
  const told = twoInTurn((second) => taken.push(...second.takeRecords()));
  await microtask();
  assert.deepEqual(told, [["first", 1]]);
  assert.deepEqual(taken.map((it) => it.type), ["childList"]);
});

test("an observer that was released before its turn is passed over", async () => {
  const told = twoInTurn((second, document) => {
    const session = sessionOf(document);
    for (const [number, it] of session.observers) if (it.deref() === second) session.loseObserver(number);
  });
  await microtask();
  assert.deepEqual(told, [["first", 1]]);
});

test("a later observer is notified of a callback's changes in its turn, and an earlier one in a further microtask", async () => {
  const told = twoInTurn((second, document) => document.appendChild(document.createComment("d")));
  await microtask();
  assert.deepEqual(told, [["first", 1], ["second", 2]]);
  await microtask();
  assert.deepEqual(told, [["first", 1], ["second", 2], ["first", 1]]);
});

test("changes that a callback made before it threw count for observers that are notified after it", async () => {
  const faults = [];
  const does = (second) => {
    second.disconnect();
    throw "fault";
  };
  const told = twoInTurn(does, { report: (fault) => faults.push(fault) });
  await microtask();
  assert.deepEqual(told, [["first", 1]]);
  assert.deepEqual(faults, ["fault"]);
});

test("a removed node is watched by each observer until its own turn", async () => {
  const { document, MutationObserver: Observer } = createWindow();
  const child = document.body.appendChild(document.createElement("p"));
  const told = [];
  const note = (name) => (records) => told.push([name, records.map((it) => it.type)]);
  const first = new Observer((records) => {
    note("first")(records);
    if (told.length === 1) child.setAttribute("a", "1");
  });
  for (const it of [first, new Observer(note("second"))]) it.observe(document.body, { childList: true, attributes: true, subtree: true });
  child.remove();
  for (let turn = 0; turn < 3; turn++) await microtask();
  assert.deepEqual(told, [["first", ["childList"]], ["second", ["childList", "attributes"]]]);
});

test("what a callback throws is reported, and the others are called", async () => {
  const faults = [];
  const { document, MutationObserver: Observer } = createWindow({ report: (fault) => faults.push(fault) });
  const seen = [];
  for (const name of ["first", "second"]) {
    new Observer(() => {
      seen.push(name);
      throw name;
    }).observe(document, { childList: true });
  }
  document.appendChild(document.createComment("c"));
  await microtask();
  assert.deepEqual(seen, ["first", "second"]);
  assert.deepEqual(faults, ["first", "second"]);
});

test("the facade's own observer is never seen", async () => {
  const document = createDocument();
  const root = document.appendChild(document.createElement("p"));
  root.append("a", "b");
  let calls = 0;
  const observer = new MutationObserver((records) => (calls += records.length));
  observer.observe(root, { childList: true });
  root.normalize();
  await microtask();
  assert.equal(calls, 1);
});
