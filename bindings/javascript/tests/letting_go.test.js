// What a program can reach stays as it is over collections; what it can't is given back. Runs with node --expose-gc.
import assert from "node:assert/strict";
import { spawnSync } from "node:child_process";
import test from "node:test";
import { setImmediate as turn } from "node:timers/promises";

import { createDocument, memory, MutationObserver, NodeFilter, Session, StaticRange } from "../lib/index.js";

/** Collects what can't be reached, and lets the finalizers run. */
async function collect(times = 4) {
  for (let at = 0; at < times; at++) {
    globalThis.gc();
    await turn();
    await turn();
  }
}

/** Whether the core still has a node. */
const isThere = (session, number) => session.line(`["root",${number}]`).startsWith('{"ok"');

test("what a program keeps on a node survives, by whichever node of the tree it holds", async () => {
  const document = createDocument();
  const held = [];
  for (let at = 0; at < 100; at++) {
    const root = document.createElement("p");
    const middle = root.appendChild(document.createElement("b"));
    const leaf = middle.appendChild(document.createTextNode("t"));
    for (const node of [root, middle, leaf]) node.mine = { at };
    held.push([root, middle, leaf][at % 3]);
  }
  await collect();
  for (const [at, node] of held.entries()) {
    const root = node.getRootNode();
    for (const it of [root, root.firstChild, root.firstChild.firstChild]) assert.deepEqual(it.mine, { at });
  }
});

test("a Document stays with its nodes, and a range's containers with the range", async () => {
  const node = (() => {
    const document = createDocument();
    document.mine = 1;
    return document.createElement("p");
  })();
  const range = (() => {
    const document = createDocument();
    const text = document.createElement("p").appendChild(document.createTextNode("text"));
    text.mine = 2;
    const made = document.createRange();
    made.selectNodeContents(text);
    return made;
  })();
  await collect();
  assert.equal(node.ownerDocument.mine, 1);
  assert.equal(range.startContainer.mine, 2);
  assert.equal(range.startContainer.parentNode.nodeName, "P");
});

test("what there is is counted", () => {
  const session = new Session();
  const before = session.inUse();
  const held = [session.document.createElement("p"), session.document.createRange()];
  const after = session.inUse();
  assert.deepEqual({ ...after, nodes: after.nodes - 1, ranges: after.ranges - 1 }, before);
  assert.equal(held.length, 2);
});

test("nodes that were moved by contents, normalizing and several nodes stay if they are held", async () => {
  const document = createDocument();
  const held = [];
  for (let at = 0; at < 50; at++) {
    const root = document.createElement("p");
    root.append("a", document.createElement("b"), "c");
    const [first, middle, last] = root.childNodes;
    middle.mine = at;
    const range = document.createRange();
    range.setStart(first, 0);
    range.setEnd(last, 1);
    if (at % 2) range.deleteContents();
    else held.push(range.extractContents().lastChild);
    if (at % 2) held.push(middle);
  }
  await collect();
  held.forEach((node, at) => {
    if (at % 2) assert.equal(node.mine, at);
    else assert.equal(node.previousSibling.mine, at);
  });
});

test("trees that nothing holds are discarded, with their wrappers or without", async () => {
  const session = new Session();
  const { document } = session;
  const numbers = [];
  const make = () => {
    const root = document.createElement("p");
    const leaf = root.appendChild(document.createTextNode("t"));
    numbers.push(session.number(root), session.number(leaf));
  };
  for (let at = 0; at < 200; at++) make();
  const held = document.appendChild(document.createElement("p"));
  await collect();
  assert.deepEqual(numbers.filter((number) => isThere(session, number)), []);
  assert.ok(isThere(session, session.number(held)));
});

test("a tree that is in use goes once it is in use no more", async () => {
  const session = new Session();
  const { document } = session;
  let range = document.createRange();
  const number = (() => {
    const root = document.createElement("p");
    range.selectNodeContents(root);
    return session.number(root);
  })();
  await collect();
  assert.ok(isThere(session, number));
  assert.equal(range.startContainer.nodeName, "P");
  range = null;
  await collect(8);
  assert.ok(!isThere(session, number));
});

test("a tree goes after it was walked in a later turn", async () => {
  const session = new Session();
  const { document } = session;
  let copy = (() => {
    const root = document.createElement("p");
    root.appendChild(document.createElement("b")).appendChild(document.createElement("i")).append("text");
    return root.cloneNode(true);
  })();
  const number = session.number(copy);
  await collect();
  for (let node = copy; node; node = node.firstChild) assert.equal(node.nextSibling, null);
  copy = null;
  await collect(8);
  assert.ok(!isThere(session, number));
});

/** Returns what alone leads to a tree when its objects are gone, and a function that returns the root's new object. */
const LEADING = {
  "a range that was moved": (document, root) => {
    const range = document.createRange();
    range.selectNodeContents(root.appendChild(document.createTextNode("t")));
    root.lastChild.remove();
    return { held: range, rootOf: () => range.startContainer };
  },
  "an observer": (document, root, session) => {
    const observer = new MutationObserver(() => undefined);
    observer.observe(root, { childList: true });
    const number = session.number(root);
    return { held: observer, rootOf: () => session.node(number) };
  },
};

for (const [name, leading] of Object.entries(LEADING)) {
  test(`ids of a tree are found when only ${name} has led to it`, async () => {
    const session = new Session();
    const { document } = session;
    const body = document.appendChild(document.createElement("body"));
    const { held, rootOf } = (() => {
      const root = document.createElement("p");
      root.id = "root";
      for (const id of ["twice", "twice", "once"]) root.appendChild(document.createElement("b")).id = id;
      return leading(document, root, session);
    })();
    await collect();
    const root = body.appendChild(rootOf());
    const [first, , once] = root.children;
    assert.deepEqual(["root", "twice", "once"].map((id) => document.getElementById(id)), [root, first, once]);
    const copy = body.insertBefore(root.cloneNode(true), root);
    assert.equal(document.getElementById("once"), copy.lastChild);
    first.remove();
    root.remove();
    assert.deepEqual(["twice", "once"].map((id) => document.getElementById(id)), [copy.firstChild, copy.lastChild]);
    assert.ok(held);
  });
}

test("ids of a tree that is discarded are forgotten", async () => {
  const document = createDocument();
  const body = document.appendChild(document.createElement("body"));
  const other = body.appendChild(document.createElement("p"));
  for (const id of ["one", "two"]) document.createElement("p").appendChild(document.createElement("b")).id = id;
  await collect();
  assert.deepEqual(["one", "two"].map((id) => document.getElementById(id)), [null, null]);
  other.id = "one";
  assert.equal(document.getElementById("one"), other);
});

/** What can be made over a node, one of each kind. */
const OVER = {
  NodeIterator: (node) => node.ownerDocument.createNodeIterator(node),
  "NodeIterator with a filter": (node) => node.ownerDocument.createNodeIterator(node, NodeFilter.SHOW_ALL, () => NodeFilter.FILTER_ACCEPT),
  TreeWalker: (node) => node.ownerDocument.createTreeWalker(node),
  StaticRange: (node) => new StaticRange({ startContainer: node, startOffset: 0, endContainer: node, endOffset: 0 }),
  MutationObserver: (node) => {
    const observer = new MutationObserver(() => undefined);
    observer.observe(node, { childList: true });
    return observer;
  },
};

for (const [name, over] of Object.entries(OVER)) {
  test(`a tree goes once the ${name} over it is gone`, async () => {
    const session = new Session();
    const { document } = session;
    let held;
    const number = (() => {
      const root = document.createElement("p");
      root.appendChild(document.createTextNode("t"));
      held = over(root);
      return session.number(root);
    })();
    await collect();
    assert.ok(isThere(session, number));
    assert.ok(held);
    held = null;
    await collect(8);
    assert.ok(!isThere(session, number));
  });
}

test("100,000 of each kind made and dropped leave memory level", async () => {
  const document = createDocument();
  const root = document.appendChild(document.createElement("p"));
  const levels = [];
  for (let round = 0; round < 20; round++) {
    for (let at = 0; at < 5000; at++) {
      for (const over of Object.values(OVER)) over(root).disconnect?.();
      document.createRange().selectNode(root);
    }
    await collect(2);
    levels.push(memory.held);
  }
  assert.ok(Math.max(...levels.slice(5)) < 1.5 * levels[4] + 1e6, `${levels}`);
});

test("an observer lives as long as what it observes", async () => {
  const document = createDocument();
  let calls = 0;
  new MutationObserver(() => calls++).observe(document, { childList: true });
  await collect();
  document.appendChild(document.createComment("c"));
  await Promise.resolve();
  assert.equal(calls, 1);
});

test("600,000 nodes made and dropped leave memory level", async () => {
  const document = createDocument();
  const levels = [];
  for (let round = 0; round < 12; round++) {
    for (let part = 0; part < 10; part++) {
      const root = document.createElement("ul");
      for (let at = 0; at < 2500; at++) {
        root.appendChild(document.createElement("li")).appendChild(document.createTextNode("some text"));
      }
      await turn();
    }
    await collect(2);
    levels.push(memory.held);
  }
  assert.ok(Math.max(...levels.slice(2)) < 2 * levels[1] + 1e6, `${levels}`);
  assert.ok(levels.at(-1) < 4e6, `${levels}`);
});

test("trees that were walked go, even if each collection comes while the program runs", async () => {
  const session = new Session();
  const { document } = session;
  const root = document.createElement("ul");
  for (let at = 0; at < 1000; at++) root.appendChild(document.createElement("li")).append("some text");
  const walked = () => {
    const copy = root.cloneNode(true);
    let count = 0;
    for (let item = copy.firstChild; item; item = item.nextSibling) count += item.firstChild.length;
    return count;
  };
  const counts = [];
  for (let round = 0; round < 40; round++) {
    assert.equal(walked(), 9000);
    globalThis.gc();
    await turn();
    await turn();
    counts.push(session.inUse().nodes);
  }
  assert.ok(Math.max(...counts) < 40000, `${counts}`);
});

test("sessions that nothing holds are closed", async () => {
  const before = memory.held;
  for (let at = 0; at < 50; at++) {
    const document = createDocument();
    for (let each = 0; each < 100; each++) document.createElement("p");
  }
  await collect(6);
  assert.ok(memory.held < before + 1e5, `${before} ${memory.held}`);
});

test("100,000 nodes with their objects take at most 120 MB of the process, and 402 bytes each", () => {
  const program = `
    const { createDocument, memory } = await import(${JSON.stringify(`${new URL("../lib/index.js", import.meta.url)}`)});
    const bytes = () => {
      globalThis.gc();
      return process.memoryUsage().heapUsed + memory.held;
    };
    const document = createDocument();
    const root = document.appendChild(document.createElement("ul"));
    const kept = [];
    const before = bytes();
    for (let at = 0; at < 50000; at++) {
      const item = root.appendChild(document.createElement("li"));
      kept.push(item, item.appendChild(document.createTextNode("some text")));
    }
    await new Promise((ready) => setTimeout(ready, 100));
    const { rss } = process.memoryUsage();
    console.log(rss, kept.length, (bytes() - before) / kept.length);`;
  const ran = spawnSync(process.execPath, ["--expose-gc", "--input-type=module", "-e", program], { encoding: "utf8" });
  const [rss, count, each] = ran.stdout.split(" ").map(Number);
  assert.equal(count, 100000, ran.stderr);
  assert.ok(rss < 120e6, `${rss}`);
  assert.ok(each <= 402, `${each}`);
});
