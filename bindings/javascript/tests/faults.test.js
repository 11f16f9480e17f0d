// Earlier faults: each has a test of its own. Expected values are the standard's.
import assert from "node:assert/strict";
import test from "node:test";

import { native } from "../lib/core.js";
import { createDocument, createWindow, DOMException, memory, NodeFilter, serialize, Session, XMLDocument } from "../lib/index.js";
import { sessionOf } from "../lib/wrappers.js";

const HTML = "http://www.w3.org/1999/xhtml";
const SVG = "http://www.w3.org/2000/svg";

/** Returns a Document with an element that has `count` elements. */
function listOf(count) {
  const document = createDocument();
  const root = document.appendChild(document.createElement("ul"));
  const items = Array.from({ length: count }, () => root.appendChild(document.createElement("li")));
  return { document, root, items };
}

test("an iterator whose filter removes the node that it takes skips none", () => {
  const { document, root, items } = listOf(4);
  const iterator = document.createNodeIterator(root, NodeFilter.SHOW_ELEMENT, (node) => {
    if (node === items[1]) node.remove();
    return node === root ? NodeFilter.FILTER_SKIP : NodeFilter.FILTER_ACCEPT;
  });
  const found = [];
  for (let node = iterator.nextNode(); node; node = iterator.nextNode()) found.push(items.indexOf(node));
  assert.deepEqual(found, [0, 1, 2, 3]);
  assert.equal(iterator.referenceNode, items[3]);
});

test("prefixes of attributes are not compared", () => {
  const document = createDocument();
  const [one, other] = ["a:x", "b:x"].map((name) => {
    const made = document.createElement("p");
    made.setAttributeNS("n", name, "1");
    return made;
  });
  assert.equal(one.isEqualNode(other), true);
  other.setAttributeNS("n", "x", "2");
  assert.equal(one.isEqualNode(other), false);
  const [left, right] = ["a:b", "c:b"].map((name) => document.createElementNS("n", name));
  assert.equal(left.isEqualNode(right), false);
});

test("nodes of two sessions can be equal", () => {
  const [one, other] = [createDocument(), createDocument()].map((document) => {
    const made = document.createElementNS(SVG, "path");
    made.setAttribute("d", "M0");
    made.append("text", document.createComment("c"));
    return made;
  });
  assert.equal(one.isEqualNode(other), true);
  other.firstChild.data = "other";
  assert.equal(one.isEqualNode(other), false);
  assert.equal(one.contains(other), false);
});

test("each kind of node is written", () => {
  const document = createDocument();
  const made = document.createElement("p");
  made.setAttributeNS("n", "x", '<1>"\u00a0&');
  made.append(document.createProcessingInstruction("target", "data"), "a<b&\u00a0>", document.createComment("c"), document.createElement("br"));
  assert.equal(serialize(made), '<p x="&lt;1&gt;&quot;&nbsp;&amp;"><?target data>a&lt;b&amp;&nbsp;&gt;<!--c--><br></p>');
  assert.deepEqual([...made.childNodes].map(serialize), ["<?target data>", "a&lt;b&amp;&nbsp;&gt;", "<!--c-->", "<br>"]);
  assert.equal(serialize(document.implementation.createDocumentType("html", "a", "b")), "<!DOCTYPE html>");
  const script = document.createElement("script");
  script.append("a < b");
  assert.equal(serialize(script), "<script>a < b</script>");
  const fragment = document.createDocumentFragment();
  fragment.append(script, "c");
  assert.equal(serialize(fragment), "<script>a < b</script>c");
  const svg = document.createElementNS(SVG, "s:script");
  svg.append("a < b");
  assert.equal(serialize(svg), "<script>a &lt; b</script>");
  assert.throws(() => serialize({}), TypeError);
});

test("names of prototypes are names like others", () => {
  const document = createDocument();
  const made = document.implementation.createDocument("__proto__", "a");
  assert.equal(made.contentType, "application/xml");
  assert.equal(made.documentElement.namespaceURI, "__proto__");
  assert.throws(() => document.createElement("p").insertAdjacentElement("__proto__", document.createElement("b")), { name: "SyntaxError" });
  const element = document.createElement("p");
  element.setAttribute("__proto__", "1");
  element.id = "__proto__";
  document.append(element);
  assert.equal(element.getAttribute("__proto__"), "1");
  assert.equal(element.getAttribute("constructor"), null);
  assert.equal(document.getElementById("__proto__"), element);
  assert.equal(document.getElementById("constructor"), null);
});

test("a collection has elements by their ids and names", () => {
  const { document, root, items } = listOf(3);
  items[0].id = "one";
  items[1].setAttribute("name", "two");
  items[2].id = "length";
  const foreign = root.appendChild(document.createElementNS(SVG, "path"));
  foreign.setAttribute("name", "three");
  const list = root.children;
  assert.equal(list.one, items[0]);
  assert.equal(list.two, items[1]);
  assert.equal(list.three, undefined);
  assert.equal(list.length, 4);
  assert.equal(list.namedItem("length"), items[2]);
  assert.ok("one" in list && !("three" in list));
  assert.deepEqual(Object.keys(list), ["0", "1", "2", "3"]);
  assert.deepEqual(Object.getOwnPropertyNames(list), ["0", "1", "2", "3", "one", "two"]);
  assert.throws(() => (list.one = 1), TypeError);
  assert.throws(() => delete list.two, TypeError);
  items[0].removeAttribute("id");
  assert.equal(list.one, undefined);
});

test("a kept list of tags means what it meant when it was asked for, also in a Document of XML", () => {
  const { document, root, items } = listOf(1);
  const list = root.getElementsByTagName("LI");
  assert.deepEqual([...list], items);
  createWindow();
  const xml = createDocument({ beside: document, xml: true });
  xml.adoptNode(root);
  assert.deepEqual([...list], items);
  assert.deepEqual([...root.getElementsByTagName("LI")], []);
  assert.deepEqual([...root.getElementsByTagName("li")], items);
  document.adoptNode(root);
  assert.deepEqual([...list], items);
});

test("a refusal says why", () => {
  const saying = (does) => {
    try {
      does();
    } catch (fault) {
      return fault;
    }
    return null;
  };
  for (const limits of [{ numbers: -1 }, { numbers: 0 }, { numbers: "x" }, { line: 0 }, { line: 2 ** 40 }]) {
    const fault = saying(() => new Session(limits));
    assert.ok(fault instanceof TypeError && /has to be a number from 1 to \d+, not /u.test(fault.message), `${fault}`);
  }
  const session = new Session();
  for (const line of [5, null, {}, undefined]) assert.match(saying(() => session.line(line)).message, /expected a line as a string or a Uint8Array, not /u);
  assert.match(saying(() => createDocument({ beside: {} })).message, /expected a node, not an object/u);
  assert.match(saying(() => session.number({})).message, /expected a node, not an object/u);
  assert.ok(saying(() => memory.limit(-1)) instanceof RangeError);
  const fault = saying(() => createDocument().appendChild(createDocument().createElement("p")));
  assert.ok(fault instanceof DOMException && fault.message !== "");
});

test("a Document of XML is an XMLDocument", () => {
  assert.ok(createDocument({ xml: true }) instanceof XMLDocument);
  assert.ok(!(createDocument() instanceof XMLDocument));
});

test("lists and ids stay right while the tree changes", () => {
  const { document, root, items } = listOf(6);
  items.forEach((it, at) => (it.id = `i${at}`));
  for (let at = 0; at < 6; at++) {
    assert.equal(root.childNodes[at], items[at]);
    assert.equal(document.getElementById(`i${at}`), items[at]);
    items[at].textContent = "text";
    items[at].className = "seen";
  }
  assert.deepEqual([...document.getElementsByClassName("seen")], items);
  const [first] = items;
  first.remove();
  assert.equal(document.getElementById("i0"), null);
  assert.deepEqual([...root.children], items.slice(1));
  const copy = root.appendChild(items[1].cloneNode(true));
  assert.equal(document.getElementById("i1"), items[1]);
  items[1].remove();
  assert.equal(document.getElementById("i1"), copy);
  copy.id = "other";
  assert.equal(document.getElementById("i1"), null);
  assert.equal(document.getElementById("other"), copy);
  const fragment = document.createDocumentFragment();
  fragment.append(first);
  assert.equal(fragment.getElementById("i0"), first);
  assert.equal(document.documentElement.namespaceURI, HTML);
});

test("the memory of the module can be bounded, and a making that is refused ends no session", () => {
  const session = new Session();
  const other = new Session();
  memory.limit(memory.size + 262144);
  const made = [];
  try {
    assert.throws(() => {
      for (;;) made.push(session.document.createTextNode("x".repeat(10000)));
    }, RangeError);
  } finally {
    memory.limit(0);
  }
  assert.ok(made.length > 0);
  assert.equal(made.at(-1).data.length, 10000);
  assert.equal(session.document.createElement("p").nodeName, "P");
  assert.equal(other.document.createElement("p").nodeName, "P");
  session.close();
});

test("a session that has ended is read and serialized as before, and no other ends", () => {
  const session = new Session();
  const other = new Session();
  const { document } = session;
  const root = document.appendChild(document.createElement("html"));
  const item = root.appendChild(document.createElement("p"));
  item.setAttribute("id", "first");
  item.setAttribute("title", '"&');
  item.append("one < ", document.createComment("aside"), document.createProcessingInstruction("target", "data"), "two");
  const read = () => [
    [serialize(document), serialize(item), item.textContent, root.textContent, item.firstChild.data, item.childNodes[1].data, item.childNodes[2].target],
    [item.getAttribute("id"), item.getAttribute("none"), item.hasAttribute("title"), item.getAttributeNames().map((name) => [name, item.getAttribute(name)])],
    [document.getElementById("first") === item, document.getElementsByTagName("p").length, document.getElementsByClassName("none").length, item.parentNode === root],
    [document.documentElement.nodeName, item.firstChild.nodeName, root.children.length, item.isConnected],
  ];
  const before = read();
  memory.limit(memory.size + 262144);
  try {
    assert.throws(() => {
      for (const made = []; ; ) made.push(item.cloneNode(true));
    }, RangeError);
  } finally {
    memory.limit(0);
  }
  assert.deepEqual(read(), before);
  assert.throws(() => item.append("x"), RangeError);
  assert.throws(() => item.setAttribute("a", "b"), RangeError);
  assert.throws(() => document.createElement("p"), RangeError);
  assert.throws(() => item.cloneNode(true), RangeError);
  assert.deepEqual(read(), before);
  session.close();
  assert.throws(() => item.textContent, { name: "InvalidStateError" });
  assert.equal(serialize(other.document.createElement("p")), "<p></p>");
});

test("ids of copies are found, also if out of memory when they were made", () => {
  const { document, root } = listOf(2);
  root.id = "list";
  const { holders } = native;
  let copy;
  native.holders = () => native.HP_OUT_OF_MEMORY;
  try {
    copy = root.cloneNode(true);
  } finally {
    native.holders = holders;
  }
  root.replaceWith(copy);
  assert.equal(document.getElementById("list"), copy);
  copy.id = "other";
  assert.deepEqual(["list", "other"].map((id) => document.getElementById(id)), [null, copy]);
});

test("memory is reserved ahead, or refused without the end of a session", () => {
  const document = createDocument();
  const root = document.appendChild(document.createElement("p"));
  memory.limit(memory.size + 33554432);
  try {
    assert.throws(() => memory.reserve(67108864), { name: "RangeError", message: /67108864/u });
    root.append("x");
    memory.reserve(16777216);
    const { size } = memory;
    for (let at = 0; at < 40; at++) root.append("y".repeat(100000));
    assert.equal(memory.size, size);
    assert.equal(root.textContent.length, 4000001);
  } finally {
    memory.limit(0);
  }
  assert.throws(() => memory.reserve(-1), RangeError);
});

test("a list of classes is refused if out of memory, and is read later", () => {
  const { document, root, items } = listOf(3000);
  const name = "x".repeat(3000);
  for (const it of items) it.className = name;
  const list = document.getElementsByClassName(name);
  memory.limit(memory.size);
  try {
    assert.throws(() => list.item(0), RangeError);
  } finally {
    memory.limit(0);
  }
  assert.equal(list.length, items.length);
  assert.equal(list.item(0), root.firstChild);
});

test("lists of a closed session refuse by exceptions of their realm", () => {
  const window = createWindow();
  const { document } = window;
  const root = document.createElement("p");
  const lists = [root.childNodes, root.children, document.getElementsByTagName("p"), document.getElementsByClassName("a")];
  sessionOf(document).close();
  const descriptor = (list) => Object.getOwnPropertyDescriptor(list, 0);
  const reads = [(list) => list[0], (list) => list.length, (list) => 0 in list, (list) => [...list], Object.keys, descriptor];
  const isOwn = (fault) => fault instanceof window.DOMException && fault.name === "InvalidStateError";
  for (const list of lists) for (const read of reads) assert.throws(() => read(list), isOwn, `${read}`);
});

test("a line that is refused memory has no reply", () => {
  const session = new Session();
  const line = `["createText",0,"${"x".repeat(100000)}"]`;
  let made = 0;
  memory.limit(memory.size + 1048576);
  try {
    assert.throws(() => {
      for (;;) assert.equal(session.line(line), `{"ok":${++made}}\n`);
    }, RangeError);
  } finally {
    memory.limit(0);
  }
  assert.equal(session.line(line), `{"ok":${made + 1}}\n`);
  session.close();
});
