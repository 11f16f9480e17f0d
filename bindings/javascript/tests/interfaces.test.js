// The interfaces as programs see them: conversions, brands, argument counts, exceptions, and objects that follow the core.
import assert from "node:assert/strict";
import test from "node:test";

import * as huckleport from "../lib/index.js";
import { createDocument, createWindow, DOMException, Node, NodeFilter } from "../lib/index.js";

const HTML = "http://www.w3.org/1999/xhtml";
const XLINK = "http://www.w3.org/1999/xlink";

/** A Document with a paragraph and two Texts in it. */
function scene() {
  const document = createDocument();
  const paragraph = document.appendChild(document.createElement("p"));
  const first = paragraph.appendChild(document.createTextNode("some "));
  const second = paragraph.appendChild(document.createTextNode("text"));
  return { document, paragraph, first, second };
}

function refused(name, code, does) {
  assert.throws(does, (fault) => {
    assert.ok(fault instanceof DOMException && fault instanceof Error, `${fault}`);
    assert.equal(fault.name, name);
    assert.equal(fault.code, code);
    return true;
  });
}

test("trees are built, asked and changed", () => {
  const { document, paragraph, first, second } = scene();
  assert.equal(document.documentElement, paragraph);
  assert.equal(paragraph.firstChild, first);
  assert.equal(paragraph.lastChild, second);
  assert.equal(first.nextSibling, second);
  assert.equal(second.previousSibling, first);
  assert.equal(second.parentNode, paragraph);
  assert.equal(first.previousSibling, null);
  assert.deepEqual([...paragraph.childNodes], [first, second]);
  assert.equal(paragraph.textContent, "some text");
  paragraph.insertBefore(second, first);
  assert.deepEqual([...paragraph.childNodes], [second, first]);
  assert.equal(paragraph.removeChild(second), second);
  assert.equal(second.parentNode, null);
  assert.equal(second.ownerDocument, document);
});

test("exceptions have the standard's names and codes", () => {
  const { document, paragraph, first, second } = scene();
  const range = document.createRange();
  refused("HierarchyRequestError", 3, () => paragraph.appendChild(document));
  refused("HierarchyRequestError", 3, () => document.appendChild(document.createTextNode("")));
  refused("NotFoundError", 8, () => document.removeChild(first));
  refused("NotFoundError", 8, () => document.insertBefore(document.createComment(""), first));
  refused("IndexSizeError", 1, () => first.substringData(6, 0));
  refused("IndexSizeError", 1, () => range.setStart(first, -1));
  refused("InvalidCharacterError", 5, () => document.createElement("1a"));
  refused("InvalidCharacterError", 5, () => createDocument({ xml: true }).createElement(""));
  refused("InvalidCharacterError", 5, () => document.createElementNS(null, ""));
  refused("InvalidCharacterError", 5, () => paragraph.setAttribute("a b", ""));
  refused("NotSupportedError", 9, () => document.adoptNode(document));
  refused("NotSupportedError", 9, () => range.compareBoundaryPoints(4, range));
  refused("WrongDocumentError", 4, () => range.comparePoint(document.createElement("a"), 0));
  refused("InvalidNodeTypeError", 24, () => range.setStartBefore(document));
  refused("NamespaceError", 14, () => document.createElementNS(null, "a:b"));
  range.setStart(first, 0);
  range.setEnd(document, 1);
  refused("InvalidStateError", 11, () => range.surroundContents(document.createElement("b")));
  assert.equal(second.data, "text");
});

test("a value of the wrong type is a TypeError, and so is a missing one", () => {
  const { document, paragraph } = scene();
  const { appendChild } = Node.prototype;
  for (const does of [
    () => paragraph.appendChild(),
    () => paragraph.appendChild(null),
    () => paragraph.appendChild({}),
    () => paragraph.insertBefore(document.createComment("")),
    () => appendChild.call({}, paragraph),
    () => Object.getOwnPropertyDescriptor(Node.prototype, "firstChild").get.call(document.createRange()),
    () => new Node(),
    () => huckleport.Text("a"),
    () => document.createTextNode(Symbol("a")),
    () => document.createTreeWalker(document, 1, 3),
    () => new huckleport.MutationObserver(),
    () => new huckleport.MutationObserver(() => {}).observe(document, {}),
    () => new huckleport.StaticRange({}),
  ]) {
    assert.throws(does, TypeError);
  }
});

test("offsets are taken as numbers of 32 bits, texts as strings", () => {
  const { first } = scene();
  assert.equal(first.substringData(2 ** 32, "3"), "som");
  assert.equal(first.substringData(-(2 ** 32) + 1, -1), "ome ");
  first.data = null;
  assert.equal(first.data, "");
  first.data = 12;
  assert.equal(first.data, "12");
  first.appendData(null);
  assert.equal(first.data, "12null");
});

test("a node is the same object, and so are its lists", () => {
  const { document, paragraph, first } = scene();
  assert.equal(document.firstChild, paragraph);
  assert.equal(paragraph.childNodes, paragraph.childNodes);
  assert.equal(document.implementation, document.implementation);
  const range = document.createRange();
  range.selectNode(first);
  assert.equal(range.startContainer, paragraph);
});

test("lists of children are live, and their indices are properties", () => {
  const { document, paragraph, first, second } = scene();
  const list = paragraph.childNodes;
  assert.equal(list.length, 2);
  assert.equal(list[1], second);
  assert.equal(list[2], undefined);
  assert.equal(list.item(2), null);
  assert.ok(1 in list && !(2 in list));
  assert.deepEqual(Object.keys(list), ["0", "1"]);
  const third = paragraph.appendChild(document.createComment("c"));
  assert.deepEqual([...list], [first, second, third]);
  assert.throws(() => (list[0] = third), TypeError);
  assert.equal(list[0], first);
  const seen = [];
  list.forEach((node, at) => seen.push(at, node));
  assert.deepEqual(seen, [0, first, 1, second, 2, third]);
});

test("a text that is set in an element without children is its only child", () => {
  const { document, paragraph } = scene();
  const [one, other] = ["b", "i"].map((name) => paragraph.appendChild(document.createElement(name)));
  one.textContent = "one";
  const text = one.firstChild;
  assert.deepEqual([text.data, text.parentNode, text.previousSibling, text.nextSibling], ["one", one, null, null]);
  assert.deepEqual([one.lastChild, one.childNodes.length, one.childNodes[0], one.nextSibling], [text, 1, text, other]);
  const behind = one.appendChild(document.createTextNode("two"));
  assert.deepEqual([text.nextSibling, behind.previousSibling, one.lastChild, one.textContent], [behind, text, behind, "onetwo"]);
  one.textContent = "three";
  assert.deepEqual([text.parentNode, text.nextSibling, behind.parentNode, one.firstChild.data, one.childNodes.length], [null, null, null, "three", 1]);
  other.textContent = "";
  assert.deepEqual([other.firstChild, other.lastChild, other.childNodes.length], [null, null, 0]);
  other.textContent = "four";
  other.appendChild(document.createTextNode("five"));
  assert.deepEqual([...other.childNodes].map((it) => it.data), ["four", "five"]);
});

test("a child is found by its index, also behind changes of one node and of several", () => {
  const { document, paragraph, first } = scene();
  const made = (count) => Array.from({ length: count }, () => document.createElement("b"));
  const children = [...paragraph.childNodes];
  const found = () => children.map((_, at) => paragraph.childNodes[children.length - 1 - at]).reverse();
  const change = (at, gone, ...come) => (children.splice(at, gone, ...come), assert.deepEqual(found(), children));
  const many = made(20);
  for (const it of many) paragraph.appendChild(it);
  change(2, 0, ...many);
  const [ahead] = made(1);
  paragraph.insertBefore(ahead, first);
  change(0, 0, ahead);
  const some = made(3);
  many[0].before(...some);
  change(3, 0, ...some);
  paragraph.normalize();
  change(2, 1);
  paragraph.removeChild(some[1]);
  change(3, 1);
  assert.equal(paragraph.childNodes[children.length], undefined);
});

test("several nodes at once are composed as the standard does", () => {
  const { document, paragraph, first, second } = scene();
  const made = document.createElement("b");
  paragraph.append(made, "and");
  assert.deepEqual([...paragraph.childNodes].map((it) => it.nodeName), ["#text", "#text", "B", "#text"]);
  paragraph.prepend(second);
  assert.equal(paragraph.firstChild, second);
  made.before("x", first);
  made.after(made, "y");
  assert.equal(paragraph.textContent, "textxsome yand");
  made.replaceWith();
  assert.equal(made.parentNode, null);
  paragraph.replaceChildren("one", made);
  assert.equal(paragraph.childNodes.length, 2);
  assert.equal(first.parentNode, null);
  assert.equal(made.parentNode, paragraph);
  made.remove();
  assert.equal(paragraph.lastChild.data, "one");
});

test("elements beside and below elements", () => {
  const { document, paragraph, first } = scene();
  const [one, two] = ["i", "b"].map((name) => paragraph.appendChild(document.createElement(name)));
  paragraph.appendChild(document.createComment("c"));
  assert.deepEqual([...paragraph.children], [one, two]);
  assert.equal(paragraph.childElementCount, 2);
  assert.equal(paragraph.firstElementChild, one);
  assert.equal(paragraph.lastElementChild, two);
  assert.equal(one.nextElementSibling, two);
  assert.equal(two.nextElementSibling, null);
  assert.equal(two.previousElementSibling, one);
  assert.equal(first.nextElementSibling, one);
  assert.deepEqual([...document.getElementsByTagName("B")], [two]);
  assert.deepEqual([...document.getElementsByTagName("*")], [paragraph, one, two]);
  two.id = "wanted";
  assert.equal(document.getElementById("wanted"), two);
  two.removeAttribute("id");
  assert.equal(document.getElementById("wanted"), null);
});

test("names have namespaces and prefixes", () => {
  const { document } = scene();
  const svg = document.createElementNS("http://www.w3.org/2000/svg", "s:Path");
  assert.deepEqual([svg.prefix, svg.localName, svg.tagName], ["s", "Path", "s:Path"]);
  assert.equal(svg.namespaceURI, "http://www.w3.org/2000/svg");
  const plain = document.createElement("A:b");
  assert.deepEqual([plain.prefix, plain.localName, plain.namespaceURI, plain.tagName], [null, "a:b", HTML, "A:B"]);
  svg.setAttributeNS(XLINK, "xlink:href", "1");
  svg.setAttribute("href", "2");
  assert.equal(svg.getAttributeNS(XLINK, "href"), "1");
  assert.equal(svg.getAttributeNS(null, "href"), "2");
  assert.equal(svg.getAttribute("xlink:href"), "1");
  assert.deepEqual(svg.getAttributeNames(), ["xlink:href", "href"]);
  svg.setAttributeNS(XLINK, "other:href", "3");
  assert.equal(svg.getAttribute("xlink:href"), "3");
  const copy = svg.cloneNode();
  assert.ok(copy.isEqualNode(svg));
  assert.equal(copy.localName, "Path");
  const other = document.createElementNS(null, "s-Path");
  assert.ok(!other.isEqualNode(document.createElement("s-path")));
  const xml = createDocument({ xml: true }).createElement("Ab");
  assert.deepEqual([xml.tagName, xml.namespaceURI], ["Ab", null]);
});

test("namespaces are looked up from a node upwards", () => {
  const { document } = scene();
  const outer = document.documentElement.appendChild(document.createElementNS("one", "a:b"));
  const inner = outer.appendChild(document.createElementNS("two", "c"));
  const text = inner.appendChild(document.createTextNode("t"));
  outer.setAttributeNS("http://www.w3.org/2000/xmlns/", "xmlns:d", "three");
  assert.equal(text.lookupNamespaceURI("a"), "one");
  assert.equal(text.lookupNamespaceURI("d"), "three");
  assert.equal(text.lookupNamespaceURI(null), "two");
  assert.equal(text.lookupPrefix("three"), "d");
  assert.equal(text.lookupPrefix("two"), null);
  assert.ok(inner.isDefaultNamespace("two") && !inner.isDefaultNamespace(""));
  assert.ok(document.isDefaultNamespace(HTML));
  assert.equal(document.createDocumentFragment().lookupNamespaceURI("xml"), null);
});

test("elements by class names, and insertion beside an element", () => {
  const { document, paragraph, first } = scene();
  const made = document.createElement("b");
  assert.equal(paragraph.insertAdjacentElement("AfterBegin", made), made);
  assert.equal(paragraph.firstChild, made);
  made.insertAdjacentText("afterend", "x");
  assert.equal(made.nextSibling.data, "x");
  assert.equal(document.createElement("i").insertAdjacentElement("beforebegin", document.createElement("u")), null);
  refused("SyntaxError", 12, () => made.insertAdjacentText("inside", "x"));
  made.className = " one\ttwo ";
  assert.deepEqual([...document.getElementsByClassName("two one")], [made]);
  assert.deepEqual([...document.getElementsByClassName("one three")], []);
  assert.equal(document.getElementsByClassName(" ").length, 0);
  assert.equal(first.parentNode, paragraph);
});

test("a constructor makes objects of the class that is called", () => {
  class Named extends huckleport.Text {
    name = "mine";
  }
  const made = new Named("t");
  assert.deepEqual([made.data, made.name, made.nodeType], ["t", "mine", 3]);
  assert.ok(made instanceof Named && made instanceof huckleport.CharacterData);
  assert.ok(huckleport.createDocument() instanceof huckleport.Document);
  assert.ok(createDocument().implementation.createDocument(null, "a") instanceof huckleport.XMLDocument);
});

test("live ranges follow edits, and wrappers follow contents", () => {
  const { document, paragraph, first, second } = scene();
  const mark = paragraph.insertBefore(document.createElement("b"), second);
  const range = document.createRange();
  range.setStart(first, 2);
  range.setEnd(second, 2);
  first.insertData(0, "--");
  assert.equal(range.startOffset, 4);
  assert.equal(`${range}`, "me te");
  const fragment = range.extractContents();
  assert.equal(mark.parentNode, fragment);
  assert.equal(fragment.textContent, "me te");
  assert.equal(paragraph.textContent, "--soxt");
  assert.ok(range.collapsed);
  range.insertNode(fragment);
  assert.equal(mark.parentNode, paragraph);
  range.selectNodeContents(paragraph);
  const around = document.createElement("span");
  range.surroundContents(around);
  assert.equal(mark.parentNode, around);
  assert.equal(around.parentNode, paragraph);
  range.selectNodeContents(around);
  range.deleteContents();
  assert.equal(mark.parentNode, null);
  assert.equal(around.childNodes.length, 0);
});

test("normalize joins Texts, and those that go have no parent", () => {
  const { paragraph, first, second } = scene();
  paragraph.normalize();
  assert.equal(first.data, "some text");
  assert.equal(second.parentNode, null);
  assert.equal(paragraph.childNodes.length, 1);
});

test("iterators and walkers with a function and without", () => {
  const { document, paragraph, first, second } = scene();
  const iterator = document.createNodeIterator(document, NodeFilter.SHOW_TEXT);
  assert.deepEqual([iterator.nextNode(), iterator.nextNode(), iterator.nextNode()], [first, second, null]);
  const seen = [];
  const filtered = document.createNodeIterator(document, NodeFilter.SHOW_ALL, (node) => {
    seen.push(node);
    return node === second ? NodeFilter.FILTER_ACCEPT : NodeFilter.FILTER_REJECT;
  });
  assert.equal(filtered.nextNode(), second);
  assert.deepEqual(seen, [document, paragraph, first, second]);
  assert.equal(filtered.referenceNode, second);
  second.remove();
  assert.equal(filtered.referenceNode, first);
  paragraph.append(second);
  const walker = document.createTreeWalker(document, NodeFilter.SHOW_ALL, { acceptNode: (node) => (node === first ? 2 : 1) });
  assert.equal(walker.firstChild(), paragraph);
  assert.equal(walker.firstChild(), second);
  assert.equal(walker.previousSibling(), null);
  assert.equal(walker.parentNode(), paragraph);
  const plain = document.createTreeWalker(document);
  assert.equal(plain.nextNode(), paragraph);
  assert.equal(plain.lastChild(), second);
  assert.equal(plain.currentNode, second);
  refused("InvalidStateError", 11, () => {
    const again = document.createNodeIterator(document, NodeFilter.SHOW_ALL, () => again.nextNode());
    again.nextNode();
  });
});

test("a window's interfaces and exceptions are its own", () => {
  const window = createWindow();
  const { document } = window;
  assert.notEqual(window.Node, Node);
  assert.ok(document instanceof window.Document && !(document instanceof huckleport.Document));
  assert.throws(() => document.createElement(""), (fault) => fault instanceof window.DOMException && !(fault instanceof DOMException));
  assert.equal(new window.Text("x").ownerDocument, document);
  const beside = createWindow({ beside: window });
  const moved = beside.document.adoptNode(document.createElement("p"));
  assert.equal(moved.ownerDocument, beside.document);
  assert.ok(moved instanceof window.Element);
  refused("NotSupportedError", 9, () => createDocument().adoptNode(createDocument().createElement("p")));
});

test("sessions speak in lines and in objects", () => {
  const session = new huckleport.Session();
  const paragraph = session.document.appendChild(session.document.createElement("p"));
  assert.equal(session.line('["tree",0]'), '{"ok":[[0,0,9,"#document"],[1,1,1,"p",[]]]}\n');
  assert.equal(session.number(paragraph), 1);
  assert.equal(session.line('["createText",0,"t"]'), '{"ok":2}\n');
  assert.equal(session.node(2).data, "t");
  assert.equal(session.line('["newDocument"]'), '{"ok":3}\n');
  assert.equal(session.node(3).nodeType, 9);
  session.close();
  assert.throws(() => paragraph.firstChild, { name: "InvalidStateError" });
});
