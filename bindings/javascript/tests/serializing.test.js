// HTML out: what the module writes of random trees is what parse5 writes of the same trees; names, templates, long texts and deep trees.
import assert from "node:assert/strict";
import { createRequire } from "node:module";
import test from "node:test";

import { createDocument, memory, parse, serialize, treeAdapter } from "../lib/index.js";

const HTML = "http://www.w3.org/1999/xhtml";
const SVG = "http://www.w3.org/2000/svg";
const MATHML = "http://www.w3.org/1998/Math/MathML";
const XLINK = "http://www.w3.org/1999/xlink";
const XML = "http://www.w3.org/XML/1998/namespace";
const XMLNS = "http://www.w3.org/2000/xmlns/";

function installed(name) {
  try {
    return createRequire(import.meta.url)(name);
  } catch {
    return null;
  }
}

const parse5 = installed("parse5");
const withParse5 = { skip: parse5 ? false : "parse5 is not installed" };

/** Numbers below a limit, the same for the same seed. */
function numbers(seed) {
  let state = seed;
  return (limit) => {
    state = (state * 48271) % 2147483647;
    return state % limit;
  };
}

// ---- Random trees, made twice by the same calls: here and over parse5's own tree.

const TAGS = "p div span br img input script style textarea pre template noscript plaintext xmp iframe title td table wbr a x-y".split(" ");
const FOREIGN = [[SVG, "svg"], [SVG, "script"], [SVG, "template"], [MATHML, "mi"], [MATHML, "style"]];
const TEXTS = ["", "some text", "\n", "\nfirst", "a & b", "<b>", "1 > 0", "\u00a0", '"quoted"', "\ud83d\ude00", "\ud800 alone", "é\u2028", "x".repeat(5000), "&<>\u00a0".repeat(300)];
// (a newer rule of the standard has `<` and `>` escaped in values, which this parse5 does not)
const VALUES = ["", "v", 'a "b"', "a & b", "\u00a0", "'", "é\ud83d\ude00", "y".repeat(3000)];
const NAMES = [{ name: "class" }, { name: "title" }, { name: "data-é" }, { name: "href", namespace: XLINK, prefix: "xlink" }, { name: "lang", namespace: XML, prefix: "xml" }, { name: "xmlns", namespace: XMLNS, prefix: "" }, { name: "xlink", namespace: XMLNS, prefix: "xmlns" }];

/** A random tree by calls of a tree adapter. */
function grown(adapter, document, below) {
  const any = (list) => list[below(list.length)];
  const attributes = () => NAMES.filter(() => below(6) === 0).map((it) => ({ ...it, value: any(VALUES) }));
  const made = [];
  function element() {
    const [namespace, name] = below(8) === 0 ? any(FOREIGN) : [HTML, any(TAGS)];
    const its = adapter.createElement(name, namespace, attributes());
    if (namespace !== HTML || name !== "template") return its;
    const contents = adapter.createDocumentFragment();
    adapter.setTemplateContent(its, contents);
    made.push(contents);
    return its;
  }
  const root = adapter.createElement("html", HTML, []);
  adapter.setDocumentType(document, "html", "", "");
  adapter.appendChild(document, root);
  made.push(root);
  for (let count = 0; count < 150; count++) {
    const parent = any(made);
    const what = below(5);
    if (what === 0) adapter.appendChild(parent, adapter.createCommentNode(any(TEXTS)));
    else if (what < 3) adapter.insertText(parent, any(TEXTS));
    else made.push(adapter.appendChild(parent, element()) ?? adapter.getChildNodes(parent).at(-1));
  }
  return made;
}

test("random trees are written as parse5 writes them", withParse5, () => {
  const { defaultTreeAdapter } = parse5;
  for (let seed = 1; seed <= 20; seed++) {
    const document = createDocument();
    const theirs = defaultTreeAdapter.createDocument();
    const made = grown(treeAdapter(document), document, numbers(seed));
    const others = grown(defaultTreeAdapter, theirs, numbers(seed));
    const settings = { scriptingEnabled: false };
    assert.equal(serialize(document), parse5.serialize(theirs, settings), `${seed}`);
    for (const [at, node] of made.entries()) {
      const wanted = others[at].nodeName === "#document-fragment" ? parse5.serialize(others[at], settings) : parse5.serializeOuter(others[at], settings);
      assert.equal(serialize(node), wanted, `${seed} ${at}`);
    }
  }
});

test("a page that is read and written is the same", withParse5, () => {
  const page = "<!DOCTYPE html><html><head><title>a &amp; b</title></head><body><p title=\"&lt;&quot;&gt;\">1 &lt; 2&nbsp;<br></p><svg><a xlink:href=\"#x\"></a></svg></body></html>";
  assert.equal(serialize(parse(page)), page);
});

// ---- Names.

test("names of other namespaces are written by their prefixes, in each session by its own", () => {
  const written = ["urn:one", "urn:two"].map((namespace) => {
    const document = createDocument();
    const element = document.createElementNS(namespace, "a:b");
    element.setAttributeNS("urn:c", "d:e", "1");
    element.setAttributeNS(XLINK, "f:href", "2");
    element.appendChild(document.createElementNS(HTML, "g:p")).appendChild(document.createElementNS(SVG, "h:rect"));
    element.append(document.createElementNS(null, "br"), document.createElementNS(HTML, "g:br"));
    return serialize(element);
  });
  const wanted = '<a:b d:e="1" xlink:href="2"><p><rect></rect></p><br></br><br></a:b>';
  assert.deepEqual(written, [wanted, wanted]);
});

test("each name is passed to the module once, wherever it is met first", () => {
  const document = createDocument();
  const root = document.createElement("div");
  let wanted = "";
  for (let at = 0; at < 500; at++) {
    const it = root.appendChild(document.createElement(`x-${at}`));
    it.setAttribute(`y-${at}`, `${at}`);
    wanted += `<x-${at} y-${at}="${at}"></x-${at}>`;
    assert.equal(serialize(it), `<x-${at} y-${at}="${at}"></x-${at}>`);
  }
  assert.equal(serialize(root), `<div>${wanted}</div>`);
  assert.equal(serialize(createDocument().createElement("x-7")), "<x-7></x-7>");
});

test("each of very many elements is written by its own name", () => {
  const document = createDocument();
  const root = document.createElement("div");
  const tags = ["b", "i", "u"];
  for (let at = 0; at < 200000; at++) root.appendChild(document.createElement(tags[at % 3]));
  const wanted = `<div>${"<b></b><i></i><u></u>".repeat(66666)}<b></b><i></i></div>`;
  assert.ok(serialize(root) === wanted);
  assert.ok(serialize(root.cloneNode(true)) === wanted);
  assert.deepEqual([0, 1, 131072, 199999].map((at) => serialize(root.childNodes[at])), ["<b></b>", "<i></i>", "<u></u>", "<i></i>"]);
});

test("doctypes and instructions are written with names of any letters", () => {
  const document = createDocument({ xml: true });
  document.appendChild(document.implementation.createDocumentType("é\u{1f600}", "", ""));
  document.appendChild(document.createProcessingInstruction("té\u{1f600}", "d&<"));
  assert.equal(serialize(document), "<!DOCTYPE é\u{1f600}><?té\u{1f600} d&<>");
});

// ---- Content that is left out, raw texts, and sizes.

test("void elements and raw text hold by what the element is", () => {
  const document = createDocument();
  const br = document.createElement("br");
  br.append("left out", document.createElement("b"));
  const style = document.createElement("style");
  style.append("a > b", document.createElement("i"), "&");
  const parent = document.createElement("p");
  parent.append(br, style, "&");
  assert.equal(serialize(parent), "<p><br><style>a > b<i></i>&</style>&amp;</p>");
  assert.equal(serialize(style.firstChild), "a &gt; b");
});

test("a template that was given no contents is written with its children", () => {
  const document = createDocument();
  const template = document.createElement("template");
  template.append("a", document.createElement("br"));
  assert.equal(serialize(template), "<template>a<br></template>");
});

test("a deep tree is written", () => {
  const document = createDocument();
  let at = document.createElement("i");
  const root = at;
  for (let depth = 1; depth < 100000; depth++) at = at.appendChild(document.createElement("i"));
  assert.equal(serialize(root), `${"<i>".repeat(100000)}${"</i>".repeat(100000)}`);
});

test("a text that has no room in the memory is refused, and the session goes on", () => {
  const document = createDocument();
  const root = document.createElement("p");
  root.appendChild(document.createTextNode("&".repeat(4000000)));
  memory.limit(memory.size + 8000000);
  try {
    assert.throws(() => serialize(root), RangeError);
  } finally {
    memory.limit(0);
  }
  assert.equal(serialize(root), `<p>${"&amp;".repeat(4000000)}</p>`);
});
