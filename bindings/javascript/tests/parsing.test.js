// Documents in and out: what parse5 makes of a page and prints of it is the same by its own tree and by this one.
import assert from "node:assert/strict";
import { spawnSync } from "node:child_process";
import { createRequire } from "node:module";
import test from "node:test";
import { fileURLToPath } from "node:url";

import { createDocument, parse, parseFragment, parseXML, provide, serialize, serializeXML, XMLDocument } from "../lib/index.js";

const PACKAGE = fileURLToPath(new URL("..", import.meta.url));
const XLINK = "http://www.w3.org/1999/xlink";

function installed(name) {
  try {
    return createRequire(import.meta.url)(name);
  } catch {
    return null;
  }
}

const parse5 = installed("parse5");
const saxes = installed("saxes");
const withParse5 = { skip: parse5 ? false : "parse5 is not installed" };
const withWriter = { skip: installed("w3c-xmlserializer") ? false : "w3c-xmlserializer is not installed" };
const withSaxes = { skip: saxes ? false : "saxes is not installed" };

const PAGES = [
  "<!DOCTYPE html><title>a</title><p class=x id=y>b<br>c",
  "<p>a<table>foster<tr><td>b</table>c</p>d",
  "<b>1<i>2</b>3</i><!-- c --><select><option>o<option>p</select>",
  "<template><td>in</td></template><svg viewBox='0 0 1 1' xlink:href='#a'><path/></svg><math><mi>x</math>",
  "<html lang=a><body class=b><frameset></body></html><!-- after -->",
  "<pre>\n\nx</pre><textarea>\ny</textarea><script>if (a < b && c) {}</script><plaintext>&amp;",
  '<!DOCTYPE html PUBLIC "-//W3C//DTD HTML 4.01//EN" "http://www.w3.org/TR/html4/strict.dtd"><p>&nbsp;&lt;\u{1f600}',
];

test("pages are parsed and printed as parse5 does", withParse5, () => {
  for (const page of PAGES) assert.equal(serialize(parse(page)), parse5.serialize(parse5.parse(page)), page);
});

test("pieces are parsed as the content of an element", withParse5, () => {
  for (const piece of PAGES) assert.equal(serialize(parseFragment(piece)), parse5.serialize(parse5.parseFragment(piece)), piece);
  const row = createDocument().createElement("tr");
  assert.equal(serialize(parseFragment("<td>a<td>b", row)), "<td>a</td><td>b</td>");
  assert.equal(parseFragment("<p>", row).ownerDocument, row.ownerDocument);
});

test("a parsed page is a Document like any other", withParse5, () => {
  const document = parse(PAGES[3]);
  assert.equal(document.compatMode, "BackCompat");
  assert.equal(parse(PAGES[0]).compatMode, "CSS1Compat");
  const svg = document.getElementsByTagName("svg")[0];
  assert.equal(svg.getAttributeNS(XLINK, "href"), "#a");
  assert.equal(svg.getAttribute("viewBox"), "0 0 1 1");
  assert.equal(serialize(svg), '<svg viewBox="0 0 1 1" xlink:href="#a"><path></path></svg>');
  assert.equal(document.body.lastChild.localName, "math");
});

test("pieces are parsed as the content of an element that stands in a Document", withParse5, () => {
  const document = parse("<!DOCTYPE html><form><p>");
  const [paragraph] = document.getElementsByTagName("p");
  assert.equal(serialize(parseFragment("<form><b>x</form>", paragraph)), "<b>x</b>");
  assert.equal(serialize(parseFragment("<form><b>x</form>", document.body)), "<form><b>x</b></form>");
});

test("a template's contents go with a deep copy", withParse5, () => {
  const document = parse("<div><template><p id=a>in<template><b></template></template></div>");
  const [its] = document.getElementsByTagName("div");
  const written = serialize(its);
  assert.equal(written, '<div><template><p id="a">in<template><b></b></template></p></template></div>');
  for (const copy of [its.cloneNode(true), document.importNode(its, true), createDocument({ beside: document }).importNode(its, true)]) {
    assert.equal(serialize(copy), written);
  }
  assert.equal(serialize(its.firstChild.cloneNode(false)), "<template></template>");
  assert.equal(document.getElementById("a"), null);
});

test("XML is written as it was read", { skip: withSaxes.skip || withWriter.skip }, () => {
  const text = '<a xmlns="n" xmlns:p="m" p:x="1 &lt;" y="2"><!--c--><p:b/>t &amp; u<?d e?></a>';
  const document = parseXML(text);
  assert.ok(document instanceof XMLDocument);
  assert.equal(serializeXML(document), text);
  assert.equal(serializeXML(document.documentElement.childNodes[1]), '<p:b xmlns:p="m"/>');
  const odd = document.createComment("a--b");
  assert.equal(serializeXML(odd), "<!--a--b-->");
  assert.throws(() => serializeXML(odd, { isStrict: true }));
});

test("libraries can be handed in", withParse5, () => {
  let asked = 0;
  provide({ parse5: { ...parse5, parse: (...given) => (asked++, parse5.parse(...given)) } });
  parse("<p>");
  assert.equal(asked, 1);
  provide({ parse5 });
});

test("XML is parsed with its namespaces", withSaxes, () => {
  const document = parseXML('<?xml version="1.0"?><!DOCTYPE a SYSTEM "b"><a xmlns="n" xmlns:p="m" p:x="1" y="2"><!--c--><p:b/>t<![CDATA[<u>]]><?d e?></a>');
  const { doctype, documentElement: root } = document;
  assert.deepEqual([doctype.name, doctype.publicId, doctype.systemId], ["a", "", "b"]);
  assert.deepEqual([root.namespaceURI, root.localName, root.getAttributeNS("m", "x"), root.getAttribute("y")], ["n", "a", "1", "2"]);
  assert.deepEqual([...root.childNodes].map((it) => it.nodeName), ["#comment", "p:b", "#text", "d"]);
  assert.equal(root.childNodes[2].data, "t<u>");
  assert.equal(root.childNodes[1].namespaceURI, "m");
  assert.throws(() => parseXML("<a><b></a>"), SyntaxError);
});

test("where a parser is missing, the fault names it", () => {
  const program = `import Module from "node:module";
    Module._resolveFilename = () => { throw new Error("nothing is installed"); };
    const { parse } = await import("./lib/index.js");
    try { parse("<p>"); } catch (fault) { console.log(fault.message); }`;
  const ran = spawnSync(process.execPath, ["--input-type=module", "-e", program], { cwd: PACKAGE, encoding: "utf8" });
  assert.match(ran.stdout, /needs the package parse5/u, ran.stderr);
});
