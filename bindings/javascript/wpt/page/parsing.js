// Fills documents while scripts run: by parse5 over the package's tree adapter (HTML), and by saxes and the standard's calls (XML).
import { treeAdapter } from "../../lib/index.js";
import { load } from "../libraries.js";

// Ends once the microtasks that wait have run, and those that they left, as they do before and after each script of a page.
const afterMicrotasks = () => new Promise((ready) => process.nextTick(ready));

// Fills a document with a page; `runScript` is called with each script element once its end tag is read. The nodes before the first script are inserted
// at once.
export async function parseHTML(document, text, runScript) {
  const { Parser } = load("parse5");
  const scripts = [];
  const parser = new Parser({ treeAdapter: treeAdapter(document) }, document, null, (script) => {
    scripts.push(script);
    parser.tokenizer.pause();
  });
  parser.tokenizer.write(text, true);
  while (scripts.length) {
    await afterMicrotasks();
    runScript(scripts.shift());
    await afterMicrotasks();
    parser.tokenizer.resume();
  }
}

function setAttributes(element, attributes) {
  for (const { name, uri, value } of attributes) element.setAttributeNS(uri || null, name, value);
}

function addText(document, parent, text) {
  if (parent.lastChild?.nodeType === 3) parent.lastChild.appendData(text);
  else if (parent !== document) parent.appendChild(document.createTextNode(text));
}

const DOCTYPE = /^\s*([^\s[]+)(?:\s+(PUBLIC|SYSTEM)\s+["']([^"']*)["'](?:\s+["']([^"']*)["'])?)?/;

function doctypeOf(document, written) {
  const [, name, kind, first = "", second = ""] = DOCTYPE.exec(written);
  return document.implementation.createDocumentType(name, kind === "PUBLIC" ? first : "", kind === "PUBLIC" ? second : first);
}

// Fills a document with a page of XML.
export function parseXML(document, text, runScript) {
  const { SaxesParser } = load("saxes");
  const parser = new SaxesParser({ xmlns: true });
  let parent = document;
  const handlers = {
    opentag({ uri, name, attributes }) {
      parent = parent.appendChild(document.createElementNS(uri || null, name));
      setAttributes(parent, Object.values(attributes));
    },
    closetag() {
      const ended = parent;
      parent = ended.parentNode;
      if (ended.localName === "script") runScript(ended);
    },
    text: (data) => addText(document, parent, data),
    cdata: (data) => addText(document, parent, data),
    comment: (data) => parent.appendChild(document.createComment(data)),
    processinginstruction: ({ target, body }) => parent.appendChild(document.createProcessingInstruction(target, body)),
    doctype: (written) => parent.appendChild(doctypeOf(document, written)),
    error: (fault) => { throw fault; },
  };
  for (const [event, handler] of Object.entries(handlers)) parser.on(event, handler);
  parser.write(text).close();
}
