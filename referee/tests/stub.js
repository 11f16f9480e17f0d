// A small DOM for tests of the adapter: elements that can be appended, and nothing else. Making an element named "stuck" never returns, and an element
// named "odd" has another name.
"use strict";

class Element {
  nodeType = 1;
  parentNode = null;
  previousSibling = null;
  nextSibling = null;
  firstChild = null;
  childNodes = [];
  attributes = [];

  constructor(ownerDocument, nodeName) {
    Object.assign(this, { ownerDocument, nodeName });
  }

  appendChild(node) {
    this.childNodes.push(node);
    this.firstChild = this.childNodes[0];
    node.parentNode = this;
    return node;
  }
}

class Document extends Element {
  nodeType = 9;

  createElement(name) {
    while (name === "stuck");
    return new Element(this, name === "odd" ? "even" : name);
  }
}

const implementation = { createDocument: () => Object.assign(new Document(null, "#document"), { implementation }) };

module.exports = { document: implementation.createDocument() };
