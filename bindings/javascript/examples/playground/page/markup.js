// Lines that make a tree of HTML. The browser's own parser reads it, so that the page needs none.

const KINDS = { 3: "createText", 8: "createComment" };

class Writing {
  lines = [];
  #next = 1;

  say(...words) {
    this.lines.push(JSON.stringify(words));
  }

  #made(...words) {
    this.say(...words);
    return this.#next++;
  }

  // Makes a node with all in it, and returns its number.
  make(node) {
    if (node.nodeType in KINDS) return this.#made(KINDS[node.nodeType], 0, node.data);
    if (node.nodeType === Node.DOCUMENT_TYPE_NODE) return this.#made("createDoctype", 0, node.name, node.publicId, node.systemId);
    const number = node.nodeType === Node.ELEMENT_NODE ? this.#made("createElement", 0, node.localName) : this.#made("createFragment", 0);
    for (const { name, value } of node.attributes ?? []) this.say("setAttribute", number, name, value);
    this.fill(number, node.content ?? node);
    return number;
  }

  fill(number, node) {
    for (const child of node.childNodes) this.say("appendChild", number, this.make(child));
  }
}

const isPage = (html) => /^\s*<(?:!doctype|html)\b/i.test(html);

function contentOf(html) {
  const template = document.createElement("template");
  template.innerHTML = html;
  return template.content;
}

// The lines that make a text of HTML: a page, and an element alone, in the Document; anything else in a fragment.
export function linesOfHTML(html) {
  const writing = new Writing();
  const content = isPage(html) ? new DOMParser().parseFromString(html, "text/html") : contentOf(html.trim());
  const isRoot = isPage(html) || (content.childNodes.length === 1 && content.children.length === 1);
  if (isRoot) writing.fill(0, content);
  else writing.make(content);
  return writing.lines;
}
