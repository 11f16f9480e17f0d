// Answers the commands of docs/commands.md by the standard's interfaces of a window, for node and for pages.
// `itself` lists the work of this adapter, which is not the window's and never evidence.
"use strict";

const itself = [
  "reads and writes JSON, and tells a text that is not well-formed by its units",
  "numbers what a command makes: the node that a call answers takes the next number, and those made with it take the core's, place by place",
  "answers index and length by counting childNodes, and tree by a walk over firstChild and nextSibling, with attributes by getAttributeNames, or by attributes where there is none",
  "makes a function of a filter's list, which asks nodeName alone",
  "once filters were shown to be never asked, hands them over as acceptNode of the window, which Debian's jsdom asks in their place",
  "answers notify by letting the callbacks run, and has nothing for pending, discard, releaseRange and staticRange",
  "has no answer where comparePosition is asked of two trees, since the standard leaves the order open",
  "tells a DOMException by the standard's name for its code, where its name is another",
];

// The members that commands need, by the objects that have them. 0 is a member with the command's own name.
const members = {
  document: {
    createElement: 0, createText: "createTextNode", createComment: 0, createPI: "createProcessingInstruction", createFragment: "createDocumentFragment",
    adoptNode: 0, importNode: 0, createRange: 0, createIterator: "createNodeIterator", createWalker: "createTreeWalker",
  },
  implementation: { newDocument: "createDocument", createDoctype: "createDocumentType" },
  element: {
    insertBefore: 0, appendChild: 0, replaceChild: 0, removeChild: 0, remove: 0, replaceChildren: 0, cloneNode: 0, normalize: 0, contains: 0,
    isEqual: "isEqualNode", comparePosition: "compareDocumentPosition", root: "getRootNode", textContent: 0, setTextContent: "textContent",
    setAttribute: 0, getAttribute: 0, hasAttribute: 0, removeAttribute: 0, toggleAttribute: 0, attributeNames: "getAttributeNames",
    node: "nodeType", children: "childNodes", index: "childNodes", length: "childNodes", tree: "firstChild",
  },
  text: {
    data: 0, setData: "data", appendData: 0, insertData: 0, deleteData: 0, replaceData: 0, substringData: 0, splitText: 0,
  },
  range: {
    cloneRange: 0, range: "startContainer", setStart: 0, setEnd: 0, setStartBefore: 0, setStartAfter: 0, setEndBefore: 0, setEndAfter: 0, collapse: 0,
    selectNode: 0, selectNodeContents: 0, compareBoundaryPoints: 0, comparePoint: 0, isPointInRange: 0, intersectsNode: 0,
    commonAncestor: "commonAncestorContainer", rangeText: "toString", deleteContents: 0, extractContents: 0, cloneContents: 0, insertNode: 0,
    surroundContents: 0,
  },
  iterator: { iterator: "referenceNode", nextNode: 0, previousNode: 0 },
  walker: { walker: "currentNode", setCurrent: "currentNode", walk: "nextNode" },
  observer: { observe: 0, disconnect: 0, takeRecords: 0 },
  constructors: { createObserver: "MutationObserver", createStaticRange: "StaticRange", notify: "MutationObserver" },
};

// The standard's names of exceptions, by their codes.
const names = {
  1: "IndexSizeError", 3: "HierarchyRequestError", 4: "WrongDocumentError", 5: "InvalidCharacterError", 7: "NoModificationAllowedError",
  8: "NotFoundError", 9: "NotSupportedError", 10: "InUseAttributeError", 11: "InvalidStateError", 12: "SyntaxError", 14: "NamespaceError",
  15: "InvalidAccessError", 24: "InvalidNodeTypeError",
};

// A tree with more nodes is taken for one that contains itself.
const MOST = 2000;

class Skipped extends Error {}

class Endless extends Error {
  name = "a tree without an end";
}

// Returns the object that a call makes; undefined if the call is refused or missing.
function tried(make) {
  try {
    return make() ?? undefined;
  } catch {
    return undefined;
  }
}

// Returns one object of a window for each kind that `members` names; undefined for a kind that it lacks.
function samples(window) {
  const document = tried(() => window.document.implementation.createDocument(null, null));
  const element = tried(() => document.createElement("a"));
  return {
    document, element, implementation: document?.implementation, text: tried(() => document.createTextNode("")),
    range: tried(() => document.createRange()), iterator: tried(() => document.createNodeIterator(element, 1, null)),
    walker: tried(() => document.createTreeWalker(element, 1, null)), observer: tried(() => new window.MutationObserver(() => {})),
    constructors: Object.fromEntries(["MutationObserver", "StaticRange"].filter((it) => typeof window[it] === "function").map((it) => [it, 1])),
  };
}

// Returns the commands that a window serves: each whose member exists.
function served(window) {
  const here = samples(window);
  const has = (kind) => ([command, member]) => here[kind] && (member || command) in here[kind];
  return Object.entries(members).flatMap(([kind, wanted]) => Object.entries(wanted).filter(has(kind)).map(([command]) => command));
}

// Returns whether a window calls its function acceptNode in place of a filter, as Debian's jsdom does.
function asksTheWindow(window) {
  const document = tried(() => window.document.implementation.createDocument(null, null));
  const first = (filter) => tried(() => document.createNodeIterator(document, 4294967295, filter).nextNode());
  if (!document?.createNodeIterator || first(() => 1)) return false;
  window.acceptNode = () => 1;
  const found = first(() => 1) === document;
  delete window.acceptNode;
  return found;
}

// Calls a method of an object. If there is none, the command is not served there.
function call(object, name, ...given) {
  if (typeof object[name] !== "function") throw new Skipped(`there is no ${name} here`);
  return object[name](...given);
}

// Returns a function that answers lines by the interfaces of the windows that `open` returns. A window serves some hundreds of worlds.
function answering(open, named) {
  let window = open();
  const serving = new Set(served(window));
  const canGoAround = asksTheWindow(window) ? ["filters"] : [];
  let worlds = 0, around = new Set();
  let nodes, numbers, ranges, iterators, walkers, observers, told, statics;

  function made(node) {
    numbers.set(node, nodes.length);
    return nodes.push(node) - 1;
  }

  function N(number) {
    if (nodes[number] === undefined) throw new Skipped("a node that stands nowhere here");
    return nodes[number];
  }

  const maybe = (number) => (number === null ? null : N(number));
  const numberOf = (node) => (node ? numbers.get(node) ?? "a node without a number" : null);
  const numbersOf = (list) => Array.from(list, numberOf);

  function textIn(value) {
    return Array.isArray(value) ? String.fromCharCode(...value) : value;
  }

  function textOut(text) {
    if (typeof text !== "string" || !/[\ud800-\udfff]/.test(text)) return text ?? null;
    return /^(?:[^\ud800-\udfff]|[\ud800-\udbff][\udc00-\udfff])*$/.test(text) ? text : Array.from({ length: text.length }, (_, at) => text.charCodeAt(at));
  }

  function record(it) {
    const around = [numberOf(it.previousSibling), numberOf(it.nextSibling)];
    return [it.type, numberOf(it.target), numbersOf(it.addedNodes), numbersOf(it.removedNodes), ...around, it.attributeName, textOut(it.oldValue)];
  }

  const attributeNames = (it) => (it.getAttributeNames ? it.getAttributeNames() : Array.from(it.attributes, (one) => one.name));

  function row(depth, node) {
    const found = [depth, numberOf(node), node.nodeType, node.nodeName];
    if (node.nodeType === 1) found.push(attributeNames(node).map((name) => [name, textOut(node.getAttribute(name))]));
    if (node.nodeType === 10) found.push(node.publicId, node.systemId);
    if ([3, 7, 8].includes(node.nodeType)) found.push(textOut(node.data));
    return found;
  }

  function rows(top) {
    const found = [];
    const waiting = [[0, top]];
    while (waiting.length) {
      const [depth, node] = waiting.pop();
      if (found.push(row(depth, node)) > MOST) throw new Endless();
      const below = [];
      for (let child = node.firstChild; child && below.length < MOST; child = child.nextSibling) below.push([depth + 1, child]);
      waiting.push(...below.reverse());
    }
    return found;
  }

  function description(it) {
    const found = { document: numberOf(it.ownerDocument ?? it), name: it.nodeName, type: it.nodeType };
    if (it.nodeType === 10) Object.assign(found, { public: it.publicId, system: it.systemId });
    return Object.assign(found, { next: numberOf(it.nextSibling), parent: numberOf(it.parentNode), previous: numberOf(it.previousSibling) });
  }

  function position(node, other) {
    const found = call(N(node), "compareDocumentPosition", N(other));
    if (found & 1) throw new Skipped("the standard leaves the order of trees open");
    return found;
  }

  function filter(rules) {
    const verdicts = { accept: 1, reject: 2, skip: 3 };
    const decide = (node) => verdicts[(rules.find(([name]) => name === "*" || name === node.nodeName) ?? ["", "accept"])[1]];
    return rules.length ? decide : null;
  }

  const filters = new Map();

  // Makes an iterator or a walker, and keeps its filter.
  function traversal(list, make, root, show, rules) {
    const found = call(N(0), make, N(root), show, filter(rules));
    filters.set(found, filter(rules));
    return list.push(found) - 1;
  }

  // Makes a step. If the window is asked in place of filters, it gets the filter too.
  function step(it, move) {
    const goesAround = around.has("filters") && filters.get(it);
    if (goesAround) window.acceptNode = filters.get(it);
    try {
      return numberOf(call(it, move));
    } finally {
      if (goesAround) delete window.acceptNode;
    }
  }

  const lengthOf = (it) => (it.nodeType === 10 ? 0 : (it.data ?? it.childNodes).length);
  const indexOf = (it) => (it.parentNode ? Array.prototype.indexOf.call(it.parentNode.childNodes, it) : 0);
  const endsOf = (it) => [numberOf(it.startContainer), it.startOffset, numberOf(it.endContainer), it.endOffset];
  const point = (a, i, b, j) => ({ startContainer: N(a), startOffset: i, endContainer: N(b), endOffset: j });
  const observer = () => new window.MutationObserver((records, self) => told.push([observers.indexOf(self), records.map(record)]));

  async function notify() {
    told = [];
    await new Promise((resolve) => setTimeout(resolve, 0));
    return told;
  }

  const answers = {
    newDocument: () => made(window.document.implementation.createDocument(null, null)),
    createElement: (document, name) => made(call(N(document), "createElement", name)),
    createText: (document, text) => made(call(N(document), "createTextNode", textIn(text))),
    createComment: (document, text) => made(call(N(document), "createComment", textIn(text))),
    createPI: (document, target, text) => made(call(N(document), "createProcessingInstruction", target, textIn(text))),
    createDoctype: (document, name, publicId, systemId) => made(call(N(document).implementation, "createDocumentType", name, publicId, systemId)),
    createFragment: (document) => made(call(N(document), "createDocumentFragment")),
    insertBefore: (parent, node, child) => numberOf(call(N(parent), "insertBefore", N(node), maybe(child))),
    appendChild: (parent, node) => numberOf(call(N(parent), "appendChild", N(node))),
    adoptNode: (document, node) => numberOf(call(N(document), "adoptNode", N(node))),
    replaceChild: (parent, node, child) => numberOf(call(N(parent), "replaceChild", N(node), N(child))),
    removeChild: (parent, child) => numberOf(call(N(parent), "removeChild", N(child))),
    remove: (node) => void call(N(node), "remove"),
    replaceChildren: (parent, node) => void call(N(parent), "replaceChildren", ...(node === null ? [] : [N(node)])),
    importNode: (document, node, deep) => made(call(N(document), "importNode", N(node), deep)),
    cloneNode: (node, deep) => made(call(N(node), "cloneNode", deep)),
    normalize: (node) => void call(N(node), "normalize"),
    node: (node) => description(N(node)),
    children: (node) => numbersOf(N(node).childNodes),
    index: (node) => indexOf(N(node)),
    length: (node) => lengthOf(N(node)),
    root: (node) => numberOf(call(N(node), "getRootNode")),
    contains: (node, other) => call(N(node), "contains", maybe(other)),
    isEqual: (node, other) => call(N(node), "isEqualNode", maybe(other)),
    comparePosition: position,
    textContent: (node) => textOut(N(node).textContent),
    setTextContent: (node, text) => void (N(node).textContent = textIn(text)),
    tree: (node) => rows(N(node)),
    data: (node) => textOut(N(node).data),
    setData: (node, text) => void (N(node).data = textIn(text)),
    appendData: (node, text) => void call(N(node), "appendData", textIn(text)),
    insertData: (node, offset, text) => void call(N(node), "insertData", offset, textIn(text)),
    deleteData: (node, offset, count) => void call(N(node), "deleteData", offset, count),
    replaceData: (node, offset, count, text) => void call(N(node), "replaceData", offset, count, textIn(text)),
    substringData: (node, offset, count) => textOut(call(N(node), "substringData", offset, count)),
    splitText: (node, offset) => made(call(N(node), "splitText", offset)),
    setAttribute: (element, name, value) => void call(N(element), "setAttribute", name, textIn(value)),
    getAttribute: (element, name) => textOut(call(N(element), "getAttribute", name)),
    hasAttribute: (element, name) => call(N(element), "hasAttribute", name),
    removeAttribute: (element, name) => void call(N(element), "removeAttribute", name),
    toggleAttribute: (element, name, force) => call(N(element), "toggleAttribute", name, ...(force === null ? [] : [force])),
    attributeNames: (element) => call(N(element), "getAttributeNames"),
    createRange: (document) => ranges.push(call(N(document), "createRange")) - 1,
    cloneRange: (range) => ranges.push(ranges[range].cloneRange()) - 1,
    range: (range) => endsOf(ranges[range]),
    setStart: (range, node, offset) => void ranges[range].setStart(N(node), offset),
    setEnd: (range, node, offset) => void ranges[range].setEnd(N(node), offset),
    setStartBefore: (range, node) => void ranges[range].setStartBefore(N(node)),
    setStartAfter: (range, node) => void ranges[range].setStartAfter(N(node)),
    setEndBefore: (range, node) => void ranges[range].setEndBefore(N(node)),
    setEndAfter: (range, node) => void ranges[range].setEndAfter(N(node)),
    collapse: (range, toStart) => void ranges[range].collapse(toStart),
    selectNode: (range, node) => void ranges[range].selectNode(N(node)),
    selectNodeContents: (range, node) => void ranges[range].selectNodeContents(N(node)),
    compareBoundaryPoints: (range, how, other) => ranges[range].compareBoundaryPoints(how, ranges[other]),
    comparePoint: (range, node, offset) => ranges[range].comparePoint(N(node), offset),
    isPointInRange: (range, node, offset) => ranges[range].isPointInRange(N(node), offset),
    intersectsNode: (range, node) => ranges[range].intersectsNode(N(node)),
    commonAncestor: (range) => numberOf(ranges[range].commonAncestorContainer),
    createStaticRange: (a, i, b, j) => (new window.StaticRange(point(a, i, b, j)), statics++),
    rangeText: (range) => textOut(ranges[range].toString()),
    deleteContents: (range) => void ranges[range].deleteContents(),
    extractContents: (range) => made(ranges[range].extractContents()),
    cloneContents: (range) => made(ranges[range].cloneContents()),
    insertNode: (range, node) => void ranges[range].insertNode(N(node)),
    surroundContents: (range, node) => void ranges[range].surroundContents(N(node)),
    createIterator: (root, show, rules) => traversal(iterators, "createNodeIterator", root, show, rules),
    createWalker: (root, show, rules) => traversal(walkers, "createTreeWalker", root, show, rules),
    iterator: (it) => [numberOf(iterators[it].root), numberOf(iterators[it].referenceNode), iterators[it].pointerBeforeReferenceNode],
    nextNode: (it) => step(iterators[it], "nextNode"),
    previousNode: (it) => step(iterators[it], "previousNode"),
    walker: (it) => [numberOf(walkers[it].root), numberOf(walkers[it].currentNode)],
    setCurrent: (it, node) => void (walkers[it].currentNode = N(node)),
    walk: (it, move) => step(walkers[it], move),
    createObserver: () => observers.push(observer()) - 1,
    observe: (it, node, options) => void observers[it].observe(N(node), options),
    disconnect: (it) => void observers[it].disconnect(),
    takeRecords: (it) => observers[it].takeRecords().map(record),
    notify,
  };

  // Numbers the nodes that the last command made inside, by the numbers of all nodes of their trees in tree order.
  function numbered(trees, next) {
    for (const [top, known] of trees) {
      if (!nodes[top]) continue;
      firstOf(nodes[top], known.length).forEach((node, at) => {
        if (numbers.has(node)) return;
        nodes[known[at]] = node;
        numbers.set(node, known[at]);
      });
    }
    nodes.length = next;
  }

  function* walked(node) {
    yield node;
    for (let child = node.firstChild; child; child = child.nextSibling) yield* walked(child);
  }

  // Returns the first nodes of a tree, in tree order.
  function firstOf(top, count) {
    const found = [];
    for (const node of walked(top)) if (found.push(node) >= count) break;
    return found;
  }

  function world(goesAround = []) {
    for (const it of observers ?? []) it.disconnect();
    if (++worlds % 200 === 0) window = open();
    around = new Set(goesAround);
    filters.clear();
    [nodes, numbers, ranges, iterators, walkers, observers, told, statics] = [[], new Map(), [], [], [], [], [], 0];
    answers.newDocument();
  }

  const others = {
    hello: () => ({ player: { ...named, serves: [...serving], itself, numbers: true, around: canGoAround } }),
    world: (line) => (world(line.world.around), { ok: null }),
    numbers: (line) => (numbered(line.numbers, line.next), { ok: null }),
  };

  // Returns the reply of a refusal. The message is for readers alone.
  function refusal(thrown) {
    if (thrown instanceof Skipped) return { skip: thrown.message };
    const standard = /Error$/.test(thrown?.name) && thrown.name !== "Error";
    return { error: (!standard && names[thrown?.code]) || (thrown?.name ?? String(thrown)), message: String(thrown?.message ?? thrown) };
  }

  // Answers a line; only notify has to be waited for, so that no callback of an observer runs in between.
  function answer(line) {
    const given = JSON.parse(line);
    if (!Array.isArray(given)) return others[Object.keys(given)[0]](given);
    if (!serving.has(given[0])) return { skip: "has no such command" };
    try {
      const found = answers[given[0]](...given.slice(1));
      return found instanceof Promise ? found.then((ok) => ({ ok })) : { ok: found === undefined ? null : found };
    } catch (thrown) {
      return refusal(thrown);
    }
  }

  world();
  return answer;
}

if (typeof module !== "undefined") module.exports = { answering };
