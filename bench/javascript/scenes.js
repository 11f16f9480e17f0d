// The scenes: each is prepared with a window and a count, and returns the function to measure. The same code serves each window.
import { createRequire } from "node:module";

import { PAGE_SCENES } from "./page_scenes.js";

/** Numbers below a limit, the same at each run. */
function numbers() {
  let state = 1;
  return (limit) => {
    state = (state * 48271) % 2147483647;
    return state % limit;
  };
}

/** Makes a Document, and below its root elements at random places; the root and these are as many nodes as the count. */
function forest({ document }, count) {
  const below = numbers();
  const root = document.implementation.createHTMLDocument("").documentElement;
  const nodes = [root];
  for (let at = 1; at < count; at++) nodes.push(nodes[below(at)].appendChild(root.ownerDocument.createElement("p")));
  return { document: root.ownerDocument, root, nodes, below };
}

/** Returns a function that moves a leaf to a random place, as many times as the count. */
function moving({ root, nodes, below }, count) {
  const leaves = nodes.slice(-Math.ceil(nodes.length / 10)).filter((it) => !it.firstChild);
  const places = nodes.slice(0, Math.ceil(nodes.length / 2));
  return () => {
    for (let at = 0; at < count; at++) {
      const leaf = leaves[below(leaves.length)];
      const place = places[below(places.length)];
      place.insertBefore(leaf, place === root || place === leaf.parentNode ? null : place.firstChild);
    }
  };
}

function rangesIn(document, text, count) {
  const below = numbers();
  return Array.from({ length: count }, () => {
    const range = document.createRange();
    range.setStart(text, below(500));
    range.setEnd(text, 500 + below(500));
    return range;
  });
}

function textWithRanges({ document }, count) {
  const text = document.implementation.createHTMLDocument("").body.appendChild(document.createTextNode("x".repeat(1000)));
  return { text, ranges: rangesIn(text.ownerDocument, text, count) };
}

/** Makes a page of about as many nodes as the count: paragraphs in sections, with attributes and Texts. */
function page({ document }, count) {
  const root = document.implementation.createHTMLDocument("").body;
  const made = root.ownerDocument;
  for (let at = 0; at < count; at += 8) {
    const section = root.appendChild(made.createElement("section"));
    section.setAttribute("class", "part of a page");
    for (const text of ["some text & more", "and <that>"]) {
      const paragraph = section.appendChild(made.createElement("p"));
      paragraph.setAttribute("title", "a paragraph");
      paragraph.append(text);
      paragraph.appendChild(made.createElement("br"));
    }
  }
  return { root };
}

function withIds(document) {
  const made = document.implementation.createHTMLDocument("");
  for (let at = 0; at < 1000; at++) made.body.appendChild(made.createElement("p")).id = `id${at}`;
  return made;
}

const steps = (next) => (count) => {
  for (let at = 0; at < count; at++) if (!next()) throw new Error("the walk ended early");
};

const ACCEPT = 1;
const ELEMENTS = 1;

export const SCENES = {
  building: {
    says: "an element and a Text in it, appended to a root",
    ready(window, count) {
      const { document } = window;
      const root = document.implementation.createHTMLDocument("").body;
      return () => {
        for (let at = 0; at < count; at++) {
          root.appendChild(root.ownerDocument.createElement("p")).appendChild(root.ownerDocument.createTextNode("some text"));
        }
      };
    },
  },
  reading: {
    says: "a node visited by firstChild, nextSibling and parentNode",
    share: 0.25,
    ready(window, count) {
      const { root } = forest(window, count);
      return () => {
        let node = root;
        while (node) {
          let next = node.firstChild;
          for (; !next && node && node !== root; node = next ? node : node.parentNode) next = node.nextSibling;
          node = next;
        }
      };
    },
  },
  moving: {
    says: "an element moved to a random place in a tree",
    ready: (window, count) => moving(forest(window, count), count),
  },
  "moving beside ranges": {
    says: "the same, with 1,000 live ranges in a Text elsewhere",
    ready(window, count) {
      const made = forest(window, count);
      const text = made.document.body.appendChild(made.document.createTextNode("x".repeat(1000)));
      const ranges = rangesIn(made.document, text, 1000);
      const move = moving(made, count);
      return () => move(ranges);
    },
  },
  "editing within ranges": {
    says: "a unit inserted or deleted in a Text in which 1,000 live ranges end",
    share: 0.1,
    ready(window, count) {
      const { text, ranges } = textWithRanges(window, 1000);
      return () => {
        for (let at = 0; at < count; at += 2) {
          text.insertData(250, "y");
          text.deleteData(250, 1);
        }
        return ranges;
      };
    },
  },
  iterating: {
    says: "a step of a NodeIterator over elements",
    share: 0.25,
    ready(window, count) {
      const { document, root } = forest(window, count);
      const iterator = document.createNodeIterator(root, ELEMENTS);
      return () => steps(() => iterator.nextNode())(count);
    },
  },
  walking: {
    says: "a step of a TreeWalker over elements",
    ready(window, count) {
      const { document, root } = forest(window, count);
      const walker = document.createTreeWalker(root, ELEMENTS);
      return () => steps(() => walker.nextNode())(count - 1);
    },
  },
  "walking by a filter": {
    says: "the same with a filter of the program",
    ready(window, count) {
      const { document, root } = forest(window, count);
      const walker = document.createTreeWalker(root, ELEMENTS, { acceptNode: () => ACCEPT });
      return () => steps(() => walker.nextNode())(count - 1);
    },
  },
  observing: {
    says: "an element moved, observed from the root, records taken 500 at a time",
    ready(window, count) {
      const made = forest(window, count);
      const observer = new window.MutationObserver(() => {});
      observer.observe(made.root, { childList: true, subtree: true });
      return () => {
        let told = 0;
        for (let at = 0; at < count; at += 250) {
          moving(made, 250)();
          told += observer.takeRecords().length;
        }
        if (told < count) throw new Error(`${told} records of ${count} moves`);
      };
    },
  },
  contents: {
    says: "ten children extracted and inserted again",
    share: 0.01,
    ready(window, count) {
      const { document } = window;
      const root = document.implementation.createHTMLDocument("").body;
      for (let at = 0; at < 200; at++) root.appendChild(root.ownerDocument.createElement("p"));
      const range = root.ownerDocument.createRange();
      return () => {
        for (let at = 0; at < count; at++) {
          range.setStart(root, (at * 7) % 180);
          range.setEnd(root, ((at * 7) % 180) + 10);
          range.insertNode(range.extractContents());
        }
      };
    },
  },
  "building and moving": {
    says: "an element and a Text made, appended, and an element of before moved to the front",
    share: 0.2,
    ready({ document }, count) {
      const root = document.implementation.createHTMLDocument("").body;
      const below = numbers();
      const made = [];
      return () => {
        for (let at = 0; at < count; at++) {
          const it = root.appendChild(root.ownerDocument.createElement("p"));
          it.appendChild(root.ownerDocument.createTextNode("some text"));
          made.push(it);
          root.insertBefore(made[below(made.length)], root.firstChild);
        }
      };
    },
  },
  "deep clone": {
    says: "a node of a tree that is copied whole",
    ready(window, count) {
      const { root } = forest(window, count);
      return () => void root.cloneNode(true);
    },
  },
  "text content": {
    says: "a node of a tree whose text is asked for, ten times",
    ready({ document }, count) {
      const { root } = page({ document }, count);
      return () => {
        for (let time = 0; time < 10; time++) if (root.textContent.length < count) throw new Error("a text is missing");
      };
    },
  },
  serializing: {
    says: "a node of a page written as HTML",
    ready(window, count) {
      const { root } = page(window, count);
      const write = window.serializing(root);
      return () => {
        if (write().length < count) throw new Error("a node is missing");
      };
    },
  },
  parsing: {
    says: "a node of a page read from HTML",
    ready(window, count) {
      const { root } = page(window, count);
      const text = window.serializing(root)();
      return () => void window.parsing(text);
    },
  },
  attributes: {
    says: "getAttribute of one of 100 elements with two attributes, ten times a step",
    ready({ document }, count) {
      const elements = Array.from({ length: 100 }, (_, at) => {
        const it = document.createElement("p");
        it.setAttribute("class", "some words");
        it.setAttribute("title", `number ${at}`);
        return it;
      });
      return () => {
        for (let at = 0; at < 10 * count; at++) if (elements[at % 100].getAttribute("title") === null) throw new Error("an attribute is missing");
      };
    },
  },
  ids: {
    says: "getElementById of one of 1,000",
    ready({ document }, count) {
      const made = withIds(document);
      return () => {
        for (let at = 0; at < count; at++) if (!made.getElementById(`id${at % 1000}`)) throw new Error("an id is missing");
      };
    },
  },
  "ids between edits": {
    says: "the same, with an element appended and removed at each step",
    ready({ document }, count) {
      const made = withIds(document);
      const extra = made.createElement("b");
      return () => {
        for (let at = 0; at < count; at++) {
          made.body.appendChild(extra);
          if (!made.getElementById(`id${at % 1000}`)) throw new Error("an id is missing");
          extra.remove();
        }
      };
    },
  },
  "tags and edits": {
    says: "a class and a text set on each of a list of 400 elements by their tag",
    share: 0.02,
    ready({ document }, count) {
      const root = document.implementation.createHTMLDocument("").body;
      for (let at = 0; at < count; at++) root.appendChild(root.ownerDocument.createElement("p")).append("some text");
      const list = root.getElementsByTagName("p");
      return () => {
        for (let at = 0; at < list.length; at++) {
          list[at].className = "seen";
          list[at].firstChild.data = "other";
        }
      };
    },
  },
  updates: {
    says: "a row of a table of three columns, updated five times by preact",
    share: 0.05,
    needsPage: true,
    ready({ document }, count) {
      globalThis.document = document;
      const { h, render } = createRequire(import.meta.url)("preact");
      const rows = Array.from({ length: count }, (_, key) => ({ key, name: `row ${key}`, count: 0 }));
      const cells = ({ name, count: its }) => [h("td", { class: "name" }, name), h("td", null, `${its}`), h("td", { class: its % 2 ? "odd" : "even" }, "x")];
      const table = (its) => h("table", null, h("tbody", null, its.map((row) => h("tr", { key: row.key, id: `row${row.key}` }, cells(row)))));
      const parent = document.implementation.createHTMLDocument("").body;
      let root = render(table(rows), parent);
      const counted = (its) => its.map((row) => ({ ...row, count: row.count + 1 }));
      const others = (its) => its.filter(({ key }) => key % 3);
      const withThirds = (its) => [...its, ...rows.filter(({ key }) => key % 3 === 0)];
      const changes = [counted, (its) => [...its].reverse(), others, withThirds, counted];
      return () => {
        let now = rows;
        for (const change of changes) {
          now = change(now);
          root = render(table(now), parent, root);
        }
        if (root.firstChild.childNodes.length !== count) throw new Error("a row is missing");
      };
    },
  },
  ...Object.fromEntries(Object.entries(PAGE_SCENES).map(([name, scene]) => [name, { needsPage: true, ...scene }])),
};
