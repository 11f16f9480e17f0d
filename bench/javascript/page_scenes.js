// Scenes of the most frequent work of programs for pages: attributes, texts, selectors, lists. Each is prepared with a window and a count, and returns the
// function to measure.

/** A table in a page: rows of cells with classes, ids and data. */
function tableOf({ document }, count) {
  const made = document.implementation.createHTMLDocument("");
  const table = made.body.appendChild(made.createElement("table")).appendChild(made.createElement("tbody"));
  const cells = [];
  for (let at = 0; at < count; at += 10) {
    const row = table.appendChild(made.createElement("tr"));
    for (let column = 0; column < 10; column++) {
      const cell = row.appendChild(made.createElement("td"));
      cell.className = `k${column} cell`;
      cell.setAttribute("data-row-number", `${at}`);
      cell.setAttribute("title", "a cell");
      cell.appendChild(made.createTextNode("some text"));
      cells.push(cell);
    }
  }
  return { document: made, table, cells };
}

const tables = new WeakMap();

/** The table of a window, made once: each run of a scene that leaves it as it is has the same one. */
function tableOnce(window, count) {
  if (!tables.has(window)) tables.set(window, tableOf(window, count));
  return tables.get(window);
}

const ROUNDS = 20;

/** Makes a scene that queries a selector ROUNDS times, over a table that stays, or with an edit before each query. */
const asked = (selector, edit = null) => (window, count) => {
  const { document, cells } = edit ? tableOf(window, count) : tableOnce(window, count);
  return () => {
    for (let round = 0; round < ROUNDS; round++) {
      edit?.(document, cells, round);
      if (document.querySelectorAll(selector).length === 0) throw new Error("nothing was found");
    }
  };
};

/** Makes a scene that calls a function with each cell of a table. */
const each = (does) => (window, count) => {
  const { document, cells } = tableOf(window, count);
  return () => {
    for (let at = 0; at < cells.length; at++) does(cells[at], at, document);
  };
};

const moved = (document, cells, round) => cells[round].parentNode.appendChild(cells[round]);

function walkOnce(root) {
  let seen = 0;
  for (let node = root; node; ) {
    seen++;
    let next = node.firstChild;
    for (; !next && node && node !== root; node = next ? node : node.parentNode) next = node.nextSibling;
    node = next;
  }
  return seen;
}

const FEW = 0.1;

export const PAGE_SCENES = {
  selectors: {
    says: `a node of a page of 1,000 asked by querySelectorAll("tr > td.k0:first-child + td"), 20 times`,
    share: FEW,
    ready: asked("tr > td.k0:first-child + td"),
  },
  "selectors between edits": {
    says: "the same, with a cell moved ahead of each time",
    share: FEW,
    ready: asked("tr > td.k0:first-child + td", moved),
  },
  "a class": {
    says: `querySelectorAll(".k1") in a page of 1,000 cells, 20 times`,
    share: FEW,
    ready: asked(".k1"),
  },
  "a class between edits": {
    says: "the same, with a cell moved ahead of each time",
    share: FEW,
    ready: asked(".k1", moved),
  },
  matching: {
    says: `matches("tr > .k1, [title]:not(.k2)") and closest("tr") of a cell`,
    ready: each((cell) => cell.matches("tr > .k1, [title]:not(.k2)") && cell.closest("tr").nodeType),
  },
  "attribute objects": {
    says: "for (attribute of element.attributes), three of them, name and value read",
    share: 0.5,
    ready: each((cell) => {
      let length = 0;
      for (const { name, value } of cell.attributes) length += name.length + value.length;
      if (length < 20) throw new Error("an attribute is missing");
    }),
  },
  texts: {
    says: "nodeValue of a Text read, ten times",
    ready(window, count) {
      const texts = tableOf(window, count / 10).cells.map((it) => it.firstChild);
      return () => {
        for (let at = 0; at < 10 * count; at++) if (texts[at % texts.length].nodeValue.length !== 9) throw new Error("a text is missing");
      };
    },
  },
  "updated texts": {
    says: "nodeValue of an element's only Text set, found by firstChild, as React does",
    ready: each((cell, at) => {
      const first = cell.firstChild;
      if (first && first === cell.lastChild && first.nodeType === 3) first.nodeValue = `text ${at}`;
      else throw new Error("a text is missing");
    }),
  },
  "texts in place of children": {
    says: "textContent of an element set",
    ready: each((cell, at) => void (cell.textContent = `text ${at}`)),
  },
  "dataset read": {
    says: "dataset.rowNumber read, five times",
    ready: each((cell) => {
      for (let time = 0; time < 5; time++) if (cell.dataset.rowNumber === undefined) throw new Error("a value is missing");
    }),
  },
  "dataset written": {
    says: "dataset.rowNumber set",
    ready: each((cell, at) => void (cell.dataset.rowNumber = `${at}`)),
  },
  "words toggled": {
    says: "classList.toggle, twice",
    ready: each((cell) => {
      cell.classList.toggle("on");
      cell.classList.toggle("on");
    }),
  },
  "words asked": {
    says: "classList.contains, five times",
    ready: each((cell) => {
      for (let time = 0; time < 5; time++) if (!cell.classList.contains("cell")) throw new Error("a class is missing");
    }),
  },
  "styles written": {
    says: "style.color and style.width set",
    share: 0.5,
    ready: each((cell, at) => {
      cell.style.color = at % 2 ? "red" : "blue";
      cell.style.width = `${at % 50}px`;
    }),
  },
  "styles read": {
    says: "style.color read, five times",
    share: 0.5,
    ready(window, count) {
      const { cells } = tableOf(window, count);
      for (const it of cells) it.style.color = "red";
      return () => {
        for (let at = 0; at < 5 * count; at++) if (cells[at % count].style.color !== "red") throw new Error("a style is missing");
      };
    },
  },
  "attributes set": {
    says: "setAttribute of an attribute that is there, and of a new one",
    ready: each((cell, at) => {
      cell.setAttribute("title", `cell ${at}`);
      cell.setAttribute("lang", "en");
    }),
  },
  "a tag list's length": {
    says: "length of getElementsByTagName after each append",
    share: 0.05,
    ready({ document }, count) {
      const made = document.implementation.createHTMLDocument("");
      const list = made.getElementsByTagName("p");
      return () => {
        for (let at = 0; at < count; at++) {
          made.body.appendChild(made.createElement("p"));
          if (list.length !== at + 1) throw new Error("an element is missing");
        }
      };
    },
  },
  "a class list": {
    says: "length and the last of getElementsByClassName after each class that is set, in a page of 1,000 cells",
    share: 0.05,
    ready(window, count) {
      const { document, cells } = tableOf(window, count);
      const list = document.getElementsByClassName("on");
      return () => {
        for (let at = 0; at < count; at++) {
          cells[at].className = "on";
          if (list[list.length - 1] !== cells[at]) throw new Error("an element is missing");
        }
      };
    },
  },
  "a list gone through": {
    says: "an element of getElementsByTagName read by its index, ten times",
    share: 0.03,
    ready(window, count) {
      const list = tableOf(window, count).document.getElementsByTagName("td");
      return () => {
        for (let time = 0; time < 10; time++) for (let at = 0; at < list.length; at++) if (!list[at]) throw new Error("an element is missing");
      };
    },
  },
  "first ids": {
    says: "getElementById of each of 1,000, the first time, in 20 Documents",
    ready({ document }, count) {
      const made = Array.from({ length: 20 }, () => document.implementation.createHTMLDocument(""));
      for (let at = 0; at < count; at++) {
        const { body } = made[at % 20];
        body.appendChild(body.ownerDocument.createElement("p")).id = `id${at}`;
      }
      return () => {
        for (let at = 0; at < count; at++) if (!made[at % 20].getElementById(`id${at}`)) throw new Error("an id is missing");
      };
    },
  },
  "first walk": {
    says: "a node of five fresh copies visited once by firstChild, nextSibling and parentNode",
    share: 0.5,
    ready(window, count) {
      const { table } = tableOnce(window, count / 10);
      const copies = Array.from({ length: 5 }, () => table.cloneNode(true));
      return () => {
        for (const copy of copies) if (walkOnce(copy) < count / 5) throw new Error("a node is missing");
      };
    },
  },
};
