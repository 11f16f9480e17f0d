// A scene of each library: its main job and changes after it. Each scene gets a window whose names are global, and returns what it made. `timed` runs a
// function and measures it by the processor time of this process; `turns` is the number of times.
import { createRequire } from "node:module";

import { ATTACKS } from "./attacks.js";

const require = createRequire(import.meta.url);
const rows = (count) => Array.from({ length: count }, (_, at) => ({ id: at, name: `row ${at}`, isEven: at % 2 === 0 }));
const soon = (wait = 0) => new Promise((ready) => setTimeout(ready, wait));
const ROWS = 1000;

/** A change of some rows: each tenth has another name, the last comes first, and some are gone. */
const changed = (all) => [all.at(-1), ...all.slice(0, -1)].filter((it) => it.id % 7 !== 3).map((it) => (it.id % 10 === 0 ? { ...it, name: `other ${it.id}` } : it));

async function preact({ document, MouseEvent }, timed, turns) {
  const { h, render, Component } = require("preact");
  const said = [];
  const row = ({ id, name, isEven }) =>
    h("li", { key: id, class: isEven ? "even" : "odd", title: name, onClick: () => said.push(id) }, h("b", { style: { color: "red" } }, `${id}`), h("span", null, name), isEven && h("input", { type: "checkbox", checked: true }));
  class List extends Component {
    render({ all }) {
      return h("ul", { id: "list" }, all.map(row));
    }
  }
  const all = rows(ROWS);
  let place, root, first;
  for (let time = 0; time < turns; time++) {
    place?.remove();
    place = document.body.appendChild(document.createElement("div"));
    timed("preact: first render", () => void (root = render(h(List, { all }), place)));
    first = place.innerHTML;
    timed("preact: update", () => void (root = render(h(List, { all: changed(all) }), place, root)));
  }
  document.querySelectorAll("li")[3].dispatchEvent(new MouseEvent("click", { bubbles: true }));
  class Counter extends Component {
    render(props, { count = 0 }) {
      return h("button", { onClick: () => this.setState({ count: count + 1 }) }, `clicked ${count}`);
    }
  }
  render(h(Counter), place);
  const button = place.querySelector("button");
  for (let time = 0; time < 3; time++) {
    button.click();
    await soon();
  }
  return { first, second: document.getElementById("list").outerHTML, said, button: button.outerHTML, boxes: document.querySelectorAll("input:checked").length };
}

async function react({ document }, timed, turns) {
  const { createElement: h, useState, useEffect, Component } = require("react");
  const { createRoot } = require("react-dom/client");
  const { flushSync, createPortal } = require("react-dom");
  const said = [];
  const Row = ({ id, name, isEven }) =>
    h("li", { className: isEven ? "even" : "odd", title: name, "data-id": id, onClick: () => said.push(id) }, h("b", { style: { color: "red", marginTop: 3 } }, id), h("span", null, name), isEven && h("input", { type: "checkbox", defaultChecked: true }));
  const List = ({ all }) => h("ul", { id: "list" }, all.map((it) => h(Row, { key: it.id, ...it })));
  const all = rows(ROWS);
  let place, root, first;
  for (let time = 0; time < turns; time++) {
    if (root) flushSync(() => root.unmount());
    place?.remove();
    place = document.body.appendChild(document.createElement("div"));
    root = createRoot(place);
    timed("react: first render", () => flushSync(() => root.render(h(List, { all }))));
    first = place.innerHTML;
    timed("react: update", () => flushSync(() => root.render(h(List, { all: changed(all) }))));
  }
  const second = place.innerHTML;
  document.querySelectorAll("li")[3].click();
  const other = document.body.appendChild(document.createElement("div"));
  const Fields = () => {
    const [text, setText] = useState("a");
    const [count, setCount] = useState(0);
    useEffect(() => void (document.title = `count ${count}`), [count]);
    const select = h("select", { value: count % 2 ? "odd" : "even", onChange() {} }, h("option", { value: "even" }, "e"), h("option", { value: "odd" }, "o"));
    return h("form", { onFocus: () => said.push("focus") }, h("input", { value: text, onChange: (event) => setText(event.target.value.toUpperCase()) }), h("button", { type: "button", onClick: () => setCount((it) => it + 1) }, `clicked ${count}`), select, createPortal(h("i", null, text), document.body));
  };
  class Guard extends Component {
    static getDerivedStateFromError = ({ message }) => ({ message });
    state = {};
    render = () => (this.state.message ? h("p", null, this.state.message) : this.props.children);
  }
  const Faulty = () => {
    throw new Error("meant");
  };
  const Shown = () => h("figure", null, h("video", { muted: true, playsInline: true }), h("progress", { value: 1, max: 2 }), h("iframe", { sandbox: "allow-forms" }));
  const quiet = console.error;
  console.error = () => {};
  flushSync(() => createRoot(other).render(h("section", null, h(Fields), h(Guard, null, h(Faulty)), h(Shown))));
  console.error = quiet;
  const input = other.querySelector("input");
  Object.getOwnPropertyDescriptor(Object.getPrototypeOf(input), "value").set.call(input, "typed");
  flushSync(() => input.dispatchEvent(new window.Event("input", { bubbles: true })));
  for (let time = 0; time < 3; time++) flushSync(() => other.querySelector("button").click());
  input.focus();
  await soon(30);
  const fields = [input.value, other.querySelector("select").value, document.title, document.querySelector("i").textContent, document.activeElement === input, other.querySelector("video").muted];
  const shown = other.innerHTML;
  flushSync(() => root.unmount());
  return { first, second, said, fields, shown, left: place.innerHTML };
}

function d3({ document, window }, timed, turns) {
  const { select, selectAll, event: none } = require("d3-selection");
  let list;
  const join = (data) =>
    list.selectAll("p").data(data, (it) => it.id).join(
      (enter) => enter.append("p").attr("id", (it) => `p${it.id}`).classed("even", (it) => it.isEven).style("color", "red").text((it) => it.name),
      (update) => update.attr("title", (it) => it.name).classed("kept", true),
      (exit) => exit.remove(),
    );
  const all = rows(5000);
  let first;
  for (let time = 0; time < turns; time++) {
    list?.remove();
    list = select(document.body).append("div").attr("class", "list");
    timed("d3: join of 5,000", () => join(all));
    first = list.html();
    timed("d3: update and exit", () => join(changed(all)).order());
  }
  const second = list.html();
  const said = [];
  select("#p4").on("click", (it) => said.push(it.name)).dispatch("click");
  select("#p4").datum((it) => ({ ...it, name: "new" })).text((it) => it.name).style("width", "3px").property("own", 5);
  const svg = select(document.body).append("svg").attr("viewBox", "0 0 9 9");
  svg.selectAll("circle").data([1, 2, 3]).enter().append("circle").attr("r", (it) => it).attr("href", "#a");
  svg.selectAll("circle").filter((it) => it > 1).raise().lower();
  svg.insert("g", "circle").append(() => document.createElementNS("http://www.w3.org/2000/svg", "text"));
  const clone = select("#p4").clone(true).attr("id", "copy");
  return {
    first,
    second,
    said,
    changed: [select("#p4").node().outerHTML, select("#p4").style("width"), select("#p4").property("own"), clone.node().outerHTML, none],
    svg: svg.node().outerHTML,
    nested: selectAll("svg").selectAll("circle").nodes().map((it) => it.getAttribute("r")),
    isEmpty: select("nosuch").empty(),
    view: select(window).node() === window,
  };
}

async function prosemirror({ document, window }, timed) {
  const { DOMParser, DOMSerializer } = require("prosemirror-model");
  const { schema } = require("prosemirror-schema-basic");
  const { EditorState, TextSelection } = require("prosemirror-state");
  const { EditorView, Decoration, DecorationSet } = require("prosemirror-view");
  const source = document.createElement("div");
  source.innerHTML = "<h2>Head</h2><p>some <em>em <strong>both</strong></em> <a href='http://x/' title=t>link</a><br>next</p><blockquote><p>q</p></blockquote><pre><code>c  d</code></pre><hr><p>end <img src=i.png alt=a></p>";
  const doc = DOMParser.fromSchema(schema).parse(source);
  const out = document.createElement("div");
  out.appendChild(DOMSerializer.fromSchema(schema).serializeFragment(doc.content));
  const done = [];
  let state = EditorState.create({ doc });
  const marked = (it) => DecorationSet.create(it.doc, [Decoration.inline(1, 3, { class: "mark" })]);
  const place = document.body.appendChild(document.createElement("div"));
  let view;
  timed("prosemirror: an editor", () => {
    view = new EditorView(place, {
      state,
      decorations: marked,
      dispatchTransaction(transaction) {
        for (const [at, step] of transaction.steps.entries()) done.push(step.invert(transaction.docs[at]));
        state = view.state.apply(transaction);
        view.updateState(state);
      },
    });
  });
  const first = view.dom.innerHTML;
  const textIn = (name) => {
    const walker = document.createTreeWalker(view.dom.querySelector(name), 4);
    let last = null;
    for (let it = walker.nextNode(); it; it = walker.nextNode()) last = it;
    return last;
  };
  const type = async (name, text) => {
    const node = textIn(name);
    node.appendData(text);
    window.getSelection().collapse(node, node.length);
    await soon(60);
  };
  await type("blockquote p", " typed");
  await type("h2", " more");
  const typed = [view.state.doc.toString(), view.dom.innerHTML];
  view.dispatch(view.state.tr.setSelection(TextSelection.create(view.state.doc, 2, 4)).deleteSelection());
  view.dispatch(view.state.tr.addMark(7, 11, schema.marks.strong.create()));
  const after = [view.state.doc.toString(), view.dom.innerHTML];
  for (const step of done.splice(0).reverse()) view.dispatch(view.state.tr.step(step));
  const undone = view.state.doc.eq(doc);
  view.focus();
  view.dom.dispatchEvent(new window.KeyboardEvent("keydown", { key: "Enter", keyCode: 13, bubbles: true, cancelable: true }));
  const html = view.dom.innerHTML;
  view.destroy();
  return { model: doc.toString(), out: out.innerHTML, first, typed, after, undone, html, left: place.innerHTML };
}

function dompurify({ window }, timed, turns) {
  // (Debian's 2.4.1 reads a name that it has nowhere, and does nothing without it)
  globalThis.shadowNode = {};
  const purify = require("dompurify")(window);
  const settings = [
    {},
    { USE_PROFILES: { svg: true, mathMl: true, html: true } },
    { SAFE_FOR_TEMPLATES: true },
    { WHOLE_DOCUMENT: true, FORCE_BODY: true },
    { IN_PLACE: false, SANITIZE_NAMED_PROPS: true },
  ];
  let answers;
  for (let time = 0; time < turns; time++) timed("dompurify: attacks", () => void (answers = settings.map((its) => ATTACKS.map((it) => purify.sanitize(it, its)))));
  const fragment = purify.sanitize(ATTACKS.join(""), { RETURN_DOM_FRAGMENT: true });
  const body = purify.sanitize(ATTACKS[0], { RETURN_DOM: true });
  const place = window.document.createElement("div");
  place.innerHTML = ATTACKS[3];
  purify.sanitize(place, { IN_PLACE: true });
  const { isSupported, removed } = purify;
  return { isSupported, answers, fragment: fragment.childNodes.length, body: body.outerHTML, place: place.outerHTML, removed: removed.length };
}

function turndown({ document }) {
  const Service = require("turndown");
  const place = document.createElement("div");
  place.innerHTML = "<h1>t</h1><p>a <b>b</b> <i>c</i> <a href='/x'>l</a></p><ul><li>1</li><li>2</li></ul><pre><code>x</code></pre>";
  return new Service().turndown(place);
}

function yjs({ document }) {
  const { Doc, XmlElement, XmlText } = require("yjs");
  const doc = new Doc();
  const fragment = doc.getXmlFragment("x");
  const element = new XmlElement("p");
  element.setAttribute("class", "y");
  fragment.insert(0, [element]);
  element.insert(0, [new XmlText("text")]);
  const made = fragment.toDOM(document);
  const place = document.createElement("div");
  place.appendChild(made);
  return place.innerHTML;
}

/** Each scene with the packages that it needs. */
export const SCENES = {
  preact: [preact, ["preact"]],
  react: [react, ["react", "react-dom"]],
  d3: [d3, ["d3-selection"]],
  prosemirror: [prosemirror, ["prosemirror-model", "prosemirror-schema-basic", "prosemirror-state", "prosemirror-view"]],
  dompurify: [dompurify, ["dompurify"]],
  turndown: [turndown, ["turndown"]],
  yjs: [yjs, ["yjs"]],
};
