// Answers of browsers, written down: each case gets a window with an empty page, and returns what JSON has. It is run over the page, in Chromium and Firefox.
import { SELECTOR_ANSWERS } from "./selector_answers.js";

const caught = (does) => {
  try {
    return does();
  } catch (fault) {
    return fault.name;
  }
};

const nodes = {
  "an Attr is no child, and is no node of a tree": [
    ({ document }, attempt) => {
      const element = document.createElement("div");
      element.id = "x";
      const attr = element.getAttributeNode("id");
      const { body } = document;
      const inserted = [() => body.appendChild(attr), () => body.append(attr), () => body.replaceChildren(attr), () => document.createRange().insertNode(attr)];
      const sought = [() => document.body.removeChild(attr), () => document.body.insertBefore(document.createElement("p"), attr)];
      return [...inserted, ...sought].map(attempt);
    },
    ["HierarchyRequestError", "HierarchyRequestError", "HierarchyRequestError", "HierarchyRequestError", "NotFoundError", "NotFoundError"],
  ],
  "a node says where an Attr is, and an Attr where a node is": [
    ({ document }) => {
      const element = document.createElement("div");
      element.id = "x";
      const above = document.createElement("p");
      above.append(element);
      const attr = element.getAttributeNode("id");
      const both = [element, above];
      const positions = [both.map((it) => it.compareDocumentPosition(attr)), both.map((it) => attr.compareDocumentPosition(it))];
      return [...positions, element.contains(attr), element.isSameNode(attr), element.isEqualNode(attr)];
    },
    [[20, 20], [10, 10], false, false, false],
  ],
  "Attr nodes say where they are among each other": [
    ({ document }) => {
      const element = document.createElement("div");
      const inner = element.appendChild(document.createElement("p"));
      for (const name of ["a", "b"]) element.setAttribute(name, "");
      inner.setAttribute("a", "");
      const [a, b] = [...element.attributes];
      const [c] = inner.attributes;
      const free = document.createAttribute("a");
      const positions = [[a, a], [a, b], [b, a], [a, c], [c, a], [a, inner], [inner, a]].map(([one, other]) => one.compareDocumentPosition(other));
      return [...positions, a.compareDocumentPosition(free) & 33, a.isEqualNode(c), a.isEqualNode(b), a.contains(null), a.isSameNode(a)];
    },
    [0, 36, 34, 4, 2, 4, 2, 33, true, false, false, true],
  ],
  "an Attr has no children, and is no end of a static range": [
    ({ document, StaticRange }, attempt) => {
      const element = document.createElement("div");
      element.id = "x";
      const attr = element.getAttributeNode("id");
      const refused = [() => attr.appendChild(element), () => attr.insertBefore(element, null), () => attr.removeChild(element), () => attr.appendChild({})];
      refused.push(() => new StaticRange({ startContainer: attr, startOffset: 0, endContainer: attr, endOffset: 0 }), () => attr.compareDocumentPosition({}));
      return [...refused.map(attempt), attr.hasChildNodes(), attr.getRootNode() === attr];
    },
    ["HierarchyRequestError", "HierarchyRequestError", "NotFoundError", "TypeError", "InvalidNodeTypeError", "TypeError", false, true],
  ],
  "an Attr is an end of a range, and is observed": [
    ({ document, MutationObserver }, attempt) => {
      const element = document.body.appendChild(document.createElement("p"));
      element.setAttribute("title", "x");
      const attr = element.getAttributeNode("title");
      const range = document.createRange();
      const refused = ["selectNode", "setStartBefore", "setStartAfter", "setEndBefore", "setEndAfter"].map((name) => attempt(() => range[name](attr)));
      refused.push(attempt(() => range.setStart(attr, 1)));
      range.setStart(attr, 0);
      const ends = () => [range.startContainer, range.endContainer, range.commonAncestorContainer].map((it) => it === attr);
      const said = [ends(), range.startOffset, range.endOffset, range.collapsed, `${range}`, range.intersectsNode(attr), range.intersectsNode(element)];
      said.push(range.isPointInRange(attr, 0), range.isPointInRange(element, 0), attempt(() => range.comparePoint(element, 0)), range.comparePoint(attr, 0));
      said.push(range.cloneContents().childNodes.length, attempt(() => range.insertNode(document.createElement("b"))), range.cloneRange().startContainer === attr);
      range.setEnd(element, 0);
      said.push(ends());
      range.selectNodeContents(attr);
      said.push(ends(), range.endOffset);
      const observer = new MutationObserver(() => {});
      said.push(attempt(() => observer.observe(attr, {})), attempt(() => observer.observe(attr, { attributes: true, subtree: true })));
      attr.value = "y";
      return [refused, said, observer.takeRecords().length];
    },
    [
      ["InvalidNodeTypeError", "InvalidNodeTypeError", "InvalidNodeTypeError", "InvalidNodeTypeError", "InvalidNodeTypeError", "IndexSizeError"],
      [[true, true, true], 0, 0, true, "", true, false, true, false, "WrongDocumentError", 0, 0, "HierarchyRequestError", true, [false, false, false], [true, true, true], 0, "TypeError", null],
      0,
    ],
  ],
  "an Attr is the root of an iterator, and is gone through alone": [
    ({ document, NodeFilter }) => {
      const element = document.body.appendChild(document.createElement("p"));
      element.title = "x";
      const attr = element.getAttributeNode("title");
      const seen = [];
      const filter = (node) => {
        seen.push(node === attr);
        return NodeFilter.FILTER_SKIP;
      };
      const over = (...given) => document.createNodeIterator(attr, ...given);
      const { SHOW_ALL, SHOW_ATTRIBUTE, SHOW_COMMENT, SHOW_ELEMENT } = NodeFilter;
      const said = [over(), over(SHOW_ATTRIBUTE), over(SHOW_ELEMENT | SHOW_COMMENT), over(SHOW_ALL, filter)].map((it) => {
        const ahead = () => [it.referenceNode === attr, it.pointerBeforeReferenceNode];
        const steps = ["nextNode", "nextNode", "previousNode", "previousNode"].map((step) => {
          const found = it[step]();
          document.body.append(step);
          return [found === attr, found, ...ahead()].filter((its) => its !== attr);
        });
        return [it.root === attr, ...steps];
      });
      return [said, seen];
    },
    [
      [
        [true, [true, true, false], [false, null, true, false], [true, true, true], [false, null, true, true]],
        [true, [true, true, false], [false, null, true, false], [true, true, true], [false, null, true, true]],
        [true, [false, null, true, true], [false, null, true, true], [false, null, true, true], [false, null, true, true]],
        [true, [false, null, true, true], [false, null, true, true], [false, null, true, true], [false, null, true, true]],
      ],
      [true, true],
    ],
  ],
  "a walker has an Attr as its root, or comes to it by its current node": [
    ({ document }) => {
      const element = document.body.appendChild(document.createElement("p"));
      element.title = "x";
      const attr = element.getAttributeNode("title");
      const walkers = [document.createTreeWalker(attr), document.createTreeWalker(document.body)];
      walkers[1].currentNode = attr;
      const moves = ["parentNode", "firstChild", "lastChild", "previousSibling", "nextSibling", "previousNode", "nextNode"];
      const said = walkers.map((it) => [moves.map((move) => it[move]()), it.root === attr, it.currentNode === attr]);
      walkers[0].currentNode = document.body;
      return [said, walkers[0].nextNode() === element];
    },
    [
      [
        [[null, null, null, null, null, null, null], true, true],
        [[null, null, null, null, null, null, null], false, true],
      ],
      true,
    ],
  ],
  "a map of attributes takes no other object in its place": [
    ({ document, NamedNodeMap, DOMTokenList }, attempt) => {
      const element = document.createElement("p");
      element.className = "a b";
      const { item } = NamedNodeMap.prototype;
      const named = (map) => attempt(() => item.call(map, 0).name);
      const { proxy, revoke } = Proxy.revocable({}, {});
      revoke();
      const others = [new Proxy(element.attributes, {}), Object.create(element.attributes), element.classList, {}, proxy].map(named);
      return [named(element.attributes), ...others, attempt(() => DOMTokenList.prototype.item.call(element.classList, 1)), element.attributes.item(0).name];
    },
    ["class", "TypeError", "TypeError", "TypeError", "TypeError", "TypeError", "b", "class"],
  ],
  "names of controls are names of their form": [
    ({ document }) => {
      document.body.innerHTML = "<form><input name=a><input id=b><button name=c></button><input name=title></form><input name=d>";
      const [form] = document.forms;
      const names = ["a", "b", "c", "d", "title", "action", "0", "9"].map((name) => name in form);
      form.firstChild.name = "e";
      return [names, "e" in form, Object.hasOwn(form, "e"), Object.keys(form), Object.getPrototypeOf(form) === form.constructor.prototype, form.e === form.firstChild];
    },
    [[true, true, true, false, true, true, true, false], true, true, ["0", "1", "2", "3"], true, true],
  ],
  "an Attr is imported as a copy, and adopted itself": [
    ({ document }) => {
      const element = document.createElement("div");
      element.id = "x";
      const attr = element.getAttributeNode("id");
      const copy = document.importNode(attr, true);
      const said = [copy === attr, copy.name, copy.value, copy.ownerElement, element.id];
      const other = document.implementation.createHTMLDocument("");
      return [...said, other.adoptNode(attr) === attr, attr.ownerDocument === other, attr.ownerElement, element.hasAttribute("id")];
    },
    [false, "id", "x", null, "x", true, true, null, false],
  ],
  "a kept list of tags stays one of HTML in a Document of XML": [
    ({ document }) => {
      const list = document.createElement("ul");
      list.append(document.createElement("li"));
      const kept = list.getElementsByTagName("LI");
      document.implementation.createDocument(null, "").adoptNode(list);
      return [kept.length, list.getElementsByTagName("LI").length, list.getElementsByTagName("li").length];
    },
    [1, 0, 1],
  ],
  "the contents of templates are of a Document without a window": [
    ({ document }) => {
      const template = document.createElement("template");
      template.innerHTML = "<p>x</p><template><b>y</b></template>";
      const owner = template.content.ownerDocument;
      const copy = template.cloneNode(true);
      const inner = template.content.querySelector("template");
      const owners = [template.content.firstChild.ownerDocument, copy.content.ownerDocument].map((it) => it === owner);
      const said = [owner === document, owner.defaultView, owner.URL, ...owners];
      return [...said, inner.content.ownerDocument === owner, document.importNode(template.content, true).ownerDocument === document];
    },
    [false, null, "about:blank", true, true, true, true],
  ],
  "nodes are not cloned with a value": [
    (window, attempt) => {
      const { document, history } = window;
      const values = [document.body, { a: [document] }, new Map([["x", document.createTextNode("")]]), document.createRange()];
      const refused = values.map((it) => attempt(() => window.structuredClone(it)));
      return [...refused, attempt(() => history.pushState(document.body, "")), window.structuredClone({ a: [1, { b: 2 }] })];
    },
    ["DataCloneError", "DataCloneError", "DataCloneError", "DataCloneError", "DataCloneError", { a: [1, { b: 2 }] }],
  ],
};

const xml = {
  "entities that a document declares": [
    ({ DOMParser }) => {
      const subset = '<!ENTITY e "ent"><!ENTITY f "<b>x</b>"><!ENTITY g "&#38;lt;&e;"><!ENTITY e "other">';
      const document = new DOMParser().parseFromString(`<!DOCTYPE a [${subset}]><a q="&e;">&e;|&g;|&f;<![CDATA[&e;]]><!--&e;--></a>`, "text/xml");
      return [document.documentElement.getAttribute("q"), document.documentElement.textContent, document.querySelector("b").textContent, document.doctype.name];
    },
    ["ent", "ent|<ent|x&e;", "x", "a"],
  ],
  "entities that refer to themselves, or were not declared": [
    ({ DOMParser }) => {
      const isFault = (text) => new DOMParser().parseFromString(text, "text/xml").getElementsByTagName("parsererror").length > 0;
      return [isFault('<!DOCTYPE a [<!ENTITY e "&f;"><!ENTITY f "&e;">]><a>&e;</a>'), isFault("<a>&e;</a>")];
    },
    [true, true],
  ],
};

const forms = {
  "controls are properties of their form": [
    ({ document }) => {
      const form = document.createElement("form");
      form.innerHTML = "<input name=a><input name=b><input name=b><input id=c>";
      const { HTMLElement } = document.defaultView;
      return [form.a === form[0], form.b.length, form.c === form[3], form.nosuch === undefined, form[9] === undefined, form instanceof HTMLElement];
    },
    [true, 2, true, true, true, true],
  ],
  "outputs, fieldsets and objects are never checked": [
    ({ document }) =>
      ["output", "fieldset", "object"].map((name) => {
        const element = document.createElement(name);
        element.setCustomValidity("no");
        return [element.willValidate, element.checkValidity(), element.validity.customError, element.validity.valid, element.validationMessage];
      }),
    [0, 1, 2].map(() => [false, true, true, false, ""]),
  ],
  "inputs have Dates": [
    ({ document }) => {
      const input = document.createElement("input");
      const said = (type, value) => {
        input.type = type;
        input.value = value;
        return input.valueAsDate?.toISOString() ?? null;
      };
      const given = { date: "2024-02-29", month: "2020-05", week: "2020-W53", time: "12:30", text: "2020-01-01" };
      const read = Object.entries(given).map(([type, value]) => said(type, value));
      const written = (type, date) => {
        input.type = type;
        input.valueAsDate = date;
        return input.value;
      };
      return [...read, ...["date", "month", "week", "time"].map((type) => written(type, new Date(Date.UTC(2021, 0, 3, 1, 2, 3)))), written("date", null)];
    },
    ["2024-02-29T00:00:00.000Z", "2020-05-01T00:00:00.000Z", "2020-12-28T00:00:00.000Z", "1970-01-01T12:30:00.000Z", null, "2021-01-03", "2021-01", "2020-W53", "01:02:03", ""],
  ],
  "meters and bars of progress": [
    ({ document }) => {
      const [meter, progress] = [document.createElement("meter"), document.createElement("progress")];
      Object.assign(meter, { max: 10, value: 20, low: -5 });
      progress.max = -1;
      const said = [meter.value, meter.low, meter.high, meter.optimum, progress.max, progress.position, progress.value];
      progress.value = 0.5;
      return [...said, progress.position, progress.value];
    },
    [10, 0, 10, 5, 1, -1, 0, 0.5, 0.5],
  ],
};

const elements = {
  "a video that has loaded nothing": [
    ({ document }, attempt) => {
      const video = document.createElement("video");
      const names = ["muted", "volume", "paused", "readyState", "networkState", "currentTime", "playbackRate", "error", "currentSrc", "ended", "seeking", "preservesPitch", "srcObject", "defaultMuted", "videoWidth"];
      const said = names.map((name) => video[name]);
      Object.assign(video, { muted: true, volume: 0.5, currentTime: 3, playbackRate: 2 });
      return [...said, Number.isNaN(video.duration), video.canPlayType("x/y"), video.muted, video.hasAttribute("muted"), video.volume, video.currentTime, attempt(() => (video.volume = 2))];
    },
    [false, 1, true, 0, 0, 0, 1, null, "", false, false, true, null, false, 0, true, "", true, false, 0.5, 3, "IndexSizeError"],
  ],
  "attributes that properties reflect, as they are when absent": [
    ({ document }) => {
      const its = (name, ...members) => members.map((member) => document.createElement(name)[member]);
      return [its("track", "kind", "readyState"), its("marquee", "loop", "scrollAmount", "scrollDelay"), its("link", "sheet", "fetchPriority"), its("style", "sheet", "disabled"), its("iframe", "contentWindow", "contentDocument"), its("img", "x", "y"), its("div", "autocapitalize"), its("input", "files")];
    },
    [["subtitles", 0], [-1, 6, 85], [null, "auto"], [null, false], [null, null], [0, 0], [""], [null]],
  ],
  "texts as they are shown, of elements that are not rendered": [
    ({ document }) => {
      const [one, other] = [document.createElement("div"), document.createElement("p")];
      one.innerText = "a\n\nb";
      other.append("x", document.createElement("b"), "y");
      other.children[0].outerText = "1\n2";
      return [one.innerHTML, one.innerText, other.innerHTML, other.childNodes.length];
    },
    ["a<br><br>b", "ab", "x1<br>2y", 3],
  ],
  "events of old names": [
    ({ document }, attempt) =>
      ["BeforeUnloadEvent", "DeviceMotionEvent", "DeviceOrientationEvent", "Events", "HTMLEvents", "MouseEvents", "StorageEvent", "SVGEvents", "TextEvent", "UIEvents", "KeyEvents"].map((name) =>
        attempt(() => Object.getPrototypeOf(document.createEvent(name)).constructor.name),
      ),
    ["BeforeUnloadEvent", "DeviceMotionEvent", "DeviceOrientationEvent", "Event", "Event", "MouseEvent", "StorageEvent", "Event", "TextEvent", "UIEvent", "NotSupportedError"],
  ],
};

export const ANSWERS = { ...nodes, ...xml, ...forms, ...elements, ...SELECTOR_ANSWERS };
export { caught };
