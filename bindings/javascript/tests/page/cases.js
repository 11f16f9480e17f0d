// What a page answers, as cases that run over the page, over jsdom and in Chromium alike: each gets a window with an empty page, and answers what JSON has.
// `jsdom` says where jsdom answers otherwise than a browser.
import { TESTERS } from "./testers.js";

const attributes = {
  "attributes are a live list, in the order in which they came"({ document }) {
    const element = document.createElement("p");
    const list = element.attributes;
    element.setAttribute("b", "1");
    element.setAttribute("a", "2");
    element.setAttribute("b", "3");
    return [list.length, [...list].map((it) => `${it.name}=${it.value}`), list[1].name, list.item(2), list[2] === undefined, list.a.value, "a" in list, Object.getOwnPropertyNames(list)];
  },
  "an Attr is the same object, and keeps its value when it has left"({ document }) {
    const element = document.createElement("p");
    element.setAttribute("a", "1");
    const attr = element.getAttributeNode("a");
    const said = [attr === element.attributes[0], attr.ownerElement === element, attr.value];
    element.setAttribute("a", "2");
    said.push(attr.value);
    element.removeAttribute("a");
    said.push(attr.ownerElement, attr.value, element.attributes.length);
    element.setAttribute("a", "4");
    return [...said, attr.value, element.getAttributeNode("a") === attr];
  },
  "an Attr sets its attribute, and observers are notified"({ document, MutationObserver }) {
    const element = document.createElement("p");
    element.setAttribute("a", "1");
    const observer = new MutationObserver(() => {});
    observer.observe(element, { attributes: true, attributeOldValue: true });
    element.attributes.a.value = "2";
    element.getAttributeNode("a").nodeValue = "3";
    element.getAttributeNode("a").textContent = "4";
    return [element.getAttribute("a"), observer.takeRecords().map((it) => [it.attributeName, it.oldValue])];
  },
  "Attr nodes go from element to element"({ document }) {
    const [one, other] = [document.createElement("a"), document.createElement("b")];
    one.setAttribute("x", "1");
    other.setAttribute("x", "2");
    const attr = one.getAttributeNode("x");
    const faults = [];
    try {
      other.setAttributeNode(attr);
    } catch (fault) {
      faults.push(fault.name);
    }
    const there = other.getAttributeNode("x");
    one.removeAttributeNode(attr);
    const old = other.setAttributeNode(attr);
    try {
      one.removeAttributeNode(attr);
    } catch (fault) {
      faults.push(fault.name);
    }
    return [faults, old === there, old.value, old.ownerElement, attr.ownerElement === other, other.getAttribute("x"), one.attributes.length];
  },
  "an Attr is a node of its own"({ document, Node, Attr }) {
    const attr = document.createAttribute("Data-X");
    attr.value = "v";
    const copy = attr.cloneNode(true);
    return [
      [attr.nodeType, attr.nodeName, attr.localName, attr.prefix, attr.namespaceURI, attr.specified, attr.parentNode, attr.firstChild, attr.ownerElement],
      [attr instanceof Attr, attr instanceof Node, attr.ownerDocument === document],
      [attr.isEqualNode(copy), attr.isSameNode(copy), copy.value, attr.childNodes.length],
    ];
  },
  "attributes with namespaces"({ document }) {
    const element = document.createElementNS("http://www.w3.org/2000/svg", "use");
    element.setAttributeNS("http://www.w3.org/1999/xlink", "xlink:href", "#a");
    element.setAttribute("viewBox", "0");
    const attr = element.getAttributeNodeNS("http://www.w3.org/1999/xlink", "href");
    const made = document.createAttributeNS("urn:x", "p:q");
    made.value = "1";
    element.setAttributeNodeNS(made);
    return [
      [attr.name, attr.localName, attr.prefix, attr.namespaceURI, attr.value],
      [...element.attributes].map((it) => it.name),
      [element.attributes.getNamedItem("viewBox")?.value, element.attributes.getNamedItemNS("urn:x", "q").value, element.getAttributeNS("urn:x", "q")],
      element.attributes.removeNamedItemNS("urn:x", "q") === made,
    ];
  },
  "names that nobody has are refused"({ document }) {
    const element = document.createElement("p");
    const faults = [];
    for (const does of [() => element.attributes.removeNamedItem("no"), () => element.attributes.setNamedItem({}), () => document.createAttribute("")]) {
      try {
        does();
      } catch (fault) {
        faults.push(fault.name);
      }
    }
    return [faults, element.attributes.getNamedItem("no"), element.getAttributeNode("no")];
  },
  "an attribute's name in capitals"({ document }) {
    const element = document.createElement("p");
    element.setAttribute("ABC", "1");
    return [element.getAttributeNode("aBc").name, element.attributes.abc.value, element.attributes.ABC === undefined, element.attributes.getNamedItem("ABC").value];
  },
};

const markup = {
  "innerHTML is read and written"({ document }) {
    const { body } = document;
    body.innerHTML = "<p class=x>a<b>b</p>c<!--d--><br><script>if (a < b) {}</scr" + "ipt>";
    return [body.innerHTML, body.childNodes.length, body.firstChild.outerHTML, body.querySelector("script").textContent];
  },
  "innerHTML is read in the context of its element"({ document }) {
    const table = document.createElement("table");
    table.innerHTML = "<tr><td>a<td>b";
    const row = document.createElement("tr");
    row.innerHTML = "<td>x</td><p>y";
    const area = document.createElement("textarea");
    area.innerHTML = "<b>&amp;";
    const select = document.createElement("select");
    select.innerHTML = "<option>1<div>2";
    return [table.innerHTML, row.innerHTML, area.innerHTML, area.value, select.options.length];
  },
  "innerHTML of null is nothing, and text is escaped"({ document }) {
    const element = document.createElement("p");
    element.innerHTML = null;
    const before = element.childNodes.length;
    element.append("<&>\u00a0\"");
    element.setAttribute("t", "<&>\u00a0\"");
    return [before, element.innerHTML, element.outerHTML];
  },
  "outerHTML takes the place of the element"({ document }) {
    document.body.innerHTML = "<p>1</p><p>2</p>";
    const [first, second] = document.body.children;
    first.outerHTML = "<i>3</i>x";
    const said = [document.body.innerHTML, first.parentNode, second.isConnected];
    try {
      document.documentElement.outerHTML = "";
    } catch (fault) {
      said.push(fault.name);
    }
    return said;
  },
  "insertAdjacentHTML puts markup at four places"({ document }) {
    document.body.innerHTML = "<p>x</p>";
    const element = document.body.firstChild;
    for (const place of ["beforebegin", "afterBegin", "beforeend", "AFTEREND"]) element.insertAdjacentHTML(place, `<i>${place}</i>`);
    const said = [document.body.innerHTML];
    for (const [does, on] of [["there", element], ["beforebegin", document.createElement("p")], ["afterend", document.documentElement]]) {
      try {
        on.insertAdjacentHTML(does, "<p>");
      } catch (fault) {
        said.push(fault.name);
      }
    }
    return said;
  },
  "a template's contents are beside its children"({ document }) {
    const template = document.createElement("template");
    template.innerHTML = "<td>a</td><p>b";
    template.append("own");
    const copy = template.cloneNode(true);
    return [
      [template.childNodes.length, template.content.childNodes.length, template.content === template.content, template.content.nodeType],
      [template.innerHTML, copy.innerHTML, copy.content !== template.content, copy.childNodes.length, template.outerHTML],
      template.content.firstChild.localName,
    ];
  },
  "a parsed template has its contents"({ document }) {
    document.body.innerHTML = "<div><template><b>x</b><template><i>y</i></template></template></div>";
    const template = document.querySelector("template");
    const copy = document.importNode(template, true);
    return [template.content.firstChild.textContent, document.querySelectorAll("b").length, copy.content.querySelector("template").content.textContent, document.body.innerHTML];
  },
  "DOMParser makes Documents of HTML"({ DOMParser }) {
    const made = new DOMParser().parseFromString("<!DOCTYPE html><title>t</title><p>x", "text/html");
    return [made.title, made.body.innerHTML, made.contentType, made.compatMode, made.defaultView, made.querySelector("p").ownerDocument === made];
  },
  "DOMParser makes Documents of XML"({ DOMParser }) {
    const made = new DOMParser().parseFromString('<a xmlns="urn:a" xmlns:b="urn:b"><b:c d="1"/><!--e--></a>', "application/xml");
    const root = made.documentElement;
    return [made.contentType, root.namespaceURI, root.firstChild.prefix, root.firstChild.getAttribute("d"), root.childNodes.length, root.outerHTML];
  },
  "DOMParser tells of XML that is none"({ DOMParser }) {
    const made = new DOMParser().parseFromString("<a><b></a>", "text/xml");
    return [made.getElementsByTagName("parsererror").length, (() => {
      try {
        return new DOMParser().parseFromString("", "text/plain");
      } catch (fault) {
        return fault.name;
      }
    })()];
  },
  "XMLSerializer writes XML"({ document, XMLSerializer, DOMParser }) {
    const write = (node) => new XMLSerializer().serializeToString(node);
    const element = document.createElement("p");
    element.innerHTML = "a&amp;b<br>";
    const xml = new DOMParser().parseFromString("<a><b x='1'/></a>", "text/xml");
    return [write(element), write(xml), write(document.createTextNode("<")), write(document.createComment("c"))];
  },
  "attributes of XLink are written with its prefix"({ document }) {
    const element = document.createElementNS("http://www.w3.org/2000/svg", "use");
    element.setAttributeNS("http://www.w3.org/1999/xlink", "href", "#a");
    return element.outerHTML;
  },
  "a range makes a fragment of markup"({ document }) {
    document.body.innerHTML = "<table></table>";
    const range = document.createRange();
    range.selectNodeContents(document.body.firstChild);
    const fragment = range.createContextualFragment("<tr><td>x");
    return [fragment.nodeType, fragment.firstChild.localName];
  },
};

const selectors = {
  "simple selectors, in tree order"({ document }) {
    document.body.innerHTML = '<p id=a class="x y">1</p><div><p id=b class=x>2</p><span id=a>3</span></div>';
    const all = (selector) => [...document.querySelectorAll(selector)].map((it) => it.textContent);
    return [all("p"), all(".x"), all("#a"), all("P"), all(".x.y"), all("div *"), all("p, span"), document.querySelector("#a").textContent, document.querySelector("i"), all("*").length];
  },
  "combinators and classes"({ document }) {
    document.body.innerHTML = "<ul><li>1<li class=s>2<li>3<li title=abc>4</ul><p></p><p>x</p>";
    const all = (selector) => [...document.querySelectorAll(selector)].map((it) => it.textContent);
    return [
      [all("li:first-child"), all("li:nth-child(2n)"), all("li:not(.s)"), all(".s + li"), all(".s ~ li"), all("ul > li:last-child")],
      [all("[title]"), all("[title^=a]"), all("[title$=c]"), all("[title*=b]"), all("[title~=abc]"), all("[title=ABC i]")],
      [all("p:empty"), all("li:nth-last-of-type(1)"), all(":is(.s, [title])"), all("ul:has(.s)").length, all("body :where(p)")],
    ];
  },
  "selectors within an element see its ancestors"({ document }) {
    document.body.innerHTML = "<div id=o><div id=i><p>x</p></div></div>";
    const inner = document.getElementById("i");
    return [inner.querySelectorAll("div p").length, inner.querySelectorAll(":scope > p").length, inner.querySelectorAll(":scope p").length, inner.querySelector("#o"), inner.querySelector("#i")];
  },
  "matches and closest"({ document }) {
    document.body.innerHTML = "<section class=s><p><b></b></p></section>";
    const element = document.querySelector("b");
    return [element.matches("p b"), element.matches("i"), element.closest("section").className, element.closest("b") === element, element.closest("i"), element.matches(":root *")];
  },
  "selectors that are none"({ document }) {
    const said = [];
    for (const selector of ["", "p[", "p:nosuch", "..a", ",", "p >"]) {
      try {
        document.querySelector(selector);
        said.push(null);
      } catch (fault) {
        said.push(fault.name);
      }
    }
    return said;
  },
  "forms by their state"({ document }) {
    document.body.innerHTML = "<form><input type=checkbox checked><input type=checkbox><input disabled><select><option>1<option selected>2</select><button>b</button></form>";
    document.querySelectorAll("input")[1].checked = true;
    return [":checked", ":disabled", ":enabled"].map((selector) => document.querySelectorAll(selector).length);
  },
  "names of SVG, and of fragments"({ document }) {
    document.body.innerHTML = "<svg viewBox='0 0 1 1'><linearGradient id=g></linearGradient></svg>";
    const fragment = document.createDocumentFragment();
    fragment.append(document.createElement("p"), document.createElement("i"));
    return [document.querySelectorAll("linearGradient").length, document.querySelectorAll("svg[viewBox]").length, fragment.querySelector("i").localName, fragment.querySelectorAll("*").length];
  },
  "words with escapes"({ document }) {
    document.body.innerHTML = '<p id="1a" class="a:b">x</p>';
    return [document.querySelectorAll("#\\31 a").length, document.querySelectorAll(".a\\:b").length];
  },
};

const events = {
  "an event goes down, is there, and goes up"({ document, window, Event }) {
    const said = [];
    document.body.innerHTML = "<div><p></p></div>";
    const element = document.querySelector("p");
    const places = [window, document, document.documentElement, document.body, element.parentNode, element];
    const name = (it) => it.nodeName ?? "window";
    for (const place of places) {
      place.addEventListener("x", ({ eventPhase }) => said.push(`up ${name(place)} ${eventPhase}`));
      place.addEventListener("x", ({ eventPhase, currentTarget }) => said.push(`down ${name(currentTarget)} ${eventPhase}`), true);
    }
    const event = new Event("x", { bubbles: true });
    event.composedPath();
    element.addEventListener("x", () => said.push(event.composedPath().map(name)));
    const answer = element.dispatchEvent(event);
    return [said, answer, event.target === element, event.currentTarget, event.eventPhase, event.composedPath(), event.isTrusted];
  },
  "an event that does not bubble calls listeners on its way down and at its target"({ document, Event }) {
    const said = [];
    const element = document.body.appendChild(document.createElement("p"));
    document.body.addEventListener("x", () => said.push("up"));
    document.body.addEventListener("x", () => said.push("down"), { capture: true });
    element.addEventListener("x", () => said.push("here"));
    element.dispatchEvent(new Event("x"));
    return said;
  },
  "once, passive, the same twice, and removed"({ document, Event }) {
    const said = [];
    const element = document.createElement("p");
    const listener = () => said.push("l");
    element.addEventListener("x", listener);
    element.addEventListener("x", listener);
    element.addEventListener("x", listener, true);
    element.addEventListener("x", () => said.push("once"), { once: true });
    element.addEventListener("x", (event) => event.preventDefault(), { passive: true });
    const first = element.dispatchEvent(new Event("x", { cancelable: true }));
    element.removeEventListener("x", listener);
    element.removeEventListener("x", listener, { capture: true });
    element.dispatchEvent(new Event("x"));
    return [said, first];
  },
  "a signal ends listening"({ document, Event, AbortController }) {
    const said = [];
    const element = document.createElement("p");
    const control = new AbortController();
    element.addEventListener("x", () => said.push(1), { signal: control.signal });
    element.dispatchEvent(new Event("x"));
    control.abort();
    element.dispatchEvent(new Event("x"));
    element.addEventListener("x", () => said.push(2), { signal: control.signal });
    element.dispatchEvent(new Event("x"));
    return said;
  },
  "listeners that come and go while it runs"({ document, Event }) {
    const said = [];
    const element = document.createElement("p");
    const late = () => said.push("late");
    const gone = () => said.push("gone");
    element.addEventListener("x", () => {
      said.push("first");
      element.addEventListener("x", late);
      element.removeEventListener("x", gone);
    });
    element.addEventListener("x", gone);
    element.dispatchEvent(new Event("x"));
    element.dispatchEvent(new Event("x"));
    return said;
  },
  "stopping"({ document, Event }) {
    const said = [];
    const element = document.body.appendChild(document.createElement("p"));
    document.body.addEventListener("x", () => said.push("up"));
    element.addEventListener("x", (event) => {
      said.push(1);
      event.stopPropagation();
    });
    element.addEventListener("x", (event) => {
      said.push(2, event.cancelBubble);
      event.stopImmediatePropagation();
    });
    element.addEventListener("x", () => said.push(3));
    element.dispatchEvent(new Event("x", { bubbles: true }));
    return said;
  },
  "canceling"({ document, Event }) {
    const element = document.createElement("p");
    element.addEventListener("x", (event) => event.preventDefault());
    element.addEventListener("y", (event) => void (event.returnValue = false));
    const said = [];
    for (const [type, cancelable] of [["x", true], ["x", false], ["y", true]]) {
      const event = new Event(type, { cancelable });
      said.push([element.dispatchEvent(event), event.defaultPrevented, event.returnValue]);
    }
    return said;
  },
  "objects as listeners, and this"({ document, Event }) {
    const said = [];
    const element = document.createElement("p");
    const listener = { handleEvent(event) { said.push(this === listener, event.type); } };
    element.addEventListener("x", listener);
    element.addEventListener("x", function () { said.push(this === element); });
    element.addEventListener("x", null);
    element.dispatchEvent(new Event("x"));
    return said;
  },
  "an event that is on its way, or was never initialized"({ document, Event }) {
    const said = [];
    const element = document.createElement("p");
    const attempt = (event) => {
      try {
        element.dispatchEvent(event);
        said.push("dispatched");
      } catch (fault) {
        said.push(fault.name);
      }
    };
    element.addEventListener("x", (event) => attempt(event));
    attempt(new Event("x"));
    attempt(document.createEvent("Event"));
    attempt({});
    return said;
  },
  "events that are made the old way"({ document }) {
    const event = document.createEvent("HTMLEvents");
    event.initEvent("a", true, true);
    const mouse = document.createEvent("MouseEvents");
    mouse.initMouseEvent("click", true, true, null, 1, 2, 3, 4, 5, true, false, false, false, 1, null);
    const custom = document.createEvent("CustomEvent");
    custom.initCustomEvent("c", false, false, { a: 1 });
    const said = [event.type, event.bubbles, event.cancelable, mouse.clientX, mouse.ctrlKey, mouse.button, custom.detail];
    try {
      document.createEvent("nosuch");
    } catch (fault) {
      said.push(fault.name);
    }
    return said;
  },
  "events and their members"({ Event, CustomEvent, MouseEvent, KeyboardEvent, InputEvent, FocusEvent, UIEvent, WheelEvent, document }) {
    const target = document.createElement("p");
    const mouse = new MouseEvent("m", { clientX: 5, button: 2, shiftKey: true, relatedTarget: target, bubbles: true });
    const key = new KeyboardEvent("k", { key: "Enter", code: "Enter", ctrlKey: true });
    const input = new InputEvent("i", { data: "x", inputType: "insertText" });
    return [
      [mouse.clientX, mouse.x, mouse.button, mouse.shiftKey, mouse.relatedTarget === target, mouse.detail, mouse instanceof UIEvent, mouse instanceof Event],
      [key.key, key.code, key.ctrlKey, key.getModifierState("Control"), key.getModifierState("Shift"), key.repeat, key.location],
      [input.data, input.inputType, new CustomEvent("c", { detail: 7 }).detail, new CustomEvent("c").detail, new FocusEvent("f").relatedTarget, new WheelEvent("w", { deltaY: 3 }).deltaY],
      [Event.BUBBLING_PHASE, String(new MouseEvent("x")), new Event("x").composed],
    ];
  },
  "handlers by property"({ document, Event }) {
    const said = [];
    const element = document.createElement("p");
    element.onclick = () => said.push("one");
    element.addEventListener("click", () => said.push("two"));
    element.onclick = function (event) {
      said.push("three", this === element, event.type);
      return false;
    };
    const event = new Event("click", { cancelable: true });
    element.dispatchEvent(event);
    element.onclick = null;
    element.dispatchEvent(new Event("click"));
    element.onclick = 7;
    return [said, event.defaultPrevented, element.onclick, "onclick" in element, "onnosuch" in element];
  },
  "a click goes with what it does"({ document }) {
    document.body.innerHTML = "<label>l<input type=checkbox></label><input type=radio name=r checked><input type=radio name=r><a href='#x'>a</a>";
    const [box, one, other] = document.querySelectorAll("input");
    const said = [];
    for (const type of ["click", "input", "change"]) document.body.addEventListener(type, (event) => said.push(`${event.type} ${event.target.type ?? event.target.localName}`));
    box.click();
    said.push(box.checked);
    document.querySelector("label").click();
    said.push(box.checked);
    other.click();
    said.push(one.checked, other.checked);
    box.addEventListener("click", (event) => event.preventDefault());
    box.click();
    return [...said, box.checked];
  },
  "a click on a disabled button"({ document }) {
    document.body.innerHTML = "<button disabled>b</button><fieldset disabled><legend><button>c</button></legend><button>d</button></fieldset>";
    const said = [];
    document.body.addEventListener("click", (event) => said.push(event.target.textContent));
    for (const it of document.querySelectorAll("button")) it.click();
    return said;
  },
  "targets of a program's own"({ EventTarget, Event }) {
    const target = new EventTarget();
    const said = [];
    target.addEventListener("x", (event) => said.push(event.target === target, event.composedPath().length));
    target.dispatchEvent(new Event("x"));
    class Own extends EventTarget {}
    const own = new Own();
    own.addEventListener("x", () => said.push(own instanceof EventTarget));
    own.dispatchEvent(new Event("x"));
    return said;
  },
  "window.event is the one on its way"({ document, window, Event }) {
    const element = document.createElement("p");
    const said = [window.event];
    element.addEventListener("x", (event) => said.push(window.event === event));
    element.dispatchEvent(new Event("x"));
    return [...said.slice(1), window.event === undefined];
  },
  "focus and its events"({ document }) {
    document.body.innerHTML = "<input id=a><input id=b><p id=c>x</p><p id=d tabindex=0>y</p>";
    const said = [];
    for (const type of ["focus", "blur"]) document.addEventListener(type, (event) => said.push(`${type} ${event.target.id} ${event.relatedTarget?.id}`), true);
    const by = (id) => document.getElementById(id);
    by("a").focus();
    by("b").focus();
    by("c").focus();
    said.push(document.activeElement.id);
    by("d").focus();
    said.push(document.activeElement.id);
    by("d").blur();
    return [said, document.activeElement.localName];
  },
};

const views = {
  "style is a view of its attribute"({ document }) {
    const element = document.createElement("p");
    element.style.color = "red";
    element.style.setProperty("margin-top", "3px");
    const said = [element.getAttribute("style"), element.style.length, element.style[0], element.style.getPropertyValue("color")];
    element.setAttribute("style", "width: 5px");
    said.push(element.style.width, element.style.color);
    element.style.removeProperty("width");
    said.push(element.getAttribute("style"), element.style.cssText);
    element.style = "height: 1px";
    const { style } = element;
    element.removeAttribute("style");
    return [...said, style.height, style === element.style];
  },
  "custom properties, importance, and a text that is no value"({ document }) {
    const element = document.createElement("p");
    element.style.setProperty("--x", "1");
    element.style.setProperty("color", "blue", "important");
    element.style.color = "nonsense value";
    return [element.style.getPropertyValue("--x"), element.style.getPropertyPriority("color"), element.style.color];
  },
  "classList is a live list of words"({ document }) {
    const element = document.createElement("p");
    const { classList } = element;
    classList.add("a", "b", "a");
    const said = [element.className, classList.length, classList[1], classList.contains("a"), [...classList]];
    said.push(classList.toggle("a"), classList.toggle("c", true), classList.toggle("d", false), element.className);
    element.className = "  x  y x ";
    said.push(classList.length, classList.value, classList.replace("x", "z"), element.className, `${classList}`);
    classList.remove("z", "y");
    said.push(element.getAttribute("class"));
    for (const token of ["", "a b"]) {
      try {
        classList.add(token);
      } catch (fault) {
        said.push(fault.name);
      }
    }
    element.classList = "p q";
    return [...said, element.className];
  },
  "dataset is a live view"({ document }) {
    const element = document.createElement("p");
    element.setAttribute("data-some-word", "1");
    const { dataset } = element;
    dataset.otherWord = 2;
    const said = [dataset.someWord, element.getAttribute("data-other-word"), Object.keys(dataset), "someWord" in dataset, dataset.no === undefined];
    delete dataset.someWord;
    said.push(element.hasAttribute("data-some-word"), JSON.stringify(dataset));
    try {
      dataset["a-b"] = 1;
    } catch (fault) {
      said.push(fault.name);
    }
    return said;
  },
  "a selection stands on a live range"({ document, window }) {
    document.body.innerHTML = "<p>some text</p><p>more</p>";
    const text = document.querySelector("p").firstChild;
    const selection = window.getSelection();
    const said = [selection.rangeCount, selection.anchorNode, selection.type, selection.isCollapsed];
    selection.collapse(text, 5);
    selection.extend(text, 9);
    said.push(`${selection}`, selection.anchorOffset, selection.focusOffset, selection.type, selection.rangeCount);
    text.insertData(0, "now ");
    said.push(`${selection}`, selection.anchorOffset, selection.getRangeAt(0).startOffset);
    selection.extend(text, 0);
    said.push(selection.anchorOffset, selection.focusOffset, `${selection}`);
    selection.selectAllChildren(document.body.lastChild);
    said.push(`${selection}`, selection.containsNode(document.body.lastChild.firstChild, true), selection.anchorNode.localName);
    selection.collapseToEnd();
    said.push(selection.isCollapsed, selection.focusOffset);
    selection.removeAllRanges();
    return [...said, selection.rangeCount];
  },
  "a selection and ranges of a program's"({ document }) {
    document.body.innerHTML = "<p>abc</p>";
    const selection = document.getSelection();
    const range = document.createRange();
    range.selectNodeContents(document.querySelector("p"));
    selection.addRange(range);
    const said = [selection.getRangeAt(0) === range, `${selection}`];
    range.setEnd(document.querySelector("p").firstChild, 2);
    said.push(`${selection}`);
    selection.deleteFromDocument();
    said.push(document.body.textContent);
    try {
      selection.getRangeAt(1);
    } catch (fault) {
      said.push(fault.name);
    }
    const text = document.querySelector("p").firstChild;
    selection.setBaseAndExtent(text, 1, text, 0);
    return [...said, selection.anchorOffset, selection.focusOffset, selection.isCollapsed];
  },
  "computed styles of an element that is shown, and of one that is not"({ document, window }) {
    document.body.innerHTML = "<p style='visibility: hidden; color: red'><b>x</b></p><div hidden></div><table><tr><td></table><ul><li></ul><script></scr" + "ipt>";
    const of = (selector) => window.getComputedStyle(document.querySelector(selector));
    return [
      ["p", "b", "div", "table", "td", "tr", "li", "script", "head"].map((selector) => of(selector).display),
      [of("p").visibility, of("b").visibility, of("table").visibility, of("p").getPropertyValue("display")],
    ];
  },
  "rectangles are numbers"({ document }) {
    const element = document.createElement("p");
    const rect = element.getBoundingClientRect();
    return [rect.width, rect.top, element.getClientRects().length, element.offsetWidth, element.offsetParent, Object.keys(rect.toJSON()).sort()];
  },
};

const forms = {
  "inputs have values of their own"({ document }) {
    document.body.innerHTML = "<input value=a><input type=checkbox><input type=number value=x><input type=color><input type=range>";
    const [text, box, number, colour, range] = document.querySelectorAll("input");
    const said = [text.value, box.value, number.value, colour.value, range.value];
    text.value = "b\nc";
    said.push(text.value, text.getAttribute("value"), text.defaultValue);
    text.setAttribute("value", "d");
    said.push(text.value);
    box.checked = true;
    said.push(box.checked, box.hasAttribute("checked"), box.defaultChecked);
    text.value = null;
    number.value = "1e2";
    return [...said, text.value, number.value, number.valueAsNumber, document.createElement("input").type];
  },
  "a select and its options"({ document }) {
    document.body.innerHTML = "<select><option value=1>a<option value=2 selected>b<optgroup><option>  c  d </optgroup></select><select multiple><option selected>x<option selected>y</select><select><option disabled>n<option>m</select>";
    const [select, many, third] = document.querySelectorAll("select");
    const said = [select.value, select.selectedIndex, select.options.length, select.options[2].value, select.type, many.selectedOptions.length, third.value];
    select.value = "1";
    said.push(select.selectedIndex, select.options[1].selected);
    select.options[2].selected = true;
    said.push(select.value);
    select.value = "nosuch";
    said.push(select.selectedIndex, select.value);
    many.options[0].selected = false;
    said.push([...many.selectedOptions].map((it) => it.text));
    select.remove(0);
    return [...said, select.length, select.options[0].index];
  },
  "textareas"({ document }) {
    document.body.innerHTML = "<textarea>a\nb</textarea>";
    const area = document.querySelector("textarea");
    const said = [area.value, area.defaultValue, area.textLength];
    area.value = "x\r\ny";
    area.textContent = "later";
    said.push(area.value, area.defaultValue);
    area.setSelectionRange(1, 2);
    return [...said, area.selectionStart, area.selectionEnd];
  },
  "a form, its controls, and what it sends"({ document, window }) {
    document.body.innerHTML = "<form id=f action='/to?x' method=POST><input name=a value=1><input type=checkbox name=b checked><input type=checkbox name=c><select name=d><option>2</select><textarea name=e>3</textarea><button name=g value=h>b</button></form><input form=f name=z value=9>";
    const form = document.querySelector("form");
    const { elements: its, length, method } = form;
    return [its.length, length, its.a.value, method, its[0].form === form, [...new window.FormData(form)], document.forms.length];
  },
  "sending dispatches events, and can be canceled"({ document }) {
    document.body.innerHTML = "<form><input required name=a><button>b</button></form>";
    const form = document.querySelector("form");
    const said = [];
    form.addEventListener("submit", (event) => {
      said.push(event.submitter?.localName);
      event.preventDefault();
    });
    form.addEventListener("invalid", (event) => said.push(`invalid ${event.target.name}`), true);
    form.querySelector("button").click();
    form.elements.a.value = "x";
    form.querySelector("button").click();
    form.requestSubmit();
    return said;
  },
  "resetting"({ document }) {
    document.body.innerHTML = "<form><input value=a><input type=checkbox checked><select><option>1<option>2</select><textarea>t</textarea></form>";
    const form = document.querySelector("form");
    const [text, box] = form.querySelectorAll("input");
    text.value = "x";
    box.checked = false;
    form.querySelector("select").value = "2";
    form.querySelector("textarea").value = "y";
    form.reset();
    return [text.value, box.checked, form.querySelector("select").value, form.querySelector("textarea").value];
  },
  "labels"({ document }) {
    document.body.innerHTML = "<label for=i>a</label><input id=i><label>b<textarea></textarea></label>";
    const [first, second] = document.querySelectorAll("label");
    return [first.control.id, second.control.localName, document.getElementById("i").labels.length, first.htmlFor];
  },
  "validity"({ document }) {
    document.body.innerHTML = "<input required><input type=email value=x><input pattern=[a-c]+ value=abd><input type=number min=3 value=1><input value=ok>";
    return [...document.querySelectorAll("input")].map((it) => [it.checkValidity(), it.validity.valueMissing, it.validity.typeMismatch, it.validity.patternMismatch, it.validity.rangeUnderflow]);
  },
  "a copy of an input has its value"({ document }) {
    const input = document.createElement("input");
    input.value = "typed";
    return input.cloneNode().value;
  },
};

const elements = {
  "interfaces by name"({ document, window }) {
    const names = "a div p input custom-x nosuch h1 tr th td q img template b section svg";
    const made = names.split(" ").map((name) => document.createElement(name));
    return [
      made.map((it) => Object.prototype.toString.call(it)),
      made.map((it) => it.constructor.name),
      [window.HTMLAnchorElement, window.HTMLElement, window.HTMLDivElement].map((it) => made[0] instanceof it),
      made[1] instanceof window.Node,
      Object.prototype.toString.call(document.createElementNS("http://www.w3.org/2000/svg", "svg")),
      (() => {
        try {
          return new window.HTMLDivElement();
        } catch (fault) {
          return fault.name;
        }
      })(),
    ];
  },
  "links and their parts"({ document }) {
    const link = document.createElement("a");
    const said = [link.href, link.protocol];
    link.href = "http://user@example.org:81/a/b?c#d";
    said.push(link.host, link.hostname, link.port, link.pathname, link.search, link.hash, link.origin, link.username, `${link}`);
    link.pathname = "/x y";
    link.hash = "e";
    return [...said, link.href, link.getAttribute("href")];
  },
  "attributes that stand for properties"({ document }) {
    const made = (name) => document.createElement(name);
    const [image, cell, list, label, button, input] = ["img", "td", "ol", "label", "button", "input"].map(made);
    cell.colSpan = 3;
    label.htmlFor = "x";
    input.readOnly = true;
    input.tabIndex = 2;
    input.maxLength = 5;
    return [
      [image.alt, image.width, cell.getAttribute("colspan"), list.start, label.outerHTML, button.type, input.outerHTML, made("div").tabIndex, made("a").tabIndex],
      [made("p").hidden, made("p").dir, made("p").title, made("p").contentEditable, made("p").draggable, made("img").draggable, made("input").size],
    ];
  },
  "tables"({ document }) {
    const table = document.createElement("table");
    const row = table.insertRow();
    row.insertCell().textContent = "a";
    row.insertCell(0).textContent = "b";
    table.createTHead().insertRow().insertCell();
    return [table.outerHTML, table.rows.length, row.rowIndex, row.sectionRowIndex, row.cells[1].cellIndex, table.tBodies.length];
  },
  "the page's parts"({ document, window }) {
    document.body.innerHTML = "<form name=f></form><img><a href=x>l</a><a name=n></a><p name=n></p>";
    document.title = " a  b ";
    return [document.title, document.head.innerHTML, document.forms.length, document.images.length, document.links.length, document.getElementsByName("n").length, document.defaultView === window, document.activeElement.localName, document.readyState];
  },
  "an element that is edited"({ document }) {
    document.body.innerHTML = "<div contenteditable><p><b contenteditable=false></b></p></div>";
    return [document.querySelector("div").isContentEditable, document.querySelector("p").isContentEditable, document.querySelector("b").isContentEditable, document.querySelector("div").contentEditable];
  },
  "details open by their summary"({ document }) {
    document.body.innerHTML = "<details><summary>s</summary>x</details>";
    document.querySelector("summary").click();
    return document.querySelector("details").open;
  },
};

export const CASES = { attributes, markup, selectors, events, views, forms, elements, testers: TESTERS };
