// Jobs of tests of pages, as cases of their own kind (see cases.js). Forms are filled in and sent, lists listen at their root, Documents are parsed, and
// texts are typed. Other cases are of keys, selections, turns of the event loop, observers, markup, choices, styles, tables, live lists, faults and walks.

export const TESTERS = {
  async "a form that is filled in, checked and sent"({ document, window, Event }) {
    document.body.innerHTML = `<form id=login novalidate><label for=user>User</label><input id=user name=user required minlength=3 placeholder=name><label>Word <input type=password name=word pattern="[a-z]{4,}" required></label>
      <input type=email name=mail value="no mail"><input type=hidden name=token value=t><select name=role><option>guest<option value=a>admin</select><input type=checkbox name=keep><textarea name=note>n</textarea><button name=go value=1>Go</button></form><p role=alert></p>`;
    const form = document.getElementById("login");
    const { user, word, mail, keep, role, note } = form.elements;
    const said = [];
    form.addEventListener("submit", (event) => {
      event.preventDefault();
      said.push([...new window.FormData(form)].map((it) => it.join("=")).join("&"), event.submitter?.name, event.cancelable, event.bubbles);
    });
    form.addEventListener("input", (event) => said.push(`input ${event.target.name} ${event.target.value}`));
    form.addEventListener("change", (event) => said.push(`change ${event.target.name} ${event.target.checked}`));
    const names = (selector) => [...form.querySelectorAll(selector)].map((it) => it.name);
    said.push(names(":invalid"), names(":valid"), names(":required"), names("input:optional"), names(":read-only"), names(":placeholder-shown"), names(":read-write"));
    user.value = "ann";
    user.dispatchEvent(new Event("input", { bubbles: true }));
    word.value = "abc";
    said.push(
      word.validity.patternMismatch, word.validity.valid, form.checkValidity(), mail.validity.typeMismatch, word.willValidate,
      form.elements.token.willValidate,
    );
    word.value = "abcd";
    mail.value = " a@b.c ";
    mail.setCustomValidity("taken");
    said.push(mail.value, mail.validity.customError, mail.validationMessage, form.checkValidity());
    mail.setCustomValidity("");
    keep.click();
    role.value = "a";
    note.value = "one\ntwo";
    form.querySelector("button").click();
    said.push(user.labels.length, user.labels[0].textContent, word.labels[0].textContent.trim(), user.defaultValue, mail.defaultValue);
    form.reset();
    return [...said, user.value, mail.value, keep.checked, role.value, note.value, form.checkValidity()];
  },
  async "a list that listens at its root"({ document, MutationObserver, MouseEvent }) {
    document.body.innerHTML = `<ul id=list></ul><template id=row><li class="item"><span></span><button data-action=done data-item-id="">x</button></li></template>`;
    const list = document.getElementById("list");
    const template = document.getElementById("row");
    const records = [];
    const observer = new MutationObserver((all) => records.push(...all.map((it) => `${it.type} ${it.target.nodeName} ${it.attributeName} ${it.oldValue} +${it.addedNodes.length} -${it.removedNodes.length}`)));
    observer.observe(list, { childList: true, attributes: true, subtree: true, attributeOldValue: true, attributeFilter: ["class", "data-item-id"] });
    for (const [id, name] of ["one", "two", "three"].entries()) {
      const row = template.content.cloneNode(true);
      row.querySelector("span").textContent = name;
      row.querySelector("button").dataset.itemId = id;
      list.append(row);
    }
    const said = [];
    list.addEventListener("click", (event) => {
      const button = event.target.closest("[data-action]");
      if (!button) return said.push("nothing");
      const item = button.closest("li");
      said.push(`${button.dataset.action} ${button.dataset.itemId} ${item.classList.toggle("done")}`);
      if (button.dataset.itemId === "1") item.replaceWith(document.createElement("hr"));
    });
    list.children[0].querySelector("button").click();
    list.children[1].lastElementChild.dispatchEvent(new MouseEvent("click", { bubbles: true }));
    list.querySelector("span").click();
    list.prepend(list.lastElementChild);
    list.firstElementChild.before("text", document.createElement("i"));
    await null;
    const { length } = records;
    observer.disconnect();
    list.textContent = "";
    await null;
    return [said, records, length === records.length, list.outerHTML, template.content.firstChild.outerHTML];
  },
  async "keys that move the focus"({ document, KeyboardEvent }) {
    document.body.innerHTML = `<div role=tablist><button role=tab id=a aria-selected=true>A</button><button role=tab id=b tabindex=-1>B</button><a id=c>C</a><a id=d href=#>D</a></div><p id=e tabindex=-1>E<input id=f disabled><input id=g hidden><select id=h></select></p>`;
    const said = [];
    const tabs = [...document.querySelectorAll("[role=tab]")];
    document.querySelector("[role=tablist]").addEventListener("keydown", (event) => {
      if (event.key !== "ArrowRight" && event.code !== "End") return;
      event.preventDefault();
      const to = tabs[(tabs.indexOf(document.activeElement) + 1) % tabs.length];
      tabs.forEach((it) => it.setAttribute("aria-selected", it === to));
      to.focus();
    });
    for (const type of ["focusin", "focusout"]) document.addEventListener(type, (event) => said.push(`${type} ${event.target.id} ${event.relatedTarget?.id ?? null}`));
    const press = (key, more) => document.activeElement.dispatchEvent(new KeyboardEvent("keydown", { key, bubbles: true, cancelable: true, ...more }));
    tabs[0].focus();
    said.push(press("ArrowRight"), document.activeElement.id, tabs.map((it) => it.ariaSelected));
    said.push(press("x"), press("", { code: "End" }), document.activeElement.id);
    for (const id of "cdefgh") {
      document.getElementById(id).focus();
      said.push(document.activeElement.id);
    }
    document.getElementById("h").blur();
    said.push(document.activeElement.localName);
    return [...said, document.querySelectorAll(":focus").length, tabs[1].matches(":focus"), tabs[1].tabIndex, document.hasFocus()];
  },
  "words that are selected and marked"({ document, window, Node }) {
    document.body.innerHTML = "<p>one <b>two</b> three</p><p>four</p>";
    const [first, second] = document.querySelectorAll("p");
    const range = document.createRange();
    range.setStart(first.firstChild, 2);
    range.setEnd(first.lastChild, 3);
    const said = [`${range}`, range.commonAncestorContainer === first, range.cloneContents().childNodes.length];
    const selection = window.getSelection();
    selection.removeAllRanges();
    selection.addRange(range);
    said.push(`${selection}`, selection.anchorOffset, selection.focusNode.data, selection.isCollapsed);
    try {
      range.surroundContents(document.createElement("mark"));
    } catch (fault) {
      said.push(fault.name);
    }
    const mark = document.createElement("mark");
    mark.append(range.extractContents());
    range.insertNode(mark);
    said.push(document.body.innerHTML, `${selection}`, selection.rangeCount);
    range.selectNode(second);
    said.push(range.startOffset, range.endOffset, range.comparePoint(second, 0), range.intersectsNode(first), range.isPointInRange(document.body, 1));
    second.firstChild.splitText(2);
    range.setStart(second.lastChild, 1);
    second.normalize();
    said.push(range.startContainer.data, range.startOffset, second.childNodes.length);
    range.deleteContents();
    return [...said, document.body.innerHTML, range.collapsed, Node.TEXT_NODE, selection.containsNode(mark, true)];
  },
  async "turns: the order of callbacks"({ document, window, MutationObserver }) {
    const said = [];
    const element = document.body.appendChild(document.createElement("p"));
    new MutationObserver((all) => said.push(`observed ${all.length}`)).observe(element, { childList: true, characterData: true, subtree: true });
    window.setTimeout(() => said.push("timer 0"), 0);
    const timer = window.setInterval((word) => {
      said.push(word);
      if (said.filter((it) => it === "again").length === 2) window.clearInterval(timer);
    }, 4, "again");
    window.queueMicrotask(() => said.push("microtask"));
    element.append("x");
    element.firstChild.data = "y";
    window.Promise.resolve().then(() => said.push("then"));
    said.push("now");
    await new window.Promise((ready) => window.setTimeout(ready, 60));
    const time = await new window.Promise((ready) => window.requestAnimationFrame(ready));
    const cancelled = window.requestAnimationFrame(() => said.push("never"));
    window.cancelAnimationFrame(cancelled);
    await new window.Promise((ready) => window.setTimeout(ready, 40));
    return [said, typeof time, typeof timer];
  },
  "events of old, and their order"({ document, window, CustomEvent, Event }) {
    document.body.innerHTML = "<div><p><i></i></p></div>";
    const [outer, middle, inner] = ["div", "p", "i"].map((it) => document.querySelector(it));
    const said = [];
    const at = (name) => (event) => said.push(`${name} ${event.type} ${event.eventPhase} ${event.detail?.n ?? event.detail}`);
    window.addEventListener("own", at("window"));
    outer.addEventListener("own", at("outer down"), true);
    middle.addEventListener("own", (event) => event.stopPropagation(), { once: true });
    middle.addEventListener("own", at("middle"));
    inner.addEventListener("own", at("inner"));
    const custom = document.createEvent("CustomEvent");
    custom.initCustomEvent("own", true, true, { n: 1 });
    said.push(inner.dispatchEvent(custom), custom.defaultPrevented, custom.target === inner);
    said.push(inner.dispatchEvent(new CustomEvent("own", { bubbles: true, detail: { n: 2 } })));
    const ui = document.createEvent("UIEvent");
    ui.initUIEvent("own", true, false, window, 7);
    inner.dispatchEvent(ui);
    said.push(ui.view === window, ui.detail);
    const key = document.createEvent("KeyboardEvent");
    key.initKeyboardEvent("keydown", true, true, window, "a", 0, true, false, false, false);
    said.push(key.ctrlKey, key.altKey, key.type, key.view === window);
    const event = new Event("again", { bubbles: true, cancelable: true });
    outer.addEventListener("again", (it) => it.preventDefault());
    said.push(inner.dispatchEvent(event), event.defaultPrevented, inner.dispatchEvent(event), event.defaultPrevented, event.timeStamp > 0, event.returnValue);
    event.initEvent("other", false, false);
    return [...said, event.type, event.defaultPrevented, event.cancelable, event.composedPath().length];
  },
  "documents that are parsed, and nodes that move between them"({ document, DOMParser, XMLSerializer }) {
    const parse = (text, type = "text/html") => new DOMParser().parseFromString(text, type);
    const html = parse("<!doctype html><html lang=en><head><meta charset=utf-8><title>A &amp; B</title></head><body class=x><table><tr><td>1</table><p>a<p>b<script>throw 1</script>");
    const said = [html.title, html.documentElement.lang, html.body.className, html.querySelectorAll("p").length, html.querySelector("td").parentNode.parentNode.localName, html.doctype.name, html.scripts.length, html.readyState, html.location];
    const paragraph = html.querySelector("p");
    const copy = document.importNode(paragraph, true);
    said.push(copy.ownerDocument === document, paragraph.isConnected, copy.textContent);
    document.body.appendChild(paragraph);
    said.push(paragraph.ownerDocument === document, html.querySelectorAll("p").length, document.adoptNode(copy) === copy);
    const feed = parse(`<?xml version="1.0"?><feed xmlns="urn:f" xmlns:m="urn:m"><entry m:id="1"><title>x &lt; y</title><m:link href="#a"/></entry><entry/><!--c--><?pi data?></feed>`, "text/xml");
    const root = feed.documentElement;
    said.push(feed.querySelectorAll("entry").length, feed.getElementsByTagNameNS("urn:m", "link")[0].getAttribute("href"), feed.querySelector("entry").getAttributeNS("urn:m", "id"), feed.querySelector("title").textContent, root.lookupNamespaceURI("m"), root.lastChild.target, feed.getElementsByTagName("m:link").length);
    said.push(new XMLSerializer().serializeToString(root), parse("<a>&nosuch;</a>", "text/xml").querySelector("parsererror") !== null, feed.contentType, root.children[0].tagName, feed.createElement("B").localName);
    const made = document.implementation.createDocument("urn:x", "r", null);
    made.documentElement.append(made.createElementNS("urn:y", "y:z"), "t");
    return [...said, new XMLSerializer().serializeToString(made), made.documentElement.innerHTML];
  },
  async "records of observers"({ document, MutationObserver }) {
    document.body.innerHTML = "<section><p class=a title=t>text</p><ul><li>1<li>2</ul></section>";
    const [section, paragraph, list] = ["section", "p", "ul"].map((it) => document.querySelector(it));
    const said = [];
    const told = (name) => (all) => said.push(`${name}: ${all.map((it) => [it.type, it.target.nodeName, it.attributeName, it.oldValue, [...it.addedNodes].map((n) => n.nodeName), [...it.removedNodes].map((n) => n.nodeName), it.previousSibling?.nodeName, it.nextSibling?.nodeName].join("/")).join(" ")}`);
    const whole = new MutationObserver(told("whole"));
    whole.observe(section, { childList: true, subtree: true, characterData: true, characterDataOldValue: true });
    const titles = new MutationObserver(told("titles"));
    titles.observe(section, { attributeFilter: ["title"], subtree: true });
    paragraph.title = "u";
    paragraph.className = "b";
    paragraph.firstChild.data = "other";
    list.append(list.firstChild);
    list.replaceChildren("x");
    paragraph.innerHTML = "<b>y</b>z";
    const [first] = titles.takeRecords();
    said.push(first.attributeName, first.oldValue, first.addedNodes.length);
    await null;
    paragraph.removeAttribute("title");
    list.remove();
    list.append("gone");
    whole.disconnect();
    await null;
    whole.observe(paragraph, { attributes: true });
    paragraph.toggleAttribute("hidden");
    paragraph.id = "i";
    paragraph.classList.add("c");
    paragraph.style.color = "red";
    paragraph.dataset.x = "1";
    await null;
    const fault = (options) => {
      try {
        whole.observe(paragraph, options);
        return null;
      } catch (it) {
        return it.name;
      }
    };
    return [said, fault({}), fault({ attributes: false, attributeOldValue: true }), fault({ characterDataOldValue: true })];
  },
  "markup that goes in and comes out"({ document }) {
    const { body } = document;
    body.innerHTML = "<p>a&nbsp;b &copy; &lt;</p><p hidden disabled='' title='\"q\"'>x<!-- c --></p><svg viewBox='0 0 1 1'><path d='M0'/></svg><textarea>\n\n<b></textarea><pre>\n x</pre><a href='?a=1&b=2'>l</a>";
    const said = [body.innerHTML, body.querySelector("svg path").namespaceURI, body.querySelector("textarea").value, body.querySelector("pre").textContent];
    body.firstElementChild.outerHTML = "one<i>two</i>";
    body.querySelector("i").insertAdjacentText("afterend", "<three>");
    body.querySelector("i").insertAdjacentElement("beforebegin", document.createElement("hr"));
    body.lastElementChild.insertAdjacentHTML("beforeend", "<b>4</b>&amp;");
    said.push(body.innerHTML.length, body.firstChild.data, body.textContent);
    const div = document.createElement("div");
    div.innerHTML = "<td>cell</td><option>o</option><body class=x><p>1<div>2</p>3";
    said.push(div.innerHTML);
    div.innerHTML += "<u>5</u>";
    div.textContent = "<b>";
    said.push(div.innerHTML, div.childNodes.length);
    const noscript = document.createElement("div");
    noscript.innerHTML = "<style>a > b {}</style><noscript><p>n</p></noscript><iframe><p></iframe><script>1 < 2</scr" + "ipt><plaintext>rest<p>";
    return [...said, noscript.innerHTML, noscript.querySelector("style").textContent, noscript.children.length];
  },
  "choices: selects, radios, boxes"({ document, window, Option }) {
    document.body.innerHTML = `<form><select id=s><optgroup label=g disabled><option value=1>one<option value=2>two</optgroup><option value=3>three</select><fieldset name=set><input type=radio name=r value=a><input type=radio name=r value=b checked><input type=radio name=q value=c></fieldset><input type=checkbox id=box value=v></form>`;
    const form = document.querySelector("form");
    const select = form.querySelector("select");
    const said = [select.value, select.selectedIndex, select.length, select.size];
    select.add(new Option("four", "4", false, true));
    select.add(new window.Option("zero"), 0);
    said.push(select.value, [...select.options].map((it) => it.value), select.options[0].text, select.selectedOptions[0].index, select.options.namedItem("x"));
    select.options[1].selected = true;
    said.push(select.value, select.selectedIndex);
    select.options.length = 2;
    select.selectedIndex = -1;
    said.push(select.value, select.innerHTML, select.item(0).value);
    const [a, b, c] = form.querySelectorAll("input");
    form.addEventListener("change", (event) => said.push(`change ${event.target.value}`));
    form.addEventListener("input", (event) => said.push(`input ${event.target.value}`));
    a.click();
    a.click();
    said.push(b.checked, form.elements.r.value, form.elements.r.length);
    form.elements.r.value = "b";
    c.checked = true;
    said.push(a.checked, b.checked, c.checked, document.querySelectorAll(":checked").length);
    const box = document.getElementById("box");
    box.indeterminate = true;
    said.push(box.matches(":indeterminate"));
    box.addEventListener("click", (event) => (said.push(box.checked, box.indeterminate), event.preventDefault()), { once: true });
    box.click();
    said.push(box.checked, box.indeterminate);
    b.name = "other";
    a.checked = true;
    said.push(b.checked);
    const set = form.elements.set;
    set.disabled = true;
    return [...said, set.elements.length, a.matches(":disabled"), [...new window.FormData(form)].length, form.elements.length, a.disabled, set.type];
  },
  "styles that are set and asked for"({ document, window }) {
    document.body.innerHTML = "<div style='color: red; margin: 1px 2px; width: 10px !important'><b>x</b></div>";
    const element = document.querySelector("div");
    const { style } = element;
    const said = [style.color, style.marginTop, style.marginLeft, style.getPropertyPriority("width"), style.cssText];
    style.backgroundColor = "#ff0000";
    style.border = "1px solid blue";
    style.display = "none";
    said.push(style.backgroundColor, style.borderTopWidth, style.borderTopColor, element.getAttribute("style").includes("display: none"));
    style.setProperty("--gap", " 3px");
    style.width = "";
    style.opacity = 0.5;
    style.zIndex = 3;
    style.cssFloat = "left";
    said.push(style.getPropertyValue("--gap").trim(), style.width, style.opacity, style.zIndex, style.float, style.removeProperty("color"), style.color);
    style.fontSize = "2em";
    style.transform = "translate(1px, 2px)";
    style.color = "nonsense()";
    said.push(style.fontSize, style.transform, style.color);
    style.cssText = "height: 5px; nonsense: 3; top: 1px";
    said.push(style.cssText, style.length, [...Array(style.length).keys()].map((at) => style[at]), style.item(0));
    const computed = window.getComputedStyle(element);
    said.push(computed.height, computed.getPropertyValue("top"), computed.display);
    element.hidden = true;
    return [...said, window.getComputedStyle(element).display, element.style === style, "color" in style];
  },
  "rows that are sorted"({ document }) {
    document.body.innerHTML = "<table><caption>c</caption><thead><tr><th>n</tr></thead><tbody><tr><td>3<tr><td>1<tr><td>2</tbody></table>";
    const table = document.querySelector("table");
    const [body] = table.tBodies;
    const rows = [...body.rows].sort((one, other) => one.cells[0].textContent - other.cells[0].textContent);
    body.append(...rows);
    const said = [
      [...body.rows].map((it) => it.textContent), rows[0].rowIndex, rows[0].sectionRowIndex, table.rows.length,
      table.tHead.rows[0].cells[0].localName, table.caption.textContent,
    ];
    const made = table.insertRow(-1);
    made.insertCell().append("4");
    made.insertCell(0).colSpan = 2;
    body.deleteRow(0);
    table.deleteRow(0);
    said.push(table.innerHTML);
    table.deleteCaption();
    table.createTFoot().insertRow().insertCell().textContent = "f";
    for (const does of [() => table.deleteRow(9), () => table.insertRow(9), () => made.deleteCell(5)]) {
      try {
        does();
        said.push("done");
      } catch (fault) {
        said.push(fault.name);
      }
    }
    return [...said, table.outerHTML, table.rows[0].cells[0].cellIndex, table.createTHead() === table.tHead];
  },
  "lists that are live"({ document }) {
    document.body.innerHTML = "<p class='a b'>1</p><p class=b name=n id=i>2</p><form name=f><input name=x><input name=x></form><img name=pic>";
    const classes = document.getElementsByClassName("b");
    const paragraphs = document.getElementsByTagName("P");
    const { children } = document.body;
    const still = document.querySelectorAll("p");
    const said = [classes.length, paragraphs.length, children.length, still.length, children.namedItem("n")?.textContent ?? null, children.i.textContent, document.forms.f.elements.x.length, document.forms[0].elements.length, document.images.pic?.localName];
    document.body.append(document.createElement("p"));
    classes[0].className = "a";
    said.push(
      classes.length, paragraphs.length, children.length, still.length, [...children].map((it) => it.localName),
      Array.from(still, (it) => it.textContent), classes[0] === children[1], classes.item(5), still[9] === undefined,
    );
    const names = [];
    still.forEach((it, at, all) => names.push(`${it.id}${at}${all === still}`));
    for (const [at, it] of still.entries()) names.push(`${at}${it.localName}`);
    const { childNodes } = document.body;
    said.push(names, childNodes.length, childNodes[0] === children[0], Object.keys(children).length, "0" in children, 9 in children, String(classes), String(still), childNodes === document.body.childNodes);
    while (children.length) children[0].remove();
    return [...said, classes.length, paragraphs.length, document.getElementsByName("n").length, document.getElementById("i")];
  },
  "faults by their names"({ document, window, DOMException }) {
    const element = document.body.appendChild(document.createElement("p"));
    const attempts = {
      self: () => element.append(element),
      above: () => element.appendChild(document.body),
      none: () => element.removeChild(document.createElement("i")),
      before: () => document.body.insertBefore(document.createElement("i"), document.createElement("b")),
      roots: () => document.appendChild(document.createElement("html")),
      name: () => document.createElement("1"),
      attribute: () => element.setAttribute("a b", ""),
      token: () => element.classList.add("a b"),
      selector: () => element.matches("::::"),
      node: () => element.appendChild("x"),
      nothing: () => element.appendChild(null),
      few: () => element.setAttribute("a"),
      range: () => document.createRange().setStart(element, 5),
      split: () => document.createTextNode("x").splitText(3),
      event: () => element.dispatchEvent({}),
      listener: () => element.addEventListener("x", 5),
      made: () => new window.Node(),
      called: () => window.Event("x"),
      less: () => new window.Event(),
      this: () => window.Node.prototype.appendChild.call({}, element),
      getter: () => window.Node.prototype.firstChild,
      namespace: () => document.createElementNS(null, "a:b"),
      place: () => element.insertAdjacentHTML("middle", ""),
      state: () => (document.createElement("input").setSelectionRange(0, 1), document.createElement("button").matches(":checked")),
      date: () => Object.assign(document.createElement("input"), { type: "date" }).setSelectionRange(0, 1),
    };
    return Object.entries(attempts).map(([name, does]) => {
      try {
        return [name, typeof does()];
      } catch (fault) {
        return [name, fault.name, fault.code, fault instanceof DOMException, fault instanceof window.TypeError];
      }
    });
  },
  async "typed texts, and selections of them"({ document, window, Event, InputEvent }) {
    document.body.innerHTML = "<input value=hello><textarea>one two</textarea><input type=number value=5 min=1 max=9 step=2><input type=range value=3 max=10><input type=date value=2020-02-30>";
    const [text, number, range, date] = document.querySelectorAll("input");
    const area = document.querySelector("textarea");
    const said = [text.selectionStart, text.selectionEnd, area.selectionStart];
    text.setSelectionRange(1, 3, "backward");
    said.push(text.selectionStart, text.selectionEnd, text.selectionDirection);
    text.setRangeText("EY");
    said.push(text.value, text.selectionStart, text.selectionEnd);
    text.setRangeText("J", 0, 1, "select");
    said.push(text.value, text.selectionStart, text.selectionEnd);
    text.setRangeText("!", 5, 5, "end");
    said.push(text.value, text.selectionStart, text.selectionEnd);
    text.value = "new";
    said.push(text.selectionStart, text.selectionEnd);
    area.select();
    said.push(area.selectionStart, area.selectionEnd);
    number.stepUp();
    said.push(number.value, number.valueAsNumber);
    number.stepDown(9);
    said.push(number.value, number.validity.rangeUnderflow);
    number.value = "4";
    said.push(number.validity.stepMismatch, number.validity.valid, date.value, date.type, range.value, range.valueAsNumber);
    range.value = "99";
    const events = [];
    text.addEventListener("input", (event) => events.push(event.constructor.name, event.data, event.inputType, event.target.value));
    text.addEventListener("beforeinput", (event) => events.push(event.defaultPrevented));
    text.dispatchEvent(new InputEvent("input", { data: "x", inputType: "insertText", bubbles: true }));
    const set = Object.getOwnPropertyDescriptor(window.HTMLInputElement.prototype, "value").set;
    set.call(text, "by the prototype");
    text.dispatchEvent(new Event("input", { bubbles: true }));
    text.type = "checkbox";
    said.push(text.value, text.selectionStart);
    text.type = "text";
    text.maxLength = 3;
    text.type = "email";
    return [...said, range.value, events, text.value, text.type, text.getAttribute("maxlength"), text.selectionStart];
  },
  "walks, comparisons and copies"({ document, NodeFilter, Node }) {
    document.body.innerHTML = "<main><h1>a</h1><!--c--><p>b<i>d</i></p><p hidden>e</p></main>";
    const main = document.querySelector("main");
    const walker = document.createTreeWalker(main, NodeFilter.SHOW_ELEMENT, (it) => (it.hidden ? NodeFilter.FILTER_REJECT : NodeFilter.FILTER_ACCEPT));
    const said = [];
    while (walker.nextNode()) said.push(walker.currentNode.localName);
    const iterator = document.createNodeIterator(main, NodeFilter.SHOW_TEXT | NodeFilter.SHOW_COMMENT);
    for (let it = iterator.nextNode(); it; it = iterator.nextNode()) said.push(it.data);
    const [first, second] = main.querySelectorAll("p");
    said.push(
      first.compareDocumentPosition(second), second.compareDocumentPosition(first), main.compareDocumentPosition(first), main.contains(first),
      first.contains(null), Node.DOCUMENT_POSITION_FOLLOWING,
    );
    const copy = main.cloneNode(true);
    said.push(copy.isEqualNode(main), copy.isSameNode(main), copy.isConnected, copy.getRootNode() === copy, main.getRootNode() === document);
    copy.firstChild.title = "t";
    first.append("1", "2", "");
    said.push(copy.isEqualNode(main), first.childNodes.length);
    first.normalize();
    said.push(
      first.childNodes.length, first.lastChild.wholeText, first.nextElementSibling === second, second.previousElementSibling === first,
      main.firstChild.nextSibling.nodeType, main.childElementCount,
    );
    const fragment = document.createDocumentFragment();
    fragment.append(...main.childNodes);
    said.push(main.hasChildNodes(), fragment.children.length, fragment.textContent, fragment.getElementById("x"), first.parentElement);
    main.replaceChildren(fragment);
    return [...said, main.children.length, fragment.childNodes.length, document.documentElement.outerHTML.length];
  },
  "attributes as a test asks for them"({ document }) {
    document.body.innerHTML = "<input disabled value='a b' DATA-Foo-Bar=1 aria-label=l class=' x  y '>";
    const input = document.querySelector("input");
    const said = [input.getAttributeNames(), input.hasAttribute("Disabled"), input.disabled, input.getAttribute("nosuch"), input.dataset.fooBar, input.ariaLabel, input.className, input.classList.length, input.attributes.length];
    input.disabled = false;
    input.required = true;
    input.hidden = true;
    input.tabIndex = 3;
    input.id = "i";
    input.title = "t";
    input.lang = "de";
    input.ariaLabel = null;
    said.push(input.outerHTML, input.toggleAttribute("checked"), input.toggleAttribute("checked", true), input.checked, input.toggleAttribute("hidden"), input.hidden);
    const label = document.createElement("label");
    label.htmlFor = "i";
    label.contentEditable = "true";
    label.spellcheck = false;
    label.dir = "RTL";
    label.accessKey = "k";
    label.draggable = true;
    said.push(label.outerHTML, label.dir, label.spellcheck, label.translate);
    const image = document.createElement("img");
    image.width = 5;
    image.src = "http://x.test/a b.png";
    image.loading = "lazy";
    image.crossOrigin = "";
    said.push(image.outerHTML, image.src, image.loading, image.crossOrigin, image.width);
    const link = document.createElement("link");
    link.rel = "stylesheet preload";
    link.relList.add("x");
    const meta = document.createElement("meta");
    meta.httpEquiv = "refresh";
    return [...said, link.relList.length, meta.outerHTML, [...input.attributes].map((it) => it.name).join()];
  },
};
