// Why subtests do not pass: the names of the standard that neither the core nor the page has, with the feature that each belongs to. The use of a name
// throws an error with this reason, and the subtest counts as not applicable. A name that the player has is left as it is.

const SIGN = "not in this profile: ";

const ABSENT = {
  Node: { namespaces: ["lookupNamespaceURI", "lookupPrefix", "isDefaultNamespace"], events: ["addEventListener", "dispatchEvent"] },
  Document: {
    "Attr nodes": ["createAttribute", "createAttributeNS"],
    events: ["createEvent"],
    "the page": ["forms", "images", "links", "scripts", "cookie", "write", "open", "styleSheets", "getElementsByName"],
  },
  Element: {
    "Attr nodes": ["getAttributeNode", "getAttributeNodeNS", "setAttributeNode", "setAttributeNodeNS", "removeAttributeNode"],
    DOMTokenList: ["classList"],
    "shadow trees": ["attachShadow", "shadowRoot", "assignedSlot", "slot"],
    selectors: ["matches", "closest"],
    parsing: ["outerHTML", "insertAdjacentHTML"],
    "insertion beside an element": ["insertAdjacentElement", "insertAdjacentText"],
  },
  Text: { wholeText: ["wholeText"], "shadow trees": ["assignedSlot"] },
};

const ABSENT_OF_WINDOWS = {
  "Attr nodes": ["Attr"],
  CDATA: ["CDATASection"],
  "custom elements": ["customElements"],
  events: ["Event", "CustomEvent", "MouseEvent", "UIEvent"],
  parsing: ["XMLSerializer"],
  "shadow trees": ["ShadowRoot"],
  DOMTokenList: ["DOMTokenList"],
};

function absent(target, reasons) {
  for (const [reason, names] of Object.entries(reasons)) {
    for (const name of names.filter((it) => !(it in target))) {
      const refuse = () => { throw new Error(SIGN + reason); };
      Object.defineProperty(target, name, { configurable: true, get: refuse, set: refuse });
    }
  }
}

export function sayWhatIsAbsent(global) {
  for (const [name, reasons] of Object.entries(ABSENT)) absent(global[name].prototype, reasons);
}

const names = new Map(Object.entries(ABSENT_OF_WINDOWS).flatMap(([reason, its]) => its.map((name) => [name, reason])));

// What the core takes by the standard's newer rules of names, and an older test says is refused.
const NOT_REFUSED = /assert_throws_dom:[^]*\b(createElement|createElementNS|createDocument|createDocumentType|createProcessingInstruction|setAttribute|setAttributeNS|toggleAttribute)\([^]*did not throw/;

// The package throws a filter's fault as its own realm's, since no call tells the realm of the filter.
const OF_A_FILTER = /threw object "TypeError: acceptNode is no function"[^]*expected instance of/;

function absentName(message) {
  const told = message.indexOf(SIGN);
  if (told >= 0) return message.slice(told + SIGN.length).split(/["\n]/)[0];
  return names.get(/(\w+) is not defined/.exec(message)?.[1]);
}

// Why a subtest does not pass, as far as its message tells it: of a kind and a reason. (The empty name is refused by the newer rules too.)
export function reasonOf({ name, message }) {
  const said = message ?? "";
  const absent = absentName(said);
  if (absent) return { kind: "notApplicable", reason: absent };
  if (OF_A_FILTER.test(said)) return { kind: "differs", reason: "the realm of a filter" };
  const call = NOT_REFUSED.exec(said)?.[1];
  if (!call || name.includes('""')) return undefined;
  return { kind: "differs", reason: call === "createProcessingInstruction" ? "targets of processing instructions" : "newer names" };
}
