// The interfaces of HTML's elements, as far as a test asks which of them an element has: by its name in the namespace of HTML.

const HTML = "http://www.w3.org/1999/xhtml";

const NAMES = {
  Anchor: "a", Area: "area", Audio: "audio", BR: "br", Base: "base", Body: "body", Button: "button", Canvas: "canvas", DList: "dl", Data: "data",
  DataList: "datalist", Details: "details", Dialog: "dialog", Directory: "dir", Div: "div", Embed: "embed", FieldSet: "fieldset", Font: "font", Form: "form",
  FrameSet: "frameset", Frame: "frame", HR: "hr", Head: "head", Heading: "h1 h2 h3 h4 h5 h6", Html: "html", IFrame: "iframe", Image: "img", Input: "input",
  LI: "li", Label: "label", Legend: "legend", Link: "link", Map: "map", Marquee: "marquee", Menu: "menu", Meta: "meta", Meter: "meter", Mod: "del ins",
  OList: "ol", Object: "object", OptGroup: "optgroup", Option: "option", Output: "output", Paragraph: "p", Param: "param", Picture: "picture",
  Pre: "pre listing xmp", Progress: "progress", Quote: "blockquote q", Script: "script", Select: "select", Slot: "slot", Source: "source", Span: "span",
  Style: "style", TableCaption: "caption", TableCell: "td th", TableCol: "col colgroup", Table: "table", TableRow: "tr", TableSection: "tbody thead tfoot",
  Template: "template", TextArea: "textarea", Time: "time", Title: "title", Track: "track", UList: "ul", Video: "video",
};

// Elements that are of HTMLElement and of nothing further.
const PLAIN = new Set(`abbr acronym address article aside b basefont bdi bdo big center cite code dd dfn dt em figcaption figure footer header hgroup i kbd
main mark nav nobr noembed noframes noscript plaintext rb rp rt rtc ruby s samp search section small strike strong sub summary sup tt u var wbr`.split(/\s+/));

const byName = new Map(Object.entries(NAMES).flatMap(([its, names]) => names.split(" ").map((name) => [name, `HTML${its}Element`])));

const isOfHTML = (it, global) => it instanceof global.Element && it.namespaceURI === HTML;

// Defines an interface that finds its objects by a predicate.
function told(global, name, is) {
  const Interface = global.Function(`return function ${name}() { throw new TypeError("Illegal constructor"); }`)();
  Object.defineProperty(Interface, Symbol.hasInstance, { value: (it) => isOfHTML(it, global) && is(it.localName) });
  Interface.prototype = global.Element.prototype;
  if (!(name in global)) Object.defineProperty(global, name, { value: Interface, configurable: true, writable: true });
}

export function nameInterfaces(global) {
  told(global, "HTMLElement", () => true);
  told(global, "HTMLUnknownElement", (name) => !byName.has(name) && !PLAIN.has(name) && !name.includes("-"));
  for (const name of new Set(byName.values())) told(global, name, (its) => byName.get(its) === name);
}
