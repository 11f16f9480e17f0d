/** HTML's interfaces by the names of elements (HTML Standard, section 3.2.3 and the elements' own), and those of SVG and MathML that stand above all. */
import { ELEMENT, HTML, isNode, itsOf, known, makeInterface, nameKnown, nameOf, refuse, SVG, Wrapper } from "../core.js";
import { activate, follow } from "../activation.js";
import { bodyHandlers } from "../handlers.js";
import { contentOf } from "../markup.js";
import { tokens } from "../tokens.js";
import { listOf } from "./collections.js";
import { buttonClick, buttonMembers, fieldsetMembers, formMembers, labelClick, labelMembers, labels, outputMembers, textareaMembers } from "./forms.js";
import { boxes, inputMembers } from "./inputs.js";
import { meterMembers, progressMembers } from "./gauges.js";
import { linkAttributes, linkOperations } from "./links.js";
import { frameMembers, mediaMembers, videoMembers } from "./media.js";
import { elementMembers } from "./members.js";
import { FormWrapper } from "./names.js";
import { flags, oneOf, text, textOrNull, texts, url, urls, whole, within, words } from "./reflect.js";
import { optionMembers, selectMembers } from "./selects.js";
import { formOf, isNamed } from "./states.js";
import { cellMembers, rowMembers, sectionMembers, tableMembers } from "./tables.js";
import { validation } from "./validity.js";

const MATHML = "http://www.w3.org/1998/Math/MathML";

const join = (...members) => ({
  attributes: Object.assign({}, ...members.map((it) => it.attributes)),
  operations: Object.assign({}, ...members.map((it) => it.operations)),
});

const attributes = (...sets) => ({ attributes: Object.assign({}, ...sets) });
const ofText = { text: { type: "DOMString", get: (element) => element.textContent, set: (element, value) => void (element.textContent = value) } };
const LOADING = ["anonymous", "use-credentials"];
const crossOrigin = { crossOrigin: { ...textOrNull("crossorigin"), get: oneOf("crossorigin", LOADING, null, "anonymous").get } };
const media = { ...join(mediaMembers, attributes(crossOrigin)), constants: mediaMembers.constants };
const fetchPriority = { fetchPriority: oneOf("fetchpriority", ["auto", "high", "low"]) };
const loading = { loading: oneOf("loading", ["eager", "lazy"]) };
const blocking = { blocking: tokens("blocking", ["render"]) };
const zero = () => 0;

/** How often a marquee goes through: a number above zero, or -1 for without end. */
const loop = {
  ...whole("loop", -1, 1),
  set(marquee, value) {
    if (value < 1 && value !== -1) refuse("IndexSizeError", `loop has to be at least 1 or -1, not ${value}`);
    marquee.setAttribute("loop", `${value}`);
  },
};

/** An address beside that of a Document, which its `base` does not change. */
function addressOf(url, written) {
  try {
    return new URL(written, url).href;
  } catch {
    return written === "" ? url : written;
  }
}
const sized = { width: whole("width"), height: whole("height") };
const link = join({ attributes: linkAttributes, operations: linkOperations }, attributes(texts("target", "download", "ping", "rel"), words("referrerPolicy"), { relList: tokens("rel", []) }));

const TRACKS = ["subtitles", "captions", "descriptions", "chapters", "metadata"];
const SANDBOX = `allow-downloads allow-forms allow-modals allow-orientation-lock allow-pointer-lock allow-popups allow-popups-to-escape-sandbox
allow-presentation allow-same-origin allow-scripts allow-top-navigation allow-top-navigation-by-user-activation
allow-top-navigation-to-custom-protocols`.split(/\s+/);

/** The interface by its short name: the elements' names, and its members. */
const INTERFACES = {
  Anchor: ["a", join(link, attributes(texts("hreflang", "type", "name", "rev", "charset", "coords", "shape"), ofText))],
  Area: ["area", join(link, attributes(texts("alt", "coords", "shape"), flags("noHref")))],
  Audio: ["audio", {}, "Media"],
  BR: ["br", attributes(texts("clear"))],
  Base: ["base", attributes(texts("target"), { href: { ...url("href"), get: (base) => addressOf(base.ownerDocument.URL, base.getAttribute("href") ?? "") } })],
  Body: ["body", attributes(bodyHandlers, texts("background", "bgColor", "link", "vLink", "aLink"), { text: text("text") })],
  Button: ["button", join(buttonMembers, validation)],
  Canvas: ["canvas", attributes({ width: whole("width", 300, 0), height: whole("height", 150, 0) })],
  DList: ["dl", attributes(flags("compact"))],
  Data: ["data", attributes(texts("value"))],
  DataList: ["datalist", attributes({ options: (datalist) => listOf(datalist, "options", () => [...datalist.querySelectorAll("option")]) })],
  Details: ["details", attributes(flags("open"), texts("name"))],
  Dialog: ["dialog", attributes(flags("open"))],
  Directory: ["dir", attributes(flags("compact"))],
  Div: ["div", attributes(texts("align"))],
  Embed: ["embed", attributes(texts("type", "width", "height", "name", "align"), urls("src"))],
  FieldSet: ["fieldset", join(fieldsetMembers, validation)],
  Font: ["font", attributes(texts("color", "face", "size"))],
  Form: ["form", join(formMembers, attributes({ relList: tokens("rel", []) }))],
  FrameSet: ["frameset", attributes(bodyHandlers, texts("cols", "rows"))],
  Frame: ["frame", attributes(texts("name", "scrolling", "frameBorder", "marginHeight", "marginWidth"), urls("src", "longDesc"), flags("noResize"), frameMembers)],
  HR: ["hr", attributes(texts("align", "color", "size", "width"), flags("noShade"))],
  Head: ["head"],
  Heading: ["h1 h2 h3 h4 h5 h6", attributes(texts("align"))],
  Html: ["html", attributes(texts("version"))],
  IFrame: [
    "iframe",
    attributes(texts("srcdoc", "name", "allow", "width", "height", "align", "scrolling", "frameBorder", "marginHeight", "marginWidth"), urls("src", "longDesc"), flags("allowFullscreen"), frameMembers, loading, words("referrerPolicy"), { sandbox: tokens("sandbox", SANDBOX) }),
  ],
  Image: [
    "img",
    attributes(texts("alt", "srcset", "sizes", "useMap", "name", "align", "border"), urls("src", "longDesc", "lowsrc"), flags("isMap"), { hspace: whole("hspace"), vspace: whole("vspace") }, sized, crossOrigin, {
      naturalWidth: () => 0,
      naturalHeight: () => 0,
      complete: (image) => !image.getAttribute("src"),
      currentSrc: () => "",
      ...{ x: zero, y: zero },
      ...{ ...fetchPriority, ...loading, ...words("referrerPolicy"), decoding: oneOf("decoding", ["auto", "sync", "async"]) },
    }),
  ],
  Input: ["input", join(inputMembers, attributes({ labels }), validation)],
  LI: ["li", attributes({ value: whole("value") }, texts("type"))],
  Label: ["label", labelMembers],
  Legend: ["legend", attributes(texts("align"), { form: (legend) => (isNamed(legend.parentNode, "fieldset") ? formOf(legend.parentNode) : null) })],
  Link: [
    "link",
    attributes(texts("rel", "media", "hreflang", "type", "integrity", "imageSrcset", "imageSizes", "charset", "rev", "target"), urls("href"), flags("disabled"), crossOrigin, { relList: tokens("rel", []), sizes: tokens("sizes"), sheet: () => null }, blocking, fetchPriority, words("as", "referrerPolicy")),
  ],
  Map: ["map", attributes(texts("name"), { areas: (map) => listOf(map, "areas", () => [...map.querySelectorAll("area")]) })],
  Marquee: ["marquee", attributes(texts("behavior", "bgColor", "direction", "height", "width"), flags("trueSpeed"), { hspace: whole("hspace"), vspace: whole("vspace"), loop, scrollAmount: whole("scrollamount", 6, 0), scrollDelay: whole("scrolldelay", 85, 0) })],
  Menu: ["menu", attributes(flags("compact"))],
  Meta: ["meta", attributes(texts("name", "content", "media", "scheme"), { httpEquiv: text("http-equiv") })],
  Meter: ["meter", attributes(meterMembers, { labels })],
  Mod: ["del ins", attributes(urls("cite"), texts("dateTime"))],
  OList: ["ol", attributes(flags("reversed", "compact"), { start: whole("start", 1), type: text("type") })],
  Object: ["object", join(validation, attributes(texts("type", "name", "useMap", "width", "height", "standby", "align", "archive", "code", "codeType", "border"), urls("data", "codeBase"), flags("declare"), frameMembers, { form: formOf, hspace: whole("hspace"), vspace: whole("vspace") }))],
  OptGroup: ["optgroup", attributes(flags("disabled"), texts("label"))],
  Option: ["option", optionMembers],
  Output: ["output", join(outputMembers, validation, attributes({ htmlFor: tokens("for") }))],
  Paragraph: ["p", attributes(texts("align"))],
  Param: ["param", attributes(texts("name", "value", "type", "valueType"))],
  Picture: ["picture"],
  Pre: ["pre listing xmp", attributes({ width: whole("width") })],
  Progress: ["progress", attributes(progressMembers, { labels })],
  Quote: ["blockquote q", attributes(urls("cite"))],
  Script: [
    "script",
    attributes(words("referrerPolicy"), texts("type", "integrity", "charset", "event"), urls("src"), flags("noModule", "defer", "async"), crossOrigin, ofText, { htmlFor: text("for") }, blocking, fetchPriority),
  ],
  Select: ["select", join(selectMembers, attributes({ labels }), validation)],
  Slot: ["slot", attributes(texts("name"))],
  Source: ["source", attributes(texts("type", "srcset", "sizes", "media"), urls("src"), sized)],
  Span: ["span"],
  Style: ["style", attributes(texts("media", "type"), blocking, { sheet: () => null, disabled: { type: "boolean", get: () => false, set: () => undefined } })],
  TableCaption: ["caption", attributes(texts("align"))],
  TableCell: [
    "td th",
    join(cellMembers, attributes(words("scope"), texts("headers", "abbr", "align", "axis", "height", "width", "vAlign", "bgColor"), { ch: text("char"), chOff: text("charoff") }, flags("noWrap"), { colSpan: within("colspan", 1, 1, 1000), rowSpan: within("rowspan", 1, 0, 65534) })),
  ],
  TableCol: ["col colgroup", attributes(texts("align", "vAlign", "width"), { ch: text("char"), chOff: text("charoff"), span: within("span", 1, 1, 1000) })],
  Table: ["table", join(tableMembers, attributes(texts("align", "border", "frame", "rules", "summary", "width", "bgColor", "cellPadding", "cellSpacing")))],
  TableRow: ["tr", join(rowMembers, attributes(texts("align", "vAlign", "bgColor"), { ch: text("char"), chOff: text("charoff") }))],
  TableSection: ["tbody thead tfoot", join(sectionMembers, attributes(texts("align", "vAlign"), { ch: text("char"), chOff: text("charoff") }))],
  Template: ["template", attributes({ content: contentOf })],
  TextArea: ["textarea", join(textareaMembers, validation)],
  Time: ["time", attributes(texts("dateTime"))],
  Title: ["title", attributes(ofText)],
  Track: ["track", attributes(texts("srclang", "label"), { kind: oneOf("kind", TRACKS, "subtitles", "metadata"), readyState: zero }, urls("src"), flags("default"))],
  UList: ["ul", attributes(flags("compact"), texts("type"))],
  Video: ["video", attributes(sized, urls("poster"), videoMembers), "Media"],
};

/** Elements that are of HTMLElement and of nothing further. */
const PLAIN = new Set(`abbr acronym address article aside b basefont bdi bdo big center cite code dd dfn dt em figcaption figure footer header hgroup i kbd
main mark nav nobr noembed noframes noscript plaintext rb rp rt rtc ruby s samp search section small strike strong sub summary sup tt u var wbr`.split(/\s+/));

const nameOfShort = (short) => `HTML${short}Element`;
const named = new Map(Object.entries(INTERFACES).flatMap(([short, [names]]) => names.split(" ").map((name) => [name, nameOfShort(short)])));

/** The interface of an element of HTML by its local name. */
function interfaceOf(local) {
  const found = named.get(local);
  if (found) return found;
  const isCustom = /^[a-z][^A-Z]*-/.test(local);
  return PLAIN.has(local) || isCustom ? "HTMLElement" : "HTMLUnknownElement";
}

/** The brand of the elements of a namespace, by the state of a node and by the object. */
function ofNamespace(namespace) {
  const fits = (its) => its.kind === ELEMENT && nameKnown(its).namespace === namespace;
  return { fits, is: (it) => isNode(it) && fits(itsOf(it)) };
}

const ofHTML = ofNamespace(HTML);
const ofSVG = ofNamespace(SVG);

const isOf = (name) => {
  const names = new Set(INTERFACES[name][0].split(" "));
  return (it) => ofHTML.is(it) && names.has(nameOf(it).local);
};

const isMedia = (it) => isNamed(it, "audio", "video");

const ABOVE = [
  known({ name: "HTMLElement", parent: "Element", ...ofHTML, ...elementMembers.html }),
  known({ name: "HTMLUnknownElement", parent: "HTMLElement", ...ofHTML }),
  known({ name: "HTMLMediaElement", parent: "HTMLElement", is: isMedia, ...media }),
  known({ name: "SVGElement", parent: "Element", ...ofSVG, ...elementMembers.svg }),
  known({ name: "SVGGraphicsElement", parent: "SVGElement", ...ofSVG }),
  known({ name: "SVGSVGElement", parent: "SVGGraphicsElement", ...ofSVG }),
  known({ name: "MathMLElement", parent: "Element", ...ofNamespace(MATHML), ...elementMembers.math }),
];

const tables = Object.entries(INTERFACES).map(([short, [, members, parent = ""]]) =>
  known({ name: nameOfShort(short), parent: nameOfShort(parent), is: isOf(short), ...members }),
);

const SVG_SHAPES = new Set("a circle defs ellipse foreignObject g image line path polygon polyline rect switch text textPath tspan use".split(" "));

function svgInterface(local) {
  if (local === "svg") return "SVGSVGElement";
  return SVG_SHAPES.has(local) ? "SVGGraphicsElement" : "SVGElement";
}

const BY_NAMESPACE = { [HTML]: interfaceOf, [SVG]: svgInterface, [MATHML]: () => "MathMLElement" };

/** Elements whose state in the page is copied with them. */
const KEPT = new Set(["input", "textarea", "option", "select"]);

/** Makes the interfaces of a realm, and has it make elements of them. */
export function makeInterfaces(realm) {
  // (by the module's numbers of names: a namespace that has an interface here is written alike in each session)
  const makers = [];
  for (const table of [...ABOVE, ...tables]) realm.interfaces[table.name] = makeInterface(realm, table, table.name === "HTMLFormElement" ? FormWrapper : Wrapper);
  realm.elementMaker = (name) => {
    const found = makers[name.number];
    if (found !== undefined) return found;
    realm.hasKept ||= KEPT.has(name.local);
    return (makers[name.number] = realm.makers[BY_NAMESPACE[name.namespace]?.(name.local) ?? "Element"]);
  };
}

activate("a", { isFor: (link) => link.hasAttribute("href"), after: follow });
activate("area", { isFor: (link) => link.hasAttribute("href"), after: follow });
activate("button", buttonClick);
activate("label", labelClick);
activate("input", {
  isFor: (input) => boxes.isFor(input) || buttonClick.isFor(input),
  before: (input) => boxes.isFor(input) && boxes.before(input),
  undo: (input, before) => before && boxes.undo(input, before),
  after: (input, event, before) => (boxes.isFor(input) ? boxes.after(input, before) : buttonClick.after(input)),
});
activate("summary", {
  isFor: (summary) => isNamed(summary.parentNode, "details") && summary === [...summary.parentNode.children].find((it) => isNamed(it, "summary")),
  after: (summary) => void summary.parentNode.toggleAttribute("open"),
});
