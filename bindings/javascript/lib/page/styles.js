/** The `style` of elements, by cssstyle: a view of the attribute. There are no style sheets. */
import { Element, HTML, itsOf, keptOf, nameOf, setPlain, stateOf, wanted } from "./core.js";

const [, hasAttribute] = Element.operations.hasAttribute;

/** The element whose attribute is being written by its declaration, or read into it, or null: neither then follows the other. */
let followed = null;

/** Has a declaration say what the attribute says. */
function read(element, declaration) {
  if (followed === element) return;
  const before = followed;
  followed = element;
  try {
    declaration.cssText = element.getAttribute("style") ?? "";
  } finally {
    followed = before;
  }
}

function write(element, text) {
  if (followed === element) return;
  const before = followed;
  followed = element;
  try {
    setPlain(element, "style", text);
  } finally {
    followed = before;
  }
}

/** A class of declarations. Their text, which each change asks for, is put together without lists. */
function declarationsBy({ CSSStyleDeclaration }) {
  return class extends CSSStyleDeclaration {
    get cssText() {
      let text = "";
      for (let at = 0; at < this.length; at++) {
        const name = this[at];
        const priority = this.getPropertyPriority(name);
        text += `${at > 0 ? " " : ""}${name}: ${this.getPropertyValue(name)}${priority && ` !${priority}`};`;
      }
      return text;
    }

    set cssText(text) {
      super.cssText = text;
    }
  };
}

let Declaration = null;

/** A declaration that writes what a program changes into the attribute. */
function made(element) {
  Declaration ??= declarationsBy(wanted("cssstyle", "styles"));
  const declaration = new Declaration((text) => write(element, text));
  if (hasAttribute(element, "style")) read(element, declaration);
  return declaration;
}

const styleOf = (element) => styleKnown(itsOf(element));

/** The declaration of an element, by what its object knows. */
function styleKnown(its) {
  const kept = (its.kept ??= {});
  return kept.style ?? (kept.style = made(its.object));
}

/** Follows a change of the attribute. */
export function styleChanged(element) {
  const { style } = keptOf(element);
  if (style !== undefined) read(element, style);
}

const quickStyle = (general, fits) => ({
  operation() {
    const its = stateOf(this);
    const style = its?.kept?.style;
    return style !== undefined && fits(its) ? style : general.call(this);
  },
});

/** What elements of HTML, SVG and MathML have. */
export const styleAttribute = {
  style: {
    type: "DOMString",
    read: styleKnown,
    quick: quickStyle,
    set: (element, text) => void (styleOf(element).cssText = text),
  },
};

// ---- Computed styles: those of the attribute, and the display that an element has by its name alone.

const setOf = (names) => new Set(names.trim().split(/\s+/));
const NONE = setOf("area base basefont datalist head link meta noembed noframes param rp script style template title");
const BLOCK = setOf(`address article aside blockquote body center dd details dialog dir div dl dt fieldset figcaption figure footer form h1 h2 h3 h4 h5 h6
  header hgroup hr html legend listing main menu nav ol optgroup option p plaintext pre search section summary ul xmp`);
const OTHERS = {
  table: "table", caption: "table-caption", colgroup: "table-column-group", col: "table-column", thead: "table-header-group", tbody: "table-row-group",
  tfoot: "table-footer-group", tr: "table-row", td: "table-cell", th: "table-cell", li: "list-item", button: "inline-block", input: "inline-block",
  select: "inline-block", textarea: "inline-block", meter: "inline-block", progress: "inline-block", ruby: "ruby", rt: "ruby-text",
};

function displayOf(element) {
  const { namespace, local } = nameOf(element);
  if (namespace !== HTML) return "inline";
  if (NONE.has(local) || element.hasAttribute("hidden")) return "none";
  if (local === "dialog" && !element.hasAttribute("open")) return "none";
  return BLOCK.has(local) ? "block" : (OTHERS[local] ?? "inline");
}

/** Returns whether an element is shown: neither its own display nor an ancestor's is none, and it is visible. */
export function isShown(element) {
  for (let it = element; it; it = it.parentElement) if ((it.hasAttribute("style") ? computedStyle(it).display : displayOf(it)) === "none") return false;
  return !hasStyleAbove(element) || computedStyle(element).visibility === "visible";
}

const hasStyleAbove = (element) => element !== null && (element.hasAttribute("style") || hasStyleAbove(element.parentElement));

/** What `getComputedStyle` answers: nothing is inherited but whether an element is visible. */
export function computedStyle(element) {
  const { CSSStyleDeclaration } = wanted("cssstyle", "styles");
  const made = new CSSStyleDeclaration();
  made.cssText = element.getAttribute("style") ?? "";
  if (made.display === "") made.display = displayOf(element);
  if (made.visibility === "") made.visibility = element.parentElement ? computedStyle(element.parentElement).visibility : "visible";
  return made;
}
