/**
 * Reads selectors by css-what, and ahead of it repairs or refuses texts that it misjudges (CSS Syntax 3, section 4; Selectors 4, section 18).
 *
 * A text is first made plain, with one form of escapes and strings. Then each class with arguments becomes a rule, from the innermost on.
 */
import { small, wanted } from "../core.js";

/** Says that a text is no selector. */
export class NoSelector extends Error {}

function fail(message) {
  throw new NoSelector(message);
}

// ---- Plain texts: of ASCII, with no bracket or comma in an escape or a string. Signs of their own are a comment, an error and a rule.

const COMMENT = "\0";
const WRONG = "\x01";
const RULE = "\x02";
const REPLACED = "\uFFFD";
const ESCAPE = String.raw`\\(?:(?<hex>[\da-fA-F]{1,6})[ \t\n]?|(?<other>[^\n\da-fA-F])|(?<end>$))`;
const COMMENTED = String.raw`\/\*(?:[^*]|\*(?!\/))*(?:\*\/|$)`;
const UNPLAIN = new RegExp(
  String.raw`(?<gap>(?:[ \t\n]|${COMMENTED})+)|"(?<double>(?:[^"\\\n]|\\(?:[^]|$))*)(?:"|$)|'(?<single>(?:[^'\\\n]|\\(?:[^]|$))*)(?:'|$)|${ESCAPE}|(?<wrong>["'\\\x00-\x1f])|[^\x20-\x7f]`,
  "g",
);
const IN_STRING = new RegExp(String.raw`(?<none>\\(?:\n|$))|${ESCAPE}|[^\w-]`, "g");
const HALVES = /[\uD800-\uDBFF](?![\uDC00-\uDFFF])|(?<![\uD800-\uDBFF])[\uDC00-\uDFFF]/g;
const CLOSING = { "(": ")", "[": "]", "{": "}" };

/** Returns characters as escapes that css-what reads everywhere. */
const safe = (text) => text.replace(/[^]/g, (unit) => `\\${unit.charCodeAt(0).toString(16).padStart(6, "0")} `);

function escaped(it, { hex, other = it, end }) {
  const code = parseInt(hex, 16);
  if (hex === undefined) return safe(end === undefined ? other : REPLACED);
  return safe(code === 0 || code > 0x10ffff || (code >= 0xd800 && code <= 0xdfff) ? REPLACED : String.fromCodePoint(code));
}

const inString = (it, ...rest) => (rest.at(-1).none === undefined ? escaped(it, rest.at(-1)) : "");

function plain(it, ...rest) {
  const { gap, wrong, double, single = double, ...escape } = rest.at(-1);
  if (single !== undefined) return `"${single.replace(IN_STRING, inString)}"`;
  if (gap !== undefined) return gap.replace(new RegExp(COMMENTED, "g"), "") === "" ? COMMENT : " ";
  return wrong === undefined ? escaped(it, escape) : WRONG;
}

/** Closes brackets that are open at the end. */
function closed(text) {
  const open = [];
  const checked = text.replace(/[()[\]{},]/g, (it) => {
    if (it in CLOSING) return void open.unshift(CLOSING[it]) ?? it;
    if (it === ",") return (open[0] ?? ")") === ")" ? it : WRONG;
    return it === open[0] ? open.shift() : WRONG;
  });
  return checked + open.join("");
}

function plainText(text) {
  const prepared = text.replace(/\r\n?|\f/g, "\n").replace(/\0/g, REPLACED).replace(HALVES, REPLACED);
  return closed(prepared.replace(UNPLAIN, plain));
}

// ---- Complex selectors of plain text.

const S = `[ ${COMMENT}]?`;
const ESCAPED = String.raw`\\[\da-f]{6} `;
const NAME = String.raw`(?:--|-?(?:[a-zA-Z_]|${ESCAPED}))(?:[\w-]|${ESCAPED})*`;
const VALUE = `(?:${NAME}|"[^"]*")`;
const ATTRIBUTE = String.raw`\[${S}(?:\*?\|)?${NAME}${S}(?:[~|^$*]?=${S}${VALUE}${S}(?:[isIS]${S})?)?\]`;
const SIMPLE = String.raw`(?:#${NAME}|\.${COMMENT}?${NAME}|::?${COMMENT}?${NAME}|:${RULE}\d+|${ATTRIBUTE})`;
const COMPOUND = String.raw`(?=[^ >+~${COMMENT}])(?:(?:\*?\|)?(?:${NAME}|\*))?(?:${COMMENT}?${SIMPLE})*`;
const COMPLEX = new RegExp(`^${S}([>+~]?)${S}(${COMPOUND}(?:${S}[ >+~]${S}${COMPOUND})*)${S}$`);
const UNQUOTED = new RegExp(`=${S}(${NAME})`, "g");
const CALL = new RegExp(String.raw`(?:(::?)(${NAME}))?\(([^()]*)\)`, "g");
const COUNTED = new RegExp(String.raw`^${S}(even|odd|[+-]?\d*n(?: ?[+-] ?\d+)?|[+-]?\d+)(?: of(?![\w-])(.*))?${S}$`, "i");
const ONE_VALUE = new RegExp(`^${S}(${VALUE})${S}$`);

const words = (text) => new Set(text.split(/\s+/));

const CLASSES = words(`active any-link autofill checked default defined disabled empty enabled first-child first-of-type focus focus-visible focus-within
  fullscreen host hover in-range indeterminate invalid last-child last-of-type link modal only-child only-of-type open optional out-of-range
  placeholder-shown popover-open read-only read-write required root scope target user-invalid user-valid valid visited`);

/** Pseudo-elements: no element fits them. */
const ELEMENTS = words(`after backdrop before cue details-content file-selector-button first-letter first-line grammar-error marker placeholder selection
  spelling-error target-text`);
const OLD_ELEMENTS = words("after before first-letter first-line");

/** The only classes that may be behind a pseudo-element. */
const ACTIONS = words("active focus focus-visible focus-within hover");

const parsed = (text) => wanted("css-what", "this selector").parse(text.replaceAll(COMMENT, "").replace(UNQUOTED, '="$1"'))[0];

const rule = (name, data = null) => ({ type: "pseudo", name, data });
const element = (isThere, name) => (isThere ? { ...rule("never"), isElement: true } : fail(`there is no pseudo-element '${name}'`));

function ruleOf(it) {
  const { type, name } = it;
  if (!type.startsWith("pseudo")) return it;
  if (type === "pseudo-element" || OLD_ELEMENTS.has(name)) return element(ELEMENTS.has(name) || /^-webkit-(?!-)/.test(name), name);
  return CLASSES.has(name) ? rule(name) : fail(`there is no ':${name}'`);
}

/** Returns whether no `:has()` is in a part of another one. A part that is forgiven loses it. */
function isFree(rules) {
  return rules.every((it) => {
    if (it.name === "is") it.data = it.data.filter(isFree);
    const within = it.name === "not" ? it.data : (it.data?.of ?? []);
    return it.name !== "has" && within.every(isFree);
  });
}

function valueOf(text) {
  const [, value] = ONE_VALUE.exec(text) ?? fail("a word is missing");
  return parsed(`[a=${value}]`)[0].value;
}

/** Reads a text; nothing is compiled. */
class Reader {
  #rules = [];
  #fault = "";

  all(text) {
    let left = plainText(text);
    while (left.includes("(")) left = left.replace(CALL, (...found) => this.#attempt(() => this.#call(...found), WRONG));
    return this.list(left, { isInside: false });
  }

  /** Returns an answer, or another one if a part is no selector. */
  #attempt(does, otherwise) {
    try {
      return does();
    } catch (fault) {
      if (!(fault instanceof NoSelector)) throw fault;
      this.#fault ||= fault.message;
      return otherwise;
    }
  }

  /** Returns the sign for the rule of a class with arguments. */
  #call(_, colons, name, inner) {
    const make = CALLED.get(`${colons}${small(name ?? "")}`) ?? fail(`there is no '${name}()'`);
    return `:${RULE}${this.#rules.push(make(this, inner, small(name))) - 1}`;
  }

  /** Returns a complex selector as css-what has it. One that is relative begins with the rule for the element that it is relative to. */
  #complex(text, { isInside = true, isRelative = false } = {}) {
    const [, sign, rest] = COMPLEX.exec(text) ?? fail(this.#fault || `'${text.trim()}' is not expected`);
    if (sign !== "" && !isRelative) fail("a selector is missing");
    const found = parsed(rest).map((it) => (it.name?.startsWith(RULE) ? this.#rules[it.name.slice(RULE.length)] : ruleOf(it)));
    const at = found.findIndex((it) => it.isElement);
    if (at >= 0 && (isInside || found.slice(at + 1).some((it) => !ACTIONS.has(it.name)))) fail("a pseudo-element is the end of a selector, and in no class");
    return isRelative ? [rule("anchor"), { type: COMBINATORS[sign] }, ...found] : found;
  }

  list(text, how) {
    return text.split(",").map((part) => this.#complex(part, how));
  }

  /** Returns the parts of a list that are selectors. */
  forgiven(text) {
    return text.split(",").flatMap((part) => this.#attempt(() => [this.#complex(part)], []));
  }

  has(text) {
    const list = this.list(text, { isRelative: true });
    return list.every(isFree) ? rule("has", { list }) : fail("':has()' is in no other");
  }

  /** Returns the rule of `An+B`, with `of` and a list if there is one. */
  nth(text, name) {
    const [, numbers, of] = COUNTED.exec(text) ?? fail(`':${name}()' has no number`);
    if (of !== undefined && name.endsWith("type")) fail(`':${name}()' has no list`);
    return rule(name, { name, numbers, of: of === undefined ? null : this.list(of) });
  }
}

const COMBINATORS = { "": "descendant", ">": "child", "+": "adjacent", "~": "sibling" };
const anyOf = (reader, text) => rule("is", reader.forgiven(text));
const host = (reader, text) => (reader.list(text).length === 1 ? rule("never") : fail("a host has one selector"));

const CALLED = new Map([
  [":is", anyOf],
  [":where", anyOf],
  [":not", (reader, text) => rule("not", reader.list(text))],
  [":has", (reader, text) => reader.has(text)],
  [":lang", (_, text) => rule("lang", new Set(text.split(",").map(valueOf)))],
  [":dir", (_, text) => rule("dir", small(valueOf(text)))],
  [":host", host],
  [":host-context", host],
  ...["child", "last-child", "of-type", "last-of-type"].map((name) => [`:nth-${name}`, (reader, text, called) => reader.nth(text, called)]),
  ...["cue", "highlight", "part", "slotted"].map((name) => [`::${name}`, () => element(true)]),
]);

/** Returns the complex selectors of a text, as css-what has them, with rules in place of classes. */
export const readSelector = (text) => new Reader().all(text);
