/** DOMTokenList and DOMStringMap: live views of attributes (DOM Standard, section 7.1; HTML Standard, section 3.2.6.6). */
import { isBlank, itsOf, keptOf, known, namesKept, realmOf, refuse, refuseType, valueKept, wordsKept } from "./core.js";
import { removeAttributeOf, setAttributeOf } from "./attributes.js";
import { borrow, knownOf, makeLegacy } from "./legacy.js";

/** What a list of words knows: its element, and the attribute that has the words. */
class TokensAre {
  constructor(element, name, supported) {
    this.element = element;
    this.its = itsOf(element);
    this.name = name;
    this.supported = supported;
  }

  get value() {
    return valueKept(this.its, this.name) ?? "";
  }

  get tokens() {
    return wordsKept(this.value);
  }

  get length() {
    return this.tokens.length;
  }

  at(index) {
    return this.tokens[index] ?? null;
  }

  /** Writes the words back; where there are none, and no attribute, none comes. */
  write(tokens) {
    if (tokens.length === 0 && valueKept(this.its, this.name) === null) return;
    setAttributeOf(this.element, this.name, tokens.join(" "));
  }
}

const tokensOf = (it) => knownOf(it, TokensAre);

function checked(tokens) {
  if (tokens.includes("")) refuse("SyntaxError", "a token may not be empty");
  for (const it of tokens) if (isBlank(it)) refuse("InvalidCharacterError", `the token '${it}' has white space`);
  return tokens;
}

function checkedOne(token) {
  if (token === "") refuse("SyntaxError", "a token may not be empty");
  if (isBlank(token)) refuse("InvalidCharacterError", `the token '${token}' has white space`);
}

function add(list, ...given) {
  const its = tokensOf(list);
  its.write([...new Set([...its.tokens, ...checked(given)])]);
}

function remove(list, ...given) {
  const its = tokensOf(list);
  const gone = new Set(checked(given));
  its.write(its.tokens.filter((token) => !gone.has(token)));
}

function toggle(list, token, force) {
  const its = tokensOf(list);
  checkedOne(token);
  const { tokens } = its;
  const isThere = tokens.includes(token);
  const isDue = force === undefined ? !isThere : Boolean(force);
  if (isThere && !isDue) its.write(tokens.filter((it) => it !== token));
  if (!isThere && isDue) its.write([...tokens, token]);
  return isDue;
}

function replace(list, token, other) {
  const its = tokensOf(list);
  checked([token, other]);
  const { tokens } = its;
  if (!tokens.includes(token)) return false;
  its.write([...new Set(tokens.map((it) => (it === token ? other : it)))]);
  return true;
}

function supports(list, token) {
  const { supported } = tokensOf(list);
  if (!supported) refuseType("this attribute has no list of supported tokens");
  return supported.includes(token.toLowerCase());
}

export const DOMTokenList = known({
  name: "DOMTokenList",
  is: (it) => tokensOf(it) !== undefined,
  attributes: {
    length: (list) => tokensOf(list).length,
    value: {
      type: "DOMString",
      get: (list) => tokensOf(list).value,
      set: (list, text) => setAttributeOf(tokensOf(list).element, tokensOf(list).name, text),
    },
  },
  operations: {
    item: [["unsigned long"], (list, index) => tokensOf(list).at(index)],
    contains: [["DOMString"], (list, token) => tokensOf(list).tokens.includes(token)],
    add: [["...DOMString"], add],
    remove: [["...DOMString"], remove],
    toggle: [["DOMString", "any = undefined"], toggle],
    replace: [["DOMString", "DOMString"], replace],
    supports: [["DOMString"], supports],
    toString: [[], (list) => tokensOf(list).value],
  },
  finish: (realm, made) => borrow(realm, made.prototype, ["entries", "forEach", "keys", "values", Symbol.iterator]),
});

function tokenList(element, name, supported) {
  const its = (keptOf(element).tokens ??= {});
  return (its[name] ??= makeLegacy(realmOf(element), "DOMTokenList", new TokensAre(element, name, supported)));
}

/** An attribute of elements that is such a list; setting it sets the text. */
export const tokens = (name, supported) => ({
  type: "DOMString",
  get: (element) => tokenList(element, name, supported),
  set: (element, text) => setAttributeOf(element, name, text),
});

// ---- dataset.

const MOST = 1000;
const attributes = new Map();

/** The name of the attribute that stands behind a property, or null if none can. */
function attributeFor(name) {
  const found = attributes.get(name);
  if (found !== undefined) return found;
  const made = /-[a-z]/.test(name) ? null : `data-${name.replace(/[A-Z]/g, (letter) => `-${letter.toLowerCase()}`)}`;
  if (attributes.size >= MOST) attributes.clear();
  attributes.set(name, made);
  return made;
}

const nameFor = (attribute) => attribute.slice(5).replace(/-([a-z])/g, (_, letter) => letter.toUpperCase());

class DataAre {
  areNamesShown = true;
  isOverriding = true;

  constructor(element) {
    this.element = element;
    this.its = itsOf(element);
  }

  names() {
    return namesKept(this.its).map((it) => it.qualified).filter((name) => /^data-[^A-Z]*$/.test(name)).map(nameFor);
  }

  named(name) {
    const attribute = attributeFor(name);
    return attribute === null ? undefined : (valueKept(this.its, attribute) ?? undefined);
  }

  setNamed(name, value) {
    setAttributeOf(this.element, attributeFor(name) ?? refuseWord(this.element, name), `${value}`);
    return true;
  }

  deleteNamed(name) {
    removeAttributeOf(this.element, attributeFor(name));
    return true;
  }
}

/** (a trap throws to the program by itself) */
function refuseWord(element, name) {
  const { DOMException } = realmOf(element).interfaces;
  throw new DOMException(`'${name}' is not a valid name of a data attribute`, "SyntaxError");
}

export const DOMStringMap = known({ name: "DOMStringMap", is: (it) => knownOf(it, DataAre) !== undefined });

export const dataset = (element) => (keptOf(element).dataset ??= makeLegacy(realmOf(element), "DOMStringMap", new DataAre(element)));
