/**
 * Compiles selectors by css-select, over the state of nodes' objects (see wrappers.js). Rules that css-select lacks, or decides by arrays of children, are
 * functions here; each goes from link to link.
 */
import { after, attributesKept, DOCUMENT, ELEMENT, hasWord, HTML, nameKnown, small, TEXT, wanted } from "../core.js";
import { pseudos } from "../pseudos.js";

/** The present question: its number, its scoping root, and the element that `:has()` looks from. */
const question = { number: 0, scope: null, anchor: null };

/** Begins a question. */
export function askFrom(scope) {
  question.scope = scope;
  question.number++;
}

const isElement = (its) => its.kind === ELEMENT;
const isHtml = (its) => nameKnown(its).namespace === HTML;

function elementBefore(its) {
  let found = its.previousSibling();
  while (found !== null && found.kind !== ELEMENT) found = found.previousSibling();
  return found;
}

function elementBehind(its) {
  let found = its.nextSibling();
  while (found !== null && found.kind !== ELEMENT) found = found.nextSibling();
  return found;
}

const adapter = { isTag: isElement, getParent: (its) => its.parent(), getName: (its) => nameKnown(its).local, prevElementSibling: elementBefore };

const compile = (list, over, own) =>
  wanted("css-select", "this selector").compile(list, { adapter: over, pseudos: own, xmlMode: true, cacheResults: false, relativeSelector: false });

/** Returns a test for any of some complex selectors (see reading.js). */
export function testOf(list, mode) {
  const rules = new Rules(mode);
  return compile(list.map((it) => rules.of(it)), adapter, rules.own);
}

// ---- Attributes. css-select compares their values.

const values = { isTag: () => true, getAttributeValue: (value) => value, hasAttrib: () => true };

/** Attributes of HTML whose values are compared without regard to capitals (HTML Standard, section 4.16.2). */
const WITHOUT_CAPITALS = new Set(
  `accept accept-charset align alink axis bgcolor charset checked clear codetype color compact declare defer dir direction disabled enctype face frame
  hreflang http-equiv lang language link media method multiple nohref noresize noshade nowrap readonly rel rev rules scope scrolling selected shape target
  text type valign valuetype vlink`.split(/\s+/),
);

function valueTest(action, value) {
  // (css-select takes more for white space than HTML does)
  if (action === "element") return (its) => hasWord(its, value);
  return compile([[{ type: "attribute", name: "", action, value, namespace: null, ignoreCase: false }]], values);
}

function attributeTest({ name, action, value, namespace, ignoreCase }, mode) {
  const lowered = small(name);
  const [fits, fitsLoosely] = [valueTest(action, value), valueTest(action, small(value))];
  return (its) => {
    const isOfHtml = mode.isHtml && isHtml(its);
    const isLoose = ignoreCase ?? (isOfHtml && WITHOUT_CAPITALS.has(lowered));
    const known = attributesKept(its);
    for (let at = 0; at < known.length; at += 2) {
      const { local, namespace: own } = known[at];
      if (local !== (isOfHtml ? lowered : name) || (own !== null && namespace !== "*")) continue;
      if (isLoose ? fitsLoosely(small(known[at + 1])) : fits(known[at + 1])) return true;
    }
    return false;
  };
}

/** Returns the value of an attribute of no namespace, or undefined. */
function valueOf(its, name) {
  const known = attributesKept(its);
  for (let at = 0; at < known.length; at += 2) if (known[at].core === name) return known[at + 1];
  return undefined;
}

/** Returns a test for an id or a class, in a quirky Document without regard to capitals. */
function wordTest({ name, value }, { isQuirky }) {
  const read = isQuirky ? (its) => small(valueOf(its, name) ?? "") : (its) => valueOf(its, name);
  const word = isQuirky ? small(value) : value;
  return name === "id" ? (its) => read(its) === word : (its) => hasWord(read(its), word);
}

/** Returns a test for a local name: in a Document of HTML, capitals count for elements of other namespaces alone. */
function nameTest({ name }, mode) {
  const lowered = mode.isHtml ? small(name) : name;
  return lowered === name ? (its) => nameKnown(its).local === name : (its) => nameKnown(its).local === (isHtml(its) ? lowered : name);
}

/** Returns a test for a name, an id or a class alone, which needs no library. */
export const plainTest = (rule, mode) => (rule.type === "tag" ? nameTest : wordTest)(rule, mode);

// ---- Siblings.

/** Returns the place of an element and of each beside it in its group, and the count of each group; the group false is left out. */
function placesOf(its, groupOf) {
  const counts = new Map();
  const places = new Map();
  let first = its;
  for (let it = its; it !== null; it = elementBefore(it)) first = it;
  for (let it = first; it !== null; it = elementBehind(it)) {
    const group = groupOf(it);
    if (group !== false) counts.set(group, (counts.get(group) ?? 0) + 1);
    places.set(it, counts.get(group));
  }
  return { counts, places, number: question.number };
}

const typeOf = (its) => `${nameKnown(its).namespace} ${nameKnown(its).local}`;

function nthTest({ name, numbers, of }, mode) {
  const isPlace = wanted("nth-check", "this selector").default(numbers);
  const groupOf = name.endsWith("type") ? typeOf : of ? testOf(of, mode) : isElement;
  let known = { number: -1 };
  return (its) => {
    const group = groupOf(its);
    if (group === false) return false;
    if (known.number !== question.number || !known.places.has(its)) known = placesOf(its, groupOf);
    const place = known.places.get(its);
    return isPlace(name.includes("last") ? known.counts.get(group) - place : place - 1);
  };
}

function isAloneOfType(its, ...ways) {
  const type = typeOf(its);
  for (const way of ways) for (let it = way(its); it !== null; it = way(it)) if (typeOf(it) === type) return false;
  return true;
}

/** Returns a test for elements that have one ahead which fits. */
function behindTest(list, mode) {
  const test = testOf(list, mode);
  return (its) => {
    for (let it = elementBefore(its); it !== null; it = elementBefore(it)) if (test(it)) return true;
    return false;
  };
}

// ---- `:has()`.

function isFoundBelow(its, test) {
  for (let it = after(its, its); it !== null; it = after(it, its)) if (isElement(it) && test(it)) return true;
  return false;
}

function isFoundBehind(its, test) {
  for (let it = elementBehind(its); it !== null; it = elementBehind(it)) if (test(it) || isFoundBelow(it, test)) return true;
  return false;
}

function hasTest({ list }, mode) {
  const finders = list.map((rules) => [/adjacent|sibling/.test(rules[1].type) ? isFoundBehind : isFoundBelow, testOf([rules], mode)]);
  return (its) => {
    const { anchor } = question;
    question.anchor = its;
    const isFound = finders.some(([find, test]) => find(its, test));
    question.anchor = anchor;
    return isFound;
  };
}

// ---- The rules of a list as css-select takes them.

function isEmpty(its) {
  for (let it = its.firstChild(); it !== null; it = it.nextSibling()) if (isElement(it) || (it.kind === TEXT && it.object.length > 0)) return false;
  return true;
}

const PLACES = {
  anchor: (its) => its === question.anchor,
  root: (its) => its.parent()?.kind === DOCUMENT,
  scope: (its) => its === question.scope || (question.scope.kind === DOCUMENT && its.parent() === question.scope),
  empty: isEmpty,
  "first-child": (its) => elementBefore(its) === null,
  "last-child": (its) => elementBehind(its) === null,
  "only-child": (its) => elementBefore(its) === null && elementBehind(its) === null,
  "first-of-type": (its) => isAloneOfType(its, elementBefore),
  "last-of-type": (its) => isAloneOfType(its, elementBehind),
  "only-of-type": (its) => isAloneOfType(its, elementBefore, elementBehind),
};

const isBare = (its) => nameKnown(its).namespace === null;

function stateTest({ name, data }, mode) {
  if (name === "has") return hasTest(data, mode);
  if (name.startsWith("nth-")) return nthTest(data, mode);
  const test = pseudos[name];
  return PLACES[name] ?? (test ? (its) => test(its.object, data) : () => false);
}

class Rules {
  own = {};

  constructor(mode) {
    this.mode = mode;
  }

  /** Returns a rule whose test is a function. */
  rule(test) {
    const name = `-${Object.keys(this.own).length}`;
    this.own[name] = test;
    return { type: "pseudo", name, data: null };
  }

  /** Returns the rules of a complex selector. */
  of(rules) {
    const at = rules.findLastIndex((it) => it.type === "sibling");
    const ahead = at < 0 ? [] : [this.rule(behindTest([rules.slice(0, at)], this.mode))];
    return [...ahead, ...rules.slice(at + 1).flatMap((it) => this.#each(it))];
  }

  #each(rule) {
    const { type, namespace, data } = rule;
    if (type === "attribute") return this.rule((rule.ignoreCase === "quirks" ? wordTest : attributeTest)(rule, this.mode));
    if (type === "pseudo") return Array.isArray(data) ? { ...rule, data: data.map((it) => this.of(it)) } : this.rule(stateTest(rule, this.mode));
    if (type !== "tag" && type !== "universal") return rule;
    const named = type === "tag" && small(rule.name) !== rule.name ? this.rule(nameTest(rule, this.mode)) : { ...rule, namespace: null };
    return namespace === "" ? [this.rule(isBare), named] : named;
  }
}
