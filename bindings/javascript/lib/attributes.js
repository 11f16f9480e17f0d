/**
 * The attributes of elements as their objects keep them: names and values in turn, in their order, read by one call when they are first asked for. They
 * follow each change; a line has them read anew. Also words in such values.
 */
import { check, native, out, textFrom, TOO_LONG, Refusal, words } from "./core.js";
import { attributeByNumber } from "./names.js";

const NONE_THERE = [];
/** A list of fewer names and values is copied when an attribute is added, since a list that grows in place reserves more than it needs. */
const FEW = 16;

function readText(at, length) {
  const text = textFrom(4 * at, length);
  if (text === TOO_LONG) throw new Refusal(TOO_LONG);
  return text;
}

function readAttributes(its) {
  const { session } = its;
  check(native.attributes(session.index, its.number));
  const from = out[0] >>> 2;
  const count = words[from];
  if (count === 0) return NONE_THERE;
  const numbers = Array.from(words.subarray(from + 1, from + 1 + count));
  const found = [];
  let at = from + 1 + count;
  for (let each = 0; each < count; each++) {
    const length = words[at];
    found.push(numbers[each], readText(at + 1, length));
    at += 1 + ((length + 1) >>> 1);
  }
  // (a name that is met for the first time is asked for by a call of its own)
  for (let each = 0; each < found.length; each += 2) found[each] = attributeByNumber(session, found[each]);
  return found;
}

/** The names (see names.js) and the values of an element's attributes, in turn. */
export const attributesKept = (its) => its.values ?? (its.values = readAttributes(its));

/** Keeps that a new element has none; what it is given from then on is kept. */
export const keepNone = (its) => void (its.values = NONE_THERE);

const placeOf = (known, name) => {
  for (let at = 0; at < known.length; at += 2) if (known[at].number === name.number) return at;
  return -1;
};

/** Keeps that an attribute was set. */
export function keepSet(its, name, value) {
  const known = its.values;
  if (known === null) return;
  const at = placeOf(known, name);
  if (at >= 0) known[at + 1] = value;
  else if (known.length < FEW) its.values = [...known, name, value];
  else known.push(name, value);
}

/** Keeps that an attribute is gone. */
export function keepRemoved(its, name) {
  const at = its.values === null ? -1 : placeOf(its.values, name);
  if (at >= 0) its.values.splice(at, 2);
}

/** The value of the first attribute of a qualified name, or null. */
export function valueKept(its, qualified) {
  const known = attributesKept(its);
  for (let at = 0; at < known.length; at += 2) if (known[at].qualified === qualified) return known[at + 1];
  return null;
}

/** The value of an attribute by a name of the core, or null. */
export function valueOfName(its, name) {
  const known = attributesKept(its);
  const at = placeOf(known, name);
  return at < 0 ? null : known[at + 1];
}

/** The names of all attributes. */
export function namesKept(its) {
  const known = attributesKept(its);
  const found = [];
  for (let at = 0; at < known.length; at += 2) found.push(known[at]);
  return found;
}

// ---- Words in a value, with white space between them.

const isSpace = (unit) => unit === 32 || (unit >= 9 && unit <= 13 && unit !== 11);

export const isBlank = (text) => /[\t\n\f\r ]/.test(text);

/** Whether a text has a word; undefined has none. */
export function hasWord(text, word) {
  if (text === undefined || word === "") return false;
  if (text === word) return !isBlank(word);
  for (let at = text.indexOf(word); at >= 0; at = text.indexOf(word, at + 1)) {
    const end = at + word.length;
    if ((at === 0 || isSpace(text.charCodeAt(at - 1))) && (end === text.length || isSpace(text.charCodeAt(end)))) return true;
  }
  return false;
}

const MOST = 1000;
const split = new Map();

/** The words of a text, each once, in a list that is not to be changed. */
export function wordsKept(text) {
  const known = split.get(text);
  if (known !== undefined) return known;
  const found = [...new Set(text.split(/[\t\n\f\r ]+/).filter(Boolean))];
  if (split.size >= MOST) split.clear();
  if (text.length < MOST) split.set(text, found);
  return found;
}
