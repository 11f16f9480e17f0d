/** Trees that are read at once: the rows of a node and its descendants, in tree order, by one call of the module. */
import { check, DOCTYPE, ELEMENT, native, NONE, out, TEXT, COMMENT, INSTRUCTION, TOO_LONG, Refusal, textFrom, words } from "./core.js";
import { attributeByNumber, elementByNumber } from "./names.js";
import { numberOf, sessionOf } from "./wrappers.js";

/** Reads rows one after another: the fields are those of the row that was read last. */
export class Rows {
  depth = 0;
  number = NONE;
  kind = 0;
  /** The name of an element (see names.js), or the text of a doctype's or an instruction's. */
  name = null;
  data = "";
  publicId = "";
  systemId = "";
  /** The attributes, as names and values in turn. */
  attributes = [];
  #session;
  #at;
  #end;

  constructor(node) {
    this.#session = sessionOf(node);
    check(native.rows(this.#session.index, numberOf(node)));
    this.#at = out[0] >>> 2;
    this.#end = this.#at + out[1];
  }

  #text() {
    const length = words[this.#at++];
    if (length === NONE) return "";
    const text = textFrom(4 * this.#at, length);
    if (text === TOO_LONG) throw new Refusal(TOO_LONG);
    this.#at += (length + 1) >>> 1;
    return text;
  }

  #name() {
    const number = words[this.#at++];
    if (number === NONE) return null;
    return this.kind === ELEMENT ? elementByNumber(this.#session, number) : native.nameOf(number);
  }

  #ids() {
    this.publicId = native.nameOf(words[this.#at++]);
    this.systemId = native.nameOf(words[this.#at++]);
  }

  /** Reads the next row; answers whether there was one. */
  next() {
    if (this.#at >= this.#end) return false;
    this.depth = words[this.#at];
    this.number = words[this.#at + 1];
    this.kind = words[this.#at + 2];
    const count = words[this.#at + 3];
    this.#at += 4;
    this.name = this.#name();
    this.data = this.#text();
    if (this.kind === DOCTYPE) this.#ids();
    this.#readAttributes(count);
    return true;
  }

  #readAttributes(count) {
    if (count === 0 && this.attributes.length === 0) return;
    const found = [];
    for (let each = 0; each < count; each++) {
      found.push(attributeByNumber(this.#session, words[this.#at++]), this.#text());
    }
    this.attributes = found;
  }
}

const hasData = (kind) => kind === TEXT || kind === COMMENT || kind === INSTRUCTION;

function nameSaid({ kind, name }) {
  if (kind === ELEMENT) return JSON.stringify([name.namespace, name.prefix, name.local]);
  return name;
}

function attributesSaid({ attributes }) {
  const said = [];
  for (let at = 0; at < attributes.length; at += 2) said.push(JSON.stringify([attributes[at].namespace, attributes[at].local, attributes[at + 1]]));
  return said.sort().join();
}

function saidBy(row) {
  const { kind, publicId, systemId, data } = row;
  return JSON.stringify([kind, nameSaid(row), hasData(kind) ? data : null, kind === DOCTYPE ? [publicId, systemId] : null, attributesSaid(row)]);
}

/** What the rows of a node say, without prefixes of attributes and with depths from 0 on. */
function said(node) {
  const rows = new Rows(node);
  const found = [];
  let top = -1;
  while (rows.next()) {
    if (top < 0) top = rows.depth;
    found.push(`${rows.depth - top} ${saidBy(rows)}`);
  }
  return found;
}

/** Whether two nodes are equal as the standard says it. */
export function areEqual(node, other) {
  const one = said(node);
  const two = said(other);
  return one.length === two.length && one.every((it, at) => it === two[at]);
}
