/**
 * The module: the core as WebAssembly, loaded once and at once, and called with strings.
 *
 * In node it is read from out/huckleport.wasm, which bindings/javascript/make.py puts there; the variable HUCKLEPORT_MODULE names another file. In a page
 * the package's entry brings it along (inline.js). A global `huckleportModule`, set before this is imported, has the bytes or the compiled module instead.
 */
import { callsOver, NUMBERS } from "../out/calls.js";
import { builtin, here, isInNode } from "./host.js";
import { inline } from "./source.js";

function bytesInNode() {
  const place = globalThis.process.env.HUCKLEPORT_MODULE ?? new URL("../out/huckleport.wasm", here);
  try {
    return builtin("node:fs").readFileSync(place);
  } catch (cause) {
    throw new Error(`the module of huckleport could not be loaded from ${place}; python3 make.py in the package's folder builds it`, { cause });
  }
}

function bytesOf(base64) {
  if (Uint8Array.fromBase64) return Uint8Array.fromBase64(base64);
  const text = atob(base64);
  const bytes = new Uint8Array(text.length);
  for (let at = 0; at < text.length; at++) bytes[at] = text.charCodeAt(at);
  return bytes;
}

function bytes() {
  if (globalThis.huckleportModule) return globalThis.huckleportModule;
  if (inline.base64) return bytesOf(inline.base64);
  if (isInNode) return bytesInNode();
  throw new Error("the module of huckleport is not here: import lib/web.js, or set the global huckleportModule to its bytes before");
}

function compiled() {
  const given = bytes();
  return given instanceof WebAssembly.Module ? given : new WebAssembly.Module(given);
}

/** The numbers that a call writes: its one answer first, or the members of its struct in their order. */
export let out;
/** The memory of the module as words of 32 bits. */
export let words;
let octets, units, buffer;

const { exports: module } = new WebAssembly.Instance(compiled(), { env: { grown: see } });
const numbersAt = module.numbers() >>> 2;
const NUMBERS_SHOWN = 16;
see();

/** Makes the views of the memory anew, which are empty once it has grown. */
function see() {
  const memory = module.memory.buffer;
  octets = new Uint8Array(memory);
  units = new Uint16Array(memory);
  words = new Uint32Array(memory);
  out = words.subarray(numbersAt, numbersAt + NUMBERS_SHOWN);
  buffer = globalThis.Buffer?.from(memory);
}

// ---- Texts out: short ones unit by unit; longer ones by node's buffers, or by pieces.

/** A call comes while another is under way, or after one that did not end. */
export const STUCK = 255;
/** A text is longer than a string can be. */
export const TOO_LONG = 254;
const LONGEST = 2 ** 29 - 24;
const SHORT = 64;
const PIECE = 8192;
const one = String.fromCharCode;

function shortText(from, length) {
  let text = "";
  let at = from;
  for (const end = from + length - 7; at < end; at += 8) {
    text += one(units[at], units[at + 1], units[at + 2], units[at + 3], units[at + 4], units[at + 5], units[at + 6], units[at + 7]);
  }
  for (const end = from + length; at < end; at++) text += one(units[at]);
  return text;
}

function longText(from, length) {
  if (buffer) return buffer.toString("utf16le", 2 * from, 2 * (from + length));
  const pieces = [];
  for (let at = from; at < from + length; at += PIECE) pieces.push(one.apply(null, units.subarray(at, Math.min(at + PIECE, from + length))));
  return pieces.join("");
}

/** Returns the text of `length` units at an address, or TOO_LONG. */
export function textFrom(place, length) {
  if (length <= SHORT) return shortText(place >>> 1, length);
  return length > LONGEST ? TOO_LONG : longText(place >>> 1, length);
}

const textAt = () => textFrom(out[0], out[1]);

// ---- Names and lines, which are UTF-8.

const decoder = new TextDecoder("utf-8", { ignoreBOM: true });
const encoder = new TextEncoder();
const SHORT_NAME = 32;

function ascii(from, length) {
  let text = "";
  for (let at = from; at < from + length; at++) {
    if (octets[at] > 127) return undefined;
    text += one(octets[at]);
  }
  return text;
}

function bytesAt() {
  const place = out[0];
  const length = out[1];
  return (length <= SHORT_NAME ? ascii(place, length) : undefined) ?? decoder.decode(octets.subarray(place, place + length));
}

// ---- Arguments: the caller reserves room for all of them, and then writes one after another.

const LARGE = 1048576;
let room = 0;
let roomSize = 0;

/** Returns the address of a buffer of at least `size` bytes, or 0 if out of memory. */
function reserve(size) {
  if (size <= roomSize && (roomSize <= LARGE || size > LARGE)) return room;
  room = size > 4294967295 ? 0 : module.room(size) >>> 0;
  roomSize = room === 0 ? 0 : out[0];
  return room;
}

function putText(place, text) {
  const { length } = text;
  if (length > SHORT && buffer) return buffer.write(text, place, "utf16le") / 2;
  for (let at = place >>> 1, from = 0; from < length; at++, from++) units[at] = text.charCodeAt(from);
  return length;
}

/** Writes a name; a surrogate that stands alone becomes U+FFFD. */
function putName(place, name) {
  const { length } = name;
  for (let from = 0; from < length; from++) {
    const unit = name.charCodeAt(from);
    if (unit > 127) return encoder.encodeInto(name, octets.subarray(place)).written;
    octets[place + from] = unit;
  }
  return length;
}

function putOctets(place, bytes) {
  octets.set(bytes, place);
  return bytes.length;
}

function putNumbers(place, numbers) {
  words.set(numbers, place >>> 2);
  return numbers.length;
}

const calls = callsOver(module, { reserve, putName, putText, putOctets, putNumbers, bytesAt, textAt });

// ---- The module's own calls: each makes several calls of the library in one.

const lentBy = (call) => (session, ...given) => {
  const status = call(session, ...given);
  return status === 0 ? textAt() : status;
};

/** Returns the module's number of a name, which stays the same; HP_NONE if out of memory. */
function nameNumber(name) {
  const place = reserve(3 * name.length + 8);
  return place === 0 ? NUMBERS.HP_NONE : module.name_number(place, putName(place, name)) >>> 0;
}

/** The name of a number. */
function nameOf(number) {
  module.name_bytes(number);
  return bytesAt();
}

const own = {
  open: module.open,
  close: module.close,
  step: module.step,
  listed: module.listed,
  children: module.children,
  elementChildren: module.element_children,
  rows: module.rows,
  elements: module.elements,
  holders: module.holders,
  attributes: module.attributes,
  nodesFrom: module.nodes_from,
  iterate: module.iterate,
  records: module.records,
  element: module.element,
  nodeName: module.node_name,
  nameNumber,
  nameOf,
  value(session, element, number) {
    const status = module.value(session, element, number);
    return status === 0 ? textAt() : status;
  },
  setValue(session, element, number, text) {
    const place = reserve(2 * text.length + 8);
    return place === 0 ? NUMBERS.HP_OUT_OF_MEMORY : module.set_value(session, element, number, place, putText(place, text));
  },
  html: module.html,
  /** Tells how a name is written as HTML (see html.h of the module). */
  tellForm(number, kind, marks, start, end) {
    const place = reserve(2 * (start.length + end.length) + 16);
    if (place === 0) return NUMBERS.HP_OUT_OF_MEMORY;
    putText(place + 2 * putText(place, start), end);
    return module.tell_form(number, kind, marks, place, start.length, end.length);
  },
  data: lentBy(module.data),
  content: lentBy(module.content),
  /** The bytes that the core and the glue hold. */
  held: () => module.held() >>> 0,
  /** The bytes of memory that there are, and that there may be at most: 0 for as many as the module can have. */
  size: () => octets.length,
  /** Grows the memory until `size` bytes are free in one piece; returns whether it could. */
  reserve(size) {
    const isThere = reserve(size) !== 0;
    if (size > LARGE) reserve(SHORT_NAME);
    return isThere;
  },
  bound: module.bound,
};

// ---- A function that waits for a change of a tree.

/** Calls that may change the structure of a tree, or that free objects of a session. */
const MOVING = `hp_line hp_insert_before hp_append_child hp_adopt_node hp_replace_child hp_remove_child hp_remove hp_replace_children hp_normalize
  hp_set_text_content hp_discard hp_split_text hp_delete_contents hp_extract_contents hp_insert_node hp_surround_contents hp_release_iterator
  hp_next_node hp_previous_node close`.split(/\s+/);

let waiting = null;

/** Has something be done before the next call that may change a tree; what waited before is done now. */
export function beforeChange(does) {
  if (waiting !== null) doNow();
  waiting = does;
}

function doNow() {
  const does = waiting;
  waiting = null;
  does();
}

const guarded = (call) => (one, two, three, four, five) => {
  if (waiting !== null) doNow();
  return call(one, two, three, four, five);
};

const all = { ...calls, ...NUMBERS, ...own };

export const native = { ...all, ...Object.fromEntries(MOVING.filter((name) => name in all).map((name) => [name, guarded(all[name])])) };

/** Whether the library has a call of that name. */
export const has = (call) => typeof native[call] === "function";
