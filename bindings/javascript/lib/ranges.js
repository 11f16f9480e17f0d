/** AbstractRange, Range and StaticRange. */
import { check, FRAGMENT, lent, native, out } from "./core.js";
import { noteIdsBelow } from "./ids.js";
import { childNumbers, following } from "./nodes.js";
import { convertible, dictionary, known } from "./webidl.js";
import {
  childrenOf,
  detach,
  documentOf,
  kindOf,
  makeThing,
  numberIn,
  numberOf,
  parentOf,
  realmOf,
  seenOf,
  sessionOf,
  settle,
  thingOf,
  wrap,
  wrapMade,
  wrapNear,
} from "./wrappers.js";

/** What a range knows: its number in its session, and the containers that it was last seen with, which it holds. */
class EndsAre {
  start;
  end;

  constructor(realm, session, number) {
    this.realm = realm;
    this.session = session;
    this.number = number;
  }
}

class RangeIs extends EndsAre {
  ask() {
    check(native.hp_range(this.session.index, this.number));
  }
}

class StaticRangeIs extends EndsAre {
  ask() {
    check(native.hp_static_range(this.session.index, this.number));
  }
}

const rangeOf = (it) => thingOf(it, RangeIs);
const staticRangeOf = (it) => thingOf(it, StaticRangeIs);
const endsOf = (it) => rangeOf(it) ?? staticRangeOf(it);

/** The container of an end, and the offset: each end has two numbers of its own. */
function container(it, side) {
  const its = endsOf(it);
  its.ask();
  return (its[side] = near(its, its[side], out[side === "start" ? 0 : 2]));
}

/** The object of a number, which is often that of a container that is known. */
const near = (its, node, number) => (node ? wrapNear(node, number) : wrap(its.session, number));

function offset(it, at) {
  endsOf(it).ask();
  return out[at];
}

function collapsed(it) {
  endsOf(it).ask();
  return out[0] === out[2] && out[1] === out[3];
}

/** Has a range hold the containers of its ends. */
function hold(its, given = its.start) {
  its.ask();
  const start = out[0];
  const end = out[2];
  its.start = near(its, given, start);
  its.end = end === start ? its.start : near(its, its.end === undefined ? given : its.end, end);
}

function ranged(name, its, call, node) {
  const { realm, session } = its;
  const made = makeThing(realm, name, its);
  hold(its, node);
  session.releaseWith(call, made, its.number);
  return made;
}

const made = (realm, session, node) => ranged("Range", new RangeIs(realm, session, out[0]), "hp_release_range", node);

export function createRange(document) {
  const session = sessionOf(document);
  check(native.hp_create_range(session.index, numberOf(document)));
  return made(realmOf(document), session, document);
}

function cloneRange(range) {
  const { realm, session, number, start } = rangeOf(range);
  check(native.hp_clone_range(session.index, number));
  return made(realm, session, start);
}

/** A call that sets ends. */
const setting = (call) => (range, node, ...words) => {
  const its = rangeOf(range);
  check(native[call](its.session.index, its.number, numberIn(its.session, node), ...words));
  hold(its, node);
};

function collapse(range, toStart) {
  const its = rangeOf(range);
  check(native.hp_collapse(its.session.index, its.number, Number(toStart)));
  hold(its);
}

/** A call that answers a number. */
function asked(range, call, ...words) {
  const { session, number } = rangeOf(range);
  check(native[call](session.index, number, ...words));
  return out[0];
}

const ordered = (number) => number | 0;

function isBeside(range, node) {
  return rangeOf(range).session === sessionOf(node);
}

function commonAncestor(range) {
  const number = asked(range, "hp_common_ancestor");
  return wrap(rangeOf(range).session, number);
}

function text(range) {
  const { session, number } = rangeOf(range);
  check(native.hp_range_text(session.index, number));
  return lent(native.hp_text(session.index));
}

// ---- Contents.

/** A node and those above it, up to one that is given. */
function upTo(node, top) {
  const found = [];
  for (let it = node; it && it !== top; it = parentOf(it)) found.push(it);
  return [...found, top];
}

/**
 * Changes the contents of a range by a call, and returns the number that the call writes. Updates the wrappers of removed nodes, and of the inserted nodes
 * `come`, which have left their old parents.
 */
function within(range, come, call, ...words) {
  const its = rangeOf(range);
  const { session, number } = its;
  const ancestor = commonAncestor(range);
  // (only these can lose children: the two ends' nodes, their ancestors, and the inserted nodes)
  const parents = new Set([...upTo(container(range, "start"), ancestor), ...upTo(container(range, "end"), ancestor), ...come]);
  let answer;
  following(ancestor, parents, () => {
    check(native[call](session.index, number, ...words));
    answer = out[0];
    detachAll(come);
  });
  come.forEach(settle);
  hold(its);
  return answer;
}

/** Makes roots of nodes that have left their places, and of their wrapped children where they have any. */
function detachAll(nodes) {
  for (const it of nodes) detach([...childrenOf(it), it], documentOf(it));
}

function deleteContents(range) {
  within(range, [], "hp_delete_contents");
}

function extractContents(range) {
  const { session } = rangeOf(range);
  const number = within(range, [], "hp_extract_contents");
  noteIdsBelow(session, number);
  return wrap(session, number);
}

function cloneContents(range) {
  const { session } = rangeOf(range);
  const document = documentOf(container(range, "start"));
  const number = asked(range, "hp_clone_contents");
  noteIdsBelow(session, number);
  return wrapMade(document, number, FRAGMENT);
}

function insertNode(range, node) {
  const its = rangeOf(range);
  const come = kindOf(node) === FRAGMENT ? childrenOf(node) : [node];
  check(native.hp_insert_node(its.session.index, its.number, numberIn(its.session, node)));
  for (const it of come) detach([it], documentOf(it));
  come.forEach(settle);
  its.session.renewed();
  hold(its);
}

function surroundContents(range, parent) {
  const { session } = rangeOf(range);
  const number = numberIn(session, parent);
  const children = childNumbers(parent);
  const wrapped = childrenOf(parent);
  within(range, [parent], "hp_surround_contents", number);
  wrapped.forEach(settle);
  for (const it of children) session.leave(it);
}

const NODE = ["Node or other"];
const SET = [...NODE, "unsigned long"];

export const AbstractRange = known({
  name: "AbstractRange",
  is: (it) => endsOf(it) !== undefined,
  attributes: {
    startContainer: (it) => seenOf(container(it, "start")),
    startOffset: (it) => offset(it, 1),
    endContainer: (it) => seenOf(container(it, "end")),
    endOffset: (it) => offset(it, 3),
    collapsed,
  },
});

// The members that a static range is made of, each of them required, in the order in which they are read.
convertible("StaticRangeInit", dictionary({ endContainer: "container Node", endOffset: "unsigned long", startContainer: "container Node", startOffset: "unsigned long" }));

export const StaticRange = known({
  name: "StaticRange",
  parent: "AbstractRange",
  is: (it) => staticRangeOf(it) !== undefined,
  construct: [
    ["StaticRangeInit"],
    (realm, [endContainer, endOffset, startContainer, startOffset]) => {
      const session = sessionOf(startContainer);
      const words = [numberOf(startContainer), startOffset, numberIn(session, endContainer), endOffset];
      check(native.hp_create_static_range(session.index, ...words));
      return ranged("StaticRange", new StaticRangeIs(realm, session, out[0]), "hp_release_static_range");
    },
  ],
});

export const Range = known({
  name: "Range",
  parent: "AbstractRange",
  is: (it) => rangeOf(it) !== undefined,
  construct: [[], (realm) => createRange(realm.document)],
  constants: { START_TO_START: 0, START_TO_END: 1, END_TO_END: 2, END_TO_START: 3 },
  attributes: { commonAncestorContainer: (it) => seenOf(commonAncestor(it)) },
  operations: {
    setStart: [SET, setting("hp_set_start")],
    setEnd: [SET, setting("hp_set_end")],
    setStartBefore: [NODE, setting("hp_set_start_before")],
    setStartAfter: [NODE, setting("hp_set_start_after")],
    setEndBefore: [NODE, setting("hp_set_end_before")],
    setEndAfter: [NODE, setting("hp_set_end_after")],
    collapse: [["boolean = false"], collapse],
    selectNode: [NODE, setting("hp_select_node")],
    selectNodeContents: [NODE, setting("hp_select_node_contents")],
    compareBoundaryPoints: [
      ["unsigned short", "Range"],
      (range, how, source) => {
        const { session, number } = rangeOf(source);
        if (session !== rangeOf(range).session && how <= 3) check(native.HP_WRONG_DOCUMENT_ERROR);
        return ordered(asked(range, "hp_compare_boundary_points", how, number));
      },
    ],
    deleteContents: [[], deleteContents],
    extractContents: [[], extractContents],
    cloneContents: [[], cloneContents],
    insertNode: [["Node"], insertNode],
    surroundContents: [["Node"], surroundContents],
    cloneRange: [[], cloneRange],
    detach: [[], () => undefined],
    isPointInRange: [SET, (range, node, at) => isBeside(range, node) && asked(range, "hp_is_point_in_range", numberOf(node), at) === 1],
    comparePoint: [
      SET,
      (range, node, at) => {
        if (!isBeside(range, node)) check(native.HP_WRONG_DOCUMENT_ERROR);
        return ordered(asked(range, "hp_compare_point", numberOf(node), at));
      },
    ],
    intersectsNode: [NODE, (range, node) => isBeside(range, node) && asked(range, "hp_intersects_node", numberOf(node)) === 1],
    toString: [[], text],
  },
});
