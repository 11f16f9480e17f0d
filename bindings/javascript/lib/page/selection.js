/** Selection (Selection API): it stands on one live range of the core's, which moves with the edits. */
import { known, makeThing, pageOf, realmOf, refuse, thingOf } from "./core.js";
import { createOwn } from "./events.js";
import { dispatch } from "./targets.js";

const FORWARD = "forward";
const BACKWARD = "backward";

const lengthOf = (node) => (node.nodeType === 10 ? 0 : (node.length ?? node.childNodes.length));

class SelectionIs {
  range = null;
  isBackward = false;
  #isTelling = false;

  constructor(document) {
    this.document = document;
  }

  /** The range, where it stands in the Document. */
  get here() {
    const { range, document } = this;
    return range !== null && range.startContainer.getRootNode() === document ? range : null;
  }

  select(range, isBackward = false) {
    this.range = range;
    this.isBackward = isBackward;
    this.tell();
  }

  /** Has the Document told, later and once, that the selection has changed. */
  tell() {
    if (this.#isTelling) return;
    this.#isTelling = true;
    setTimeout(() => {
      this.#isTelling = false;
      dispatch(this.document, createOwn(realmOf(this.document), "Event", "selectionchange"));
    }).unref?.();
  }
}

const selectionOf = (it) => thingOf(it, SelectionIs);

/** The end of the range from which a selection was made, or to which. */
function end(name, isAnchor) {
  return (selection) => {
    const { here, isBackward } = selectionOf(selection);
    if (!here) return name === "Container" ? null : 0;
    return here[`${isAnchor === isBackward ? "end" : "start"}${name}`];
  };
}

const hasPlace = (its, node) => node.getRootNode() === its.document;

function checkOffset(node, offset) {
  if (node.nodeType === 10) refuse("InvalidNodeTypeError", "the selection cannot start or end in a doctype");
  if (offset > lengthOf(node)) refuse("IndexSizeError", `the offset ${offset} is greater than the length ${lengthOf(node)}`);
}

function rangeAt(its, node, offset) {
  const range = its.document.createRange();
  range.setStart(node, offset);
  range.collapse(true);
  return range;
}

function collapse(selection, node, offset) {
  const its = selectionOf(selection);
  if (node === null) return its.select(null);
  checkOffset(node, offset);
  if (hasPlace(its, node)) its.select(rangeAt(its, node, offset));
}

function setBaseAndExtent(selection, anchor, anchorOffset, focus, focusOffset) {
  const its = selectionOf(selection);
  checkOffset(anchor, anchorOffset);
  checkOffset(focus, focusOffset);
  if (hasPlace(its, anchor) && hasPlace(its, focus)) between(its, anchor, anchorOffset, focus, focusOffset);
}

/** Selects between two places: backward where the second comes first. */
function between(its, anchor, anchorOffset, focus, focusOffset) {
  const range = rangeAt(its, anchor, anchorOffset);
  const isBackward = range.comparePoint(focus, focusOffset) < 0;
  if (isBackward) range.setStart(focus, focusOffset);
  else range.setEnd(focus, focusOffset);
  its.select(range, isBackward);
}

function extend(selection, node, offset) {
  const its = selectionOf(selection);
  if (!hasPlace(its, node)) return;
  if (!its.here) refuse("InvalidStateError", "nothing is selected");
  checkOffset(node, offset);
  between(its, selection.anchorNode, selection.anchorOffset, node, offset);
}

function collapseTo(atStart) {
  return (selection) => {
    const its = selectionOf(selection);
    if (!its.here) refuse("InvalidStateError", "nothing is selected");
    const range = its.here.cloneRange();
    range.collapse(atStart);
    its.select(range);
  };
}

function addRange(selection, range) {
  const its = selectionOf(selection);
  if (its.range === null && hasPlace(its, range.startContainer)) its.select(range);
}

function removeRange(selection, range) {
  const its = selectionOf(selection);
  if (its.range !== range) refuse("NotFoundError", "the range is not the selection's");
  its.select(null);
}

function getRangeAt(selection, index) {
  const { here } = selectionOf(selection);
  if (index !== 0 || !here) refuse("IndexSizeError", `there is no range ${index}: ${here ? "only 0" : "nothing is selected"}`);
  return here;
}

function selectAllChildren(selection, node) {
  const its = selectionOf(selection);
  if (node.nodeType === 10) refuse("InvalidNodeTypeError", "a doctype has no children to select");
  if (hasPlace(its, node)) between(its, node, 0, node, node.childNodes.length);
}

function containsNode(selection, node, isPartial) {
  const { here } = selectionOf(selection);
  if (!here || node.getRootNode() !== here.startContainer.getRootNode()) return false;
  const of = here.cloneRange();
  of.selectNode(node);
  const [START_TO_START, START_TO_END, END_TO_END, END_TO_START] = [0, 1, 2, 3];
  if (isPartial) return here.compareBoundaryPoints(START_TO_END, of) >= 0 && here.compareBoundaryPoints(END_TO_START, of) <= 0;
  return here.compareBoundaryPoints(START_TO_START, of) <= 0 && here.compareBoundaryPoints(END_TO_END, of) >= 0;
}

function type(selection) {
  const { here } = selectionOf(selection);
  if (!here) return "None";
  return here.collapsed ? "Caret" : "Range";
}

function direction(selection) {
  const { here, isBackward } = selectionOf(selection);
  if (!here || here.collapsed) return "none";
  return isBackward ? BACKWARD : FORWARD;
}

const removeAll = [[], (selection) => selectionOf(selection).select(null)];
const collapsing = [["Node?", "unsigned long = 0"], collapse];

export const Selection = known({
  name: "Selection",
  is: (it) => selectionOf(it) !== undefined,
  attributes: {
    anchorNode: end("Container", true),
    anchorOffset: end("Offset", true),
    focusNode: end("Container", false),
    focusOffset: end("Offset", false),
    isCollapsed: (selection) => selectionOf(selection).here?.collapsed ?? true,
    rangeCount: (selection) => Number(selectionOf(selection).here !== null),
    type,
    direction,
  },
  operations: {
    getRangeAt: [["unsigned long"], getRangeAt],
    addRange: [["Range"], addRange],
    removeRange: [["Range"], removeRange],
    removeAllRanges: removeAll,
    empty: removeAll,
    collapse: collapsing,
    setPosition: collapsing,
    collapseToStart: [[], collapseTo(true)],
    collapseToEnd: [[], collapseTo(false)],
    extend: [["Node", "unsigned long = 0"], extend],
    setBaseAndExtent: [["Node", "unsigned long", "Node", "unsigned long"], setBaseAndExtent],
    selectAllChildren: [["Node"], selectAllChildren],
    deleteFromDocument: [[], (selection) => selectionOf(selection).here?.deleteContents()],
    containsNode: [["Node", "boolean = false"], containsNode],
    toString: [[], (selection) => selectionOf(selection).here?.toString() ?? ""],
  },
});

/** The selection of a window's Document; other Documents have none. */
export function getSelection(document) {
  const page = pageOf(document);
  if (page?.document !== document) return null;
  return (page.selection ??= makeThing(realmOf(document), "Selection", new SelectionIs(document)));
}
