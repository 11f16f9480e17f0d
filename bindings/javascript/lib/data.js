/** CharacterData, Text, Comment and ProcessingInstruction. */
import { check, COMMENT, INSTRUCTION, lent, native, out, TEXT } from "./core.js";
import { childNode, createComment, createText, dataChanged, dataOf, hasData, namePart, nextOf, parentOf, previousOf, quickText, setData, siblings } from "./nodes.js";
import { known } from "./webidl.js";
import { arrived, documentOf, isNode, kindOf, numberOf, sessionOf, wrapChild, wrapMade } from "./wrappers.js";

/** A call that changes the data of a node. */
const changing = (call) => (node, ...words) => {
  const session = sessionOf(node);
  check(native[call](session.index, numberOf(node), ...words));
  dataChanged(node);
  session.changed();
};

function length(node) {
  check(native.hp_length(sessionOf(node).index, numberOf(node)));
  return out[0];
}

function substringData(node, offset, count) {
  const { index } = sessionOf(node);
  check(native.hp_substring_data(index, numberOf(node), offset, count));
  return lent(native.hp_text(index));
}

const OFFSET = "unsigned long";

export const CharacterData = known({
  name: "CharacterData",
  parent: "Node",
  is: (it) => isNode(it) && hasData(it),
  attributes: {
    data: { type: "DOMString or empty", get: dataOf, quick: quickText, set: setData },
    length,
    ...siblings,
  },
  operations: {
    substringData: [[OFFSET, OFFSET], substringData],
    appendData: [["DOMString"], changing("hp_append_data")],
    insertData: [[OFFSET, "DOMString"], changing("hp_insert_data")],
    deleteData: [[OFFSET, OFFSET], changing("hp_delete_data")],
    replaceData: [[OFFSET, OFFSET, "DOMString"], changing("hp_replace_data")],
    ...childNode.operations,
  },
  hidden: childNode.hidden,
});

const isText = (it) => isNode(it) && kindOf(it) === TEXT;

function splitText(text, offset) {
  const session = sessionOf(text);
  const parent = parentOf(text);
  const next = parent && nextOf(text);
  check(native.hp_split_text(session.index, numberOf(text), offset));
  const number = out[0];
  dataChanged(text);
  const rest = parent ? wrapChild(parent, number) : wrapMade(documentOf(text), number, TEXT);
  if (parent) arrived(rest, parent, next);
  session.movedTexts();
  return rest;
}

/** The data of a Text and of the Texts right beside it. */
function wholeText(text) {
  let first = text;
  for (let it = previousOf(text); it && isText(it); it = previousOf(it)) first = it;
  let whole = "";
  for (let it = first; it && isText(it); it = nextOf(it)) whole += dataOf(it);
  return whole;
}

/** `new Text()` and `new Comment()` make a node of the window's Document. */
const constructed = (make) => [['DOMString = ""'], (realm, data) => make(realm.document, data)];

export const Text = known({
  name: "Text",
  parent: "CharacterData",
  is: isText,
  construct: constructed(createText),
  attributes: { wholeText },
  operations: { splitText: [[OFFSET], splitText] },
});

export const Comment = known({
  name: "Comment",
  parent: "CharacterData",
  is: (it) => isNode(it) && kindOf(it) === COMMENT,
  construct: constructed(createComment),
});

export const ProcessingInstruction = known({
  name: "ProcessingInstruction",
  parent: "CharacterData",
  is: (it) => isNode(it) && kindOf(it) === INSTRUCTION,
  attributes: { target: (node) => namePart(node, 0) },
});
