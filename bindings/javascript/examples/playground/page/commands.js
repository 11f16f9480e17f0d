// The commands by their groups, with their arguments, as the page was made with them; "?" marks one that may be null.
export const groups = () => globalThis.groups ?? {};

// The text of an argument until it is typed over.
const STANDS_FOR = {
  document: "0", range: "0", other: "0", static: "0", iterator: "0", walker: "0", observer: "0", offset: "0", count: "1", how: "0", show: "4294967295",
  deep: "true", to_start: "true", "force?": "null", "child?": "null", filter: "[]", options: '{"childList":true,"subtree":true}', move: '"nextNode"',
  name: '"p"', target: '"target"', public: '""', system: '""', text: '"text"', "text?": '"text"', value: '"value"',
};
const PLACE = "…";

// A line to be completed: the places that a node's number has to fill are open.
export function template(command) {
  const [name, ...given] = command.split(" ");
  const filled = given.map((it) => (isOpen(name, it) ? PLACE : STANDS_FOR[it]));
  return `[${[`"${name}"`, ...filled].join(",")}]`;
}

const isOpen = (name, argument) => !(argument in STANDS_FOR) || (argument === "other" && /^(?:contains|isEqual|comparePosition)/.test(name));

// Where the first open place of a line is, or nothing.
export function openPlace(line) {
  const at = line.indexOf(PLACE);
  return at < 0 ? undefined : [at, at + PLACE.length];
}
