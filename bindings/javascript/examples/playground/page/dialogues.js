// The dialogues that the page was made with, and how lines are cut.

const NEWLINE = 10;

// The lines of some bytes: a last piece that is not empty is a line too.
export function linesOf(bytes) {
  const lines = [];
  let rest = bytes;
  for (let end = rest.indexOf(NEWLINE); end >= 0; end = rest.indexOf(NEWLINE)) {
    lines.push(rest.subarray(0, end));
    rest = rest.subarray(end + 1);
  }
  return rest.length ? [...lines, rest] : lines;
}

const bytesOf = (text) => Uint8Array.from(atob(text), (it) => it.charCodeAt(0));

// Their names, by their subjects.
export const names = () => Object.keys(globalThis.dialogues ?? {});

// A dialogue by its name: its lines and the options of its session.
export function dialogue(name) {
  const found = globalThis.dialogues?.[name];
  if (!found) throw new Error(`there is no dialogue ${name}`);
  return { lines: linesOf(bytesOf(found.lines)), options: found.options };
}
