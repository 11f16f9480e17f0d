// The token text of a tree, as docs/definitions.md tells it: each node opens, has its children or units, and closes; the ends of live ranges are markers
// in the gaps between. It is drawn of the rows of a tree and the ends of ranges, which are replies of the core.

const SIGNS = {
  3: () => ['"', '"'],
  7: (name) => [`<?${name} `, "?>"],
  8: () => ["<!--", "-->"],
  10: (name) => [`<!DOCTYPE ${name}>`, ""],
};
const WITH_DATA = new Set([3, 7, 8]);
const ESCAPED = new Set('\\"[]');

const unitsOf = (data) => (typeof data === "string" ? Array.from({ length: data.length }, (_, at) => data.charCodeAt(at)) : data);

function letter(unit) {
  const it = String.fromCharCode(unit);
  if (ESCAPED.has(it)) return `\\${it}`;
  const isPlain = (unit >= 0x20 && unit < 0x7f) || (unit >= 0xa0 && unit < 0xd800) || unit >= 0xe000;
  return isPlain ? it : `\\u${unit.toString(16).padStart(4, "0")}`;
}

// The tokens without markers: what each is, how it is shown, and its node or unit.
function* unmarked(rows) {
  const closes = [];
  for (const [depth, node, kind, name, data] of rows) {
    while (closes.length > depth) yield closes.pop();
    const [open, close] = SIGNS[kind]?.(name) ?? [`<${name}>`, `</${name}>`];
    yield { what: "open", shown: open, node };
    closes.push({ what: "close", shown: close, node });
    if (WITH_DATA.has(kind)) yield* unitsOf(data).map((unit) => ({ what: "unit", shown: letter(unit), unit }));
  }
  yield* closes.reverse();
}

// The markers of the gap at a point: by the numbers of their ranges, and of one range the start first.
function markersAt(ranges, node, offset) {
  const is = (at, its) => at === node && its === offset;
  return ranges.flatMap(([range, [startNode, start, endNode, end]]) => [
    ...(is(startNode, start) ? [{ what: "mark", shown: `[${range}`, range }] : []),
    ...(is(endNode, end) ? [{ what: "mark", shown: `]${range}`, range }] : []),
  ]);
}

// Two units that make one character, with nothing between them, are one token.
function joined(tokens) {
  const found = [];
  for (const token of tokens) {
    const before = found.at(-1);
    const isPair = token.what === "unit" && before?.what === "unit" && before.unit >> 10 === 0x36 && token.unit >> 10 === 0x37;
    if (isPair) found[found.length - 1] = { what: "unit", shown: String.fromCharCode(before.unit, token.unit), unit: 0 };
    else found.push(token);
  }
  return found;
}

// The token text of a tree, of its rows and of the ends of ranges by their numbers.
export function tokenText(rows, ranges) {
  const found = [];
  const here = [];
  for (const token of unmarked(rows)) {
    if (here.length) found.push(...markersAt(ranges, ...here.at(-1)));
    found.push(token);
    if (token.what === "close") here.pop();
    if (token.what === "open") here.push([token.node, 0]);
    else if (here.length) here.at(-1)[1]++;
  }
  return joined(found);
}
