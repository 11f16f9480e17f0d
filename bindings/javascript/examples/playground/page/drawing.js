// Draws what a step left: trees, token texts, records, and what else stands in the session.

export function element(name, className, ...children) {
  const it = document.createElement(name);
  if (className) it.className = className;
  it.append(...children);
  return it;
}

const COLOURS = 5;
const isUnits = (data) => Array.isArray(data);
const quoted = (data) => (isUnits(data) ? `[${data.map((unit) => unit.toString(16).padStart(4, "0")).join(" ")}]` : JSON.stringify(data));

// How a row of a tree is written.
function written([, , kind, name, ...rest]) {
  if (kind === 1) return [element("b", "", name), ...rest[0].map(([its, value]) => element("span", "attribute", ` ${its}=${quoted(value)}`))];
  if (kind === 3) return [element("span", "data", quoted(rest[0]))];
  if (kind === 8) return [element("span", "comment", `<!-- ${quoted(rest[0])} -->`)];
  if (kind === 7) return [element("span", "comment", `<?${name} ${quoted(rest[0])} ?>`)];
  if (kind === 10) return [element("span", "comment", `<!DOCTYPE ${name}> ${rest.filter(Boolean).map(quoted).join(" ")}`)];
  return [element("i", "", name)];
}

function rowOf(row, isNew) {
  const [depth, node] = row;
  const number = element("button", "number", String(node));
  number.type = "button";
  number.title = `node ${node}: fills the next open place of the command`;
  number.dataset.node = node;
  const it = element("li", isNew ? "row new" : "row", number, ...written(row));
  it.style.setProperty("--depth", depth);
  return it;
}

const keysOf = (step) => new Set(step ? step.trees.flatMap(({ root, rows }) => rows.map((row) => `${root} ${JSON.stringify(row)}`)) : []);

// Draws the trees. Rows that differ from those of the step before are marked.
export function trees(step, before) {
  if (step.isSilent) return [element("p", "none", "The lines of this session may not be as long as a question, so its content can't be asked for.")];
  const known = keysOf(before);
  return step.trees.map(({ root, rows }) => {
    const isNew = (row) => Boolean(before) && !known.has(`${root} ${JSON.stringify(row)}`);
    return element("ul", "tree", ...rows.map((row) => rowOf(row, isNew(row))));
  });
}

function tokenOf({ what, shown, node, range }) {
  const it = element("span", what, shown);
  if (what === "mark") it.classList.add(`range${range % COLOURS}`);
  if (what === "mark") it.title = `${shown[0] === "[" ? "start" : "end"} of live range ${range}`;
  if (what === "open") it.title = `node ${node}`;
  return it;
}

export function tokenTexts(step) {
  return step.trees.map(({ root, tokens }) => {
    const it = element("p", "text", ...tokens.map(tokenOf));
    it.dataset.root = root;
    return it;
  });
}

const nodes = (numbers) => numbers.map((it) => `#${it}`).join(" ");

// What a record tells beside its type and target.
function told([type, , added, removed, previous, next, name, oldValue]) {
  const was = oldValue === null ? "" : `was ${quoted(oldValue)}`;
  if (type === "attributes") return [name, was].filter(Boolean).join(", ");
  if (type === "characterData") return was;
  const parts = [added.length && `added ${nodes(added)}`, removed.length && `removed ${nodes(removed)}`, previous !== null && `after #${previous}`, next !== null && `before #${next}`];
  return parts.filter(Boolean).join(", ");
}

function recordOf(record) {
  const [type, target] = record;
  return element("li", "record", element("span", "type", type), element("span", "target", `#${target}`), element("span", "told", told(record)));
}

export function records(step) {
  if (!step.observers.length) return [element("p", "none", "No observer has been made.")];
  return step.observers.flatMap((its, observer) => {
    const head = element("h3", "", `observer ${observer} `, element("small", "", its.length ? `${its.length} waiting` : "nothing waits"));
    return [head, element("ul", "waiting", ...its.map(recordOf))];
  });
}

const point = (node, offset) => `#${node} at ${offset}`;

// Ranges, iterators and walkers, a line each.
export function others(step) {
  const lines = [
    ...step.ranges.map(([it, [startNode, start, endNode, end]]) => [`range ${it}`, `${point(startNode, start)} to ${point(endNode, end)}`, `range${it % COLOURS}`]),
    ...step.staticRanges.map(([it, [startNode, start, endNode, end, isValid]]) => [`static range ${it}`, `${point(startNode, start)} to ${point(endNode, end)}${isValid ? "" : ", not valid"}`]),
    ...step.iterators.map(([it, [root, reference, isBefore]]) => [`iterator ${it}`, `in #${root}, ${isBefore ? "before" : "after"} #${reference}`]),
    ...step.walkers.map(([it, [root, current]]) => [`walker ${it}`, `in #${root}, on #${current}`]),
  ];
  if (!lines.length) return [element("p", "none", "No range, iterator or walker has been made.")];
  return [element("dl", "", ...lines.flatMap(([name, where, colour = ""]) => [element("dt", colour, name), element("dd", "", where)]))];
}
