// The expected results of each file: the number of its subtests, and the names of those that do not pass, by the reason.
//
// expectations.json has for each path { subtests, notApplicable: { reason: names }, differs: { reason: names } }. A name that ends with "*" matches
// all subtests whose names begin so. The harness's own failure is listed as the subtest "(the file)". A file is known once its subtests are counted here.
// In other files a subtest's message may be enough to find why it does not pass, and a listed name need not be there.
import { readFileSync, writeFileSync } from "node:fs";

import { reasonOf } from "./page/reasons.js";

const FILE = new URL("expectations.json", import.meta.url);
const KINDS = ["notApplicable", "differs"];
const UNEXPLAINED = "(no reason yet)";
const PASSED = 0;

export const THE_FILE = "(the file)";

export function readExpectations(file = FILE) {
  return JSON.parse(readFileSync(file, "utf8"));
}

// The entries of a file, one for each name: its kind and reason.
function entries(expected) {
  return KINDS.flatMap((kind) => Object.entries(expected?.[kind] ?? {}).flatMap(([reason, names]) => names.map((name) => ({ name, kind, reason }))));
}

// The entry of a subtest, by its name.
class Entries {
  constructor(expected) {
    this.all = entries(expected);
    this.exact = new Map(this.all.map((it) => [it.name, it]));
    this.beginnings = this.all.filter((it) => it.name.endsWith("*"));
  }

  of(name) {
    return this.exact.get(name) ?? this.beginnings.find((it) => name.startsWith(it.name.slice(0, -1)));
  }
}

// The subtests of a result, with the harness's own failure as one of them.
function subtestsOf({ subtests, status, message }) {
  const harness = status ? [[THE_FILE, 1, message ?? "the harness failed"]] : [];
  return [...subtests, ...harness].map(([name, it, said]) => ({ name, passed: it === PASSED, message: said ?? `status ${it}` }));
}

// What a subtest counts as.
function judge({ name, passed, message }, entry, isKnown) {
  if (passed) return entry ? { as: "failed", name, message: `it passes, but is listed: ${entry.reason}` } : { as: "passed", name };
  if (entry && entry.reason !== UNEXPLAINED) return { as: entry.kind, name, reason: entry.reason, message };
  const told = isKnown ? undefined : reasonOf({ name, message });
  return told ? { as: told.kind, name, reason: told.reason, message } : { as: "failed", name, message };
}

// What a known file lacks. Where the harness failed, that is said already.
function lost(result, expected, entries, met) {
  if (expected?.subtests === undefined || result.status) return [];
  const found = entries.filter((it) => !met.has(it)).map(({ name }) => ({ as: "failed", name, message: "it is listed, and there is no such subtest" }));
  const fewer = expected.subtests - result.subtests.length;
  return fewer > 0 ? [...found, { as: "failed", name: THE_FILE, message: `${fewer} subtests fewer than are listed` }] : found;
}

// What became of a file: a judgement for each subtest, and one for what it lacks.
export function judgeFile(result, expected) {
  const known = new Entries(expected);
  const met = new Set();
  const judgements = subtestsOf(result).map((subtest) => {
    const entry = known.of(subtest.name);
    met.add(entry);
    return judge(subtest, entry, expected?.subtests !== undefined);
  });
  return [...judgements, ...lost(result, expected, known.all, met)];
}

// Returns the entry of a file after a run; reasons that are listed already are kept.
function listed(result, expected) {
  const known = new Entries(expected);
  const entry = { subtests: result.subtests.length };
  for (const subtest of subtestsOf(result).filter((it) => !it.passed)) {
    const { kind, reason, name: shown = subtest.name } = known.of(subtest.name) ?? reasonOf(subtest) ?? { kind: "differs", reason: UNEXPLAINED };
    const names = ((entry[kind] ??= {})[reason] ??= []);
    if (!names.includes(shown)) names.push(shown);
  }
  return entry;
}

// Writes what these results leave to be listed; files that were not run stay as they are.
export function update(results, expectations, file = FILE) {
  const found = { ...expectations };
  for (const result of results) found[result.path] = listed(result, expectations[result.path]);
  const ordered = Object.fromEntries(Object.entries(found).sort(([a], [b]) => (a < b ? -1 : 1)));
  writeFileSync(file, `${JSON.stringify(ordered, null, 1)}\n`);
}
