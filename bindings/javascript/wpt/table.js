// What a run prints: a line for each file, and at the end the counts by folders, by reasons, and what failed.
import { dirname } from "node:path";

const COLUMNS = ["passed", "failed", "notApplicable", "differs"];
const HEADS = ["files", "subtests", "passed", "failed", "not applicable", "differ"];

const count = (judgements, as) => judgements.filter((it) => it.as === as).length;
const number = (it) => String(it).replace(/\B(?=(\d{3})+$)/g, ",");
const short = (text, width) => (text.length > width ? `${text.slice(0, width - 3)}...` : text).replaceAll("\n", "\\n");

// The line of a file that has been run.
export function progress({ path, seconds }, judgements, done, all) {
  const [passed, failed, notApplicable, differs] = COLUMNS.map((as) => count(judgements, as));
  const others = [[failed, "failed"], [notApplicable, "not applicable"], [differs, "differ"]].filter(([it]) => it).map(([it, what]) => `, ${number(it)} ${what}`);
  return `${String(done).padStart(String(all).length)}/${all} ${path}: ${number(passed)} passed${others.join("")} (${seconds.toFixed(1)} s)`;
}

function row(name, files) {
  const judgements = files.flatMap((it) => it.judgements);
  return [name, ...[files.length, judgements.length, ...COLUMNS.map((as) => count(judgements, as))].map(number)];
}

function aligned(rows) {
  const widths = rows[0].map((_, at) => Math.max(...rows.map((it) => it[at].length)));
  return rows.map((it) => it.map((cell, at) => (at ? cell.padStart(widths[at]) : cell.padEnd(widths[at]))).join("  "));
}

function countsTable(files) {
  const folders = [...new Set(files.map((it) => dirname(it.path)))];
  const rows = folders.map((folder) => row(folder, files.filter((it) => dirname(it.path) === folder)));
  return aligned([["", ...HEADS], ...rows, row("all", files)]);
}

// How many subtests there are of each reason, the most first.
function reasons(judgements) {
  const found = new Map();
  for (const { reason } of judgements) found.set(reason, (found.get(reason) ?? 0) + 1);
  return [...found].sort(([, a], [, b]) => b - a);
}

function byReason(title, counted) {
  return counted.length ? ["", title, ...counted.map(([reason, it]) => `  ${number(it).padStart(6)}  ${reason}`)] : [];
}

function failures(files, limit) {
  const found = files.flatMap(({ path, judgements }) => judgements.filter((it) => it.as === "failed").map((it) => ({ path, ...it })));
  const lines = found.slice(0, limit).flatMap(({ path, name, message }) => [`  ${path}: ${short(name, 150)}`, `      ${short(String(message), 250)}`]);
  const more = found.length > limit ? [`  and ${number(found.length - limit)} more (--failures ${found.length} shows all)`] : [];
  return found.length ? ["", "failed", ...lines, ...more] : [];
}

// All that is said at the end.
export function summary(files, leftOut, limit) {
  const all = files.flatMap((it) => it.judgements);
  const of = (as) => reasons(all.filter((it) => it.as === as));
  return [
    "",
    ...countsTable(files),
    ...byReason("not applicable, by subtests", of("notApplicable")),
    ...byReason("differ by the profile, by subtests", of("differs")),
    ...byReason("left out, by files", reasons(leftOut)),
    ...failures(files, limit),
  ];
}

// Each subtest that does not pass, with its reason.
export function listing(files) {
  return files.flatMap(({ path, judgements }) => judgements.filter((it) => it.as !== "passed").map(({ as, name, reason }) => `${path}: ${short(name, 200)}: ${as}${reason ? `, ${reason}` : ""}`));
}
