// The commands by their groups, with their arguments, as a page has them: those of docs/commands.json; "?" marks one that may be null.
import { readFileSync } from "node:fs";

const TABLE = new URL("../../../../docs/commands.json", import.meta.url);

export const table = () => JSON.parse(readFileSync(TABLE, "utf8")).commands;

export function groups() {
  const found = {};
  for (const { group, name, arguments: given } of table()) {
    const words = given.map((it) => it.name + (it.nullable ? "?" : ""));
    (found[group] ??= []).push([name, ...words].join(" "));
  }
  return found;
}
