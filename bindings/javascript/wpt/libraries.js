// Libraries of node that are installed: beside the package, or where Debian puts them, which the environment has to name (PLACES).
import { createRequire } from "node:module";

const require = createRequire(import.meta.url);

// What the variable NODE_PATH has to be for a process that uses Debian's libraries.
export const PLACES = [process.env.NODE_PATH, "/usr/share/nodejs"].filter(Boolean).join(":");

// The library of a name, or nothing where it is not there.
export function find(name) {
  try {
    return require(name);
  } catch (fault) {
    if (fault.code !== "MODULE_NOT_FOUND") throw fault;
    return undefined;
  }
}

export function load(name) {
  const found = find(name);
  if (!found) throw new Error(`there is no library ${name} (Debian's node-${name})`);
  return found;
}
