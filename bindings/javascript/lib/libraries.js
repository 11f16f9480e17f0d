/**
 * Libraries of others that the package uses, which docs/javascript.md lists. In node they are looked for beside this package and where the program runs;
 * elsewhere a program hands them in, by `provide`.
 */
import { builtin, here, isInNode } from "./host.js";

/** Says that a library is not there. */
export class Missing extends Error {}

const found = new Map();
const createRequire = isInNode ? builtin("node:module").createRequire : null;

/** Hands in libraries by their names, as they are imported. */
export function provide(libraries) {
  for (const [name, library] of Object.entries(libraries)) found.set(name, library);
}

function sought(name) {
  const faults = [];
  for (const place of createRequire ? [here, `${globalThis.process.cwd()}/`] : []) {
    try {
      return { library: createRequire(place)(name) };
    } catch (fault) {
      faults.push(fault);
    }
  }
  return { fault: faults[0] };
}

/** The library of a name, which something needs. */
export function wanted(name, what) {
  if (found.has(name)) return found.get(name);
  const { library, fault } = sought(name);
  const where = createRequire ? `npm install ${name}, or Debian's node-${name} with NODE_PATH=/usr/share/nodejs` : `provide({ "${name}": .. }) hands it in`;
  if (!library) throw new Missing(`${what} needs the package ${name}, which was not found (${where})`, { cause: fault });
  found.set(name, library);
  return library;
}
