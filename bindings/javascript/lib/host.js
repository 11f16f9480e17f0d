/** The host that the package runs in: node, or else a page or a worker. Modules of node are asked for without an import, which a page lacks. */
export const isInNode = typeof globalThis.process?.getBuiltinModule === "function";

/** A module of node's own by its name. */
export const builtin = (name) => globalThis.process.getBuiltinModule(name);

/** The global object of a context: its own, if what `vm.createContext` answers is given. */
export function globalOf(given) {
  const vm = isInNode ? builtin("node:vm") : null;
  return vm?.isContext(given) ? vm.runInContext("globalThis", given) : given;
}

/** The address of this file, from which node's files and libraries are found. */
export const here = import.meta.url;
