/** The host, as bundlers for pages take it (package.json says so): never node. */
export const isInNode = false;

/** A page has no modules of node's. */
export const builtin = () => undefined;

/** A global object is given as it is. */
export const globalOf = (given) => given;

/** A bundle looks for nothing beside itself. */
export const here = "";
