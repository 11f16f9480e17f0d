/** The package and its page by the types of TypeScript's library "dom" (dom.d.ts); the exports are the same. */
export * from "./index.js";
export { createPage } from "./page/index.js";
