/** The package for pages and workers: the same, with the module in it. */
import "./inline.js";

export * from "./index.js";
