/** The page for browsers: the same, with the module in it. */
import "../inline.js";

export * from "./index.js";
