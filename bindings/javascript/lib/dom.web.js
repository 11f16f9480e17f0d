/** The same for pages and workers, with the module in it. */
import "./inline.js";

export * from "./dom.js";
