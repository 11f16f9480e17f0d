/** Puts a page on the global object when it is imported: `node --import huckleport/global --test`, `mocha --require huckleport/global`. */
import { install } from "./install.js";

/** Takes the page away again. */
export const uninstall = install();
