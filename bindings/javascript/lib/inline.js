/** Brings the module along as a text, so that a page fetches and a bundler places nothing by itself. It is imported before what needs the module. */
import base64 from "../out/bytes.js";
import { inline } from "./source.js";

inline.base64 = base64;
