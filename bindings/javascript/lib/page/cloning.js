/** Copies of values (HTML Standard, section 2.7), as the host makes them: nodes and other objects of a page are refused, as in a browser. */
import { isNode, isThing } from "./core.js";

const isObject = (it) => typeof it === "object" && it !== null;

function partsOf(value) {
  if (value instanceof Map) return [...value].flat();
  if (value instanceof Set) return [...value];
  const prototype = Object.getPrototypeOf(value);
  return Array.isArray(value) || prototype === null || Object.getPrototypeOf(prototype) === null ? Object.values(value) : [];
}

/** Whether a value is, or leads to, an object of a page. */
function hasOfPage(value, seen = new Set()) {
  if (!isObject(value) || seen.has(value)) return false;
  seen.add(value);
  return isNode(value) || isThing(value) || partsOf(value).some((it) => hasOfPage(it, seen));
}

/** A copy of a value. */
export function cloned(realm, value, options) {
  if (hasOfPage(value)) throw new realm.interfaces.DOMException("an object of a page cannot be copied", "DataCloneError");
  return structuredClone(value, options);
}
