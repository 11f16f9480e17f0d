/** What links have of their addresses (HTML Standard, HTMLHyperlinkElementUtils), by the language's own URL. */
import { resolved } from "./reflect.js";

function urlOf(element) {
  const written = element.getAttribute("href");
  if (written === null) return null;
  try {
    return new URL(written, element.baseURI);
  } catch {
    return null;
  }
}

const part = (name, absent = "") => ({
  type: "DOMString",
  get: (element) => urlOf(element)?.[name] ?? absent,
  set(element, value) {
    const url = urlOf(element);
    if (!url) return;
    url[name] = value;
    element.setAttribute("href", url.href);
  },
});

const PARTS = ["username", "password", "host", "hostname", "port", "pathname", "search", "hash"];

const href = {
  type: "DOMString",
  get: (element) => (element.hasAttribute("href") ? resolved(element, element.getAttribute("href")) : ""),
  set: (element, value) => element.setAttribute("href", value),
};

export const linkAttributes = {
  href,
  origin: (element) => urlOf(element)?.origin ?? "",
  protocol: part("protocol", ":"),
  ...Object.fromEntries(PARTS.map((name) => [name, part(name)])),
};

export const linkOperations = { toString: [[], href.get] };
