/** What a click does by itself (HTML Standard, activation behavior): boxes, buttons, labels, links, details. */
import { HTML, isElement, pageOf } from "./core.js";

const byName = new Map();

/**
 * Says what elements of a name do when they are clicked: `isFor` tells whether this one does it, `before` runs ahead of all listeners and answers what
 * `undo` gets where somebody canceled the event, and `after`, behind them, else.
 */
export function activate(name, activation) {
  byName.set(name, activation);
}

/** What an element does, or null. */
export function activationOf(element) {
  if (!isElement(element) || element.namespaceURI !== HTML) return null;
  const found = byName.get(element.localName);
  return found && (found.isFor?.(element) ?? true) ? found : null;
}

/** Goes where a link leads, which without a network is a fragment of the same page alone. */
export function follow(link) {
  const page = pageOf(link);
  if (!page || link.ownerDocument !== page.document) return;
  const url = new URL(link.href);
  const [here, there] = [page.places.url.href, url.href].map((it) => it.split("#")[0]);
  if (here === there && url.hash !== "") page.places.goToFragment(url, false);
}
