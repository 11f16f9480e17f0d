// What the declarations say, as a program uses it; only compiled, never run.
import { createDocument, createWindow, DOMException, MutationObserver, Node, NodeFilter, parse, Range, serialize, Session, Text } from "../lib/index.js";
import type { Document, Element, MutationRecord, NodeIterator } from "../lib/index.js";

const document: Document = createDocument({ xml: true });
const element: Element = document.appendChild(document.createElement("p"));
const text: Text = element.appendChild(new Text("some text"));
element.append("more", document.createComment("c"));
const copy: Element = element.cloneNode(true);
const first: Node | undefined = copy.childNodes[0];
const range: Range = document.createRange();
range.setStart(text, 1);
const iterator: NodeIterator = document.createNodeIterator(element, NodeFilter.SHOW_TEXT, (node) => (node === first ? 1 : NodeFilter.FILTER_SKIP));
for (let node = iterator.nextNode(); node; node = iterator.nextNode()) node.textContent = null;
new MutationObserver((records: MutationRecord[]) => records.map((it) => it.oldValue)).observe(document, { childList: true });
const code: number = new DOMException("a", "NotFoundError").code + DOMException.NOT_FOUND_ERR;
const window = createWindow({ report: (fault) => void fault });
const other: string = serialize(parse("<p>", { document: window.document }));
const reply: string = new Session({ numbers: 5 }).line("[]");
const nodes: number = new Session().inUse().nodes;
// @ts-expect-error
element.appendChild("text");
// @ts-expect-error
new Node();
export { code, nodes, other, reply };
