/** The standard's interfaces over the core, as far as docs/javascript.md lists them. */

/** Makes Documents and doctypes. */
export interface DOMImplementation {
  /** A doctype, which has no parent yet. */
  createDocumentType(qualifiedName: string, publicId: string, systemId: string): DocumentType;
  /** A Document of XML, with a root element where a name is given. */
  createDocument(namespace: string | null, qualifiedName: string | null, doctype?: DocumentType | null): XMLDocument;
  /** A Document of HTML with a head and a body, and a title where one is given. */
  createHTMLDocument(title?: string): Document;
  /** True, as the standard has it. */
  hasFeature(): true;
}
export const DOMImplementation: { readonly prototype: DOMImplementation };

/** The exception for an operation that the standard refuses. */
export interface DOMException extends Error {
  /** The standard's name of what went wrong. */
  readonly name: string;
  /** A description of the refusal. */
  readonly message: string;
  /** The number of the name, or 0 where it has none. */
  readonly code: number;
}
export const DOMException: {
  readonly prototype: DOMException;
  /** Makes one that is not thrown yet; its name is "Error" where none is given. */
  new (message?: string, name?: string): DOMException;
  /** An offset or index is past the end. */
  readonly INDEX_SIZE_ERR: 1;
  /** The node cannot be inserted there. */
  readonly HIERARCHY_REQUEST_ERR: 3;
  /** The two belong to different trees or Documents. */
  readonly WRONG_DOCUMENT_ERR: 4;
  /** The name has a character that it may not have. */
  readonly INVALID_CHARACTER_ERR: 5;
  /** The object is not there. */
  readonly NOT_FOUND_ERR: 8;
  /** The operation is not supported. */
  readonly NOT_SUPPORTED_ERR: 9;
  /** The object is in a state that does not allow it. */
  readonly INVALID_STATE_ERR: 11;
  /** The name and the namespace do not go together. */
  readonly NAMESPACE_ERR: 14;
  /** A limit was reached. */
  readonly QUOTA_EXCEEDED_ERR: 22;
  /** A node of this kind does not serve. */
  readonly INVALID_NODE_TYPE_ERR: 24;
};

/** Nodes by index; `childNodes` is one that follows changes. */
export interface NodeList<N extends Node = Node> extends Iterable<N> {
  /** How many there are. */
  readonly length: number;
  /** The node at an index. */
  readonly [index: number]: N;
  /** Returns the node at an index, or null. */
  item(index: number): N | null;
  /** Pairs of an index and a node. */
  entries(): IterableIterator<[number, N]>;
  /** The indices. */
  keys(): IterableIterator<number>;
  /** The nodes. */
  values(): IterableIterator<N>;
  /** Calls a function with each node. */
  forEach(callback: (node: N, index: number, list: NodeList<N>) => void, thisArg?: unknown): void;
}
export const NodeList: { readonly prototype: NodeList };

/** Elements by index, by id and by name; it follows changes. */
export interface HTMLCollection extends Iterable<Element> {
  /** How many there are. */
  readonly length: number;
  /** The element at an index. */
  readonly [index: number]: Element;
  /** Returns the element at an index, or null. */
  item(index: number): Element | null;
  /** The first element that has the id, or as an element of HTML the name, or null. */
  namedItem(name: string): Element | null;
}
export const HTMLCollection: { readonly prototype: HTMLCollection };

/** The kinds of nodes, and the bits in which `compareDocumentPosition` answers. */
interface NodeConstants {
  /** An element. */
  readonly ELEMENT_NODE: 1;
  /** An attribute, which is no node here. */
  readonly ATTRIBUTE_NODE: 2;
  /** A Text. */
  readonly TEXT_NODE: 3;
  /** A CDATA section, which is not made here. */
  readonly CDATA_SECTION_NODE: 4;
  /** Of earlier standards. */
  readonly ENTITY_REFERENCE_NODE: 5;
  /** Of earlier standards. */
  readonly ENTITY_NODE: 6;
  /** A ProcessingInstruction. */
  readonly PROCESSING_INSTRUCTION_NODE: 7;
  /** A Comment. */
  readonly COMMENT_NODE: 8;
  /** A Document. */
  readonly DOCUMENT_NODE: 9;
  /** A doctype. */
  readonly DOCUMENT_TYPE_NODE: 10;
  /** A fragment. */
  readonly DOCUMENT_FRAGMENT_NODE: 11;
  /** Of earlier standards. */
  readonly NOTATION_NODE: 12;
  /** The two stand in different trees. */
  readonly DOCUMENT_POSITION_DISCONNECTED: 1;
  /** The other stands before this node. */
  readonly DOCUMENT_POSITION_PRECEDING: 2;
  /** The other stands after this node. */
  readonly DOCUMENT_POSITION_FOLLOWING: 4;
  /** The other has this node in it. */
  readonly DOCUMENT_POSITION_CONTAINS: 8;
  /** The other is in this node. */
  readonly DOCUMENT_POSITION_CONTAINED_BY: 16;
  /** The order is that of the package, where the standard leaves it open. */
  readonly DOCUMENT_POSITION_IMPLEMENTATION_SPECIFIC: 32;
}

/** A node of a tree. */
export interface Node extends NodeConstants {
  /** The number of the kind of the node. */
  readonly nodeType: number;
  /** The name: of an element its tag name, of others what the standard calls them. */
  readonly nodeName: string;
  /** The Document's address. */
  readonly baseURI: string;
  /** Whether the root is a Document. */
  readonly isConnected: boolean;
  /** The Document that the node belongs to; null for a Document. */
  readonly ownerDocument: Document | null;
  /** The parent, or null. */
  readonly parentNode: Node | null;
  /** The parent where it is an element, or null. */
  readonly parentElement: Element | null;
  /** The children, as a live list. */
  readonly childNodes: NodeList;
  /** The first child, or null. */
  readonly firstChild: Node | null;
  /** The last child, or null. */
  readonly lastChild: Node | null;
  /** The sibling right before this one, or null. */
  readonly previousSibling: Node | null;
  /** The sibling right after this one, or null. */
  readonly nextSibling: Node | null;
  /** The data of a Text, a Comment or a ProcessingInstruction, and else null. */
  nodeValue: string | null;
  /** The text of all Texts in it; setting it puts one Text in place of the children. Null of a Document and a doctype. */
  textContent: string | null;
  /** The node at the top of the tree. */
  getRootNode(options?: object): Node;
  /** Whether there is a child. */
  hasChildNodes(): boolean;
  /** Joins Texts that stand beside each other, and removes empty ones, in all of the tree below. */
  normalize(): void;
  /** A copy without a parent, with all that is in it where `deep` is true. */
  cloneNode(deep?: boolean): this;
  /** A prefix that stands for a namespace here, or null. */
  lookupPrefix(namespace: string | null): string | null;
  /** The namespace that a prefix stands for here, or null. */
  lookupNamespaceURI(prefix: string | null): string | null;
  /** Whether a namespace is that of names without a prefix here. */
  isDefaultNamespace(namespace: string | null): boolean;
  /** Whether both are alike, with all that is in them. */
  isEqualNode(other: Node | null): boolean;
  /** Whether both are one node. */
  isSameNode(other: Node | null): boolean;
  /** How another node stands to this one, as bits. */
  compareDocumentPosition(other: Node): number;
  /** Whether a node is this one or stands below it. */
  contains(other: Node | null): boolean;
  /** Puts a node ahead of a child, or at the end where there is none. */
  insertBefore<N extends Node>(node: N, child: Node | null): N;
  /** Puts a node at the end of the children. */
  appendChild<N extends Node>(node: N): N;
  /** Puts a node in the place of a child, which is answered. */
  replaceChild<N extends Node>(node: Node, child: N): N;
  /** Takes a child out, which is answered. */
  removeChild<N extends Node>(child: N): N;
}
export const Node: NodeConstants & { readonly prototype: Node };

/** A node that may be a child. */
interface ChildNode {
  /** Puts nodes and texts right before this one. */
  before(...nodes: (Node | string)[]): void;
  /** Puts nodes and texts right after this one. */
  after(...nodes: (Node | string)[]): void;
  /** Puts nodes and texts in place of this one. */
  replaceWith(...nodes: (Node | string)[]): void;
  /** Takes this one out of its parent. */
  remove(): void;
}

/** A node that may have elements beside it. */
interface Siblings {
  /** The nearest element before it among the siblings, or null. */
  readonly previousElementSibling: Element | null;
  /** The nearest element after it among the siblings, or null. */
  readonly nextElementSibling: Element | null;
}

/** A node that may have children. */
interface ParentNode {
  /** The children that are elements, as a live list. */
  readonly children: HTMLCollection;
  /** The first child that is an element, or null. */
  readonly firstElementChild: Element | null;
  /** The last child that is an element, or null. */
  readonly lastElementChild: Element | null;
  /** How many children are elements. */
  readonly childElementCount: number;
  /** Puts nodes and texts behind the children. */
  append(...nodes: (Node | string)[]): void;
  /** Puts nodes and texts ahead of the children. */
  prepend(...nodes: (Node | string)[]): void;
  /** Puts nodes and texts in place of the children. */
  replaceChildren(...nodes: (Node | string)[]): void;
}

/** A node whose descendants are found by name or class. */
interface ElementsBelow {
  /** Returns the descendants with a qualified name, or all for "*", as a live list. */
  getElementsByTagName(qualifiedName: string): HTMLCollection;
  /** Returns the descendants with a namespace and a local name, as a live list; "*" stands for any. */
  getElementsByTagNameNS(namespace: string | null, localName: string): HTMLCollection;
  /** Returns the descendants that have all given classes, as a live list. */
  getElementsByClassName(classNames: string): HTMLCollection;
}

/** A Document: the root of a tree, to which nodes belong. */
export interface Document extends Node, ParentNode, ElementsBelow {
  /** What makes further Documents and doctypes. */
  readonly implementation: DOMImplementation;
  /** The address. */
  readonly URL: string;
  /** The address. */
  readonly documentURI: string;
  /** Whether the page was parsed in quirks mode. */
  readonly compatMode: "BackCompat" | "CSS1Compat";
  /** "UTF-8". */
  readonly characterSet: string;
  /** "UTF-8". */
  readonly charset: string;
  /** "UTF-8". */
  readonly inputEncoding: string;
  /** The type: "text/html", or one of XML. */
  readonly contentType: string;
  /** The doctype, or null. */
  readonly doctype: DocumentType | null;
  /** The root element, or null. */
  readonly documentElement: Element | null;
  /** HTML's head, or null. */
  readonly head: Element | null;
  /** HTML's body or frameset, or null. */
  readonly body: Element | null;
  /** The first element with an id, or null. */
  getElementById(id: string): Element | null;
  /** An element; in a Document of HTML its name is put in small letters. */
  createElement(localName: string): Element;
  /** An element of a namespace. */
  createElementNS(namespace: string | null, qualifiedName: string): Element;
  /** An empty fragment. */
  createDocumentFragment(): DocumentFragment;
  /** A Text. */
  createTextNode(data: string): Text;
  /** A Comment. */
  createComment(data: string): Comment;
  /** A ProcessingInstruction. */
  createProcessingInstruction(target: string, data: string): ProcessingInstruction;
  /** A copy of a node, also of another Document, for this Document. */
  importNode<N extends Node>(node: N, deep?: boolean): N;
  /** Takes a node out of its parent, and has it and all in it belong to this Document. */
  adoptNode<N extends Node>(node: N): N;
  /** A live range, at the start of the Document. */
  createRange(): Range;
  /** Creates an iterator over a node and its descendants. */
  createNodeIterator(root: Node, whatToShow?: number, filter?: NodeFilter | null): NodeIterator;
  /** Creates a walker over a node and its descendants. */
  createTreeWalker(root: Node, whatToShow?: number, filter?: NodeFilter | null): TreeWalker;
}
export const Document: {
  readonly prototype: Document;
  /** A Document of XML without children. */
  new (): Document;
};

/** A Document of XML. */
export interface XMLDocument extends Document {}
export const XMLDocument: { readonly prototype: XMLDocument };

/** A doctype. */
export interface DocumentType extends Node, ChildNode {
  /** The name of the root element that it speaks of. */
  readonly name: string;
  /** The public identifier, or "". */
  readonly publicId: string;
  /** The system identifier, or "". */
  readonly systemId: string;
}
export const DocumentType: { readonly prototype: DocumentType };

/** A tree without a root of its own: where it is put in, its children are. */
export interface DocumentFragment extends Node, ParentNode {
  /** The first element with an id, or null. */
  getElementById(id: string): Element | null;
}
export const DocumentFragment: {
  readonly prototype: DocumentFragment;
  /** An empty fragment. */
  new (): DocumentFragment;
};

/** Where to put something in: before the element, ahead of its children, behind them, or after the element. */
type InsertPosition = "beforebegin" | "afterbegin" | "beforeend" | "afterend";

/** An element. */
export interface Element extends Node, ChildNode, ParentNode, Siblings, ElementsBelow {
  /** The namespace, or null. */
  readonly namespaceURI: string | null;
  /** The prefix, or null. */
  readonly prefix: string | null;
  /** The name without a prefix. */
  readonly localName: string;
  /** The name with its prefix, in capitals for an element of HTML in a Document of HTML. */
  readonly tagName: string;
  /** The attribute id, or "". */
  id: string;
  /** The attribute class, or "". */
  className: string;
  /** Whether there is an attribute. */
  hasAttributes(): boolean;
  /** The qualified names of the attributes, in their order. */
  getAttributeNames(): string[];
  /** The value of an attribute by its qualified name, or null. */
  getAttribute(qualifiedName: string): string | null;
  /** The value of an attribute by namespace and local name, or null. */
  getAttributeNS(namespace: string | null, localName: string): string | null;
  /** Sets an attribute by its qualified name. */
  setAttribute(qualifiedName: string, value: string): void;
  /** Sets an attribute of a namespace. */
  setAttributeNS(namespace: string | null, qualifiedName: string, value: string): void;
  /** Removes an attribute by its qualified name. */
  removeAttribute(qualifiedName: string): void;
  /** Removes an attribute by namespace and local name. */
  removeAttributeNS(namespace: string | null, localName: string): void;
  /** Removes an attribute or sets it to ""; answers whether it is there now. */
  toggleAttribute(qualifiedName: string, force?: boolean): boolean;
  /** Whether there is an attribute of a qualified name. */
  hasAttribute(qualifiedName: string): boolean;
  /** Whether there is an attribute of a namespace and a local name. */
  hasAttributeNS(namespace: string | null, localName: string): boolean;
  /** Puts an element beside this one or into it; null where there is no parent to put it into. */
  insertAdjacentElement(where: InsertPosition, element: Element): Element | null;
  /** Puts a text beside this element or into it. */
  insertAdjacentText(where: InsertPosition, data: string): void;
}
export const Element: { readonly prototype: Element };

/** A node with data: a Text, a Comment or a ProcessingInstruction. */
export interface CharacterData extends Node, ChildNode, Siblings {
  /** The text, of UTF-16 units. */
  data: string;
  /** How many units there are. */
  readonly length: number;
  /** Returns `count` units from an offset on. */
  substringData(offset: number, count: number): string;
  /** Adds a text at the end. */
  appendData(data: string): void;
  /** Puts a text in at an offset. */
  insertData(offset: number, data: string): void;
  /** Removes `count` units from an offset on. */
  deleteData(offset: number, count: number): void;
  /** Replaces `count` units from an offset on by a text. */
  replaceData(offset: number, count: number, data: string): void;
}
export const CharacterData: { readonly prototype: CharacterData };

/** A Text. */
export interface Text extends CharacterData {
  /** The data of this Text and of the Texts right beside it. */
  readonly wholeText: string;
  /** Cuts the Text at an offset; the rest, a new Text right behind it, is answered. */
  splitText(offset: number): Text;
}
export const Text: {
  readonly prototype: Text;
  /** A Text without a parent. */
  new (data?: string): Text;
};

/** A Comment. */
export interface Comment extends CharacterData {}
export const Comment: {
  readonly prototype: Comment;
  /** A Comment without a parent. */
  new (data?: string): Comment;
};

/** A ProcessingInstruction. */
export interface ProcessingInstruction extends CharacterData {
  /** The target. */
  readonly target: string;
}
export const ProcessingInstruction: { readonly prototype: ProcessingInstruction };

/** Two ends in a tree. */
export interface AbstractRange {
  /** The node in which the start is. */
  readonly startContainer: Node;
  /** The offset of the start in it: a count of units of data, or of children. */
  readonly startOffset: number;
  /** The node in which the end is. */
  readonly endContainer: Node;
  /** The offset of the end in it. */
  readonly endOffset: number;
  /** Whether both ends are at one place. */
  readonly collapsed: boolean;
}
export const AbstractRange: { readonly prototype: AbstractRange };

/** The two ends of a StaticRange. */
export interface StaticRangeInit {
  /** The node in which the start is. */
  startContainer: Node;
  /** The offset of the start. */
  startOffset: number;
  /** The node in which the end is. */
  endContainer: Node;
  /** The offset of the end. */
  endOffset: number;
}
/** Two ends that follow no change. */
export interface StaticRange extends AbstractRange {}
export const StaticRange: {
  readonly prototype: StaticRange;
  /** A static range with these ends. */
  new (init: StaticRangeInit): StaticRange;
};

/** Which ends `compareBoundaryPoints` compares; the first word is the other range's end. */
interface RangeConstants {
  /** The other's start with this start. */
  readonly START_TO_START: 0;
  /** The other's start with this end. */
  readonly START_TO_END: 1;
  /** The other's end with this end. */
  readonly END_TO_END: 2;
  /** The other's end with this start. */
  readonly END_TO_START: 3;
}
/** Two ends that follow each change. */
export interface Range extends AbstractRange, RangeConstants {
  /** The deepest node that has both ends in it. */
  readonly commonAncestorContainer: Node;
  /** Moves the start; the end goes with it where it would be ahead of it. */
  setStart(node: Node, offset: number): void;
  /** Moves the end; the start goes with it where it would be behind it. */
  setEnd(node: Node, offset: number): void;
  /** Moves the start right before a node. */
  setStartBefore(node: Node): void;
  /** Moves the start right after a node. */
  setStartAfter(node: Node): void;
  /** Moves the end right before a node. */
  setEndBefore(node: Node): void;
  /** Moves the end right after a node. */
  setEndAfter(node: Node): void;
  /** Moves the end to the start, or the start to the end. */
  collapse(toStart?: boolean): void;
  /** Puts the range around a node. */
  selectNode(node: Node): void;
  /** Puts the range around all that is in a node. */
  selectNodeContents(node: Node): void;
  /** How an end of this range stands to one of another: -1, 0 or 1. */
  compareBoundaryPoints(how: number, sourceRange: Range): number;
  /** Removes the contents of the range. */
  deleteContents(): void;
  /** Removes the contents of the range, and returns them in a fragment. */
  extractContents(): DocumentFragment;
  /** Returns a copy of the contents of the range, in a fragment. */
  cloneContents(): DocumentFragment;
  /** Puts a node in at the start. */
  insertNode(node: Node): void;
  /** Moves the contents of the range into a node, and inserts the node in their place. */
  surroundContents(newParent: Node): void;
  /** Another range with the same ends. */
  cloneRange(): Range;
  /** Does nothing, as the standard has it. */
  detach(): void;
  /** Whether a place is in the range. */
  isPointInRange(node: Node, offset: number): boolean;
  /** Whether a place is before the range (-1), in it (0) or behind it (1). */
  comparePoint(node: Node, offset: number): number;
  /** Whether the range and a node meet. */
  intersectsNode(node: Node): boolean;
  /** The text of the range. */
  toString(): string;
}
export const Range: RangeConstants & {
  readonly prototype: Range;
  /** A live range at the start of the window's Document. */
  new (): Range;
};

/** Says of a node whether it is shown, with one of `FILTER_ACCEPT`, `FILTER_REJECT` and `FILTER_SKIP`. */
export type NodeFilter =
  | ((node: Node) => number)
  | {
      /** What the filter says of a node. */
      acceptNode(node: Node): number;
    };
/** What a filter may say, and the bits of the kinds of nodes to show. */
export const NodeFilter: {
  /** The node is shown. */
  readonly FILTER_ACCEPT: 1;
  /** The node is not shown; a walker skips its descendants too. */
  readonly FILTER_REJECT: 2;
  /** The node is not shown; its descendants may be. */
  readonly FILTER_SKIP: 3;
  /** Nodes of all kinds. */
  readonly SHOW_ALL: 0xffffffff;
  /** Elements. */
  readonly SHOW_ELEMENT: 0x1;
  /** Attributes, which stand in no tree. */
  readonly SHOW_ATTRIBUTE: 0x2;
  /** Texts. */
  readonly SHOW_TEXT: 0x4;
  /** CDATA sections. */
  readonly SHOW_CDATA_SECTION: 0x8;
  /** Of earlier standards. */
  readonly SHOW_ENTITY_REFERENCE: 0x10;
  /** Of earlier standards. */
  readonly SHOW_ENTITY: 0x20;
  /** ProcessingInstructions. */
  readonly SHOW_PROCESSING_INSTRUCTION: 0x40;
  /** Comments. */
  readonly SHOW_COMMENT: 0x80;
  /** Documents. */
  readonly SHOW_DOCUMENT: 0x100;
  /** Doctypes. */
  readonly SHOW_DOCUMENT_TYPE: 0x200;
  /** Fragments. */
  readonly SHOW_DOCUMENT_FRAGMENT: 0x400;
  /** Of earlier standards. */
  readonly SHOW_NOTATION: 0x800;
};

/** Goes over nodes one after another, and gives way where they are removed. */
export interface NodeIterator {
  /** The node that it goes over. */
  readonly root: Node;
  /** The node at which the iterator is. */
  readonly referenceNode: Node;
  /** Whether it is before that node, or behind it. */
  readonly pointerBeforeReferenceNode: boolean;
  /** Which kinds of nodes are shown, as bits. */
  readonly whatToShow: number;
  /** The filter, or null. */
  readonly filter: NodeFilter | null;
  /** Goes on to the next node that is shown; null at the end. */
  nextNode(): Node | null;
  /** Goes back to the node before; null at the start. */
  previousNode(): Node | null;
  /** Does nothing, as the standard has it. */
  detach(): void;
}
export const NodeIterator: { readonly prototype: NodeIterator };

/** Goes over a tree in each direction. */
export interface TreeWalker {
  /** The node that it goes over. */
  readonly root: Node;
  /** Which kinds of nodes are shown, as bits. */
  readonly whatToShow: number;
  /** The filter, or null. */
  readonly filter: NodeFilter | null;
  /** The node at which the walker is. */
  currentNode: Node;
  /** Goes to the nearest node above that is shown, or answers null. */
  parentNode(): Node | null;
  /** Goes to the first node below that is shown, or answers null. */
  firstChild(): Node | null;
  /** Goes to the last such node, or answers null. */
  lastChild(): Node | null;
  /** Goes to the node before among the siblings that are shown, or answers null. */
  previousSibling(): Node | null;
  /** Goes to the next of these, or answers null. */
  nextSibling(): Node | null;
  /** Goes back to the node before; null at the start. */
  previousNode(): Node | null;
  /** Goes on to the next node that is shown; null at the end. */
  nextNode(): Node | null;
}
export const TreeWalker: { readonly prototype: TreeWalker };

/** One change. */
export interface MutationRecord {
  /** What has changed. */
  readonly type: "attributes" | "characterData" | "childList";
  /** The node in which it has changed. */
  readonly target: Node;
  /** The nodes that came in. */
  readonly addedNodes: NodeList;
  /** The nodes that went. */
  readonly removedNodes: NodeList;
  /** The node right before those that came or went, or null. */
  readonly previousSibling: Node | null;
  /** The node right after them, or null. */
  readonly nextSibling: Node | null;
  /** The local name of the attribute, or null. */
  readonly attributeName: string | null;
  /** The namespace of the attribute, or null. */
  readonly attributeNamespace: string | null;
  /** What stood there before, where it was asked for, or null. */
  readonly oldValue: string | null;
}
export const MutationRecord: { readonly prototype: MutationRecord };

/** The changes that an observer is notified of. */
export interface MutationObserverInit {
  /** Notifies of inserted and removed children. */
  childList?: boolean;
  /** Notifies of changed attributes. */
  attributes?: boolean;
  /** Notifies of changed data. */
  characterData?: boolean;
  /** Notifies of changes of all descendants too. */
  subtree?: boolean;
  /** Records the old value of an attribute. */
  attributeOldValue?: boolean;
  /** Records the old data. */
  characterDataOldValue?: boolean;
  /** Notifies of these attributes alone. */
  attributeFilter?: string[];
}
/** An observer, which is notified of changes in a microtask. */
export interface MutationObserver {
  /** Watches a node, by some options. */
  observe(target: Node, options: MutationObserverInit): void;
  /** Watches nothing more. */
  disconnect(): void;
  /** Returns the waiting records; the callback does not get these. */
  takeRecords(): MutationRecord[];
}
export const MutationObserver: {
  readonly prototype: MutationObserver;
  /** An observer that watches nothing yet. */
  new (callback: (this: MutationObserver, records: MutationRecord[], observer: MutationObserver) => void): MutationObserver;
};

/** All interfaces of a realm of its own, and its Document. */
export interface Window {
  /** The realm's own AbstractRange. */
  readonly AbstractRange: typeof AbstractRange;
  /** The realm's own CharacterData. */
  readonly CharacterData: typeof CharacterData;
  /** The realm's own Comment. */
  readonly Comment: typeof Comment;
  /** The realm's own Document. */
  readonly Document: typeof Document;
  /** The realm's own DocumentFragment. */
  readonly DocumentFragment: typeof DocumentFragment;
  /** The realm's own DocumentType. */
  readonly DocumentType: typeof DocumentType;
  /** The realm's own DOMException. */
  readonly DOMException: typeof DOMException;
  /** The realm's own DOMImplementation. */
  readonly DOMImplementation: typeof DOMImplementation;
  /** The realm's own Element. */
  readonly Element: typeof Element;
  /** The realm's own HTMLCollection. */
  readonly HTMLCollection: typeof HTMLCollection;
  /** The realm's own MutationObserver. */
  readonly MutationObserver: typeof MutationObserver;
  /** The realm's own MutationRecord. */
  readonly MutationRecord: typeof MutationRecord;
  /** The realm's own Node. */
  readonly Node: typeof Node;
  /** The realm's own NodeFilter. */
  readonly NodeFilter: typeof NodeFilter;
  /** The realm's own NodeIterator. */
  readonly NodeIterator: typeof NodeIterator;
  /** The realm's own NodeList. */
  readonly NodeList: typeof NodeList;
  /** The realm's own ProcessingInstruction. */
  readonly ProcessingInstruction: typeof ProcessingInstruction;
  /** The realm's own Range. */
  readonly Range: typeof Range;
  /** The realm's own StaticRange. */
  readonly StaticRange: typeof StaticRange;
  /** The realm's own Text. */
  readonly Text: typeof Text;
  /** The realm's own TreeWalker. */
  readonly TreeWalker: typeof TreeWalker;
  /** The realm's own XMLDocument. */
  readonly XMLDocument: typeof XMLDocument;
  /** The window's Document. */
  readonly document: Document;
}

/** A session with its first Document, for a program that speaks in lines too. */
export class Session {
  /** A session with limits. */
  constructor(limits?: {
    /** How many numbers each kind of object has. */
    numbers?: number;
    /** How many bytes a line may have. */
    line?: number;
  });
  /** The first Document. */
  readonly document: Document;
  /** Answers a line of JSON with the line of its reply. */
  line(line: string | Uint8Array): string;
  /** The node of a number, as lines have it. */
  node(number: number): Node;
  /** The number of a node. */
  number(node: Node): number;
  /** How many objects of each kind the core has, with those that the package makes for itself (walkers, and an observer). */
  inUse(): {
    /** Nodes of all kinds. */
    nodes: number;
    /** Live ranges. */
    ranges: number;
    /** Static ranges. */
    staticRanges: number;
    /** Node iterators. */
    iterators: number;
    /** Tree walkers. */
    walkers: number;
    /** Observers. */
    observers: number;
    /** What all observers watch, with what they watch for a time only. */
    registrations: number;
  };
  /** Closes the session; its objects are refused from then on. */
  close(): void;
}

/** A new Document, in a session of its own or in that of another Document. */
export function createDocument(options?: {
  /** A Document whose session is shared. */
  beside?: Document;
  /** Makes it one of XML. */
  xml?: boolean;
}): Document;

/** What a window is made with. */
export interface WindowOptions {
  /** The global object of a context, on which all is put and whose exceptions and arrays are used. */
  global?: object;
  /** A window or a Document whose session is shared. */
  beside?: Window | Document;
  /** Takes what observers' callbacks throw. */
  report?: (fault: unknown) => void;
  /** Leaves the Document without an element. */
  empty?: boolean;
  /** Makes the Document one of XML, without an element. */
  xml?: boolean;
  /** The content type of a Document of XML (application/xhtml+xml). */
  contentType?: string;
  /** The address of the Document (about:blank). */
  url?: string;
  /** Whether names of the standards that are not there refuse; true if not given. */
  refuses?: boolean;
}

/** A window: an object that has all interfaces, and a Document of HTML with a head and a body. */
export function createWindow(options?: WindowOptions): Window;

/** A Document of a page of HTML. Needs parse5. */
export function parse(
  html: string,
  options?: {
    /** The Document that is filled, which has no child yet; a new one if not given. */
    document?: Document;
  },
): Document;

/** A fragment of a piece of HTML, as the content of an element or of a Document. Needs parse5. */
export function parseFragment(html: string, context?: Element | Document): DocumentFragment;

/** A Document of a text of XML. Needs saxes. */
export function parseXML(
  xml: string,
  options?: {
    /** The same of XML. */
    document?: Document;
  },
): Document;

/** Returns a node with its content as HTML; for a Document or a fragment, its content alone. */
export function serialize(node: Node): string;

/** Returns a node with its content as XML. Needs w3c-xmlserializer. */
export function serializeXML(
  node: Node,
  options?: {
    /** Whether content that XML can't express is an error. */
    isStrict?: boolean;
  },
): string;

/** Hands in libraries by their names, as they are imported: parse5, saxes, w3c-xmlserializer. In node they are found by themselves. */
export function provide(libraries: Record<string, unknown>): void;

/** The memory of the module, which all sessions share. */
export const memory: {
  /** The bytes that there are. */
  readonly size: number;
  /** The bytes that sessions hold of it. */
  readonly held: number;
  /** Grows the memory until `bytes` more bytes are free, or throws a RangeError, which ends no session. */
  reserve(bytes: number): void;
  /** Keeps the memory from growing past `bytes` bytes; 0 removes the limit. */
  limit(bytes: number): void;
};

/** A tree adapter for parse5, which builds the tree of a Document. */
export function treeAdapter(document: Document): object;

/** Whether the library has a call of that name. */
export function has(call: string): boolean;
