/// <reference lib="dom" />
/**
 * The package by the types of TypeScript's library "dom": nodes go to functions over `Element`, `Node`, `Range`. A name of that library that is not there has
 * the type `never`, so that no program compiles that uses it.
 */
import type * as Plain from "./index.js";
import type { PageOptions } from "./page/index.js";

/** Names that are not there. */
export type Without<Names extends PropertyKey> = { readonly [Name in Names]: never };

/** The names that lib.dom declares, and the package without a page lacks. */
export type Missing<Dom, Own> = Without<Exclude<keyof Dom, keyof Own>>;

// ---- Without a page.

/** A node. */
export type PlainNode = Node & Missing<Node, Plain.Node>;

/** An element. */
export type PlainElement = Element & Missing<Element, Plain.Element>;

/** A Text. */
export type PlainText = Text & Missing<Text, Plain.Text>;

/** A Comment. */
export type PlainComment = Comment & Missing<Comment, Plain.Comment>;

/** A fragment. */
export type PlainFragment = DocumentFragment & Missing<DocumentFragment, Plain.DocumentFragment>;

/** A live range. */
export type PlainRange = Range & Missing<Range, Plain.Range>;

/** What a Document makes and finds. */
export interface PlainMakers {
  /** An element; its name is that of one of HTML. */
  createElement(localName: string): PlainElement;
  /** An element of a namespace. */
  createElementNS(namespace: string | null, qualifiedName: string): PlainElement;
  /** A Text. */
  createTextNode(data: string): PlainText;
  /** A Comment. */
  createComment(data: string): PlainComment;
  /** A fragment. */
  createDocumentFragment(): PlainFragment;
  /** A live range. */
  createRange(): PlainRange;
  /** The element of an id, or null. */
  getElementById(id: string): PlainElement | null;
}

/** A Document. */
export type PlainDocument = PlainMakers & Document & Missing<Document, Plain.Document>;

/** Makes a Document, as the package's own function does. */
export function createDocument(options?: {
  /** A Document whose session is shared. */
  beside?: Document;
  /** Makes it one of XML. */
  xml?: boolean;
}): PlainDocument;

// ---- A page.

/** Names of lib.dom's windows that a page lacks. */
export type AbsentOfWindow =
  | "alert" | "caches" | "cancelIdleCallback" | "captureEvents" | "confirm" | "createImageBitmap" | "crossOriginIsolated" | "customElements" | "external"
  | "fetch" | "indexedDB" | "localStorage" | "locationbar" | "matchMedia" | "menubar" | "moveBy" | "moveTo" | "ondevicemotion" | "ondeviceorientation"
  | "ongamepadconnected" | "ongamepaddisconnected" | "onorientationchange" | "ontouchcancel" | "ontouchend" | "ontouchmove" | "ontouchstart"
  | "onwebkitanimationend" | "onwebkitanimationiteration" | "onwebkitanimationstart" | "onwebkittransitionend" | "open" | "orientation" | "personalbar"
  | "postMessage" | "print" | "prompt" | "releaseEvents" | "requestIdleCallback" | "resizeBy" | "resizeTo" | "scrollbars" | "sessionStorage"
  | "speechSynthesis" | "status" | "statusbar" | "stop" | "toolbar" | "visualViewport";

/** Names of lib.dom's Documents that a page's lacks. */
export type AbsentOfDocument =
  | "adoptedStyleSheets" | "all" | "caretRangeFromPoint" | "close" | "createExpression" | "createNSResolver" | "elementFromPoint" | "elementsFromPoint"
  | "evaluate" | "execCommand" | "exitFullscreen" | "exitPictureInPicture" | "exitPointerLock" | "fonts" | "fullscreen" | "getAnimations"
  | "hasStorageAccess" | "onfullscreenchange" | "onfullscreenerror" | "onpointerlockchange" | "onpointerlockerror" | "onreadystatechange" | "ontouchcancel"
  | "ontouchend" | "ontouchmove" | "ontouchstart" | "onvisibilitychange" | "onwebkitanimationend" | "onwebkitanimationiteration" | "onwebkitanimationstart"
  | "onwebkittransitionend" | "open" | "pictureInPictureElement" | "pictureInPictureEnabled" | "queryCommandEnabled" | "queryCommandIndeterm"
  | "queryCommandState" | "queryCommandSupported" | "queryCommandValue" | "requestStorageAccess" | "styleSheets" | "timeline" | "write" | "writeln";

/** Names of lib.dom's elements of HTML that a page's lack. */
export type AbsentOfElement =
  | "accessKeyLabel" | "animate" | "attachInternals" | "attachShadow" | "getAnimations" | "hasPointerCapture" | "onfullscreenchange" | "onfullscreenerror"
  | "ontouchcancel" | "ontouchend" | "ontouchmove" | "ontouchstart" | "onwebkitanimationend" | "onwebkitanimationiteration" | "onwebkitanimationstart"
  | "onwebkittransitionend" | "releasePointerCapture" | "requestFullscreen" | "requestPointerLock" | "setPointerCapture";

/** Names of single elements of HTML that a page's lack, by their tags. */
export interface AbsentByTag {
  /** Of `canvas`. */
  canvas: "captureStream" | "getContext" | "toBlob" | "toDataURL";
  /** Of `dialog`. */
  dialog: "close" | "returnValue" | "show" | "showModal";
  /** Of `iframe`. */
  iframe: "getSVGDocument";
  /** Of `img`. */
  img: "decode";
  /** Of `input`. */
  input: "showPicker" | "webkitEntries";
  /** Of `video`. */
  video:
    | "addTextTrack" | "buffered" | "cancelVideoFrameCallback" | "disableRemotePlayback" | "fastSeek" | "getVideoPlaybackQuality" | "mediaKeys"
    | "onencrypted" | "onenterpictureinpicture" | "onleavepictureinpicture" | "onwaitingforkey" | "played" | "remote" | "requestPictureInPicture"
    | "requestVideoFrameCallback" | "seekable" | "setMediaKeys" | "textTracks";
  /** Of `audio`. */
  audio:
    | "addTextTrack" | "buffered" | "disableRemotePlayback" | "fastSeek" | "mediaKeys" | "onencrypted" | "onwaitingforkey" | "played" | "remote" | "seekable"
    | "setMediaKeys" | "textTracks";
  /** Of `slot`. */
  slot: "assign" | "assignedElements" | "assignedNodes";
  /** Of `track`. */
  track: "ERROR" | "LOADED" | "LOADING" | "NONE" | "track";
  /** Of `object`. */
  object: "getSVGDocument";
  /** Of `embed`. */
  embed: "getSVGDocument";
  /** Of `marquee`. */
  marquee: "start" | "stop";
}

/** An element of a page, of a type of lib.dom's. */
export type PageElement<Its extends Element = HTMLElement> = Its & Without<AbsentOfElement>;

/** An element of a page by its tag. */
export type PageElementOf<Tag extends keyof HTMLElementTagNameMap> = PageElement<HTMLElementTagNameMap[Tag]> &
  (Tag extends keyof AbsentByTag ? Without<AbsentByTag[Tag]> : unknown);

/** What a page's Document makes and finds. */
export interface PageMakers {
  /** An element of HTML. */
  createElement<Tag extends keyof HTMLElementTagNameMap>(localName: Tag): PageElementOf<Tag>;
  /** An element of another name. */
  createElement(localName: string): PageElement;
  /** The first element that a selector means, or null. */
  querySelector<Tag extends keyof HTMLElementTagNameMap>(selectors: Tag): PageElementOf<Tag> | null;
  /** The same of any selector. */
  querySelector<Its extends Element = HTMLElement>(selectors: string): PageElement<Its> | null;
  /** The element of an id, or null. */
  getElementById(id: string): PageElement | null;
  /** The body. */
  readonly body: PageElement;
}

/** The Document of a page. */
export type PageDocument = PageMakers & Document & Without<AbsentOfDocument>;

/** A page's window. */
export type PageWindow = {
  /** Its Document. */
  readonly document: PageDocument;
} & Window &
  typeof globalThis &
  Without<AbsentOfWindow>;

/** A window with a page of HTML. */
export function createPage(html?: string, options?: PageOptions): PageWindow;

export { has, memory, parse, parseFragment, parseXML, provide, serialize, serializeXML } from "./index.js";
