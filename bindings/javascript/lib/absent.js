/**
 * Names of the standards that the package lacks without a page: reading or setting one throws, and says what it belongs to, so that none becomes a property
 * that a program keeps on a node. A page has most of them, and refuses none that it lacks.
 */

const words = (text) => text.trim().split(/\s+/);

/** Names by interface, and there by what they belong to. */
const ABSENT = {
  Node: { events: "addEventListener removeEventListener dispatchEvent" },
  Document: {
    "Attr nodes": "createAttribute createAttributeNS",
    events: "createEvent onreadystatechange onvisibilitychange onfullscreenchange onfullscreenerror",
    selectors: "querySelector querySelectorAll",
    XPath: "evaluate createExpression createNSResolver",
    "custom elements": "customElementRegistry",
    "the page": `location domain referrer cookie lastModified readyState title dir images embeds plugins links forms scripts anchors applets all
      getElementsByName currentScript open close write writeln defaultView hasFocus designMode hidden visibilityState activeElement getSelection
      fullscreen fullscreenElement fullscreenEnabled exitFullscreen pointerLockElement exitPointerLock pictureInPictureElement
      pictureInPictureEnabled exitPictureInPicture hasStorageAccess requestStorageAccess prerendering`,
    "editing commands": "execCommand queryCommandEnabled queryCommandIndeterm queryCommandState queryCommandSupported queryCommandValue",
    styles: "styleSheets adoptedStyleSheets fonts",
    layout: "elementFromPoint elementsFromPoint caretPositionFromPoint caretRangeFromPoint scrollingElement",
    animations: "timeline getAnimations startViewTransition",
    "moving with its state": "moveBefore",
    "the page of old": "fgColor linkColor vlinkColor alinkColor bgColor clear captureEvents releaseEvents rootElement",
  },
  DocumentFragment: { selectors: "querySelector querySelectorAll", "moving with its state": "moveBefore" },
  Element: {
    "Attr nodes": "attributes getAttributeNode getAttributeNodeNS setAttributeNode setAttributeNodeNS removeAttributeNode",
    selectors: "querySelector querySelectorAll closest matches webkitMatchesSelector",
    DOMTokenList: "classList part",
    "shadow trees": "attachShadow shadowRoot assignedSlot slot",
    "custom elements": "customElementRegistry",
    markup: "innerHTML outerHTML insertAdjacentHTML getHTML setHTML setHTMLUnsafe",
    layout: `getBoundingClientRect getClientRects scrollIntoView scroll scrollTo scrollBy scrollTop scrollLeft scrollWidth scrollHeight clientTop
      clientLeft clientWidth clientHeight checkVisibility currentCSSZoom`,
    styles: "computedStyleMap",
    "the page": "requestFullscreen requestPointerLock setPointerCapture releasePointerCapture hasPointerCapture",
    animations: "animate getAnimations",
    "moving with its state": "moveBefore",
    ARIA: `role ariaActiveDescendantElement ariaControlsElements ariaDescribedByElements ariaDetailsElements ariaErrorMessageElements ariaFlowToElements
      ariaLabelledByElements ariaOwnsElements ariaNotify`,
    events: "onfullscreenchange onfullscreenerror",
  },
  Text: { "shadow trees": "assignedSlot" },
  ProcessingInstruction: { styles: "sheet" },
  Range: { markup: "createContextualFragment", layout: "getClientRects getBoundingClientRect" },
};

/** What elements of HTML have; without a page, all elements lack it. */
const OF_HTML = {
  styles: "style attributeStyleMap",
  layout: "innerText outerText offsetParent offsetTop offsetLeft offsetWidth offsetHeight",
  "the page": `dataset title lang dir hidden inert translate accessKey accessKeyLabel draggable spellcheck writingSuggestions autocapitalize autocorrect
    contentEditable isContentEditable editContext enterKeyHint inputMode virtualKeyboardPolicy tabIndex nonce autofocus click focus blur`,
  "custom elements": "attachInternals",
  popovers: "popover showPopover hidePopover togglePopover",
  events: `onabort onauxclick onbeforeinput onbeforematch onbeforetoggle onblur oncancel oncanplay oncanplaythrough onchange onclick onclose oncommand
    oncontextlost oncontextmenu oncontextrestored oncopy oncuechange oncut ondblclick ondrag ondragend ondragenter ondragleave ondragover ondragstart
    ondrop ondurationchange onemptied onended onerror onfocus onformdata oninput oninvalid onkeydown onkeypress onkeyup onload onloadeddata
    onloadedmetadata onloadstart onmousedown onmouseenter onmouseleave onmousemove onmouseout onmouseover onmouseup onpaste onpause onplay onplaying
    onprogress onratechange onreset onresize onscroll onscrollend onsecuritypolicyviolation onseeked onseeking onselect onslotchange onstalled onsubmit
    onsuspend ontimeupdate ontoggle onvolumechange onwaiting onwheel ongotpointercapture onlostpointercapture onpointercancel onpointerdown
    onpointerenter onpointerleave onpointermove onpointerout onpointerover onpointerup onpointerrawupdate onselectstart onselectionchange
    onanimationcancel onanimationend onanimationiteration onanimationstart ontransitioncancel ontransitionend ontransitionrun ontransitionstart`,
};

const VERBS = { one: "is", many: "are" };
const verbOf = (what) => (/s$/.test(what) ? VERBS.many : VERBS.one);

function refusing(realm, where, name, what) {
  const refuse = () => {
    throw new realm.interfaces.DOMException(`${where}.${name} is not there: ${what} ${verbOf(what)} left out`, "NotSupportedError");
  };
  return { get: refuse, set: refuse, enumerable: false, configurable: true };
}

function refuseOn(realm, target, where, groups) {
  for (const [what, names] of Object.entries(groups)) {
    for (const name of words(names).filter((it) => !(it in target))) Object.defineProperty(target, name, refusing(realm, where, name, what));
  }
}

/** Has the names that the interfaces of a realm lack refuse. */
export function refuseAbsent(realm) {
  const { interfaces } = realm;
  for (const [where, groups] of Object.entries(ABSENT)) refuseOn(realm, interfaces[where].prototype, where, groups);
  refuseOn(realm, interfaces.Element.prototype, "Element", OF_HTML);
}

/** Whether a property is one that refuses. */
export function isRefused(target, name) {
  const its = Object.getOwnPropertyDescriptor(target, name);
  return its?.get !== undefined && its.get === its.set;
}
