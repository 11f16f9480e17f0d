// Cases in which jsdom (20.0.3), Chromium (156) or Firefox (153) differ from the page, with the reason. Another one of them then agrees with the page.
export const DIFFERENCES = {
  jsdom: {
    "innerHTML of null is nothing, and text is escaped": "it writes < and > in attributes as they are, as was so until 2025",
    "attributes of XLink are written with its prefix": "it writes them without",
    "combinators and classes": "it has no :has()",
    "events and their members": "its mouse events have no x",
    "rectangles are numbers": "its rectangles have no toJSON",
    "sending dispatches events, and can be canceled": "its submit event has no submitter",
    "an element that is edited": "it has no isContentEditable",
    "the page's parts": "its page is not loaded at once",
    "a form that is filled in, checked and sent": "it has no :read-only, takes a box for something that is written, and its submit event has no submitter",
    "keys that move the focus": "it has no ariaSelected, and gives the focus to elements that are not shown",
    "words that are selected and marked": "its range loses its place where Texts are joined",
    "turns: the order of callbacks": "its observers are notified ahead of microtasks that were queued before the change",
    "choices: selects, radios, boxes": "it can not shorten a list of options that stand in a group",
    "typed texts, and selections of them": "its setRangeText selects to the end of the text",
    "walks, comparisons and copies": "its filters that are functions throw",
    "attributes as a test asks for them": "it has no ARIA properties, no spellcheck and no loading",
    "computed styles of an element that is shown, and of one that is not": "its computed styles have no display for inline elements",
  },
  Chromium: {
    "window.event is the one on its way": "the listeners are of another window there",
  },
  Firefox: {
    "inputs have Dates": "it has no controls of months and weeks",
  },
};
