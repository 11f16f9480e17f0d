"""The sections of the DOM Standard, by the command that a difference comes from or shows in."""

STANDARD = "https://dom.spec.whatwg.org/#"

SECTIONS = {
    "newDocument": ("DOMImplementation, createDocument", "dom-domimplementation-createdocument"),
    "createElement": ("Document, createElement", "dom-document-createelement"),
    "createText": ("Document, createTextNode", "dom-document-createtextnode"),
    "createComment": ("Document, createComment", "dom-document-createcomment"),
    "createPI": ("Document, createProcessingInstruction", "dom-document-createprocessinginstruction"),
    "createDoctype": ("DOMImplementation, createDocumentType", "dom-domimplementation-createdocumenttype"),
    "createFragment": ("Document, createDocumentFragment", "dom-document-createdocumentfragment"),
    "insertBefore": ("Mutation algorithms, pre-insert", "concept-node-pre-insert"),
    "appendChild": ("Mutation algorithms, append", "concept-node-append"),
    "adoptNode": ("Document, adopt", "concept-node-adopt"),
    "replaceChild": ("Mutation algorithms, replace", "concept-node-replace"),
    "removeChild": ("Mutation algorithms, pre-remove", "concept-node-pre-remove"),
    "remove": ("Mutation algorithms, remove", "concept-node-remove"),
    "replaceChildren": ("Mutation algorithms, replace all", "concept-node-replace-all"),
    "importNode": ("Document, importNode", "dom-document-importnode"),
    "cloneNode": ("Node, clone a node", "concept-node-clone"),
    "normalize": ("Node, normalize", "dom-node-normalize"),
    "node": ("Interface Node", "interface-node"),
    "children": ("Trees", "concept-tree"),
    "index": ("Trees, index", "concept-tree-index"),
    "length": ("Node, length", "concept-node-length"),
    "root": ("Node, getRootNode", "dom-node-getrootnode"),
    "contains": ("Node, contains", "dom-node-contains"),
    "isEqual": ("Node, equals", "concept-node-equals"),
    "comparePosition": ("Node, compareDocumentPosition", "dom-node-comparedocumentposition"),
    "textContent": ("Node, textContent", "dom-node-textcontent"),
    "setTextContent": ("Node, string replace all", "string-replace-all"),
    "tree": ("Trees", "concept-tree"),
    "data": ("CharacterData, data", "dom-characterdata-data"),
    "substringData": ("CharacterData, substring data", "concept-cd-substring"),
    "splitText": ("Text, split", "concept-text-split"),
    "range": ("Live ranges", "concept-live-range"),
    "collapse": ("Range, collapse", "dom-range-collapse"),
    "selectNode": ("Range, select", "concept-range-select"),
    "selectNodeContents": ("Range, selectNodeContents", "dom-range-selectnodecontents"),
    "compareBoundaryPoints": ("Range, compareBoundaryPoints", "dom-range-compareboundarypoints"),
    "comparePoint": ("Range, comparePoint", "dom-range-comparepoint"),
    "isPointInRange": ("Range, isPointInRange", "dom-range-ispointinrange"),
    "intersectsNode": ("Range, intersectsNode", "dom-range-intersectsnode"),
    "commonAncestor": ("Range, commonAncestorContainer", "dom-range-commonancestorcontainer"),
    "createRange": ("Document, createRange", "dom-document-createrange"),
    "cloneRange": ("Range, cloneRange", "dom-range-clonerange"),
    "createStaticRange": ("StaticRange", "dom-staticrange-staticrange"),
    "rangeText": ("Range, stringification", "dom-range-stringifier"),
    "deleteContents": ("Range, deleteContents", "dom-range-deletecontents"),
    "extractContents": ("Range, extract", "concept-range-extract"),
    "cloneContents": ("Range, clone the contents", "concept-range-clone"),
    "insertNode": ("Range, insert", "concept-range-insert"),
    "surroundContents": ("Range, surroundContents", "dom-range-surroundcontents"),
    "createIterator": ("Document, createNodeIterator", "dom-document-createnodeiterator"),
    "createWalker": ("Document, createTreeWalker", "dom-document-createtreewalker"),
    "iterator": ("NodeIterator, pre-removing steps", "nodeiterator-pre-removing-steps"),
    "nextNode": ("NodeIterator, traverse", "concept-nodeiterator-traverse"),
    "previousNode": ("NodeIterator, traverse", "concept-nodeiterator-traverse"),
    "walker": ("TreeWalker", "interface-treewalker"),
    "setCurrent": ("TreeWalker, currentNode", "dom-treewalker-currentnode"),
    "walk": ("TreeWalker", "interface-treewalker"),
    "createObserver": ("MutationObserver", "interface-mutationobserver"),
    "observe": ("MutationObserver, observe", "dom-mutationobserver-observe"),
    "disconnect": ("MutationObserver, disconnect", "dom-mutationobserver-disconnect"),
    "takeRecords": ("Queuing a mutation record", "queueing-a-mutation-record"),
    "notify": ("Notify mutation observers", "notify-mutation-observers"),
}
SECTIONS.update(dict.fromkeys(("setData", "appendData", "insertData", "deleteData", "replaceData"), ("CharacterData, replace data", "concept-cd-replace")))
ATTRIBUTES = ("setAttribute", "getAttribute", "hasAttribute", "removeAttribute", "toggleAttribute", "attributeNames")
SECTIONS.update((it, ("Element, " + it, "dom-element-" + it.lower())) for it in ATTRIBUTES)
SECTIONS["attributeNames"] = ("Element, getAttributeNames", "dom-element-getattributenames")
ENDS = ("setStart", "setEnd", "setStartBefore", "setStartAfter", "setEndBefore", "setEndAfter")
SECTIONS.update((it, ("Range, " + it, "dom-range-" + it.lower())) for it in ENDS)


def section_of(*commands):
    """The name and the address of the first command's section that is known."""
    name, anchor = next((SECTIONS[it] for it in commands if it in SECTIONS), ("Nodes", "nodes"))
    return name, STANDARD + anchor
