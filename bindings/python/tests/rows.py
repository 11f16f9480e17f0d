"""Trees as plain rows, so that those of several libraries can be compared: depth, kind, name, attributes, data or ids."""
import importlib.util

try:
    from lxml import etree
except ImportError:
    pass


def ours(node):
    """The rows of a node of the package, without itself where it is a Document or a fragment."""
    found = []
    for row in node.tree():
        kind = row.node.node_type
        if kind in (9, 11):
            continue
        ids = (row.public_id, row.system_id) if kind == 10 else None
        found.append((row.depth, kind, row.name, row.attributes if kind == 1 else ids, row.data))
    return found


def _row(node, depth):
    kind = 3 if node.nodeType == 4 else node.nodeType
    if kind == 1:
        pairs = tuple((name, value) for name, value in node.attributes.items())
        return depth, 1, node.tagName, pairs, None
    if kind == 10:
        return depth, 10, node.name or "", (node.publicId or "", node.systemId or ""), None
    return depth, kind, node.target if kind == 7 else None, None, node.data


def joined(rows):
    """Rows with Texts that stand side by side as one, and without empty ones."""
    found = []
    for row in rows:
        if row[1] == 3 and found and found[-1][:2] == row[:2]:
            found[-1] = (*row[:4], found[-1][4] + row[4])
        elif row[1] != 3 or row[4]:
            found.append(row)
    return found


def of_minidom(node, depth=0):
    """The rows below a node of minidom."""
    found, waiting = [], [(it, depth + 1) for it in reversed(node.childNodes)]
    while waiting:
        it, at = waiting.pop()
        found.append(_row(it, at))
        waiting += [(child, at + 1) for child in reversed(it.childNodes)] if it.nodeType == 1 else []
    return joined(found)


def _texts_of_lxml(depth, text):
    return [(depth, 3, None, None, text)] if text else []


def _of_element(it, depth):
    """The rows of an element of lxml, or of a comment or an instruction."""
    if it.tag is etree.Comment:
        return [(depth, 8, None, None, it.text)]
    if it.tag is etree.PI:
        return [(depth, 7, it.target, None, it.text or "")]
    found = [(depth, 1, it.tag, tuple(it.attrib.items()), None), *_texts_of_lxml(depth + 1, it.text)]
    for child in it:
        found += [*_of_element(child, depth + 1), *_texts_of_lxml(depth + 1, child.tail)]
    return found


def of_lxml(tree):
    """The rows of a page that lxml has parsed: names without namespaces."""
    about, root = tree.docinfo, tree.getroot()
    found = [(1, 10, about.root_name, (about.public_id or "", about.system_url or ""), None)] if about.doctype else []
    for it in (*reversed(list(root.itersiblings(preceding=True))), root, *root.itersiblings()):
        found += _of_element(it, 1)
    return found


def is_there(name):
    """Whether a module is there."""
    return importlib.util.find_spec(name) is not None
