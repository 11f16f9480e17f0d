"""A case as a script in the standard's own calls, for the library's own environment, with its output and the expected one."""
import json
import re

from judging.commands import COMMANDS, kind_of
from judging.printed import ANOTHER, DONE, VOID, Printed, nodes_in

LETTERS = {"node": "n", "range": "r", "iterator": "i", "walker": "w", "observer": "o", "static": "s"}
VERDICTS = {"accept": 1, "reject": 2, "skip": 3}

# The call of a command, with its arguments at their places.
CALLS = {
    "newDocument": "document.implementation.createDocument(null, null)",
    "createElement": "{0}.createElement({1})",
    "createText": "{0}.createTextNode({1})",
    "createComment": "{0}.createComment({1})",
    "createPI": "{0}.createProcessingInstruction({1}, {2})",
    "createDoctype": "{0}.implementation.createDocumentType({1}, {2}, {3})",
    "createFragment": "{0}.createDocumentFragment()",
    "insertBefore": "{0}.insertBefore({1}, {2})",
    "appendChild": "{0}.appendChild({1})",
    "adoptNode": "{0}.adoptNode({1})",
    "replaceChild": "{0}.replaceChild({1}, {2})",
    "removeChild": "{0}.removeChild({1})",
    "remove": "{0}.remove()",
    "replaceChildren": "{0}.replaceChildren({1})",
    "importNode": "{0}.importNode({1}, {2})",
    "cloneNode": "{0}.cloneNode({1})",
    "normalize": "{0}.normalize()",
    "node": "[{0}.nodeName, {0}.parentNode, {0}.previousSibling, {0}.nextSibling, {0}.ownerDocument]",
    "children": "Array.from({0}.childNodes)",
    "index": "Array.from({0}.parentNode.childNodes).indexOf({0})",
    "length": "({0}.data === undefined ? {0}.childNodes : {0}.data).length",
    "root": "{0}.getRootNode()",
    "contains": "{0}.contains({1})",
    "isEqual": "{0}.isEqualNode({1})",
    "comparePosition": "{0}.compareDocumentPosition({1})",
    "textContent": "{0}.textContent",
    "setTextContent": "{0}.textContent = {1}",
    "tree": "tree({0})",
    "data": "{0}.data",
    "setData": "{0}.data = {1}",
    "attributeNames": "{0}.getAttributeNames()",
    "createRange": "{0}.createRange()",
    "range": "[{0}.startContainer, {0}.startOffset, {0}.endContainer, {0}.endOffset]",
    "commonAncestor": "{0}.commonAncestorContainer",
    "createStaticRange": "new StaticRange({{ startContainer: {0}, startOffset: {1}, endContainer: {2}, endOffset: {3} }})",
    "rangeText": "{0}.toString()",
    "createIterator": "n0.createNodeIterator({0}, {1}, {2})",
    "createWalker": "n0.createTreeWalker({0}, {1}, {2})",
    "iterator": "[{0}.root, {0}.referenceNode, {0}.pointerBeforeReferenceNode]",
    "walker": "[{0}.root, {0}.currentNode]",
    "setCurrent": "{0}.currentNode = {1}",
    "takeRecords": "{0}.takeRecords().map(record)",
    "notify": "await new Promise((resolve) => setTimeout(resolve))",
}

# The beginning of a script: the printing of nodes, and those of the other helpers that it uses.
SAY = f"""const names = new Map();
const name = (it) => names.get(it) || {json.dumps(ANOTHER)};
const say = (value) => console.log(JSON.stringify(value, (_, it) => (it === undefined ? null : it && it.nodeType ? name(it) : it)));"""
RECORD = "const record = (it) => [it.type, it.target, Array.from(it.addedNodes), Array.from(it.removedNodes), it.previousSibling, it.nextSibling, it.attributeName, it.oldValue];"
ALL = "const all = (it) => [it].concat(...Array.from(it.childNodes, all));"
TREE = """const attributes = (it) => Array.from(it.attributes || [], (one) => ` ${one.name}=${JSON.stringify(one.value)}`).join("");
const label = (it) => `${name(it)} ${it.nodeName}` + (it.data === undefined ? attributes(it) : " " + JSON.stringify(it.data));
function tree(it) {
  const found = [label(it)];
  for (let child = it.firstChild; child && found.length < 99; child = child.nextSibling) found.push(tree(child));
  return found;
}"""
WINDOW = ("document", "StaticRange", "MutationObserver")


def text(value):
    if isinstance(value, list):
        return '"' + "".join(f"\\u{it:04x}" for it in value) + '"'
    return json.dumps(value)


def filter_of(rules):
    if not rules:
        return "null"
    words = [f"it.nodeName === {json.dumps(name)} ? {VERDICTS[verdict]} : " if name != "*" else f"{VERDICTS[verdict]}" for name, verdict in rules]
    whole = "".join(words)
    return f"(it) => {whole}" if rules[-1][0] == "*" else f"(it) => {whole}1"


def argument(form, value):
    kind = kind_of(form)
    if value is None:
        return "null"
    if kind:
        return f"{LETTERS[kind]}{value}"
    if form.rstrip("?") == "units":
        return text(value)
    return filter_of(value) if form == "filter" else json.dumps(value)


def call_of(command):
    """Returns a command as a call of the standard's interfaces."""
    name, *values = command
    words = [argument(form, value) for form, value in zip(COMMANDS[name].arguments, values)]
    if name == "replaceChildren" and values[1] is None:
        words[1] = ""
    if name == "toggleAttribute" and values[2] is None:
        words.pop()
    if name == "walk":
        return f"{words[0]}.{values[1]}()"
    if name in CALLS:
        return CALLS[name].format(*words)
    return f"{words[0]}.{name}({', '.join(words[1:])})"


def made_line(command, reply):
    """Returns the script's line for a command. The made object gets a name with its number."""
    makes, answer = COMMANDS[command[0]].makes, reply.get("ok")
    if makes == "observer":
        return f"const o{answer} = new MutationObserver((records) => say([{answer}, records.map(record)]));"
    if "ok" not in reply:
        return f"try {{ {call_of(command)}; }} catch (refused) {{}}"
    kind = "node" if makes == "nodes" and isinstance(answer, int) else makes
    return f"const {LETTERS[kind]}{answer} = {call_of(command)};" if kind and kind != "nodes" else f"{call_of(command)};"


def inner_lines(places, made, used):
    """Returns lines that name nodes which a command made inside, if they are used later."""
    found = []
    for top, numbers in places:
        for at, number in enumerate(numbers):
            if number in used and number not in made and top in made:
                found.append(f"const n{number} = all(n{top})[{at}];")
                made.add(number)
    return found


def used_nodes(commands):
    found = set()
    for name, *values in commands:
        found |= {value for form, value in zip(COMMANDS[name].arguments, values) if kind_of(form) == "node" and value is not None}
    return found


def naming(made):
    return f"for (const [key, it] of Object.entries({{ {', '.join(f'n{it}' for it in sorted(made))} }})) names.set(it, key);"


def body_of(case, made):
    """Returns the lines of a case but for the last one. `made` gets the numbers of the nodes that have names."""
    used = used_nodes(case.commands) | nodes_in(case.commands[-1], case.replies[-1]) | nodes_in(case.commands[-1], case.told)
    lines = [f"const n0 = {CALLS['newDocument']};"]
    for command, reply, places in zip(case.commands[:-1], case.replies, case.places):
        if command[0] == "notify":
            lines.append(naming(made))
        lines.append(made_line(command, reply))
        if COMMANDS[command[0]].makes in ("node", "nodes") and isinstance(reply.get("ok"), int):
            made.add(reply["ok"])
        lines += inner_lines(places, made, used)
    return [*lines, naming(made)]


def asked_line(command):
    """Returns the last line, whose reply differs."""
    call = call_of(command) if command[0] != "createObserver" else "new MutationObserver(() => {})"
    if command[0] == "notify":
        return f"{call};"
    shown = f"{call}; say({json.dumps(DONE)});" if command[0] in VOID else f"say({call});"
    return f"try {{ {shown} }} catch (refused) {{ say(refused.name); }}"


def opening(case, opened):
    """Returns the lines that open the library's document for its users: by `require` for a module of node, none for a page."""
    if not opened:
        return []
    module = re.search(r'require\("([^"]*)"\)', opened)
    note = [f"// npm install {module[1]}@{case.version}"] if module and case.version else []
    names = {it[0] for it in case.commands}
    wanted = [it for it, need in zip(WINDOW, (None, "createStaticRange", "createObserver")) if need is None or need in names]
    return [*note, f"const {{ {', '.join(wanted)} }} = {opened};"]


def snippet_of(case, opened=None):
    """Returns the whole script of a case, and the printed forms of the last reply: the player's, and the expected one."""
    made = {0}
    lines = body_of(case, made)
    asked, printed = asked_line(case.commands[-1]), Printed(case.commands[-1], made)
    told, due = printed.form(case.told), printed.form(case.replies[-1])
    names = {it[0] for it in case.commands}
    helpers = [SAY, *([RECORD] if names & {"takeRecords", "createObserver"} else []), *([ALL] if any("all(" in it for it in lines) else [])]
    helpers += [TREE] if "tree" in names else []
    lines.append(asked)
    if "notify" in names:
        lines = ["(async () => {", *lines, "})();"]
    return "\n".join([*opening(case, opened), *helpers, *lines]), told, due
