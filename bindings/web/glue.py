"""Writes the glue of the module: a call in C for each export of crates/dom_c, and the calls of JavaScript that go with it.

A call takes a session's index and then its arguments: numbers, and for names, texts and lists where they stand in the module's memory and how long
they are. What it writes goes into the shared numbers, member by member; what it lends is answered there by its place and its length. A signature
that has no known form ends it with a message.
"""
import os
import sys

HERE = os.path.dirname(os.path.abspath(__file__))
sys.dont_write_bytecode = True
sys.path.insert(0, os.path.join(os.path.dirname(HERE), "c"))
from exports import status_word
from header import lends, mended

# Calls that base.h has in a form of its own.
OWN = {"hp_open", "hp_close"}
# Slices of bytes that are no name, but a line or what belongs to a list of names.
OCTETS = {"line", "names", "verdicts"}
# The types of borrowed data, and the functions that read them in JavaScript.
LENT = {"hp_bytes": "bytesAt", "hp_text_view": "textAt"}
NUMBERS = {"uint8_t", "uint16_t", "uint32_t", "uint64_t", "size_t", "bool"}
SIGNED = {"int8_t", "int16_t", "int32_t"}
# How a slice is measured and written: the bytes that it takes at most, and the writer. Names are UTF-8, three bytes a unit at most.
WRITERS = {"name": ("3 * {0}.length", "putName"), "text": ("2 * {0}.length", "putText"), "octets": ("{0}.length", "putOctets"), "numbers": ("4 * {0}.length", "putNumbers")}

C_HEAD = """\
/* The glue: a call of the module for each call of the library. Made by bindings/web/glue.py from the exports; not to be edited. */
#include "huckleport.h"
"""

# A session that has ended, since memory ran out, is read as any other: its edits alone are refused.
C_FOUND = """
#ifdef HP_ENDED
static inline uint8_t status_read(uint8_t status)
{
    return status == HP_ENDED ? HP_OK : status;
}

@CALLS@#endif

#include "base.h"
#include "html.h"
"""

JS_HEAD = """\
/** The calls of the module, by the library's names. Made by bindings/web/glue.py from the exports; not to be edited. */

/** Each call answers the library's status, and what it wrote stands in the module's numbers; what it lends is answered as a string. */
export const callsOver = (module, { reserve, putName, putText, putOctets, putNumbers, bytesAt, textAt }) => ({
"""


def refuse(export, it):
    sys.exit(f"{export.name}: the module has no form for: {it}")


def form(export, it, structs):
    """What a parameter is for JavaScript: number, name, text, octets, numbers or struct."""
    if it.kind == "scalar" and it.type in NUMBERS:
        return "number"
    if it.kind == "slice":
        found = {"uint8_t": "octets" if it.name in OCTETS else "name", "uint16_t": "text", "uint32_t": "numbers"}.get(it.type)
        return found or refuse(export, it)
    if it.kind == "in" and all(its.kind == "scalar" and its.type == "uint8_t" for its in structs[it.type].fields):
        return "struct"
    return refuse(export, it)


def split(export):
    """Returns the parameters that a call reads, and the one that it writes or None."""
    outs = [it for it in export.parameters if it.kind == "out"]
    if len(outs) > 1 or export.parameters[0].kind != "session":
        refuse(export, export.parameters)
    return [it for it in export.parameters if it.kind not in ("out", "session")], (outs[0] if outs else None)


def has_form(export):
    """Whether the module makes a call by itself: it has a session, and writes into no array and at most one thing (base.h makes other calls)."""
    kinds = [it.kind for it in export.parameters]
    return export.name not in OWN and "session" in kinds and "array" not in kinds and kinds.count("out") < 2


# ---- In C


def handed(export, it, structs):
    """A parameter as it is declared, and as it is handed on."""
    its = form(export, it, structs)
    if its == "number":
        return [f"uint32_t {it.name}"], f"({it.type}){it.name}"
    if its == "struct":
        return [f"uint32_t {it.name}"], f"(const {it.type} *)pointer({it.name})"
    return [f"uint32_t {it.name}", f"uint32_t {it.name}_length"], f"pointer({it.name}), {it.name}_length"


def members(export, it, structs):
    """What a call wrote, member by member, as numbers."""
    if it.type in NUMBERS:
        return [f"(uint32_t){it.name}"]
    if it.type in SIGNED:
        return [f"(uint32_t)(int32_t){it.name}"]
    if it.type in LENT:
        first, length = ("bytes", "length") if it.type == "hp_bytes" else ("units", "length")
        return [f"place({it.name}.{first})", f"(uint32_t){it.name}.{length}"]
    fields = structs[it.type].fields
    if any(its.kind != "scalar" for its in fields):
        refuse(export, it)
    return [f"(uint32_t){it.name}.{its.name}" for its in fields]


def in_c(export, structs):
    given, out = split(export)
    forms = [handed(export, it, structs) for it in given]
    declared = ", ".join(["uint32_t of_session", *(it for found, _ in forms for it in found)])
    call = ", ".join(["session", *(it for _, it in forms), *([f"&{out.name}"] if out else [])])
    lines = ["hp_session *session;", "uint32_t refused = enter(of_session, &session);", "if (refused)", "    return refused;"]
    if not out:
        lines.append(f"return leave({export.name}({call}));")
    else:
        told = [f"numbers[{at}] = {it};" for at, it in enumerate(members(export, out, structs))]
        lines += [f"{out.type} {out.name};", f"uint32_t status = {export.name}({call});", "if (status == HP_OK) {"]
        lines += [*(f"    {it}" for it in told), "}", "return leave(status);"]
    body = "".join(f"    {it}\n" for it in lines)
    return f"\nSHOWN({export.name})({declared})\n{{\n{body}}}\n"


def reading(found, structs):
    """Returns macros that make each call of the library return HP_OK in place of HP_ENDED, if the library has that status."""
    lent = lends(structs.values())
    lines = []
    for it in (export for module in found for export in module.exports):
        # (the header has an inline form of some calls, under the calls' names)
        is_mended = bool(mended(it, lent))
        lines += [f"#undef {it.name}\n"] if is_mended else []
        lines.append(f"#define {it.name}(...) status_read({it.name}{'_mended' if is_mended else ''}(__VA_ARGS__))\n")
    return C_FOUND.replace("@CALLS@", "".join(lines))


# ---- In JavaScript


def writing(forms):
    """Returns the statements that write the arguments one after another, each at a multiple of 8, and the arguments of the call."""
    sizes = [WRITERS[kind][0].format(name) for name, kind in forms if kind in WRITERS] + ["8" for _, kind in forms if kind == "struct"]
    lines, words, before = [f"let at = reserve({' + '.join([*sizes, str(8 * len(sizes))])});", "if (at === 0) return OUT_OF_MEMORY;"], [], None
    for name, kind in forms:
        if kind == "number":
            words.append(name)
            continue
        if before:
            lines.append(f"at += {before};")
        size, writer = WRITERS.get(kind, ("8", "putOctets"))
        lines.append(f"const {name}At = at;")
        lines.append(f"const {name}Length = {writer}(at, {name});")
        words += [f"{name}At"] if kind == "struct" else [f"{name}At", f"{name}Length"]
        before = f"({size.format(name)} + 7) & ~7"
    return lines, words


def spelled(name):
    """A parameter's name in JavaScript."""
    first, *rest = name.strip("_").split("_")
    found = first + "".join(it.capitalize() for it in rest)
    return found if found not in ("static", "function", "default", "with", "in", "new", "delete", "export", "at") else f"its{found.capitalize()}"


def in_js(export, structs):
    given, out = split(export)
    forms = [(spelled(it.name), form(export, it, structs)) for it in given]
    declared = ", ".join(["session", *(name for name, _ in forms)])
    reader = LENT.get(out.type) if out else None
    if all(kind == "number" for _, kind in forms) and not reader:
        return f"  {export.name}: module.{export.name},\n"
    lines, words = writing(forms) if any(kind != "number" for _, kind in forms) else ([], [name for name, _ in forms])
    call = f"module.{export.name}({', '.join(['session', *words])})"
    if reader:
        lines += [f"const status = {call};", f"return status === 0 ? {reader}() : status;"]
    else:
        lines.append(f"return {call};")
    body = "".join(f"    {it}\n" for it in lines)
    return f"  {export.name}({declared}) {{\n{body}  }},\n"


def glue(found):
    """The texts in C and in JavaScript."""
    structs = {it.name: it for module in found for it in module.structs}
    exports = [it for module in found for it in module.exports if has_form(it)]
    constants = [it for module in found for it in module.constants]
    numbers = "".join(f"  {it.name}: {it.value},\n" for it in constants)
    printed = "".join(f'  {it.value}: "{status_word(it.name)}",\n' for it in constants if it.type == "uint8_t" and it in next(m for m in found if m.name == "status").constants)
    wanting = next(it.value for it in constants if it.name == "HP_OUT_OF_MEMORY")
    in_script = JS_HEAD.replace("\n/** Each", f"\nconst OUT_OF_MEMORY = {wanting};\n\n/** Each") + "".join(in_js(it, structs) for it in exports) + "});\n"
    in_script += f"\n/** The library's constants. */\nexport const NUMBERS = {{\n{numbers}}};\n\n/** How each status is printed. */\nexport const WORDS = {{\n{printed}}};\n"
    return C_HEAD + reading(found, structs) + "".join(in_c(it, structs) for it in exports), in_script
