#!/usr/bin/env python3
"""Writes huckleport.h from the exports of crates/dom_c: their signatures, comments, structs and constants.

A signature that has no known form in C ends it with a message, and nothing is written.
"""
import argparse
import sys
import textwrap

from exports import SOURCES, modules, status_word
from sections import section
from version import VERSION

# (the comments are doxygen's)
HEAD = """\
/** @file huckleport.h
 * Documents by the DOM Standard. Made by bindings/c/header.py from the exports of the library; not to be edited.
 *
 * Every call returns a status: HP_OK, or why it was refused. A refused call changes neither the session nor the values at its out
 * pointers. Every call with a session can also return HP_CLOSED. One that takes memory can return HP_OUT_OF_MEMORY. A question, or a
 * call that makes an object, has then changed nothing, and the session goes on. Any other call ends the session, and every later command
 * returns HP_OUT_OF_MEMORY. The state of an ended session can still be read, by the calls that return HP_ENDED in place of HP_OK: each
 * stored node with its names and attributes, static ranges and walkers as before that call, all ranges, iterators and observers. hp_close
 * frees all of it.
 *
 * Objects are identified by numbers, each kind from 0 on, and no number is used again. Node 0 is a Document. HP_NONE stands for null.
 * Names are UTF-8: bytes and their count. Texts are UTF-16: units and their count. Null with a count of 0 is an empty one.
 * Borrowed data (hp_bytes, and the structs whose name ends in _view) is read only, and valid until the next call with the session.
 *
 * The caller has to ensure the following, since no call can test it:
 * - a session is HP_SESSION_INIT, all zero bytes, before its first hp_open; only calls change it, and no two copies of it are used;
 * - pointers point at values of their type. A count is the number of units or bytes at the pointer before it, a capacity the number
 *   that may be written there;
 * - the arguments of a call do not overlap: no two out pointers are equal, and no argument is borrowed from the same session (copy it
 *   first);
 * - a session is used by one thread at a time. Different sessions may be used by different threads at once;
 * - no call is made in a signal handler, nor in the forked child of a process with threads; malloc, realloc and free are one allocator's.
 */
#ifndef HUCKLEPORT_H
#define HUCKLEPORT_H

#include <stdbool.h>
#include <stddef.h>
#include <stdint.h>

#ifdef __cplusplus
extern "C" {
#endif
"""

LITERALS = """\
/** The version of this header. */
#define HP_VERSION "{version}"
/** The version as a number, which is greater in a later one: 1000000 for each major, 1000 for each minor one. */
#define HP_VERSION_NUMBER ({number})

/** A session before its first hp_open. */
#define HP_SESSION_INIT { { NULL }, false }

/** The options of an observer, each of them absent. */
#define HP_OPTIONS_INIT { 2, 2, 2, 2, 2, 2, 0 }

/** A name that is a literal: two arguments of a call, the bytes and their count. */
#define hp_name(literal) ((const uint8_t *)("" literal)), (sizeof(literal) - 1)

/** A text that is a literal: two arguments of a call, the units and their count. C99 has no such literals; C11 and C++11 have. */
#if (defined(__STDC_VERSION__) && __STDC_VERSION__ >= 201112L) || (defined(__cplusplus) && __cplusplus >= 201103L)
#define hp_text_literal(literal) ((const uint16_t *)(u"" literal)), (sizeof(u"" literal) / sizeof(uint16_t) - 1)
#endif
"""

TAIL = """
#ifdef __cplusplus
}
#endif

#endif
"""

WIDTH = 120


def literals():
    """Returns the declarations beside the exports, with the version in them."""
    major, minor, patch = VERSION.split(".")
    return LITERALS.replace("{version}", VERSION).replace("{number}", f"{major} * 1000000 + {minor} * 1000 + {patch}")


def comment(*texts, indent=""):
    """Texts as a comment of doxygen's, each on lines of its own. Rust's marks of code have none in C."""
    lines = [line for text in texts for line in textwrap.wrap(text.replace("`", ""), WIDTH - 7 - len(indent))]
    if len(lines) == 1:
        return f"{indent}/** {lines[0]} */\n"
    return f"{indent}/** " + f"\n{indent} * ".join(lines) + " */\n"


def constant(it):
    value = f"((uint32_t){it.value}u)" if it.type == "uint32_t" else str(it.value)
    return comment(it.doc or f"Printed as {status_word(it.name)}.") + f"#define {it.name} {value}\n"


def field(it, is_alone):
    said = comment(it.doc, indent="    ") if it.doc else ""
    if it.kind == "slice":
        length = "length" if is_alone else it.name + "_length"
        return f"{said}    const {it.type} *{it.name};\n    size_t {length};\n"
    return f"{said}    {it.type} {'*' if it.kind == 'pointer' else ''}{it.name};\n"


def struct(it):
    text = comment(it.doc) if it.doc else ""
    fields = "".join(field(its, len(it.fields) == 1) for its in it.fields)
    return text + f"typedef struct {it.name} {{\n{fields}}} {it.name};\n"


def declared(it):
    """A parameter as it is declared."""
    if it.kind == "scalar":
        return f"{it.type} {it.name}"
    if it.kind == "slice":
        return f"const {it.type} *{it.name}, size_t {it.name}_length"
    if it.kind == "array":
        return f"{it.type} *{it.name}, size_t {it.name}_capacity"
    return f"{'const ' if it.kind == 'in' else ''}{it.type} *{it.name}"


def prototype(name, parameters):
    return f"uint8_t {name}({', '.join(map(declared, parameters)) or 'void'})"


def answered(export):
    """Returns the line of a comment with the statuses that a call can return, beside those that every call can return."""
    forms = {(it.kind, it.type) for it in export.parameters}
    has_names = ("slice", "uint8_t") in forms and export.name != "hp_line"
    has_lengths = ("slice", "uint32_t") in forms
    found = ["HP_NOT_UTF8"] * has_names + ["HP_BAD_LENGTHS"] * has_lengths
    # (a part that is none of them is not there)
    has_choice = any(it.kind == "scalar" and it.type == "uint8_t" and it.name != "part" for it in export.parameters)
    found += ["HP_BAD_CHOICE"] * (has_lengths or has_choice)
    return f"@return HP_OK, or why it was refused{'; also ' if found else ''}{', '.join(found)}."


def lends(structs):
    """For each struct the statements that leave it with nothing lent."""
    found = {}
    for it in structs:
        lines = []
        for part in it.fields:
            if part.kind == "slice":
                length = "length" if len(it.fields) == 1 else part.name + "_length"
                lines += [f"{part.name} = ({'const ' + part.type} *)hp_nothing", f"{length} = 0"]
            elif part.kind == "struct":
                lines += [f"{part.name}.{line}" for line in found.get(part.type, [])]
        if lines:
            found[it.name] = lines
    return found


def handed(it):
    """A parameter as the inline form of a call hands it on."""
    if it.kind == "slice":
        return f"{it.name} ? {it.name} : (const {it.type} *)hp_nothing, {it.name}_length"
    if it.kind == "array":
        return f"{it.name} ? {it.name} : ({it.type} *)hp_nothing, {it.name}_capacity"
    return it.name


def count_of(it):
    """Returns the parameter with the count of a slice, or with the capacity of an array."""
    return f"{it.name}_{'capacity' if it.kind == 'array' else 'length'}"


def mended(export, lent):
    """The inline form of a call, which asks less than the export: null for nothing, and any value where something is lent."""
    slices = [it for it in export.parameters if it.kind in ("slice", "array")]
    outs = [it for it in export.parameters if it.kind == "out" and it.type in lent]
    if not slices and not outs:
        return ""
    text = f"static inline {prototype(export.name + '_mended', export.parameters)}\n{{\n"
    if slices:
        text += f"    if ({' || '.join(f'(!{it.name} && {count_of(it)})' for it in slices)})\n        return HP_BAD_LENGTHS;\n"
    for it in outs:
        text += "".join(f"    {it.name}->{line};\n" for line in lent[it.type])
    text += f"    return {export.name}({', '.join(handed(it) for it in export.parameters)});\n}}\n"
    return text + f"#define {export.name}(...) {export.name}_mended(__VA_ARGS__)\n"


def words(statuses):
    """Returns the inline call for the word of a status."""
    text = comment("How a status is printed, as in the reply to a line.")
    text += "static inline const char *hp_status_word(uint8_t status)\n{\n    switch (status) {\n"
    for it in statuses:
        if it.type == "uint8_t":
            text += f"    case {it.name}: return \"{status_word(it.name)}\";\n"
    return text + '    default: return "";\n    }\n}\n'


def ordered(structs):
    """The structs, each behind those that it has."""
    found, left = [], list(structs)
    while left:
        names = {it.name for it in left}
        ready = [it for it in left if not any(part.type in names for part in it.fields)]
        found += ready
        left = [it for it in left if it not in ready]
        if not ready:
            sys.exit("structs that have one another have no form in C")
    return found


def options_are_known(structs):
    """Whether HP_SESSION_INIT and HP_OPTIONS_INIT still fit their structs."""
    forms = {it.name: [part.kind + " " + part.type for part in it.fields] for it in structs}
    options = ["scalar uint8_t"] * 7
    known = {"hp_session": ["struct hp_slot", "scalar bool"], "hp_slot": ["pointer uint8_t"], "hp_options": options}
    for name, form in known.items():
        if forms.get(name) != form:
            sys.exit(f"{name} has other fields than its initial value in header.py")


def header(found):
    """Returns the header of a crate's modules."""
    constants = [it for module in found for it in module.constants]
    structs = ordered(it for module in found for it in module.structs)
    exports = [it for module in found for it in module.exports]
    options_are_known(structs)
    lent = lends(structs)
    text = HEAD + "\n" + "".join(map(constant, constants)) + "\n" + "\n".join(map(struct, structs)) + "\n" + literals()
    for module in found:
        if module.exports:
            text += f"\n/** @name {module.doc.rstrip('.')}\n * @{{ */\n"
        for it in module.exports:
            text += "\n" + comment(it.doc + section(it.name), answered(it)) + prototype(it.name, it.parameters) + ";\n"
        if module.exports:
            text += "\n/** @} */\n"
    text += "\n/** @cond */\n/* The functions below replace null pointers and unset views. Macros give them the names of the calls above. */\n\n"
    text += "static const uint64_t hp_nothing[1] = { 0 };\n\n"
    text += "\n".join(filter(None, (mended(it, lent) for it in exports))) + "\n/** @endcond */\n\n" + words(it for module in found if module.name == "status" for it in module.constants)
    return text + TAIL


def main():
    parser = argparse.ArgumentParser(description=__doc__, formatter_class=argparse.RawDescriptionHelpFormatter)
    parser.add_argument("--sources", default=SOURCES, help="the folder of the exports (crates/dom_c/src)")
    parser.add_argument("-o", dest="to", help="the file that is written (standard output)")
    given = parser.parse_args()
    text = header(modules(given.sources))
    if not given.to:
        sys.stdout.write(text)
        return
    with open(given.to, "w", encoding="utf-8") as file:
        file.write(text)


if __name__ == "__main__":
    main()
