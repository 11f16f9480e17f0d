#!/usr/bin/env python3
"""Writes core/calls.h, the part of the extension module that follows from the exports of crates/dom_c and the table of members.py; and builds the module.

With --check nothing is written, and it fails where the file is not what the sources give. With --build the module is compiled and linked
with libhuckleport.a, as huckleport/_core.abi3.so, which any CPython from 3.8 on can load; bindings/c/make.py makes that library where it is missing.
"""
import argparse
import os
import shutil
import subprocess
import sys
import sysconfig

HERE = os.path.dirname(os.path.abspath(__file__))
ROOT = os.path.dirname(os.path.dirname(HERE))
CORE = os.path.join(HERE, "core")
MADE = os.path.join(CORE, "calls.h")
MODULE = os.path.join(HERE, "huckleport", "_core.abi3.so")
LIBRARY = os.path.join(ROOT, "bindings/c/out")
# (most texts are short, so loops over them are quickest one step at a time)
QUICK = ["-O3", "-fno-tree-vectorize"]
sys.dont_write_bytecode = True
sys.path[:0] = [HERE, os.path.join(ROOT, "bindings/c")]
from exports import SOURCES, modules
from members import LET_GO_FIRST, READS, members, moving
from signatures import is_plain

HEAD = """\
/* The calls of the library, and the members that are one call each. Made by bindings/python/extension.py; not to be edited. */
"""
# Slices of bytes that are no name, but a line or what belongs to a list of names.
OCTETS = {"line", "names", "verdicts"}
SLICES = {"uint8_t": "name_of", "uint16_t": "text_of", "uint32_t": "numbers_of"}
LENT = {"hp_bytes": "name_from({0}.bytes, {0}.length)", "hp_text_view": "text_from({0}.units, {0}.length)"}
NUMBERS = {
    "uint8_t": "PyBool_FromLong({})",
    "int8_t": "PyLong_FromLong({})",
    "uint32_t": "PyLong_FromUnsignedLong({})",
    "uint64_t": "PyLong_FromUnsignedLongLong({})",
    "size_t": "PyLong_FromSize_t({})",
}
READ = {"numbers": "numbers_answer({})", "names": "names_answer({})", "text": "text_answer({})", "text?": "text_answer({})"}
# Calls that may take long, while which other threads run; and the word that says whether one does.
LONG = {"hp_clone_node": "deep", "hp_import_node": "deep", "hp_close": None}
# Calls after which nodes may be gone.
LETTING_GO = {"hp_discard", "hp_close", "hp_line"}
# Calls of members that remove a node from a tree or insert one: the C function that updates the node's object, and its first argument.
MOVING = {
    "hp_remove": "taken_out(self",
    "hp_remove_child": "taken_out(given[0]",
    "hp_replace_child": "taken_out(given[1]",
    "hp_adopt_node": "taken_out(given[0]",
    "hp_append_child": "placed(given[0]",
    "hp_insert_before": "placed(given[0]",
}
# Calls after which the cached order of a tree may be stale.
MOVES = set()
# Calls after which an element may have other attributes; a line may change those of any.
RESHAPING = {"hp_set_attribute", "hp_remove_attribute", "hp_toggle_attribute"}
# Calls after which the records of an observer are delivered to nobody.
FORGETTING = {"hp_disconnect", "hp_release_observer"}
# What notes the nodes that a member may leave without a parent, though they have no object.
LEAVING = {"hp_set_text_content": "note_children", "hp_normalize": "note_texts"}
# The classes that a member makes, and their family.
NEW = {"Element": "NODE", "Text": "NODE", "Comment": "NODE", "ProcessingInstruction": "NODE", "DocumentFragment": "NODE", "Document": "NODE", "Range": "RANGE"}


def upper(name):
    """ProcessingInstruction as PROCESSING_INSTRUCTION."""
    return "".join("_" + it if it.isupper() and at else it for at, it in enumerate(name)).upper()


# ---- structs


def quoted(text):
    """A text as C has it; its quotes are the only signs that C reads in another way."""
    return '"' + text.replace('"', '\\"') + '"'


def struct(it):
    fields = ", ".join(f'{{ "{part.name}", NULL }}' for part in it.fields)
    text = f"\nstatic PyStructSequence_Field {it.name}_fields[] = {{ {fields}, {{ NULL, NULL }} }};\n"
    # (3.8 ends with a crash where such a class has no docstring)
    text += f'static PyStructSequence_Desc {it.name}_form = {{ "huckleport._core.{it.name}", {quoted(it.doc)}, {it.name}_fields, {len(it.fields)} }};\n'
    text += f"\nstatic PyObject *{it.name}_from(const Calls *calls, const {it.name} *it)\n{{\n"
    text += f"    PyObject *found = PyStructSequence_New(calls->state->structs[{place_of(it)}]);\n"
    text += "    if (!found)\n        return NULL;\n"
    for at, part in enumerate(it.fields):
        text += f"    PyStructSequence_SetItem(found, {at}, PyLong_FromSize_t(it->{part.name}));\n"
    return text + "    return found;\n}\n"


def place_of(it):
    """The name of a struct's place among those of an interpreter."""
    return "AT_" + it.name.upper()


def places(structs):
    names = ", ".join(map(place_of, structs))
    return f"\nenum {{ {names}, STRUCTS_MADE }};\ntypedef char structs_fit[STRUCTS_MADE <= STRUCTS ? 1 : -1];\n"


def structs_made(structs):
    text = "\nstatic bool structs_made(PyObject *module, State *state)\n{\n    bool done = true;\n    PyStructSequence_Desc *const forms[] = {\n"
    text += "".join(f"        &{it.name}_form,\n" for it in structs) + "    };\n    for (int at = 0; done && at < STRUCTS_MADE; at++) {\n"
    text += "        state->structs[at] = PyStructSequence_NewType(forms[at]);\n        done = state->structs[at] != NULL;\n"
    text += "        Py_XINCREF((PyObject *)state->structs[at]);\n"
    return text + "        done = done && PyModule_AddObject(module, strrchr(forms[at]->name, '.') + 1, (PyObject *)state->structs[at]) == 0;\n    }\n    return done;\n}\n"


def struct_in(it):
    """A struct that is handed in, by its members."""
    text = f"\nstatic bool {it.name}_of(PyObject *value, {it.name} *to)\n{{\n"
    text += f"    static const char *const names[] = {{ {', '.join(chr(34) + part.name + chr(34) for part in it.fields)}, NULL }};\n"
    text += f"    uint8_t *const places[] = {{ {', '.join('&to->' + part.name for part in it.fields)} }};\n"
    text += "    bool fits = true;\n    for (int at = 0; fits && names[at]; at++) {\n"
    text += "        PyObject *part = PyObject_GetAttrString(value, names[at]);\n        fits = part && uint8_of(part, places[at]);\n"
    return text + "        Py_XDECREF(part);\n    }\n    return fits;\n}\n"


# ---- calls


def read_word(it, word):
    """How a parameter is read of a word: its declaration, and what reads it."""
    if it.kind == "slice":
        how = "octets_of" if it.type == "uint8_t" and it.name in OCTETS else SLICES[it.type]
        return f"Slice {it.name};", f"{how}({word}, &{it.name})"
    if it.kind == "in":
        return f"{it.type} {it.name};", f"{it.type}_of({word}, &{it.name})"
    form = it.type if it.type == "bool" else it.type[:-2]
    return f"{it.type} {it.name} = 0;", f"{form}_of({word}, &{it.name})"


def handed(it):
    """How a parameter is handed on."""
    if it.kind == "slice":
        return f"{it.name}.at, {it.name}.length"
    return f"&{it.name}" if it.kind in ("in", "out") else it.name


def out_declared(it):
    return f"{it.type} {it.name};" if it.type.startswith("hp_") else f"{it.type} {it.name} = 0;"


def answer_of(outs, read):
    if read:
        return READ[read].format("session_at(self)")
    if not outs:
        return "none()"
    it = outs[0]
    if it.type in LENT:
        return LENT[it.type].format(it.name)
    return NUMBERS[it.type].format(it.name) if it.type in NUMBERS else f"{it.type}_from((Calls *)self, &{it.name})"


def made_call(name, calls, call, indent):
    """What makes a call. One that may take long lets other threads run meanwhile, and owns the lock of memory. A deep copy is noted."""
    if name not in LONG:
        return f"{indent}uint8_t status = {call};\n"
    is_long = LONG[name]
    thread = f"begin_long({calls})" if is_long is None else f"{is_long} ? begin_long({calls}) : NULL"
    end = f"{indent}end_long({calls}, thread);\n" if is_long is None else f"{indent}if (thread)\n{indent}    end_long({calls}, thread);\n"
    call = f"{indent}memory_own();\n{indent}uint8_t status = {call};\n{indent}memory_release();\n"
    copied = f"{indent}if ({is_long} && !status)\n{indent}    ({calls})->copied = copy;\n" if is_long else ""
    return f"{indent}PyThreadState *thread = {thread};\n{call}{end}{copied}"


def body(parts, reads, call, answer, refusal):
    """The body of a function that reads words, makes a call and answers, and lets its slices go."""
    name, calls = call.partition("(")[0], "(Calls *)self" if "session_at" in call else "((Thing *)self)->calls"
    if name in LETTING_GO:
        answer = f"let_go({calls}, {answer})"
    first = [f"let_go_noted({calls});"] if name[3:] in LET_GO_FIRST else []
    if name in MOVES:
        first.append(f"moved({calls});")
    if name in RESHAPING:
        first.append(f"reshaped({calls}, {call.split(', ')[1]});")
    if name in FORGETTING:
        first.append(f"forget_taken({calls}, {call.split(', ')[1].rstrip(')')});")
    if name == "hp_line":
        first.append(f"labels_drop_pages(&({calls})->labels);")
    if name in LEAVING and "number_of(self)" in call:
        first.append(f"{LEAVING[name]}({calls}, number_of(self));")
    slices = [it.name for it in parts if it.kind == "slice"]
    text = f"    if ({'is_busy_closing' if name == 'hp_close' else 'is_busy'}({calls}))\n        return NULL;\n"
    text += "    PyObject *found = NULL;\n" if reads or slices else ""
    text += "".join(f"    begin(&{it});\n" for it in slices)
    if not reads and not slices:
        return text + "".join(f"    {it}\n" for it in first) + made_call(name, calls, call, "    ") + f"    return status ? {refusal} : {answer};\n}}\n"
    text += f"    if ({' && '.join(reads)}) {{\n" + "".join(f"        {it}\n" for it in first)
    text += made_call(name, calls, call, "        ") + f"        found = status ? {refusal} : {answer};\n    }}\n"
    return text + "".join(f"    drop(&{it});\n" for it in slices) + "    return found;\n}\n"


def call(export, read=None):
    """A method of a session: the call by its name, or read_NAME, which reads the whole answer."""
    name = export.name[3:]
    parts = [it for it in export.parameters if it.kind not in ("session", "out")]
    outs = [it for it in export.parameters if it.kind == "out"]
    made = [read_word(it, f"word(words, {at})") for at, it in enumerate(parts)]
    text = f"\nstatic PyObject *call_{'read_' if read else ''}{name}(PyObject *self, PyObject *words)\n{{\n"
    text += "".join(f"    {it}\n" for it, _ in made) + "".join(f"    {out_declared(it)}\n" for it in outs)
    said = f"{export.name}({', '.join(['session_at(self)', *map(handed, parts), *map(handed, outs)])})"
    reads = [f'is_counted(words, {len(parts)}, "{name}")', *(it for _, it in made)]
    return text + body(parts, reads, said, answer_of(outs, read), f'refused(status, "{name}", self, words)')


# ---- members

FORMS = {
    "node": ("uint32_t {0} = 0;", "node_of(self, given[{1}], &{0})", "{0}"),
    "node?": ("uint32_t {0} = HP_NONE;", "node_or_none_of(self, given[{1}], &{0})", "{0}"),
    "uint32": ("uint32_t {0} = 0;", "uint32_of(given[{1}], &{0})", "{0}"),
    "name": ("Slice {0};", "name_of(given[{1}], &{0})", "{0}.at, {0}.length"),
    "text": ("Slice {0};", "text_of(given[{1}], &{0})", "{0}.at, {0}.length"),
    "text?": ("Slice {0};", "text_or_none_of(given[{1}], &{0})", "{0}.at, {0}.length"),
}


def member_answer(answer, outs, words):
    """What a member answers, where its call was done."""
    form, _, part = answer.partition(" ")
    if form == "given":
        return f"same(given[{[name for name, _ in words].index(part)}])"
    if form in ("none", "text", "names"):
        return "none()" if form == "none" else READ[form].format("session_of(self)")
    if form == "lent":
        return LENT[outs[0].type].format(outs[0].name)
    value = f"{outs[0].name}.{part}" if part else outs[0].name
    if form in NEW:
        found = f"made_at(self, KIND_{upper(form)}, FAMILY_{NEW[form]}, {value})"
        # (a Document that is a part of the answer was there before)
        return found if part else f"own({found})"
    return {"node": "node_at(self, {})", "node?": "node_or_none_at(self, {})", "int": "PyLong_FromSize_t({})", "bool": "PyBool_FromLong({})"}[form].format(value)


class Part:
    def __init__(self, kind, name):
        self.kind, self.name = kind, name


def member(name, export, words, answer):
    """A member of a class: its object's number comes first."""
    outs = [it for it in export.parameters if it.kind == "out"]
    made = [tuple(text.format(word, at) for text in FORMS[form]) for at, (word, form) in enumerate(words)]
    parts = [Part("slice" if form in ("name", "text", "text?") else "scalar", word) for word, form in words]
    text = f"\nstatic PyObject *member_{c_name(name)}(PyObject *self, PyObject *{'words, PyObject *named' if words else 'nothing'})\n{{\n"
    if words:
        spelled = ", ".join(f'"{word}"' for word, _ in words)
        text += f"    static const char *const names[] = {{ {spelled}, NULL }};\n    PyObject *given[{len(words)}];\n"
    else:
        text += "    (void)nothing;\n"
    text += "".join(f"    {it}\n" for it, _, _ in made) + "".join(f"    {out_declared(it)}\n" for it in outs)
    said = f"{export.name}({', '.join(['session_of(self)', 'number_of(self)', *(it for _, _, it in made), *map(handed, outs)])})"
    required = sum(not form.endswith("?") for _, form in words)
    short = name.rstrip("=").split(".")[1]
    reads = [f'sort(words, named, names, {required}, given, "{short}")', *(it for _, it, _ in made)] if words else []
    # (a node of another kind has no data to borrow: the member is refused as the command is)
    status = "status == HP_NOT_THERE ? HP_TYPE_ERROR : status" if answer == "lent" else "status"
    refusal = f'refused_of({status}, "{export.name[3:]}", self, {f"given, {len(words)}" if words else "NULL, 0"})'
    found = member_answer(answer, outs, words)
    if export.name in MOVING:
        found = f"{MOVING[export.name]}, {found})"
    return text + body(parts, reads, said, found, refusal)


def c_name(name):
    return name.replace(".", "_").replace("=", "_set")


def member_row(name, words):
    function = f"member_{c_name(name)}"
    if words:
        return f'    {{ "{name}", (PyCFunction)(void (*)(void)){function}, METH_VARARGS | METH_KEYWORDS, NULL }},\n'
    return f'    {{ "{name}", {function}, METH_NOARGS, NULL }},\n'


# ---- the file


def made(found):
    """The text of calls.h."""
    exports = {it.name: it for module in found for it in module.exports}
    structs = [it for module in found for it in module.structs]
    MOVES.update(moving(found))
    written = {part.type for it in exports.values() for part in it.parameters if part.kind == "out"} - set(LENT)
    taken = {part.type for it in exports.values() for part in it.parameters if part.kind == "in"}
    outs = [it for it in structs if it.name in written]
    text = HEAD + places(outs) + "".join(map(struct, outs)) + structs_made(outs) + "".join(struct_in(it) for it in structs if it.name in taken)
    calls = {name: it for name, it in exports.items() if is_plain(it)}
    text += "".join(map(call, calls.values())) + "".join(call(exports["hp_" + name], read) for name, read in READS.items())
    rows = "".join(f'    {{ "{name[3:]}", call_{name[3:]}, METH_VARARGS, NULL }}, \\\n' for name in calls)
    rows += "".join(f'    {{ "read_{name}", call_read_{name}, METH_VARARGS, NULL }}, \\\n' for name in READS)
    text += f"\n#define CALLS_MADE \\\n{rows.rstrip().rstrip(chr(92)).rstrip()}\n"
    table = ""
    for name, to, words, answer in members():
        text += member(name, exports["hp_" + to], words, answer)
        table += member_row(name, words)
    return text + f"\nstatic PyMethodDef members_made[] = {{\n{table}    {{ NULL, NULL, 0, NULL }},\n}};\n"


def what_is_missing(given):
    """Why the module can't be built here, or nothing."""
    include = sysconfig.get_path("include")
    if not shutil.which(given.compiler):
        return f"there is no {given.compiler}"
    if not os.path.exists(os.path.join(include, "Python.h")):
        return f"there is no Python.h in {include}"
    lacking = [it for it in ("libhuckleport.a", "huckleport.h") if not os.path.exists(os.path.join(given.library, it))]
    return f"{given.library} has no {' and no '.join(lacking)}: python3 bindings/c/make.py makes them" if lacking else ""


def make_library(given):
    """Makes the library for C, where it is missing or is to be proved first."""
    script = [sys.executable, os.path.join(ROOT, "bindings/c/make.py"), *(["--prove"] if given.prove else [])]
    if given.library == LIBRARY and (given.prove or not os.path.exists(os.path.join(LIBRARY, "libhuckleport.a"))) and subprocess.run(script).returncode:
        sys.exit("the library for C was not built: bindings/c/make.py says above why")


def build(given):
    """Compiles and links the module. It shows one name, and is put in place whole."""
    make_library(given)
    missing = what_is_missing(given)
    if missing and given.where_possible:
        return print(f"left out: the extension module, since {missing}")
    if missing:
        sys.exit(f"the extension module cannot be built: {missing}")
    words = [given.compiler, "-std=c99", *QUICK, "-fPIC", "-shared", "-Wall", "-Wextra", "-Wno-missing-field-initializers", "-fvisibility=hidden"]
    words += [f"-I{sysconfig.get_path('include')}", f"-I{given.library}", f"-I{CORE}", os.path.join(CORE, "core.c")]
    words += [os.path.join(given.library, "libhuckleport.a"), "-Wl,--exclude-libs,ALL", "-Wl,-z,noexecstack"]
    if subprocess.run([*words, "-o", given.to + ".new"]).returncode:
        sys.exit(f"the extension module was not built: {given.compiler} says above why")
    os.replace(given.to + ".new", given.to)
    return print(given.to)


def main():
    parser = argparse.ArgumentParser(description=__doc__, formatter_class=argparse.RawDescriptionHelpFormatter)
    parser.add_argument("--check", action="store_true", help="write nothing, and fail where calls.h is not what the sources give")
    parser.add_argument("--build", action="store_true", help="write nothing, and build the module")
    parser.add_argument("--sources", default=SOURCES, metavar="FOLDER", help="the folder of the exports (crates/dom_c/src)")
    parser.add_argument("--prove", action="store_true", help="with --build, prove the library first")
    parser.add_argument("--where-possible", action="store_true", help="with --build, leave the module out where there is no compiler or no Python.h")
    parser.add_argument("--library", default=LIBRARY, metavar="FOLDER", help="where libhuckleport.a and huckleport.h are (bindings/c/out)")
    parser.add_argument("--compiler", default="gcc", help="the C compiler (gcc)")
    parser.add_argument("--to", default=MODULE, metavar="FILE", help="the module that is built (huckleport/_core.abi3.so)")
    given = parser.parse_args()
    if given.build:
        return build(given)
    text = made(modules(given.sources))
    if not given.check:
        with open(MADE, "w", encoding="utf-8") as file:
            file.write(text)
    elif not os.path.exists(MADE) or open(MADE, encoding="utf-8").read() != text:
        sys.exit("not what the sources give: core/calls.h; run python3 bindings/python/extension.py")
    return None


if __name__ == "__main__":
    main()
