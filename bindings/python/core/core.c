/* huckleport._core: the calls of the library and the members that are asked most, over the static library, on Python's stable ABI.
 *
 * Each function makes its call, copies the answer, and only then makes Python's objects of it; the lock of the interpreter is held all the
 * while. calls.h is written by bindings/python/extension.py from the exports. */
#include "core.h"
#include "memory.h"
#include "members.h"
#include "writing.h"
#include "reading.h"
#include "from_xml.h"
#include "from_html.h"
#include "from_lxml.h"
#include "calls.h"

static PyMethodDef members_by_hand[] = {
    { "Node.node_name", node_node_name, METH_NOARGS, NULL },
    { "Element.tag_name", node_first_name, METH_NOARGS, NULL },
    { "DocumentType.name", node_first_name, METH_NOARGS, NULL },
    { "DocumentType.public_id", node_public_id, METH_NOARGS, NULL },
    { "DocumentType.system_id", node_system_id, METH_NOARGS, NULL },
    { "ProcessingInstruction.target", node_first_name, METH_NOARGS, NULL },
    { "Node.owner_document", node_owner_document, METH_NOARGS, NULL },
    { "Node.child_nodes", node_child_nodes, METH_NOARGS, NULL },
    { "Node.has_child_nodes", node_has_child_nodes, METH_NOARGS, NULL },
    { "Node.text_content", node_text_content, METH_NOARGS, NULL },
    { "Element.text", node_text, METH_NOARGS, NULL },
    { "ChildNode.tail", node_tail, METH_NOARGS, NULL },
    { "Node.tree", node_tree, METH_NOARGS, NULL },
    { "Node.descendants", (PyCFunction)(void (*)(void))node_descendants, METH_VARARGS | METH_KEYWORDS, NULL },
    { "Node.next_siblings", node_next_siblings, METH_NOARGS, NULL },
    { "Node.previous_siblings", node_previous_siblings, METH_NOARGS, NULL },
    { "ParentNode.__iter__", node_iter, METH_NOARGS, NULL },
    { "ParentNode.children", node_children, METH_NOARGS, NULL },
    { "ParentNode.get_elements_by_tag_name", (PyCFunction)(void (*)(void))node_elements_by_tag_name, METH_VARARGS | METH_KEYWORDS, NULL },
    { "ParentNode.get_element_by_id", (PyCFunction)(void (*)(void))node_element_by_id, METH_VARARGS | METH_KEYWORDS, NULL },
    { NULL, NULL, 0, NULL },
};

static PyMethodDef calls_by_hand[] = {
    { "keep", calls_keep, METH_VARARGS, "The object of a session, a class and a number: the same one each time." },
    { "make", calls_make, METH_VARARGS, "The object of a number that was just made: the number is freed with its object." },
    { "let_all_go", calls_let_all_go, METH_NOARGS, "Frees all that nobody holds." },
    { "note", calls_note, METH_O, "Notes nodes that a call may have left without a parent, though they have no object." },
    { "node_object", calls_node_object, METH_VARARGS, "The node of a session and a number." },
    { "read_name", calls_read_name, METH_VARARGS, "A part of the name of a node." },
    { "read_line", calls_read_line, METH_VARARGS, "The status of a line, and the line of its reply." },
    { "read_printed", calls_read_printed, METH_VARARGS, "A node as its line prints it." },
    { "read_tree", calls_read_tree, METH_VARARGS, "The rows of a session and a node, up to a given number." },
    { "read_markup", calls_read_markup, METH_VARARGS, "A node and all below it as markup: texts with other rows between, and all names." },
    { "read_orders", calls_read_orders, METH_VARARGS, "Puts the names of the attributes of all elements of a tree that have several into a dict." },
    { "read_data_of", calls_read_data_of, METH_O, "The data of many nodes." },
    { "read_text_content_of", calls_read_text_content_of, METH_O, "The text content of many nodes." },
    { "read_attribute_of", calls_read_attribute_of, METH_VARARGS, "The value of an attribute of many elements." },
    { "read_attributes_of", calls_read_attributes_of, METH_O, "The attributes of many elements, a dict each." },
    { "read_records", calls_read_records, METH_VARARGS, "The records of a session and an observer, which are taken." },
    { "tell", calls_tell, METH_VARARGS, "Notifies the observers of a session; a list takes the delivered notices. Returns the exceptions that were raised." },
    CALLS_MADE{ NULL, NULL, 0, NULL },
};

static PyMethodDef builder_methods[] = {
    { "add_xml", builder_add_xml, METH_O, "add_xml($self, source, /)\n--\n\nAdds the nodes of a document of XML; False where it is not well-formed." },
    { "add_page", builder_add_page, METH_VARARGS,
        "add_page($self, page, is_exact, /)\n--\n\nAdds the nodes of a page of html5-parser; False where it is to be exact and can't be." },
    { "add_part", builder_add_part, METH_O, "add_part($self, page, /)\n--\n\nAdds the nodes below the root of a page of html5-parser." },
    { "start", builder_start, METH_VARARGS, "start($self, name, attributes, /)\n--\n\nRecords the start of an element, as lxml's parser calls it." },
    { "end", builder_end, METH_O, "end($self, name, /)\n--\n\nRecords the end of an element." },
    { "data", builder_data, METH_O, "data($self, text, /)\n--\n\nRecords a text." },
    { "comment", builder_comment, METH_O, "comment($self, text, /)\n--\n\nRecords a comment." },
    { "pi", builder_pi, METH_VARARGS, "pi($self, target, data, /)\n--\n\nRecords an instruction." },
    { "doctype", builder_doctype, METH_VARARGS, "doctype($self, name, public_id, system_id, /)\n--\n\nRecords a doctype." },
    { "close", builder_close, METH_NOARGS, "close($self, /)\n--\n\nDoes nothing: lxml's parser calls it at the end." },
    { "add_record", builder_add_record, METH_NOARGS, "add_record($self, /)\n--\n\nAdds the nodes of the recorded page." },
    { "abandon", builder_abandon, METH_NOARGS, "abandon($self, /)\n--\n\nFrees all open elements." },
    { NULL, NULL, 0, NULL },
};

static PyType_Slot builder_slots[] = {
    { Py_tp_doc, "Builds a tree under a node: Builder(calls, document, root, is_lenient)." },
    { Py_tp_new, builder_new },
    { Py_tp_dealloc, builder_dealloc },
    { Py_tp_methods, builder_methods },
    { 0, NULL },
};

static PyType_Spec builder_spec = { "huckleport._core.Builder", sizeof(Builder), 0, Py_TPFLAGS_DEFAULT, builder_slots };

static PyGetSetDef calls_gets[] = {
    { "is_open", calls_is_open, NULL, "Whether the session is open.", NULL },
    { NULL, NULL, NULL, NULL, NULL },
};

static PyType_Slot calls_slots[] = {
    { Py_tp_doc, "A session of the library, with each of its calls by the name that it has in C." },
    { Py_tp_new, calls_new },
    { Py_tp_dealloc, calls_dealloc },
    { Py_tp_methods, calls_by_hand },
    { Py_tp_getset, calls_gets },
    { 0, NULL },
};

static PyType_Spec calls_spec = { "huckleport._core.Calls", sizeof(Calls), 0, Py_TPFLAGS_DEFAULT, calls_slots };

static PyMemberDef thing_members[] = {
    { "session", T_OBJECT_EX, offsetof(Thing, session), READONLY, "The session that it is of." },
    { "_calls", T_OBJECT_EX, offsetof(Thing, calls), READONLY, NULL },
    { "_is_own", T_BOOL, offsetof(Thing, is_own), 0, NULL },
    { NULL, 0, 0, 0, NULL },
};

static PyGetSetDef thing_gets[] = {
    { "number", thing_number, NULL, "The number that lines use.", NULL },
    { NULL, NULL, NULL, NULL, NULL },
};

static PyType_Slot thing_slots[] = {
    { Py_tp_doc, "What has a number in a session." },
    { Py_tp_new, thing_new },
    { Py_tp_init, thing_init },
    { Py_tp_dealloc, thing_dealloc },
    { Py_tp_traverse, thing_traverse },
    { Py_tp_members, thing_members },
    { Py_tp_getset, thing_gets },
    { 0, NULL },
};

static PyType_Spec thing_spec = { "huckleport._core.Thing", sizeof(Thing), 0, Py_TPFLAGS_DEFAULT | Py_TPFLAGS_BASETYPE | Py_TPFLAGS_HAVE_GC, thing_slots };

/* ---- what the package hands in and asks for */

static const char *const KIND_WORDS[KINDS] = {
    [KIND_NODE] = "Node",
    [KIND_ELEMENT] = "Element",
    [KIND_TEXT] = "Text",
    [KIND_PROCESSING_INSTRUCTION] = "ProcessingInstruction",
    [KIND_COMMENT] = "Comment",
    [KIND_DOCUMENT] = "Document",
    [KIND_DOCUMENT_TYPE] = "DocumentType",
    [KIND_DOCUMENT_FRAGMENT] = "DocumentFragment",
    [KIND_RANGE] = "Range",
    [KIND_STATIC_RANGE] = "StaticRange",
    [KIND_NODE_ITERATOR] = "NodeIterator",
    [KIND_TREE_WALKER] = "TreeWalker",
    [KIND_ROW] = "Row",
    [KIND_MUTATION_RECORD] = "MutationRecord",
    [KIND_MUTATION_OBSERVER] = "MutationObserver",
};

static bool take_hook(PyObject *classes, const char *name, PyObject **to)
{
    PyObject *found = PyDict_GetItemString(classes, name);
    if (!found) {
        PyErr_SetString(PyExc_KeyError, name);
        return false;
    }
    Py_INCREF(found);
    Py_XDECREF(*to);
    *to = found;
    return true;
}

/* The state of a module, or null where it was not made. */
static State *state_of(PyObject *module)
{
    Cell **found = PyModule_GetState(module);
    return found && *found ? (*found)->state : NULL;
}

static PyObject *module_settle(PyObject *self, PyObject *classes)
{
    State *state = state_of(self);
    for (int kind = 0; kind < KINDS; kind++) {
        if (KIND_WORDS[kind] && !take_hook(classes, KIND_WORDS[kind], &state->kinds[kind]))
            return NULL;
    }
    if (!take_hook(classes, "refusal", &state->refuse_hook) || !take_hook(classes, "printed_name", &state->name_hook))
        return NULL;
    return none();
}

static PyMethodDef *member_named(PyMethodDef *members, const char *name)
{
    for (PyMethodDef *it = members; it->ml_name; it++) {
        if (strcmp(it->ml_name, name) == 0)
            return it;
    }
    return NULL;
}

/* A copy that stays, by the last part of its name, with the text of a docstring. */
static PyObject *member_made(PyObject *kind, const PyMethodDef *from, const char *doc)
{
    size_t length = strlen(doc) + 1;
    PyMethodDef *it = PyMem_Malloc(sizeof(PyMethodDef) + length);
    if (!it)
        return PyErr_NoMemory();
    char *text = (char *)(it + 1);
    memcpy(text, doc, length);
    *it = *from;
    it->ml_name = strchr(from->ml_name, '.') + 1;
    it->ml_doc = text;
    return PyDescr_NewMethod((PyTypeObject *)kind, it);
}

static const PyMethodDef *member_of(const char *name)
{
    const PyMethodDef *found = member_named(members_by_hand, name);
    return found ? found : member_named(members_made, name);
}

/* Reads a class, the name of a member with that of its class, and a docstring. A member takes objects of its class alone. */
static bool is_member_read(PyObject *self, PyObject *words, PyObject **kind, const char **name, const char **doc)
{
    if (!PyArg_ParseTuple(words, "O!ss", &PyType_Type, kind, name, doc))
        return false;
    if (PyObject_IsSubclass(*kind, (PyObject *)state_of(self)->thing_type) == 1)
        return true;
    return PyErr_Occurred() ? false : is_not_due("class of objects of a session", *kind);
}

static PyObject *module_member(PyObject *self, PyObject *words)
{
    PyObject *kind = NULL;
    const char *name = NULL, *doc = NULL;
    if (!is_member_read(self, words, &kind, &name, &doc))
        return NULL;
    const PyMethodDef *found = member_of(name);
    return found ? member_made(kind, found, doc) : none();
}

/* ---- members that are asked for without a call */

/* What an attribute is asked by, and what sets it, or null. */
typedef struct {
    const PyMethodDef *get, *set;
    PyGetSetDef told;
} Attribute;

static PyObject *attribute_get(PyObject *self, void *closure)
{
    return ((const Attribute *)closure)->get->ml_meth(self, NULL);
}

static int attribute_set(PyObject *self, PyObject *value, void *closure)
{
    const PyMethodDef *set = ((const Attribute *)closure)->set;
    if (!value) {
        PyErr_SetString(PyExc_AttributeError, "this attribute cannot be deleted: give it another value");
        return -1;
    }
    PyObject *words = PyTuple_Pack(1, value);
    PyObject *said = words ? ((PyCFunctionWithKeywords)(void (*)(void))set->ml_meth)(self, words, NULL) : NULL;
    Py_XDECREF(words);
    Py_XDECREF(said);
    return said ? 0 : -1;
}

/* An attribute that stays, with the text of a docstring. */
static PyObject *attribute_made(PyObject *kind, const PyMethodDef *get, const PyMethodDef *set, const char *doc)
{
    size_t length = strlen(doc) + 1;
    Attribute *it = PyMem_Malloc(sizeof(Attribute) + length);
    if (!it)
        return PyErr_NoMemory();
    char *text = (char *)(it + 1);
    memcpy(text, doc, length);
    *it = (Attribute){ get, set, { (char *)strchr(get->ml_name, '.') + 1, attribute_get, set ? attribute_set : NULL, text, it } };
    return PyDescr_NewGetSet((PyTypeObject *)kind, &it->told);
}

static PyObject *module_attribute(PyObject *self, PyObject *words)
{
    PyObject *kind = NULL;
    const char *name = NULL, *doc = NULL;
    char setting[64];
    if (!is_member_read(self, words, &kind, &name, &doc))
        return NULL;
    size_t length = strlen(name);
    if (length + 2 > sizeof(setting))
        return none();
    memcpy(setting, name, length);
    memcpy(setting + length, "=", 2);
    const PyMethodDef *get = member_of(name), *set = member_of(setting);
    return get ? attribute_made(kind, get, set, doc) : none();
}

/* ---- attributes of classes that have none below them */

/* An attribute that is asked of an object of its class without a look at the classes above. Python's own attribute answers all else. */
typedef struct {
    PyObject_HEAD
    PyTypeObject *kind;
    PyObject *usual;
    PyCFunction get;
} Quick;

static __attribute__((noinline)) PyObject *usual_get(PyObject *self, PyObject *of, PyObject *kind)
{
    return PyObject_CallMethod(((Quick *)self)->usual, "__get__", "OO", of ? of : Py_None, kind ? kind : Py_None);
}

static PyObject *quick_get(PyObject *self, PyObject *of, PyObject *kind)
{
    const Quick *it = (const Quick *)self;
    return of && Py_TYPE(of) == it->kind ? it->get(of, NULL) : usual_get(self, of, kind);
}

static int quick_set(PyObject *self, PyObject *of, PyObject *value)
{
    PyObject *usual = ((Quick *)self)->usual;
    PyObject *said = value ? PyObject_CallMethod(usual, "__set__", "OO", of, value) : PyObject_CallMethod(usual, "__delete__", "O", of);
    Py_XDECREF(said);
    return said ? 0 : -1;
}

static PyObject *quick_doc(PyObject *self, void *closure)
{
    (void)closure;
    return PyObject_GetAttrString(((Quick *)self)->usual, "__doc__");
}

static int quick_traverse(PyObject *self, visitproc visit, void *arg)
{
    Py_VISIT((PyObject *)((Quick *)self)->kind);
    Py_VISIT(((Quick *)self)->usual);
    return 0;
}

static void quick_dealloc(PyObject *self)
{
    PyTypeObject *type = Py_TYPE(self);
    PyObject_GC_UnTrack(self);
    Py_XDECREF((PyObject *)((Quick *)self)->kind);
    Py_XDECREF(((Quick *)self)->usual);
    PyObject_GC_Del(self);
    Py_DECREF(type);
}

static PyGetSetDef quick_gets[] = {
    { "__doc__", quick_doc, NULL, NULL, NULL },
    { NULL, NULL, NULL, NULL, NULL },
};

static PyType_Slot quick_slots[] = {
    { Py_tp_getset, quick_gets },
    { Py_tp_descr_get, quick_get },
    { Py_tp_descr_set, quick_set },
    { Py_tp_traverse, quick_traverse },
    { Py_tp_dealloc, quick_dealloc },
    { 0, NULL },
};

static PyType_Spec quick_spec = { "huckleport._core.Quick", sizeof(Quick), 0, Py_TPFLAGS_DEFAULT | Py_TPFLAGS_HAVE_GC, quick_slots };

/* Makes the quick form of an attribute: of a class, by the name of both. */
static PyObject *module_quick(PyObject *self, PyObject *words)
{
    PyObject *kind = NULL, *usual = NULL;
    const char *name = NULL;
    if (!PyArg_ParseTuple(words, "O!sO", &PyType_Type, &kind, &name, &usual))
        return NULL;
    const PyMethodDef *get = member_of(name);
    Quick *it = get ? (Quick *)PyType_GenericAlloc(state_of(self)->quick_type, 0) : NULL;
    if (!it)
        return get ? NULL : none();
    it->kind = (PyTypeObject *)same(kind);
    it->usual = same(usual);
    it->get = get->ml_meth;
    return (PyObject *)it;
}

/* What makes a tuple of any class: that of a class which leaves it as it is. (The slots of tuple itself are hidden before 3.10.) */
static newfunc tuple_maker(void)
{
    PyObject *kind = PyObject_CallFunction((PyObject *)&PyType_Type, "s(O){}", "Plain", (PyObject *)&PyTuple_Type);
    newfunc found = kind ? (newfunc)PyType_GetSlot((PyTypeObject *)kind, Py_tp_new) : NULL;
    Py_XDECREF(kind);
    return found;
}

static PyMethodDef module_methods[] = {
    { "settle", module_settle, METH_O, "Takes the classes and functions of the package, by their names." },
    { "member", module_member, METH_VARARGS, "A method of a class, by the name of both, with a docstring, or None." },
    { "attribute", module_attribute, METH_VARARGS, "An attribute of a class, by the name of both, with a docstring, or None." },
    { "quick", module_quick, METH_VARARGS, "The quick form of an attribute of a class that has none below it, by the name of both." },
    { NULL, NULL, 0, NULL },
};

/* ---- the module, once for each interpreter */

static void capsule_end(PyObject *capsule)
{
    cell_let_go(PyCapsule_GetPointer(capsule, STATE_NAME));
}

/* Makes a type, whose member _state leads to the state of the module. */
static bool add_type(PyObject *to, const char *name, PyType_Spec *spec, PyTypeObject **type)
{
    Cell *cell = *(Cell **)PyModule_GetState(to);
    *type = (PyTypeObject *)PyType_FromSpec(spec);
    PyObject *capsule = *type ? PyCapsule_New(cell, STATE_NAME, capsule_end) : NULL;
    if (!capsule)
        return false;
    cell->holders++;
    bool done = PyObject_SetAttrString((PyObject *)*type, "_state", capsule) == 0;
    Py_DECREF(capsule);
    if (!done)
        return false;
    Py_INCREF((PyObject *)*type);
    return PyModule_AddObject(to, name, (PyObject *)*type) == 0;
}

static bool take_collector(State *state)
{
    PyObject *found = PyImport_ImportModule("gc");
    state->gc_is_enabled = found ? PyObject_GetAttrString(found, "isenabled") : NULL;
    state->gc_disable = found ? PyObject_GetAttrString(found, "disable") : NULL;
    state->gc_enable = found ? PyObject_GetAttrString(found, "enable") : NULL;
    Py_XDECREF(found);
    return state->gc_is_enabled && state->gc_disable && state->gc_enable;
}

static int module_fill(PyObject *module)
{
    State *state = zeroed(1, sizeof(State));
    Cell *cell = zeroed(1, sizeof(Cell));
    if (!state || !cell || !is_ready_for_forks()) {
        PyMem_Free(state);
        PyMem_Free(cell);
        PyErr_NoMemory();
        return -1;
    }
    *cell = (Cell){ 1, state_held(state) };
    *(Cell **)PyModule_GetState(module) = cell;
    tuple_new = tuple_maker();
    bool done = tuple_new && take_collector(state) && structs_made(module, state) && add_type(module, "Calls", &calls_spec, &state->calls_type) &&
        add_type(module, "Thing", &thing_spec, &state->thing_type) && add_type(module, "Builder", &builder_spec, &state->builder_type) &&
        add_type(module, "Walk", &walk_spec, &state->walk_type) && add_type(module, "Quick", &quick_spec, &state->quick_type);
    return done ? 0 : -1;
}

/* The classes of the package, which the state holds, lead back to the module. */
static int module_traverse(PyObject *module, visitproc visit, void *arg)
{
    State *state = state_of(module);
    for (int at = 0; state && at < KINDS; at++)
        Py_VISIT(state->kinds[at]);
    if (state) {
        Py_VISIT((PyObject *)state->calls_type);
        Py_VISIT((PyObject *)state->thing_type);
        Py_VISIT((PyObject *)state->builder_type);
        Py_VISIT((PyObject *)state->walk_type);
        Py_VISIT((PyObject *)state->quick_type);
        Py_VISIT(state->refuse_hook);
        Py_VISIT(state->name_hook);
    }
    return 0;
}

static void module_end(void *module)
{
    Cell **found = PyModule_GetState(module);
    if (!found || !*found)
        return;
    state_let_go((*found)->state);
    (*found)->state = NULL;
    cell_let_go(*found);
    *found = NULL;
}

/* The numbers of slots. Python has the last one from 3.12 on: it says that the module may run in interpreters with a lock of their own. */
enum { SLOT_EXEC = 2, SLOT_INTERPRETERS = 3 };

static PyModuleDef_Slot slots_of_old[] = { { SLOT_EXEC, (void *)module_fill }, { 0, NULL } };
static PyModuleDef_Slot slots[] = { { SLOT_EXEC, (void *)module_fill }, { SLOT_INTERPRETERS, (void *)2 }, { 0, NULL } };

#define MODULE(slots)                                                                                                                               \
    {                                                                                                                                               \
        PyModuleDef_HEAD_INIT, "huckleport._core", "The library's calls.", sizeof(Cell *), module_methods, slots, module_traverse, NULL, module_end \
    }

static struct PyModuleDef module_of_old = MODULE(slots_of_old), module = MODULE(slots);

static bool is_before_3_12(void)
{
    const char *version = Py_GetVersion();
    return version[0] == '3' && version[1] == '.' && strtol(version + 2, NULL, 10) < 12;
}

/* (What the sources show no name of stays hidden, and headers before 3.9 show none.) */
#if defined(__GNUC__)
__attribute__((visibility("default")))
#endif
PyMODINIT_FUNC
PyInit__core(void)
{
    return PyModuleDef_Init(is_before_3_12() ? &module_of_old : &module);
}
