/* The calls of the library, and the members that are one call each. Made by bindings/python/extension.py; not to be edited. */

enum { AT_HP_ROW, AT_HP_NOTICE, AT_HP_RECORD, AT_HP_ENDS, AT_HP_STATIC_ENDS, AT_HP_ITERATOR_AT, AT_HP_WALKER_AT, AT_HP_PLACE, AT_HP_NODE_LINKS, AT_HP_COUNTS, STRUCTS_MADE };
typedef char structs_fit[STRUCTS_MADE <= STRUCTS ? 1 : -1];

static PyStructSequence_Field hp_row_fields[] = { { "depth", NULL }, { "node", NULL }, { "type", NULL }, { "attributes", NULL }, { NULL, NULL } };
static PyStructSequence_Desc hp_row_form = { "huckleport._core.hp_row", "A row of a tree: the node's depth below the printed root, its number, the standard's number of its kind (`nodeType`), and the number of its attributes.", hp_row_fields, 4 };

static PyObject *hp_row_from(const Calls *calls, const hp_row *it)
{
    PyObject *found = PyStructSequence_New(calls->state->structs[AT_HP_ROW]);
    if (!found)
        return NULL;
    PyStructSequence_SetItem(found, 0, PyLong_FromSize_t(it->depth));
    PyStructSequence_SetItem(found, 1, PyLong_FromSize_t(it->node));
    PyStructSequence_SetItem(found, 2, PyLong_FromSize_t(it->type));
    PyStructSequence_SetItem(found, 3, PyLong_FromSize_t(it->attributes));
    return found;
}

static PyStructSequence_Field hp_notice_fields[] = { { "observer", NULL }, { "records", NULL }, { NULL, NULL } };
static PyStructSequence_Desc hp_notice_form = { "huckleport._core.hp_notice", "A notice: the number of the observer, and the number of its records.", hp_notice_fields, 2 };

static PyObject *hp_notice_from(const Calls *calls, const hp_notice *it)
{
    PyObject *found = PyStructSequence_New(calls->state->structs[AT_HP_NOTICE]);
    if (!found)
        return NULL;
    PyStructSequence_SetItem(found, 0, PyLong_FromSize_t(it->observer));
    PyStructSequence_SetItem(found, 1, PyLong_FromSize_t(it->records));
    return found;
}

static PyStructSequence_Field hp_record_fields[] = { { "type", NULL }, { "target", NULL }, { "added", NULL }, { "removed", NULL }, { "previous", NULL }, { "next", NULL }, { NULL, NULL } };
static PyStructSequence_Desc hp_record_form = { "huckleport._core.hp_record", "A record: its type (`HP_ATTRIBUTES`, `HP_CHARACTER_DATA` or `HP_CHILD_LIST`), its target, the numbers of added and removed nodes, and the siblings beside them, or `HP_NONE`.", hp_record_fields, 6 };

static PyObject *hp_record_from(const Calls *calls, const hp_record *it)
{
    PyObject *found = PyStructSequence_New(calls->state->structs[AT_HP_RECORD]);
    if (!found)
        return NULL;
    PyStructSequence_SetItem(found, 0, PyLong_FromSize_t(it->type));
    PyStructSequence_SetItem(found, 1, PyLong_FromSize_t(it->target));
    PyStructSequence_SetItem(found, 2, PyLong_FromSize_t(it->added));
    PyStructSequence_SetItem(found, 3, PyLong_FromSize_t(it->removed));
    PyStructSequence_SetItem(found, 4, PyLong_FromSize_t(it->previous));
    PyStructSequence_SetItem(found, 5, PyLong_FromSize_t(it->next));
    return found;
}

static PyStructSequence_Field hp_ends_fields[] = { { "start", NULL }, { "start_offset", NULL }, { "end", NULL }, { "end_offset", NULL }, { NULL, NULL } };
static PyStructSequence_Desc hp_ends_form = { "huckleport._core.hp_ends", "The start and the end of a live range.", hp_ends_fields, 4 };

static PyObject *hp_ends_from(const Calls *calls, const hp_ends *it)
{
    PyObject *found = PyStructSequence_New(calls->state->structs[AT_HP_ENDS]);
    if (!found)
        return NULL;
    PyStructSequence_SetItem(found, 0, PyLong_FromSize_t(it->start));
    PyStructSequence_SetItem(found, 1, PyLong_FromSize_t(it->start_offset));
    PyStructSequence_SetItem(found, 2, PyLong_FromSize_t(it->end));
    PyStructSequence_SetItem(found, 3, PyLong_FromSize_t(it->end_offset));
    return found;
}

static PyStructSequence_Field hp_static_ends_fields[] = { { "start", NULL }, { "start_offset", NULL }, { "end", NULL }, { "end_offset", NULL }, { "is_valid", NULL }, { NULL, NULL } };
static PyStructSequence_Desc hp_static_ends_form = { "huckleport._core.hp_static_ends", "The start and the end of a static range, and whether it is valid: 0 or 1.", hp_static_ends_fields, 5 };

static PyObject *hp_static_ends_from(const Calls *calls, const hp_static_ends *it)
{
    PyObject *found = PyStructSequence_New(calls->state->structs[AT_HP_STATIC_ENDS]);
    if (!found)
        return NULL;
    PyStructSequence_SetItem(found, 0, PyLong_FromSize_t(it->start));
    PyStructSequence_SetItem(found, 1, PyLong_FromSize_t(it->start_offset));
    PyStructSequence_SetItem(found, 2, PyLong_FromSize_t(it->end));
    PyStructSequence_SetItem(found, 3, PyLong_FromSize_t(it->end_offset));
    PyStructSequence_SetItem(found, 4, PyLong_FromSize_t(it->is_valid));
    return found;
}

static PyStructSequence_Field hp_iterator_at_fields[] = { { "root", NULL }, { "reference", NULL }, { "is_before", NULL }, { NULL, NULL } };
static PyStructSequence_Desc hp_iterator_at_form = { "huckleport._core.hp_iterator_at", "The root and the reference of an iterator, and whether its pointer is before the reference: 0 or 1.", hp_iterator_at_fields, 3 };

static PyObject *hp_iterator_at_from(const Calls *calls, const hp_iterator_at *it)
{
    PyObject *found = PyStructSequence_New(calls->state->structs[AT_HP_ITERATOR_AT]);
    if (!found)
        return NULL;
    PyStructSequence_SetItem(found, 0, PyLong_FromSize_t(it->root));
    PyStructSequence_SetItem(found, 1, PyLong_FromSize_t(it->reference));
    PyStructSequence_SetItem(found, 2, PyLong_FromSize_t(it->is_before));
    return found;
}

static PyStructSequence_Field hp_walker_at_fields[] = { { "root", NULL }, { "current", NULL }, { NULL, NULL } };
static PyStructSequence_Desc hp_walker_at_form = { "huckleport._core.hp_walker_at", "The root and the current node of a walker.", hp_walker_at_fields, 2 };

static PyObject *hp_walker_at_from(const Calls *calls, const hp_walker_at *it)
{
    PyObject *found = PyStructSequence_New(calls->state->structs[AT_HP_WALKER_AT]);
    if (!found)
        return NULL;
    PyStructSequence_SetItem(found, 0, PyLong_FromSize_t(it->root));
    PyStructSequence_SetItem(found, 1, PyLong_FromSize_t(it->current));
    return found;
}

static PyStructSequence_Field hp_place_fields[] = { { "document", NULL }, { "kind", NULL }, { "next", NULL }, { "parent", NULL }, { "previous", NULL }, { NULL, NULL } };
static PyStructSequence_Desc hp_place_form = { "huckleport._core.hp_place", "The node document, the kind by the standard's number (`nodeType`), and the siblings and the parent, or `HP_NONE`.", hp_place_fields, 5 };

static PyObject *hp_place_from(const Calls *calls, const hp_place *it)
{
    PyObject *found = PyStructSequence_New(calls->state->structs[AT_HP_PLACE]);
    if (!found)
        return NULL;
    PyStructSequence_SetItem(found, 0, PyLong_FromSize_t(it->document));
    PyStructSequence_SetItem(found, 1, PyLong_FromSize_t(it->kind));
    PyStructSequence_SetItem(found, 2, PyLong_FromSize_t(it->next));
    PyStructSequence_SetItem(found, 3, PyLong_FromSize_t(it->parent));
    PyStructSequence_SetItem(found, 4, PyLong_FromSize_t(it->previous));
    return found;
}

static PyStructSequence_Field hp_node_links_fields[] = { { "kind", NULL }, { "document", NULL }, { "parent", NULL }, { "previous", NULL }, { "next", NULL }, { "first_child", NULL }, { "last_child", NULL }, { "children", NULL }, { "length", NULL }, { NULL, NULL } };
static PyStructSequence_Desc hp_node_links_form = { "huckleport._core.hp_node_links", "A node: the standard's number of its kind (`nodeType`), its node document, its parent, siblings and first and last child, or `HP_NONE`, the number of its children, and its length.", hp_node_links_fields, 9 };

static PyObject *hp_node_links_from(const Calls *calls, const hp_node_links *it)
{
    PyObject *found = PyStructSequence_New(calls->state->structs[AT_HP_NODE_LINKS]);
    if (!found)
        return NULL;
    PyStructSequence_SetItem(found, 0, PyLong_FromSize_t(it->kind));
    PyStructSequence_SetItem(found, 1, PyLong_FromSize_t(it->document));
    PyStructSequence_SetItem(found, 2, PyLong_FromSize_t(it->parent));
    PyStructSequence_SetItem(found, 3, PyLong_FromSize_t(it->previous));
    PyStructSequence_SetItem(found, 4, PyLong_FromSize_t(it->next));
    PyStructSequence_SetItem(found, 5, PyLong_FromSize_t(it->first_child));
    PyStructSequence_SetItem(found, 6, PyLong_FromSize_t(it->last_child));
    PyStructSequence_SetItem(found, 7, PyLong_FromSize_t(it->children));
    PyStructSequence_SetItem(found, 8, PyLong_FromSize_t(it->length));
    return found;
}

static PyStructSequence_Field hp_counts_fields[] = { { "nodes", NULL }, { "ranges", NULL }, { "static_ranges", NULL }, { "iterators", NULL }, { "walkers", NULL }, { "observers", NULL }, { "registrations", NULL }, { NULL, NULL } };
static PyStructSequence_Desc hp_counts_form = { "huckleport._core.hp_counts", "The number of objects of each kind that were made, and neither discarded nor released. The registrations are those of all observers, with the transient ones.", hp_counts_fields, 7 };

static PyObject *hp_counts_from(const Calls *calls, const hp_counts *it)
{
    PyObject *found = PyStructSequence_New(calls->state->structs[AT_HP_COUNTS]);
    if (!found)
        return NULL;
    PyStructSequence_SetItem(found, 0, PyLong_FromSize_t(it->nodes));
    PyStructSequence_SetItem(found, 1, PyLong_FromSize_t(it->ranges));
    PyStructSequence_SetItem(found, 2, PyLong_FromSize_t(it->static_ranges));
    PyStructSequence_SetItem(found, 3, PyLong_FromSize_t(it->iterators));
    PyStructSequence_SetItem(found, 4, PyLong_FromSize_t(it->walkers));
    PyStructSequence_SetItem(found, 5, PyLong_FromSize_t(it->observers));
    PyStructSequence_SetItem(found, 6, PyLong_FromSize_t(it->registrations));
    return found;
}

static bool structs_made(PyObject *module, State *state)
{
    bool done = true;
    PyStructSequence_Desc *const forms[] = {
        &hp_row_form,
        &hp_notice_form,
        &hp_record_form,
        &hp_ends_form,
        &hp_static_ends_form,
        &hp_iterator_at_form,
        &hp_walker_at_form,
        &hp_place_form,
        &hp_node_links_form,
        &hp_counts_form,
    };
    for (int at = 0; done && at < STRUCTS_MADE; at++) {
        state->structs[at] = PyStructSequence_NewType(forms[at]);
        done = state->structs[at] != NULL;
        Py_XINCREF((PyObject *)state->structs[at]);
        done = done && PyModule_AddObject(module, strrchr(forms[at]->name, '.') + 1, (PyObject *)state->structs[at]) == 0;
    }
    return done;
}

static bool hp_options_of(PyObject *value, hp_options *to)
{
    static const char *const names[] = { "child_list", "attributes", "character_data", "subtree", "attribute_old_value", "character_data_old_value", "attribute_filter", NULL };
    uint8_t *const places[] = { &to->child_list, &to->attributes, &to->character_data, &to->subtree, &to->attribute_old_value, &to->character_data_old_value, &to->attribute_filter };
    bool fits = true;
    for (int at = 0; fits && names[at]; at++) {
        PyObject *part = PyObject_GetAttrString(value, names[at]);
        fits = part && uint8_of(part, places[at]);
        Py_XDECREF(part);
    }
    return fits;
}

static PyObject *call_open(PyObject *self, PyObject *words)
{
    uint64_t numbers = 0;
    size_t line = 0;
    if (is_busy((Calls *)self))
        return NULL;
    PyObject *found = NULL;
    if (is_counted(words, 2, "open") && uint64_of(word(words, 0), &numbers) && size_of(word(words, 1), &line)) {
        moved((Calls *)self);
        uint8_t status = hp_open(session_at(self), numbers, line);
        found = status ? refused(status, "open", self, words) : none();
    }
    return found;
}

static PyObject *call_close(PyObject *self, PyObject *words)
{
    if (is_busy_closing((Calls *)self))
        return NULL;
    PyObject *found = NULL;
    if (is_counted(words, 0, "close")) {
        moved((Calls *)self);
        PyThreadState *thread = begin_long((Calls *)self);
        memory_own();
        uint8_t status = hp_close(session_at(self));
        memory_release();
        end_long((Calls *)self, thread);
        found = status ? refused(status, "close", self, words) : let_go((Calls *)self, none());
    }
    return found;
}

static PyObject *call_line(PyObject *self, PyObject *words)
{
    Slice line;
    if (is_busy((Calls *)self))
        return NULL;
    PyObject *found = NULL;
    begin(&line);
    if (is_counted(words, 1, "line") && octets_of(word(words, 0), &line)) {
        moved((Calls *)self);
        labels_drop_pages(&((Calls *)self)->labels);
        uint8_t status = hp_line(session_at(self), line.at, line.length);
        found = status ? refused(status, "line", self, words) : let_go((Calls *)self, none());
    }
    drop(&line);
    return found;
}

static PyObject *call_print(PyObject *self, PyObject *words)
{
    if (is_busy((Calls *)self))
        return NULL;
    PyObject *found = NULL;
    if (is_counted(words, 0, "print")) {
        uint8_t status = hp_print(session_at(self));
        found = status ? refused(status, "print", self, words) : none();
    }
    return found;
}

static PyObject *call_text(PyObject *self, PyObject *words)
{
    hp_text_view out;
    if (is_busy((Calls *)self))
        return NULL;
    PyObject *found = NULL;
    if (is_counted(words, 0, "text")) {
        uint8_t status = hp_text(session_at(self), &out);
        found = status ? refused(status, "text", self, words) : text_from(out.units, out.length);
    }
    return found;
}

static PyObject *call_name_at(PyObject *self, PyObject *words)
{
    size_t index = 0;
    hp_bytes out;
    if (is_busy((Calls *)self))
        return NULL;
    PyObject *found = NULL;
    if (is_counted(words, 1, "name_at") && size_of(word(words, 0), &index)) {
        uint8_t status = hp_name_at(session_at(self), index, &out);
        found = status ? refused(status, "name_at", self, words) : name_from(out.bytes, out.length);
    }
    return found;
}

static PyObject *call_reply_line(PyObject *self, PyObject *words)
{
    hp_bytes out;
    if (is_busy((Calls *)self))
        return NULL;
    PyObject *found = NULL;
    if (is_counted(words, 0, "reply_line")) {
        uint8_t status = hp_reply_line(session_at(self), &out);
        found = status ? refused(status, "reply_line", self, words) : name_from(out.bytes, out.length);
    }
    return found;
}

static PyObject *call_count(PyObject *self, PyObject *words)
{
    size_t count = 0;
    if (is_busy((Calls *)self))
        return NULL;
    PyObject *found = NULL;
    if (is_counted(words, 0, "count")) {
        uint8_t status = hp_count(session_at(self), &count);
        found = status ? refused(status, "count", self, words) : PyLong_FromSize_t(count);
    }
    return found;
}

static PyObject *call_number_at(PyObject *self, PyObject *words)
{
    size_t index = 0;
    uint32_t number = 0;
    if (is_busy((Calls *)self))
        return NULL;
    PyObject *found = NULL;
    if (is_counted(words, 1, "number_at") && size_of(word(words, 0), &index)) {
        uint8_t status = hp_number_at(session_at(self), index, &number);
        found = status ? refused(status, "number_at", self, words) : PyLong_FromUnsignedLong(number);
    }
    return found;
}

static PyObject *call_node_name(PyObject *self, PyObject *words)
{
    uint8_t part = 0;
    hp_bytes out;
    if (is_busy((Calls *)self))
        return NULL;
    PyObject *found = NULL;
    if (is_counted(words, 1, "node_name") && uint8_of(word(words, 0), &part)) {
        uint8_t status = hp_node_name(session_at(self), part, &out);
        found = status ? refused(status, "node_name", self, words) : name_from(out.bytes, out.length);
    }
    return found;
}

static PyObject *call_row_at(PyObject *self, PyObject *words)
{
    size_t index = 0;
    hp_row row;
    if (is_busy((Calls *)self))
        return NULL;
    PyObject *found = NULL;
    if (is_counted(words, 1, "row_at") && size_of(word(words, 0), &index)) {
        uint8_t status = hp_row_at(session_at(self), index, &row);
        found = status ? refused(status, "row_at", self, words) : hp_row_from((Calls *)self, &row);
    }
    return found;
}

static PyObject *call_row_name(PyObject *self, PyObject *words)
{
    size_t index = 0;
    uint8_t part = 0;
    hp_bytes out;
    if (is_busy((Calls *)self))
        return NULL;
    PyObject *found = NULL;
    if (is_counted(words, 2, "row_name") && size_of(word(words, 0), &index) && uint8_of(word(words, 1), &part)) {
        uint8_t status = hp_row_name(session_at(self), index, part, &out);
        found = status ? refused(status, "row_name", self, words) : name_from(out.bytes, out.length);
    }
    return found;
}

static PyObject *call_row_text(PyObject *self, PyObject *words)
{
    size_t index = 0;
    hp_text_view out;
    if (is_busy((Calls *)self))
        return NULL;
    PyObject *found = NULL;
    if (is_counted(words, 1, "row_text") && size_of(word(words, 0), &index)) {
        uint8_t status = hp_row_text(session_at(self), index, &out);
        found = status ? refused(status, "row_text", self, words) : text_from(out.units, out.length);
    }
    return found;
}

static PyObject *call_row_attribute_name(PyObject *self, PyObject *words)
{
    size_t index = 0;
    size_t at = 0;
    hp_bytes out;
    if (is_busy((Calls *)self))
        return NULL;
    PyObject *found = NULL;
    if (is_counted(words, 2, "row_attribute_name") && size_of(word(words, 0), &index) && size_of(word(words, 1), &at)) {
        uint8_t status = hp_row_attribute_name(session_at(self), index, at, &out);
        found = status ? refused(status, "row_attribute_name", self, words) : name_from(out.bytes, out.length);
    }
    return found;
}

static PyObject *call_row_attribute_value(PyObject *self, PyObject *words)
{
    size_t index = 0;
    size_t at = 0;
    hp_text_view out;
    if (is_busy((Calls *)self))
        return NULL;
    PyObject *found = NULL;
    if (is_counted(words, 2, "row_attribute_value") && size_of(word(words, 0), &index) && size_of(word(words, 1), &at)) {
        uint8_t status = hp_row_attribute_value(session_at(self), index, at, &out);
        found = status ? refused(status, "row_attribute_value", self, words) : text_from(out.units, out.length);
    }
    return found;
}

static PyObject *call_notice_at(PyObject *self, PyObject *words)
{
    size_t index = 0;
    hp_notice notice;
    if (is_busy((Calls *)self))
        return NULL;
    PyObject *found = NULL;
    if (is_counted(words, 1, "notice_at") && size_of(word(words, 0), &index)) {
        uint8_t status = hp_notice_at(session_at(self), index, &notice);
        found = status ? refused(status, "notice_at", self, words) : hp_notice_from((Calls *)self, &notice);
    }
    return found;
}

static PyObject *call_record_at(PyObject *self, PyObject *words)
{
    size_t notice = 0;
    size_t index = 0;
    hp_record record;
    if (is_busy((Calls *)self))
        return NULL;
    PyObject *found = NULL;
    if (is_counted(words, 2, "record_at") && size_of(word(words, 0), &notice) && size_of(word(words, 1), &index)) {
        uint8_t status = hp_record_at(session_at(self), notice, index, &record);
        found = status ? refused(status, "record_at", self, words) : hp_record_from((Calls *)self, &record);
    }
    return found;
}

static PyObject *call_record_added_at(PyObject *self, PyObject *words)
{
    size_t notice = 0;
    size_t index = 0;
    size_t at = 0;
    uint32_t node = 0;
    if (is_busy((Calls *)self))
        return NULL;
    PyObject *found = NULL;
    if (is_counted(words, 3, "record_added_at") && size_of(word(words, 0), &notice) && size_of(word(words, 1), &index) && size_of(word(words, 2), &at)) {
        uint8_t status = hp_record_added_at(session_at(self), notice, index, at, &node);
        found = status ? refused(status, "record_added_at", self, words) : PyLong_FromUnsignedLong(node);
    }
    return found;
}

static PyObject *call_record_removed_at(PyObject *self, PyObject *words)
{
    size_t notice = 0;
    size_t index = 0;
    size_t at = 0;
    uint32_t node = 0;
    if (is_busy((Calls *)self))
        return NULL;
    PyObject *found = NULL;
    if (is_counted(words, 3, "record_removed_at") && size_of(word(words, 0), &notice) && size_of(word(words, 1), &index) && size_of(word(words, 2), &at)) {
        uint8_t status = hp_record_removed_at(session_at(self), notice, index, at, &node);
        found = status ? refused(status, "record_removed_at", self, words) : PyLong_FromUnsignedLong(node);
    }
    return found;
}

static PyObject *call_record_name(PyObject *self, PyObject *words)
{
    size_t notice = 0;
    size_t index = 0;
    hp_bytes out;
    if (is_busy((Calls *)self))
        return NULL;
    PyObject *found = NULL;
    if (is_counted(words, 2, "record_name") && size_of(word(words, 0), &notice) && size_of(word(words, 1), &index)) {
        uint8_t status = hp_record_name(session_at(self), notice, index, &out);
        found = status ? refused(status, "record_name", self, words) : name_from(out.bytes, out.length);
    }
    return found;
}

static PyObject *call_record_old_value(PyObject *self, PyObject *words)
{
    size_t notice = 0;
    size_t index = 0;
    hp_text_view out;
    if (is_busy((Calls *)self))
        return NULL;
    PyObject *found = NULL;
    if (is_counted(words, 2, "record_old_value") && size_of(word(words, 0), &notice) && size_of(word(words, 1), &index)) {
        uint8_t status = hp_record_old_value(session_at(self), notice, index, &out);
        found = status ? refused(status, "record_old_value", self, words) : text_from(out.units, out.length);
    }
    return found;
}

static PyObject *call_new_document(PyObject *self, PyObject *words)
{
    uint32_t document = 0;
    if (is_busy((Calls *)self))
        return NULL;
    PyObject *found = NULL;
    if (is_counted(words, 0, "new_document")) {
        let_go_noted((Calls *)self);
        uint8_t status = hp_new_document(session_at(self), &document);
        found = status ? refused(status, "new_document", self, words) : PyLong_FromUnsignedLong(document);
    }
    return found;
}

static PyObject *call_create_element(PyObject *self, PyObject *words)
{
    uint32_t document = 0;
    Slice name;
    uint32_t element = 0;
    if (is_busy((Calls *)self))
        return NULL;
    PyObject *found = NULL;
    begin(&name);
    if (is_counted(words, 2, "create_element") && uint32_of(word(words, 0), &document) && name_of(word(words, 1), &name)) {
        let_go_noted((Calls *)self);
        uint8_t status = hp_create_element(session_at(self), document, name.at, name.length, &element);
        found = status ? refused(status, "create_element", self, words) : PyLong_FromUnsignedLong(element);
    }
    drop(&name);
    return found;
}

static PyObject *call_create_text(PyObject *self, PyObject *words)
{
    uint32_t document = 0;
    Slice data;
    uint32_t text = 0;
    if (is_busy((Calls *)self))
        return NULL;
    PyObject *found = NULL;
    begin(&data);
    if (is_counted(words, 2, "create_text") && uint32_of(word(words, 0), &document) && text_of(word(words, 1), &data)) {
        let_go_noted((Calls *)self);
        uint8_t status = hp_create_text(session_at(self), document, data.at, data.length, &text);
        found = status ? refused(status, "create_text", self, words) : PyLong_FromUnsignedLong(text);
    }
    drop(&data);
    return found;
}

static PyObject *call_create_comment(PyObject *self, PyObject *words)
{
    uint32_t document = 0;
    Slice data;
    uint32_t comment = 0;
    if (is_busy((Calls *)self))
        return NULL;
    PyObject *found = NULL;
    begin(&data);
    if (is_counted(words, 2, "create_comment") && uint32_of(word(words, 0), &document) && text_of(word(words, 1), &data)) {
        let_go_noted((Calls *)self);
        uint8_t status = hp_create_comment(session_at(self), document, data.at, data.length, &comment);
        found = status ? refused(status, "create_comment", self, words) : PyLong_FromUnsignedLong(comment);
    }
    drop(&data);
    return found;
}

static PyObject *call_create_pi(PyObject *self, PyObject *words)
{
    uint32_t document = 0;
    Slice target;
    Slice data;
    uint32_t instruction = 0;
    if (is_busy((Calls *)self))
        return NULL;
    PyObject *found = NULL;
    begin(&target);
    begin(&data);
    if (is_counted(words, 3, "create_pi") && uint32_of(word(words, 0), &document) && name_of(word(words, 1), &target) && text_of(word(words, 2), &data)) {
        let_go_noted((Calls *)self);
        uint8_t status = hp_create_pi(session_at(self), document, target.at, target.length, data.at, data.length, &instruction);
        found = status ? refused(status, "create_pi", self, words) : PyLong_FromUnsignedLong(instruction);
    }
    drop(&target);
    drop(&data);
    return found;
}

static PyObject *call_create_doctype(PyObject *self, PyObject *words)
{
    uint32_t document = 0;
    Slice name;
    Slice public_id;
    Slice system_id;
    uint32_t doctype = 0;
    if (is_busy((Calls *)self))
        return NULL;
    PyObject *found = NULL;
    begin(&name);
    begin(&public_id);
    begin(&system_id);
    if (is_counted(words, 4, "create_doctype") && uint32_of(word(words, 0), &document) && name_of(word(words, 1), &name) && name_of(word(words, 2), &public_id) && name_of(word(words, 3), &system_id)) {
        let_go_noted((Calls *)self);
        uint8_t status = hp_create_doctype(session_at(self), document, name.at, name.length, public_id.at, public_id.length, system_id.at, system_id.length, &doctype);
        found = status ? refused(status, "create_doctype", self, words) : PyLong_FromUnsignedLong(doctype);
    }
    drop(&name);
    drop(&public_id);
    drop(&system_id);
    return found;
}

static PyObject *call_create_fragment(PyObject *self, PyObject *words)
{
    uint32_t document = 0;
    uint32_t fragment = 0;
    if (is_busy((Calls *)self))
        return NULL;
    PyObject *found = NULL;
    if (is_counted(words, 1, "create_fragment") && uint32_of(word(words, 0), &document)) {
        let_go_noted((Calls *)self);
        uint8_t status = hp_create_fragment(session_at(self), document, &fragment);
        found = status ? refused(status, "create_fragment", self, words) : PyLong_FromUnsignedLong(fragment);
    }
    return found;
}

static PyObject *call_insert_before(PyObject *self, PyObject *words)
{
    uint32_t parent = 0;
    uint32_t node = 0;
    uint32_t child = 0;
    if (is_busy((Calls *)self))
        return NULL;
    PyObject *found = NULL;
    if (is_counted(words, 3, "insert_before") && uint32_of(word(words, 0), &parent) && uint32_of(word(words, 1), &node) && uint32_of(word(words, 2), &child)) {
        moved((Calls *)self);
        uint8_t status = hp_insert_before(session_at(self), parent, node, child);
        found = status ? refused(status, "insert_before", self, words) : none();
    }
    return found;
}

static PyObject *call_append_child(PyObject *self, PyObject *words)
{
    uint32_t parent = 0;
    uint32_t node = 0;
    if (is_busy((Calls *)self))
        return NULL;
    PyObject *found = NULL;
    if (is_counted(words, 2, "append_child") && uint32_of(word(words, 0), &parent) && uint32_of(word(words, 1), &node)) {
        moved((Calls *)self);
        uint8_t status = hp_append_child(session_at(self), parent, node);
        found = status ? refused(status, "append_child", self, words) : none();
    }
    return found;
}

static PyObject *call_adopt_node(PyObject *self, PyObject *words)
{
    uint32_t document = 0;
    uint32_t node = 0;
    if (is_busy((Calls *)self))
        return NULL;
    PyObject *found = NULL;
    if (is_counted(words, 2, "adopt_node") && uint32_of(word(words, 0), &document) && uint32_of(word(words, 1), &node)) {
        moved((Calls *)self);
        uint8_t status = hp_adopt_node(session_at(self), document, node);
        found = status ? refused(status, "adopt_node", self, words) : none();
    }
    return found;
}

static PyObject *call_replace_child(PyObject *self, PyObject *words)
{
    uint32_t parent = 0;
    uint32_t node = 0;
    uint32_t child = 0;
    if (is_busy((Calls *)self))
        return NULL;
    PyObject *found = NULL;
    if (is_counted(words, 3, "replace_child") && uint32_of(word(words, 0), &parent) && uint32_of(word(words, 1), &node) && uint32_of(word(words, 2), &child)) {
        let_go_noted((Calls *)self);
        moved((Calls *)self);
        uint8_t status = hp_replace_child(session_at(self), parent, node, child);
        found = status ? refused(status, "replace_child", self, words) : none();
    }
    return found;
}

static PyObject *call_remove_child(PyObject *self, PyObject *words)
{
    uint32_t parent = 0;
    uint32_t child = 0;
    if (is_busy((Calls *)self))
        return NULL;
    PyObject *found = NULL;
    if (is_counted(words, 2, "remove_child") && uint32_of(word(words, 0), &parent) && uint32_of(word(words, 1), &child)) {
        let_go_noted((Calls *)self);
        moved((Calls *)self);
        uint8_t status = hp_remove_child(session_at(self), parent, child);
        found = status ? refused(status, "remove_child", self, words) : none();
    }
    return found;
}

static PyObject *call_remove(PyObject *self, PyObject *words)
{
    uint32_t node = 0;
    if (is_busy((Calls *)self))
        return NULL;
    PyObject *found = NULL;
    if (is_counted(words, 1, "remove") && uint32_of(word(words, 0), &node)) {
        let_go_noted((Calls *)self);
        moved((Calls *)self);
        uint8_t status = hp_remove(session_at(self), node);
        found = status ? refused(status, "remove", self, words) : none();
    }
    return found;
}

static PyObject *call_replace_children(PyObject *self, PyObject *words)
{
    uint32_t parent = 0;
    uint32_t node = 0;
    if (is_busy((Calls *)self))
        return NULL;
    PyObject *found = NULL;
    if (is_counted(words, 2, "replace_children") && uint32_of(word(words, 0), &parent) && uint32_of(word(words, 1), &node)) {
        let_go_noted((Calls *)self);
        moved((Calls *)self);
        uint8_t status = hp_replace_children(session_at(self), parent, node);
        found = status ? refused(status, "replace_children", self, words) : none();
    }
    return found;
}

static PyObject *call_normalize(PyObject *self, PyObject *words)
{
    uint32_t node = 0;
    if (is_busy((Calls *)self))
        return NULL;
    PyObject *found = NULL;
    if (is_counted(words, 1, "normalize") && uint32_of(word(words, 0), &node)) {
        let_go_noted((Calls *)self);
        moved((Calls *)self);
        uint8_t status = hp_normalize(session_at(self), node);
        found = status ? refused(status, "normalize", self, words) : none();
    }
    return found;
}

static PyObject *call_set_text_content(PyObject *self, PyObject *words)
{
    uint32_t node = 0;
    Slice text;
    if (is_busy((Calls *)self))
        return NULL;
    PyObject *found = NULL;
    begin(&text);
    if (is_counted(words, 2, "set_text_content") && uint32_of(word(words, 0), &node) && text_of(word(words, 1), &text)) {
        let_go_noted((Calls *)self);
        moved((Calls *)self);
        uint8_t status = hp_set_text_content(session_at(self), node, text.at, text.length);
        found = status ? refused(status, "set_text_content", self, words) : none();
    }
    drop(&text);
    return found;
}

static PyObject *call_discard(PyObject *self, PyObject *words)
{
    uint32_t node = 0;
    if (is_busy((Calls *)self))
        return NULL;
    PyObject *found = NULL;
    if (is_counted(words, 1, "discard") && uint32_of(word(words, 0), &node)) {
        let_go_noted((Calls *)self);
        moved((Calls *)self);
        uint8_t status = hp_discard(session_at(self), node);
        found = status ? refused(status, "discard", self, words) : let_go((Calls *)self, none());
    }
    return found;
}

static PyObject *call_import_node(PyObject *self, PyObject *words)
{
    uint32_t document = 0;
    uint32_t node = 0;
    bool deep = 0;
    uint32_t copy = 0;
    if (is_busy((Calls *)self))
        return NULL;
    PyObject *found = NULL;
    if (is_counted(words, 3, "import_node") && uint32_of(word(words, 0), &document) && uint32_of(word(words, 1), &node) && bool_of(word(words, 2), &deep)) {
        let_go_noted((Calls *)self);
        PyThreadState *thread = deep ? begin_long((Calls *)self) : NULL;
        memory_own();
        uint8_t status = hp_import_node(session_at(self), document, node, deep, &copy);
        memory_release();
        if (thread)
            end_long((Calls *)self, thread);
        if (deep && !status)
            ((Calls *)self)->copied = copy;
        found = status ? refused(status, "import_node", self, words) : PyLong_FromUnsignedLong(copy);
    }
    return found;
}

static PyObject *call_clone_node(PyObject *self, PyObject *words)
{
    uint32_t node = 0;
    bool deep = 0;
    uint32_t copy = 0;
    if (is_busy((Calls *)self))
        return NULL;
    PyObject *found = NULL;
    if (is_counted(words, 2, "clone_node") && uint32_of(word(words, 0), &node) && bool_of(word(words, 1), &deep)) {
        let_go_noted((Calls *)self);
        PyThreadState *thread = deep ? begin_long((Calls *)self) : NULL;
        memory_own();
        uint8_t status = hp_clone_node(session_at(self), node, deep, &copy);
        memory_release();
        if (thread)
            end_long((Calls *)self, thread);
        if (deep && !status)
            ((Calls *)self)->copied = copy;
        found = status ? refused(status, "clone_node", self, words) : PyLong_FromUnsignedLong(copy);
    }
    return found;
}

static PyObject *call_node(PyObject *self, PyObject *words)
{
    uint32_t node = 0;
    hp_place place;
    if (is_busy((Calls *)self))
        return NULL;
    PyObject *found = NULL;
    if (is_counted(words, 1, "node") && uint32_of(word(words, 0), &node)) {
        uint8_t status = hp_node(session_at(self), node, &place);
        found = status ? refused(status, "node", self, words) : hp_place_from((Calls *)self, &place);
    }
    return found;
}

static PyObject *call_children(PyObject *self, PyObject *words)
{
    uint32_t node = 0;
    if (is_busy((Calls *)self))
        return NULL;
    PyObject *found = NULL;
    if (is_counted(words, 1, "children") && uint32_of(word(words, 0), &node)) {
        uint8_t status = hp_children(session_at(self), node);
        found = status ? refused(status, "children", self, words) : none();
    }
    return found;
}

static PyObject *call_index(PyObject *self, PyObject *words)
{
    uint32_t node = 0;
    size_t index = 0;
    if (is_busy((Calls *)self))
        return NULL;
    PyObject *found = NULL;
    if (is_counted(words, 1, "index") && uint32_of(word(words, 0), &node)) {
        uint8_t status = hp_index(session_at(self), node, &index);
        found = status ? refused(status, "index", self, words) : PyLong_FromSize_t(index);
    }
    return found;
}

static PyObject *call_length(PyObject *self, PyObject *words)
{
    uint32_t node = 0;
    size_t length = 0;
    if (is_busy((Calls *)self))
        return NULL;
    PyObject *found = NULL;
    if (is_counted(words, 1, "length") && uint32_of(word(words, 0), &node)) {
        uint8_t status = hp_length(session_at(self), node, &length);
        found = status ? refused(status, "length", self, words) : PyLong_FromSize_t(length);
    }
    return found;
}

static PyObject *call_root(PyObject *self, PyObject *words)
{
    uint32_t node = 0;
    uint32_t root = 0;
    if (is_busy((Calls *)self))
        return NULL;
    PyObject *found = NULL;
    if (is_counted(words, 1, "root") && uint32_of(word(words, 0), &node)) {
        uint8_t status = hp_root(session_at(self), node, &root);
        found = status ? refused(status, "root", self, words) : PyLong_FromUnsignedLong(root);
    }
    return found;
}

static PyObject *call_contains(PyObject *self, PyObject *words)
{
    uint32_t node = 0;
    uint32_t other = 0;
    uint8_t contains = 0;
    if (is_busy((Calls *)self))
        return NULL;
    PyObject *found = NULL;
    if (is_counted(words, 2, "contains") && uint32_of(word(words, 0), &node) && uint32_of(word(words, 1), &other)) {
        uint8_t status = hp_contains(session_at(self), node, other, &contains);
        found = status ? refused(status, "contains", self, words) : PyBool_FromLong(contains);
    }
    return found;
}

static PyObject *call_is_equal(PyObject *self, PyObject *words)
{
    uint32_t node = 0;
    uint32_t other = 0;
    uint8_t is_equal = 0;
    if (is_busy((Calls *)self))
        return NULL;
    PyObject *found = NULL;
    if (is_counted(words, 2, "is_equal") && uint32_of(word(words, 0), &node) && uint32_of(word(words, 1), &other)) {
        uint8_t status = hp_is_equal(session_at(self), node, other, &is_equal);
        found = status ? refused(status, "is_equal", self, words) : PyBool_FromLong(is_equal);
    }
    return found;
}

static PyObject *call_compare_position(PyObject *self, PyObject *words)
{
    uint32_t node = 0;
    uint32_t other = 0;
    uint32_t position = 0;
    if (is_busy((Calls *)self))
        return NULL;
    PyObject *found = NULL;
    if (is_counted(words, 2, "compare_position") && uint32_of(word(words, 0), &node) && uint32_of(word(words, 1), &other)) {
        uint8_t status = hp_compare_position(session_at(self), node, other, &position);
        found = status ? refused(status, "compare_position", self, words) : PyLong_FromUnsignedLong(position);
    }
    return found;
}

static PyObject *call_text_content(PyObject *self, PyObject *words)
{
    uint32_t node = 0;
    if (is_busy((Calls *)self))
        return NULL;
    PyObject *found = NULL;
    if (is_counted(words, 1, "text_content") && uint32_of(word(words, 0), &node)) {
        uint8_t status = hp_text_content(session_at(self), node);
        found = status ? refused(status, "text_content", self, words) : none();
    }
    return found;
}

static PyObject *call_tree(PyObject *self, PyObject *words)
{
    uint32_t node = 0;
    if (is_busy((Calls *)self))
        return NULL;
    PyObject *found = NULL;
    if (is_counted(words, 1, "tree") && uint32_of(word(words, 0), &node)) {
        uint8_t status = hp_tree(session_at(self), node);
        found = status ? refused(status, "tree", self, words) : none();
    }
    return found;
}

static PyObject *call_links(PyObject *self, PyObject *words)
{
    uint32_t node = 0;
    hp_node_links links;
    if (is_busy((Calls *)self))
        return NULL;
    PyObject *found = NULL;
    if (is_counted(words, 1, "links") && uint32_of(word(words, 0), &node)) {
        uint8_t status = hp_links(session_at(self), node, &links);
        found = status ? refused(status, "links", self, words) : hp_node_links_from((Calls *)self, &links);
    }
    return found;
}

static PyObject *call_first_child(PyObject *self, PyObject *words)
{
    uint32_t node = 0;
    uint32_t child = 0;
    if (is_busy((Calls *)self))
        return NULL;
    PyObject *found = NULL;
    if (is_counted(words, 1, "first_child") && uint32_of(word(words, 0), &node)) {
        uint8_t status = hp_first_child(session_at(self), node, &child);
        found = status ? refused(status, "first_child", self, words) : PyLong_FromUnsignedLong(child);
    }
    return found;
}

static PyObject *call_last_child(PyObject *self, PyObject *words)
{
    uint32_t node = 0;
    uint32_t child = 0;
    if (is_busy((Calls *)self))
        return NULL;
    PyObject *found = NULL;
    if (is_counted(words, 1, "last_child") && uint32_of(word(words, 0), &node)) {
        uint8_t status = hp_last_child(session_at(self), node, &child);
        found = status ? refused(status, "last_child", self, words) : PyLong_FromUnsignedLong(child);
    }
    return found;
}

static PyObject *call_child_at(PyObject *self, PyObject *words)
{
    uint32_t node = 0;
    size_t index = 0;
    uint32_t child = 0;
    if (is_busy((Calls *)self))
        return NULL;
    PyObject *found = NULL;
    if (is_counted(words, 2, "child_at") && uint32_of(word(words, 0), &node) && size_of(word(words, 1), &index)) {
        uint8_t status = hp_child_at(session_at(self), node, index, &child);
        found = status ? refused(status, "child_at", self, words) : PyLong_FromUnsignedLong(child);
    }
    return found;
}

static PyObject *call_name_of(PyObject *self, PyObject *words)
{
    uint32_t node = 0;
    uint8_t part = 0;
    hp_bytes out;
    if (is_busy((Calls *)self))
        return NULL;
    PyObject *found = NULL;
    if (is_counted(words, 2, "name_of") && uint32_of(word(words, 0), &node) && uint8_of(word(words, 1), &part)) {
        uint8_t status = hp_name_of(session_at(self), node, part, &out);
        found = status ? refused(status, "name_of", self, words) : name_from(out.bytes, out.length);
    }
    return found;
}

static PyObject *call_data_of(PyObject *self, PyObject *words)
{
    uint32_t node = 0;
    hp_text_view out;
    if (is_busy((Calls *)self))
        return NULL;
    PyObject *found = NULL;
    if (is_counted(words, 1, "data_of") && uint32_of(word(words, 0), &node)) {
        uint8_t status = hp_data_of(session_at(self), node, &out);
        found = status ? refused(status, "data_of", self, words) : text_from(out.units, out.length);
    }
    return found;
}

static PyObject *call_in_use(PyObject *self, PyObject *words)
{
    hp_counts counts;
    if (is_busy((Calls *)self))
        return NULL;
    PyObject *found = NULL;
    if (is_counted(words, 0, "in_use")) {
        uint8_t status = hp_in_use(session_at(self), &counts);
        found = status ? refused(status, "in_use", self, words) : hp_counts_from((Calls *)self, &counts);
    }
    return found;
}

static PyObject *call_nodes_made(PyObject *self, PyObject *words)
{
    uint64_t count = 0;
    if (is_busy((Calls *)self))
        return NULL;
    PyObject *found = NULL;
    if (is_counted(words, 0, "nodes_made")) {
        uint8_t status = hp_nodes_made(session_at(self), &count);
        found = status ? refused(status, "nodes_made", self, words) : PyLong_FromUnsignedLongLong(count);
    }
    return found;
}

static PyObject *call_data(PyObject *self, PyObject *words)
{
    uint32_t node = 0;
    if (is_busy((Calls *)self))
        return NULL;
    PyObject *found = NULL;
    if (is_counted(words, 1, "data") && uint32_of(word(words, 0), &node)) {
        uint8_t status = hp_data(session_at(self), node);
        found = status ? refused(status, "data", self, words) : none();
    }
    return found;
}

static PyObject *call_set_data(PyObject *self, PyObject *words)
{
    uint32_t node = 0;
    Slice data;
    if (is_busy((Calls *)self))
        return NULL;
    PyObject *found = NULL;
    begin(&data);
    if (is_counted(words, 2, "set_data") && uint32_of(word(words, 0), &node) && text_of(word(words, 1), &data)) {
        uint8_t status = hp_set_data(session_at(self), node, data.at, data.length);
        found = status ? refused(status, "set_data", self, words) : none();
    }
    drop(&data);
    return found;
}

static PyObject *call_append_data(PyObject *self, PyObject *words)
{
    uint32_t node = 0;
    Slice data;
    if (is_busy((Calls *)self))
        return NULL;
    PyObject *found = NULL;
    begin(&data);
    if (is_counted(words, 2, "append_data") && uint32_of(word(words, 0), &node) && text_of(word(words, 1), &data)) {
        uint8_t status = hp_append_data(session_at(self), node, data.at, data.length);
        found = status ? refused(status, "append_data", self, words) : none();
    }
    drop(&data);
    return found;
}

static PyObject *call_insert_data(PyObject *self, PyObject *words)
{
    uint32_t node = 0;
    uint32_t offset = 0;
    Slice data;
    if (is_busy((Calls *)self))
        return NULL;
    PyObject *found = NULL;
    begin(&data);
    if (is_counted(words, 3, "insert_data") && uint32_of(word(words, 0), &node) && uint32_of(word(words, 1), &offset) && text_of(word(words, 2), &data)) {
        uint8_t status = hp_insert_data(session_at(self), node, offset, data.at, data.length);
        found = status ? refused(status, "insert_data", self, words) : none();
    }
    drop(&data);
    return found;
}

static PyObject *call_delete_data(PyObject *self, PyObject *words)
{
    uint32_t node = 0;
    uint32_t offset = 0;
    uint32_t count = 0;
    if (is_busy((Calls *)self))
        return NULL;
    PyObject *found = NULL;
    if (is_counted(words, 3, "delete_data") && uint32_of(word(words, 0), &node) && uint32_of(word(words, 1), &offset) && uint32_of(word(words, 2), &count)) {
        uint8_t status = hp_delete_data(session_at(self), node, offset, count);
        found = status ? refused(status, "delete_data", self, words) : none();
    }
    return found;
}

static PyObject *call_replace_data(PyObject *self, PyObject *words)
{
    uint32_t node = 0;
    uint32_t offset = 0;
    uint32_t count = 0;
    Slice data;
    if (is_busy((Calls *)self))
        return NULL;
    PyObject *found = NULL;
    begin(&data);
    if (is_counted(words, 4, "replace_data") && uint32_of(word(words, 0), &node) && uint32_of(word(words, 1), &offset) && uint32_of(word(words, 2), &count) && text_of(word(words, 3), &data)) {
        uint8_t status = hp_replace_data(session_at(self), node, offset, count, data.at, data.length);
        found = status ? refused(status, "replace_data", self, words) : none();
    }
    drop(&data);
    return found;
}

static PyObject *call_substring_data(PyObject *self, PyObject *words)
{
    uint32_t node = 0;
    uint32_t offset = 0;
    uint32_t count = 0;
    if (is_busy((Calls *)self))
        return NULL;
    PyObject *found = NULL;
    if (is_counted(words, 3, "substring_data") && uint32_of(word(words, 0), &node) && uint32_of(word(words, 1), &offset) && uint32_of(word(words, 2), &count)) {
        uint8_t status = hp_substring_data(session_at(self), node, offset, count);
        found = status ? refused(status, "substring_data", self, words) : none();
    }
    return found;
}

static PyObject *call_split_text(PyObject *self, PyObject *words)
{
    uint32_t text = 0;
    uint32_t offset = 0;
    uint32_t rest = 0;
    if (is_busy((Calls *)self))
        return NULL;
    PyObject *found = NULL;
    if (is_counted(words, 2, "split_text") && uint32_of(word(words, 0), &text) && uint32_of(word(words, 1), &offset)) {
        let_go_noted((Calls *)self);
        moved((Calls *)self);
        uint8_t status = hp_split_text(session_at(self), text, offset, &rest);
        found = status ? refused(status, "split_text", self, words) : PyLong_FromUnsignedLong(rest);
    }
    return found;
}

static PyObject *call_set_attribute(PyObject *self, PyObject *words)
{
    uint32_t element = 0;
    Slice name;
    Slice value;
    if (is_busy((Calls *)self))
        return NULL;
    PyObject *found = NULL;
    begin(&name);
    begin(&value);
    if (is_counted(words, 3, "set_attribute") && uint32_of(word(words, 0), &element) && name_of(word(words, 1), &name) && text_of(word(words, 2), &value)) {
        reshaped((Calls *)self, element);
        uint8_t status = hp_set_attribute(session_at(self), element, name.at, name.length, value.at, value.length);
        found = status ? refused(status, "set_attribute", self, words) : none();
    }
    drop(&name);
    drop(&value);
    return found;
}

static PyObject *call_get_attribute(PyObject *self, PyObject *words)
{
    uint32_t element = 0;
    Slice name;
    if (is_busy((Calls *)self))
        return NULL;
    PyObject *found = NULL;
    begin(&name);
    if (is_counted(words, 2, "get_attribute") && uint32_of(word(words, 0), &element) && name_of(word(words, 1), &name)) {
        uint8_t status = hp_get_attribute(session_at(self), element, name.at, name.length);
        found = status ? refused(status, "get_attribute", self, words) : none();
    }
    drop(&name);
    return found;
}

static PyObject *call_has_attribute(PyObject *self, PyObject *words)
{
    uint32_t element = 0;
    Slice name;
    uint8_t is_there = 0;
    if (is_busy((Calls *)self))
        return NULL;
    PyObject *found = NULL;
    begin(&name);
    if (is_counted(words, 2, "has_attribute") && uint32_of(word(words, 0), &element) && name_of(word(words, 1), &name)) {
        uint8_t status = hp_has_attribute(session_at(self), element, name.at, name.length, &is_there);
        found = status ? refused(status, "has_attribute", self, words) : PyBool_FromLong(is_there);
    }
    drop(&name);
    return found;
}

static PyObject *call_remove_attribute(PyObject *self, PyObject *words)
{
    uint32_t element = 0;
    Slice name;
    if (is_busy((Calls *)self))
        return NULL;
    PyObject *found = NULL;
    begin(&name);
    if (is_counted(words, 2, "remove_attribute") && uint32_of(word(words, 0), &element) && name_of(word(words, 1), &name)) {
        reshaped((Calls *)self, element);
        uint8_t status = hp_remove_attribute(session_at(self), element, name.at, name.length);
        found = status ? refused(status, "remove_attribute", self, words) : none();
    }
    drop(&name);
    return found;
}

static PyObject *call_toggle_attribute(PyObject *self, PyObject *words)
{
    uint32_t element = 0;
    Slice name;
    uint8_t force = 0;
    uint8_t is_there = 0;
    if (is_busy((Calls *)self))
        return NULL;
    PyObject *found = NULL;
    begin(&name);
    if (is_counted(words, 3, "toggle_attribute") && uint32_of(word(words, 0), &element) && name_of(word(words, 1), &name) && uint8_of(word(words, 2), &force)) {
        reshaped((Calls *)self, element);
        uint8_t status = hp_toggle_attribute(session_at(self), element, name.at, name.length, force, &is_there);
        found = status ? refused(status, "toggle_attribute", self, words) : PyBool_FromLong(is_there);
    }
    drop(&name);
    return found;
}

static PyObject *call_attribute_names(PyObject *self, PyObject *words)
{
    uint32_t element = 0;
    if (is_busy((Calls *)self))
        return NULL;
    PyObject *found = NULL;
    if (is_counted(words, 1, "attribute_names") && uint32_of(word(words, 0), &element)) {
        uint8_t status = hp_attribute_names(session_at(self), element);
        found = status ? refused(status, "attribute_names", self, words) : none();
    }
    return found;
}

static PyObject *call_create_range(PyObject *self, PyObject *words)
{
    uint32_t document = 0;
    uint32_t range = 0;
    if (is_busy((Calls *)self))
        return NULL;
    PyObject *found = NULL;
    if (is_counted(words, 1, "create_range") && uint32_of(word(words, 0), &document)) {
        let_go_noted((Calls *)self);
        uint8_t status = hp_create_range(session_at(self), document, &range);
        found = status ? refused(status, "create_range", self, words) : PyLong_FromUnsignedLong(range);
    }
    return found;
}

static PyObject *call_clone_range(PyObject *self, PyObject *words)
{
    uint32_t range = 0;
    uint32_t copy = 0;
    if (is_busy((Calls *)self))
        return NULL;
    PyObject *found = NULL;
    if (is_counted(words, 1, "clone_range") && uint32_of(word(words, 0), &range)) {
        let_go_noted((Calls *)self);
        uint8_t status = hp_clone_range(session_at(self), range, &copy);
        found = status ? refused(status, "clone_range", self, words) : PyLong_FromUnsignedLong(copy);
    }
    return found;
}

static PyObject *call_range(PyObject *self, PyObject *words)
{
    uint32_t range = 0;
    hp_ends ends;
    if (is_busy((Calls *)self))
        return NULL;
    PyObject *found = NULL;
    if (is_counted(words, 1, "range") && uint32_of(word(words, 0), &range)) {
        uint8_t status = hp_range(session_at(self), range, &ends);
        found = status ? refused(status, "range", self, words) : hp_ends_from((Calls *)self, &ends);
    }
    return found;
}

static PyObject *call_set_start(PyObject *self, PyObject *words)
{
    uint32_t range = 0;
    uint32_t node = 0;
    uint32_t offset = 0;
    if (is_busy((Calls *)self))
        return NULL;
    PyObject *found = NULL;
    if (is_counted(words, 3, "set_start") && uint32_of(word(words, 0), &range) && uint32_of(word(words, 1), &node) && uint32_of(word(words, 2), &offset)) {
        uint8_t status = hp_set_start(session_at(self), range, node, offset);
        found = status ? refused(status, "set_start", self, words) : none();
    }
    return found;
}

static PyObject *call_set_end(PyObject *self, PyObject *words)
{
    uint32_t range = 0;
    uint32_t node = 0;
    uint32_t offset = 0;
    if (is_busy((Calls *)self))
        return NULL;
    PyObject *found = NULL;
    if (is_counted(words, 3, "set_end") && uint32_of(word(words, 0), &range) && uint32_of(word(words, 1), &node) && uint32_of(word(words, 2), &offset)) {
        uint8_t status = hp_set_end(session_at(self), range, node, offset);
        found = status ? refused(status, "set_end", self, words) : none();
    }
    return found;
}

static PyObject *call_set_start_before(PyObject *self, PyObject *words)
{
    uint32_t range = 0;
    uint32_t node = 0;
    if (is_busy((Calls *)self))
        return NULL;
    PyObject *found = NULL;
    if (is_counted(words, 2, "set_start_before") && uint32_of(word(words, 0), &range) && uint32_of(word(words, 1), &node)) {
        uint8_t status = hp_set_start_before(session_at(self), range, node);
        found = status ? refused(status, "set_start_before", self, words) : none();
    }
    return found;
}

static PyObject *call_set_start_after(PyObject *self, PyObject *words)
{
    uint32_t range = 0;
    uint32_t node = 0;
    if (is_busy((Calls *)self))
        return NULL;
    PyObject *found = NULL;
    if (is_counted(words, 2, "set_start_after") && uint32_of(word(words, 0), &range) && uint32_of(word(words, 1), &node)) {
        uint8_t status = hp_set_start_after(session_at(self), range, node);
        found = status ? refused(status, "set_start_after", self, words) : none();
    }
    return found;
}

static PyObject *call_set_end_before(PyObject *self, PyObject *words)
{
    uint32_t range = 0;
    uint32_t node = 0;
    if (is_busy((Calls *)self))
        return NULL;
    PyObject *found = NULL;
    if (is_counted(words, 2, "set_end_before") && uint32_of(word(words, 0), &range) && uint32_of(word(words, 1), &node)) {
        uint8_t status = hp_set_end_before(session_at(self), range, node);
        found = status ? refused(status, "set_end_before", self, words) : none();
    }
    return found;
}

static PyObject *call_set_end_after(PyObject *self, PyObject *words)
{
    uint32_t range = 0;
    uint32_t node = 0;
    if (is_busy((Calls *)self))
        return NULL;
    PyObject *found = NULL;
    if (is_counted(words, 2, "set_end_after") && uint32_of(word(words, 0), &range) && uint32_of(word(words, 1), &node)) {
        uint8_t status = hp_set_end_after(session_at(self), range, node);
        found = status ? refused(status, "set_end_after", self, words) : none();
    }
    return found;
}

static PyObject *call_collapse(PyObject *self, PyObject *words)
{
    uint32_t range = 0;
    bool to_start = 0;
    if (is_busy((Calls *)self))
        return NULL;
    PyObject *found = NULL;
    if (is_counted(words, 2, "collapse") && uint32_of(word(words, 0), &range) && bool_of(word(words, 1), &to_start)) {
        uint8_t status = hp_collapse(session_at(self), range, to_start);
        found = status ? refused(status, "collapse", self, words) : none();
    }
    return found;
}

static PyObject *call_select_node(PyObject *self, PyObject *words)
{
    uint32_t range = 0;
    uint32_t node = 0;
    if (is_busy((Calls *)self))
        return NULL;
    PyObject *found = NULL;
    if (is_counted(words, 2, "select_node") && uint32_of(word(words, 0), &range) && uint32_of(word(words, 1), &node)) {
        uint8_t status = hp_select_node(session_at(self), range, node);
        found = status ? refused(status, "select_node", self, words) : none();
    }
    return found;
}

static PyObject *call_select_node_contents(PyObject *self, PyObject *words)
{
    uint32_t range = 0;
    uint32_t node = 0;
    if (is_busy((Calls *)self))
        return NULL;
    PyObject *found = NULL;
    if (is_counted(words, 2, "select_node_contents") && uint32_of(word(words, 0), &range) && uint32_of(word(words, 1), &node)) {
        uint8_t status = hp_select_node_contents(session_at(self), range, node);
        found = status ? refused(status, "select_node_contents", self, words) : none();
    }
    return found;
}

static PyObject *call_release_range(PyObject *self, PyObject *words)
{
    uint32_t range = 0;
    if (is_busy((Calls *)self))
        return NULL;
    PyObject *found = NULL;
    if (is_counted(words, 1, "release_range") && uint32_of(word(words, 0), &range)) {
        uint8_t status = hp_release_range(session_at(self), range);
        found = status ? refused(status, "release_range", self, words) : none();
    }
    return found;
}

static PyObject *call_compare_boundary_points(PyObject *self, PyObject *words)
{
    uint32_t range = 0;
    uint32_t how = 0;
    uint32_t source = 0;
    int8_t order = 0;
    if (is_busy((Calls *)self))
        return NULL;
    PyObject *found = NULL;
    if (is_counted(words, 3, "compare_boundary_points") && uint32_of(word(words, 0), &range) && uint32_of(word(words, 1), &how) && uint32_of(word(words, 2), &source)) {
        uint8_t status = hp_compare_boundary_points(session_at(self), range, how, source, &order);
        found = status ? refused(status, "compare_boundary_points", self, words) : PyLong_FromLong(order);
    }
    return found;
}

static PyObject *call_compare_point(PyObject *self, PyObject *words)
{
    uint32_t range = 0;
    uint32_t node = 0;
    uint32_t offset = 0;
    int8_t order = 0;
    if (is_busy((Calls *)self))
        return NULL;
    PyObject *found = NULL;
    if (is_counted(words, 3, "compare_point") && uint32_of(word(words, 0), &range) && uint32_of(word(words, 1), &node) && uint32_of(word(words, 2), &offset)) {
        uint8_t status = hp_compare_point(session_at(self), range, node, offset, &order);
        found = status ? refused(status, "compare_point", self, words) : PyLong_FromLong(order);
    }
    return found;
}

static PyObject *call_is_point_in_range(PyObject *self, PyObject *words)
{
    uint32_t range = 0;
    uint32_t node = 0;
    uint32_t offset = 0;
    uint8_t is_in = 0;
    if (is_busy((Calls *)self))
        return NULL;
    PyObject *found = NULL;
    if (is_counted(words, 3, "is_point_in_range") && uint32_of(word(words, 0), &range) && uint32_of(word(words, 1), &node) && uint32_of(word(words, 2), &offset)) {
        uint8_t status = hp_is_point_in_range(session_at(self), range, node, offset, &is_in);
        found = status ? refused(status, "is_point_in_range", self, words) : PyBool_FromLong(is_in);
    }
    return found;
}

static PyObject *call_intersects_node(PyObject *self, PyObject *words)
{
    uint32_t range = 0;
    uint32_t node = 0;
    uint8_t intersects = 0;
    if (is_busy((Calls *)self))
        return NULL;
    PyObject *found = NULL;
    if (is_counted(words, 2, "intersects_node") && uint32_of(word(words, 0), &range) && uint32_of(word(words, 1), &node)) {
        uint8_t status = hp_intersects_node(session_at(self), range, node, &intersects);
        found = status ? refused(status, "intersects_node", self, words) : PyBool_FromLong(intersects);
    }
    return found;
}

static PyObject *call_common_ancestor(PyObject *self, PyObject *words)
{
    uint32_t range = 0;
    uint32_t ancestor = 0;
    if (is_busy((Calls *)self))
        return NULL;
    PyObject *found = NULL;
    if (is_counted(words, 1, "common_ancestor") && uint32_of(word(words, 0), &range)) {
        uint8_t status = hp_common_ancestor(session_at(self), range, &ancestor);
        found = status ? refused(status, "common_ancestor", self, words) : PyLong_FromUnsignedLong(ancestor);
    }
    return found;
}

static PyObject *call_create_static_range(PyObject *self, PyObject *words)
{
    uint32_t start = 0;
    uint32_t start_offset = 0;
    uint32_t end = 0;
    uint32_t end_offset = 0;
    uint32_t range = 0;
    if (is_busy((Calls *)self))
        return NULL;
    PyObject *found = NULL;
    if (is_counted(words, 4, "create_static_range") && uint32_of(word(words, 0), &start) && uint32_of(word(words, 1), &start_offset) && uint32_of(word(words, 2), &end) && uint32_of(word(words, 3), &end_offset)) {
        let_go_noted((Calls *)self);
        uint8_t status = hp_create_static_range(session_at(self), start, start_offset, end, end_offset, &range);
        found = status ? refused(status, "create_static_range", self, words) : PyLong_FromUnsignedLong(range);
    }
    return found;
}

static PyObject *call_static_range(PyObject *self, PyObject *words)
{
    uint32_t range = 0;
    hp_static_ends ends;
    if (is_busy((Calls *)self))
        return NULL;
    PyObject *found = NULL;
    if (is_counted(words, 1, "static_range") && uint32_of(word(words, 0), &range)) {
        uint8_t status = hp_static_range(session_at(self), range, &ends);
        found = status ? refused(status, "static_range", self, words) : hp_static_ends_from((Calls *)self, &ends);
    }
    return found;
}

static PyObject *call_release_static_range(PyObject *self, PyObject *words)
{
    uint32_t range = 0;
    if (is_busy((Calls *)self))
        return NULL;
    PyObject *found = NULL;
    if (is_counted(words, 1, "release_static_range") && uint32_of(word(words, 0), &range)) {
        uint8_t status = hp_release_static_range(session_at(self), range);
        found = status ? refused(status, "release_static_range", self, words) : none();
    }
    return found;
}

static PyObject *call_range_text(PyObject *self, PyObject *words)
{
    uint32_t range = 0;
    if (is_busy((Calls *)self))
        return NULL;
    PyObject *found = NULL;
    if (is_counted(words, 1, "range_text") && uint32_of(word(words, 0), &range)) {
        uint8_t status = hp_range_text(session_at(self), range);
        found = status ? refused(status, "range_text", self, words) : none();
    }
    return found;
}

static PyObject *call_delete_contents(PyObject *self, PyObject *words)
{
    uint32_t range = 0;
    if (is_busy((Calls *)self))
        return NULL;
    PyObject *found = NULL;
    if (is_counted(words, 1, "delete_contents") && uint32_of(word(words, 0), &range)) {
        let_go_noted((Calls *)self);
        moved((Calls *)self);
        uint8_t status = hp_delete_contents(session_at(self), range);
        found = status ? refused(status, "delete_contents", self, words) : none();
    }
    return found;
}

static PyObject *call_extract_contents(PyObject *self, PyObject *words)
{
    uint32_t range = 0;
    uint32_t fragment = 0;
    if (is_busy((Calls *)self))
        return NULL;
    PyObject *found = NULL;
    if (is_counted(words, 1, "extract_contents") && uint32_of(word(words, 0), &range)) {
        let_go_noted((Calls *)self);
        moved((Calls *)self);
        uint8_t status = hp_extract_contents(session_at(self), range, &fragment);
        found = status ? refused(status, "extract_contents", self, words) : PyLong_FromUnsignedLong(fragment);
    }
    return found;
}

static PyObject *call_clone_contents(PyObject *self, PyObject *words)
{
    uint32_t range = 0;
    uint32_t fragment = 0;
    if (is_busy((Calls *)self))
        return NULL;
    PyObject *found = NULL;
    if (is_counted(words, 1, "clone_contents") && uint32_of(word(words, 0), &range)) {
        let_go_noted((Calls *)self);
        uint8_t status = hp_clone_contents(session_at(self), range, &fragment);
        found = status ? refused(status, "clone_contents", self, words) : PyLong_FromUnsignedLong(fragment);
    }
    return found;
}

static PyObject *call_insert_node(PyObject *self, PyObject *words)
{
    uint32_t range = 0;
    uint32_t node = 0;
    if (is_busy((Calls *)self))
        return NULL;
    PyObject *found = NULL;
    if (is_counted(words, 2, "insert_node") && uint32_of(word(words, 0), &range) && uint32_of(word(words, 1), &node)) {
        moved((Calls *)self);
        uint8_t status = hp_insert_node(session_at(self), range, node);
        found = status ? refused(status, "insert_node", self, words) : none();
    }
    return found;
}

static PyObject *call_surround_contents(PyObject *self, PyObject *words)
{
    uint32_t range = 0;
    uint32_t parent = 0;
    if (is_busy((Calls *)self))
        return NULL;
    PyObject *found = NULL;
    if (is_counted(words, 2, "surround_contents") && uint32_of(word(words, 0), &range) && uint32_of(word(words, 1), &parent)) {
        let_go_noted((Calls *)self);
        moved((Calls *)self);
        uint8_t status = hp_surround_contents(session_at(self), range, parent);
        found = status ? refused(status, "surround_contents", self, words) : none();
    }
    return found;
}

static PyObject *call_create_iterator(PyObject *self, PyObject *words)
{
    uint32_t root = 0;
    uint32_t show = 0;
    Slice names;
    Slice lengths;
    Slice verdicts;
    uint32_t iterator = 0;
    if (is_busy((Calls *)self))
        return NULL;
    PyObject *found = NULL;
    begin(&names);
    begin(&lengths);
    begin(&verdicts);
    if (is_counted(words, 5, "create_iterator") && uint32_of(word(words, 0), &root) && uint32_of(word(words, 1), &show) && octets_of(word(words, 2), &names) && numbers_of(word(words, 3), &lengths) && octets_of(word(words, 4), &verdicts)) {
        let_go_noted((Calls *)self);
        uint8_t status = hp_create_iterator(session_at(self), root, show, names.at, names.length, lengths.at, lengths.length, verdicts.at, verdicts.length, &iterator);
        found = status ? refused(status, "create_iterator", self, words) : PyLong_FromUnsignedLong(iterator);
    }
    drop(&names);
    drop(&lengths);
    drop(&verdicts);
    return found;
}

static PyObject *call_create_walker(PyObject *self, PyObject *words)
{
    uint32_t root = 0;
    uint32_t show = 0;
    Slice names;
    Slice lengths;
    Slice verdicts;
    uint32_t walker = 0;
    if (is_busy((Calls *)self))
        return NULL;
    PyObject *found = NULL;
    begin(&names);
    begin(&lengths);
    begin(&verdicts);
    if (is_counted(words, 5, "create_walker") && uint32_of(word(words, 0), &root) && uint32_of(word(words, 1), &show) && octets_of(word(words, 2), &names) && numbers_of(word(words, 3), &lengths) && octets_of(word(words, 4), &verdicts)) {
        let_go_noted((Calls *)self);
        uint8_t status = hp_create_walker(session_at(self), root, show, names.at, names.length, lengths.at, lengths.length, verdicts.at, verdicts.length, &walker);
        found = status ? refused(status, "create_walker", self, words) : PyLong_FromUnsignedLong(walker);
    }
    drop(&names);
    drop(&lengths);
    drop(&verdicts);
    return found;
}

static PyObject *call_iterator(PyObject *self, PyObject *words)
{
    uint32_t iterator = 0;
    hp_iterator_at place;
    if (is_busy((Calls *)self))
        return NULL;
    PyObject *found = NULL;
    if (is_counted(words, 1, "iterator") && uint32_of(word(words, 0), &iterator)) {
        uint8_t status = hp_iterator(session_at(self), iterator, &place);
        found = status ? refused(status, "iterator", self, words) : hp_iterator_at_from((Calls *)self, &place);
    }
    return found;
}

static PyObject *call_next_node(PyObject *self, PyObject *words)
{
    uint32_t iterator = 0;
    uint32_t node = 0;
    if (is_busy((Calls *)self))
        return NULL;
    PyObject *found = NULL;
    if (is_counted(words, 1, "next_node") && uint32_of(word(words, 0), &iterator)) {
        uint8_t status = hp_next_node(session_at(self), iterator, &node);
        found = status ? refused(status, "next_node", self, words) : PyLong_FromUnsignedLong(node);
    }
    return found;
}

static PyObject *call_previous_node(PyObject *self, PyObject *words)
{
    uint32_t iterator = 0;
    uint32_t node = 0;
    if (is_busy((Calls *)self))
        return NULL;
    PyObject *found = NULL;
    if (is_counted(words, 1, "previous_node") && uint32_of(word(words, 0), &iterator)) {
        uint8_t status = hp_previous_node(session_at(self), iterator, &node);
        found = status ? refused(status, "previous_node", self, words) : PyLong_FromUnsignedLong(node);
    }
    return found;
}

static PyObject *call_walker(PyObject *self, PyObject *words)
{
    uint32_t walker = 0;
    hp_walker_at place;
    if (is_busy((Calls *)self))
        return NULL;
    PyObject *found = NULL;
    if (is_counted(words, 1, "walker") && uint32_of(word(words, 0), &walker)) {
        uint8_t status = hp_walker(session_at(self), walker, &place);
        found = status ? refused(status, "walker", self, words) : hp_walker_at_from((Calls *)self, &place);
    }
    return found;
}

static PyObject *call_set_current(PyObject *self, PyObject *words)
{
    uint32_t walker = 0;
    uint32_t node = 0;
    if (is_busy((Calls *)self))
        return NULL;
    PyObject *found = NULL;
    if (is_counted(words, 2, "set_current") && uint32_of(word(words, 0), &walker) && uint32_of(word(words, 1), &node)) {
        uint8_t status = hp_set_current(session_at(self), walker, node);
        found = status ? refused(status, "set_current", self, words) : none();
    }
    return found;
}

static PyObject *call_walk(PyObject *self, PyObject *words)
{
    uint32_t walker = 0;
    uint8_t direction = 0;
    uint32_t node = 0;
    if (is_busy((Calls *)self))
        return NULL;
    PyObject *found = NULL;
    if (is_counted(words, 2, "walk") && uint32_of(word(words, 0), &walker) && uint8_of(word(words, 1), &direction)) {
        uint8_t status = hp_walk(session_at(self), walker, direction, &node);
        found = status ? refused(status, "walk", self, words) : PyLong_FromUnsignedLong(node);
    }
    return found;
}

static PyObject *call_release_iterator(PyObject *self, PyObject *words)
{
    uint32_t iterator = 0;
    if (is_busy((Calls *)self))
        return NULL;
    PyObject *found = NULL;
    if (is_counted(words, 1, "release_iterator") && uint32_of(word(words, 0), &iterator)) {
        uint8_t status = hp_release_iterator(session_at(self), iterator);
        found = status ? refused(status, "release_iterator", self, words) : none();
    }
    return found;
}

static PyObject *call_release_walker(PyObject *self, PyObject *words)
{
    uint32_t walker = 0;
    if (is_busy((Calls *)self))
        return NULL;
    PyObject *found = NULL;
    if (is_counted(words, 1, "release_walker") && uint32_of(word(words, 0), &walker)) {
        uint8_t status = hp_release_walker(session_at(self), walker);
        found = status ? refused(status, "release_walker", self, words) : none();
    }
    return found;
}

static PyObject *call_create_observer(PyObject *self, PyObject *words)
{
    uint32_t observer = 0;
    if (is_busy((Calls *)self))
        return NULL;
    PyObject *found = NULL;
    if (is_counted(words, 0, "create_observer")) {
        let_go_noted((Calls *)self);
        uint8_t status = hp_create_observer(session_at(self), &observer);
        found = status ? refused(status, "create_observer", self, words) : PyLong_FromUnsignedLong(observer);
    }
    return found;
}

static PyObject *call_observe(PyObject *self, PyObject *words)
{
    uint32_t observer = 0;
    uint32_t node = 0;
    hp_options options;
    Slice names;
    Slice lengths;
    if (is_busy((Calls *)self))
        return NULL;
    PyObject *found = NULL;
    begin(&names);
    begin(&lengths);
    if (is_counted(words, 5, "observe") && uint32_of(word(words, 0), &observer) && uint32_of(word(words, 1), &node) && hp_options_of(word(words, 2), &options) && octets_of(word(words, 3), &names) && numbers_of(word(words, 4), &lengths)) {
        uint8_t status = hp_observe(session_at(self), observer, node, &options, names.at, names.length, lengths.at, lengths.length);
        found = status ? refused(status, "observe", self, words) : none();
    }
    drop(&names);
    drop(&lengths);
    return found;
}

static PyObject *call_disconnect(PyObject *self, PyObject *words)
{
    uint32_t observer = 0;
    if (is_busy((Calls *)self))
        return NULL;
    PyObject *found = NULL;
    if (is_counted(words, 1, "disconnect") && uint32_of(word(words, 0), &observer)) {
        forget_taken((Calls *)self, observer);
        uint8_t status = hp_disconnect(session_at(self), observer);
        found = status ? refused(status, "disconnect", self, words) : none();
    }
    return found;
}

static PyObject *call_take_records(PyObject *self, PyObject *words)
{
    uint32_t observer = 0;
    if (is_busy((Calls *)self))
        return NULL;
    PyObject *found = NULL;
    if (is_counted(words, 1, "take_records") && uint32_of(word(words, 0), &observer)) {
        uint8_t status = hp_take_records(session_at(self), observer);
        found = status ? refused(status, "take_records", self, words) : none();
    }
    return found;
}

static PyObject *call_notify(PyObject *self, PyObject *words)
{
    if (is_busy((Calls *)self))
        return NULL;
    PyObject *found = NULL;
    if (is_counted(words, 0, "notify")) {
        uint8_t status = hp_notify(session_at(self));
        found = status ? refused(status, "notify", self, words) : none();
    }
    return found;
}

static PyObject *call_pending(PyObject *self, PyObject *words)
{
    if (is_busy((Calls *)self))
        return NULL;
    PyObject *found = NULL;
    if (is_counted(words, 0, "pending")) {
        uint8_t status = hp_pending(session_at(self));
        found = status ? refused(status, "pending", self, words) : none();
    }
    return found;
}

static PyObject *call_take_pending(PyObject *self, PyObject *words)
{
    if (is_busy((Calls *)self))
        return NULL;
    PyObject *found = NULL;
    if (is_counted(words, 0, "take_pending")) {
        uint8_t status = hp_take_pending(session_at(self));
        found = status ? refused(status, "take_pending", self, words) : none();
    }
    return found;
}

static PyObject *call_tell_observer(PyObject *self, PyObject *words)
{
    uint32_t observer = 0;
    if (is_busy((Calls *)self))
        return NULL;
    PyObject *found = NULL;
    if (is_counted(words, 1, "tell_observer") && uint32_of(word(words, 0), &observer)) {
        uint8_t status = hp_tell_observer(session_at(self), observer);
        found = status ? refused(status, "tell_observer", self, words) : none();
    }
    return found;
}

static PyObject *call_release_observer(PyObject *self, PyObject *words)
{
    uint32_t observer = 0;
    if (is_busy((Calls *)self))
        return NULL;
    PyObject *found = NULL;
    if (is_counted(words, 1, "release_observer") && uint32_of(word(words, 0), &observer)) {
        forget_taken((Calls *)self, observer);
        uint8_t status = hp_release_observer(session_at(self), observer);
        found = status ? refused(status, "release_observer", self, words) : none();
    }
    return found;
}

static PyObject *call_read_children(PyObject *self, PyObject *words)
{
    uint32_t node = 0;
    if (is_busy((Calls *)self))
        return NULL;
    PyObject *found = NULL;
    if (is_counted(words, 1, "children") && uint32_of(word(words, 0), &node)) {
        uint8_t status = hp_children(session_at(self), node);
        found = status ? refused(status, "children", self, words) : numbers_answer(session_at(self));
    }
    return found;
}

static PyObject *call_read_pending(PyObject *self, PyObject *words)
{
    if (is_busy((Calls *)self))
        return NULL;
    PyObject *found = NULL;
    if (is_counted(words, 0, "pending")) {
        uint8_t status = hp_pending(session_at(self));
        found = status ? refused(status, "pending", self, words) : numbers_answer(session_at(self));
    }
    return found;
}

static PyObject *call_read_attribute_names(PyObject *self, PyObject *words)
{
    uint32_t element = 0;
    if (is_busy((Calls *)self))
        return NULL;
    PyObject *found = NULL;
    if (is_counted(words, 1, "attribute_names") && uint32_of(word(words, 0), &element)) {
        uint8_t status = hp_attribute_names(session_at(self), element);
        found = status ? refused(status, "attribute_names", self, words) : names_answer(session_at(self));
    }
    return found;
}

static PyObject *call_read_data(PyObject *self, PyObject *words)
{
    uint32_t node = 0;
    if (is_busy((Calls *)self))
        return NULL;
    PyObject *found = NULL;
    if (is_counted(words, 1, "data") && uint32_of(word(words, 0), &node)) {
        uint8_t status = hp_data(session_at(self), node);
        found = status ? refused(status, "data", self, words) : text_answer(session_at(self));
    }
    return found;
}

static PyObject *call_read_substring_data(PyObject *self, PyObject *words)
{
    uint32_t node = 0;
    uint32_t offset = 0;
    uint32_t count = 0;
    if (is_busy((Calls *)self))
        return NULL;
    PyObject *found = NULL;
    if (is_counted(words, 3, "substring_data") && uint32_of(word(words, 0), &node) && uint32_of(word(words, 1), &offset) && uint32_of(word(words, 2), &count)) {
        uint8_t status = hp_substring_data(session_at(self), node, offset, count);
        found = status ? refused(status, "substring_data", self, words) : text_answer(session_at(self));
    }
    return found;
}

static PyObject *call_read_range_text(PyObject *self, PyObject *words)
{
    uint32_t range = 0;
    if (is_busy((Calls *)self))
        return NULL;
    PyObject *found = NULL;
    if (is_counted(words, 1, "range_text") && uint32_of(word(words, 0), &range)) {
        uint8_t status = hp_range_text(session_at(self), range);
        found = status ? refused(status, "range_text", self, words) : text_answer(session_at(self));
    }
    return found;
}

static PyObject *call_read_text_content(PyObject *self, PyObject *words)
{
    uint32_t node = 0;
    if (is_busy((Calls *)self))
        return NULL;
    PyObject *found = NULL;
    if (is_counted(words, 1, "text_content") && uint32_of(word(words, 0), &node)) {
        uint8_t status = hp_text_content(session_at(self), node);
        found = status ? refused(status, "text_content", self, words) : text_answer(session_at(self));
    }
    return found;
}

static PyObject *call_read_get_attribute(PyObject *self, PyObject *words)
{
    uint32_t element = 0;
    Slice name;
    if (is_busy((Calls *)self))
        return NULL;
    PyObject *found = NULL;
    begin(&name);
    if (is_counted(words, 2, "get_attribute") && uint32_of(word(words, 0), &element) && name_of(word(words, 1), &name)) {
        uint8_t status = hp_get_attribute(session_at(self), element, name.at, name.length);
        found = status ? refused(status, "get_attribute", self, words) : text_answer(session_at(self));
    }
    drop(&name);
    return found;
}

#define CALLS_MADE \
    { "open", call_open, METH_VARARGS, NULL }, \
    { "close", call_close, METH_VARARGS, NULL }, \
    { "line", call_line, METH_VARARGS, NULL }, \
    { "print", call_print, METH_VARARGS, NULL }, \
    { "text", call_text, METH_VARARGS, NULL }, \
    { "name_at", call_name_at, METH_VARARGS, NULL }, \
    { "reply_line", call_reply_line, METH_VARARGS, NULL }, \
    { "count", call_count, METH_VARARGS, NULL }, \
    { "number_at", call_number_at, METH_VARARGS, NULL }, \
    { "node_name", call_node_name, METH_VARARGS, NULL }, \
    { "row_at", call_row_at, METH_VARARGS, NULL }, \
    { "row_name", call_row_name, METH_VARARGS, NULL }, \
    { "row_text", call_row_text, METH_VARARGS, NULL }, \
    { "row_attribute_name", call_row_attribute_name, METH_VARARGS, NULL }, \
    { "row_attribute_value", call_row_attribute_value, METH_VARARGS, NULL }, \
    { "notice_at", call_notice_at, METH_VARARGS, NULL }, \
    { "record_at", call_record_at, METH_VARARGS, NULL }, \
    { "record_added_at", call_record_added_at, METH_VARARGS, NULL }, \
    { "record_removed_at", call_record_removed_at, METH_VARARGS, NULL }, \
    { "record_name", call_record_name, METH_VARARGS, NULL }, \
    { "record_old_value", call_record_old_value, METH_VARARGS, NULL }, \
    { "new_document", call_new_document, METH_VARARGS, NULL }, \
    { "create_element", call_create_element, METH_VARARGS, NULL }, \
    { "create_text", call_create_text, METH_VARARGS, NULL }, \
    { "create_comment", call_create_comment, METH_VARARGS, NULL }, \
    { "create_pi", call_create_pi, METH_VARARGS, NULL }, \
    { "create_doctype", call_create_doctype, METH_VARARGS, NULL }, \
    { "create_fragment", call_create_fragment, METH_VARARGS, NULL }, \
    { "insert_before", call_insert_before, METH_VARARGS, NULL }, \
    { "append_child", call_append_child, METH_VARARGS, NULL }, \
    { "adopt_node", call_adopt_node, METH_VARARGS, NULL }, \
    { "replace_child", call_replace_child, METH_VARARGS, NULL }, \
    { "remove_child", call_remove_child, METH_VARARGS, NULL }, \
    { "remove", call_remove, METH_VARARGS, NULL }, \
    { "replace_children", call_replace_children, METH_VARARGS, NULL }, \
    { "normalize", call_normalize, METH_VARARGS, NULL }, \
    { "set_text_content", call_set_text_content, METH_VARARGS, NULL }, \
    { "discard", call_discard, METH_VARARGS, NULL }, \
    { "import_node", call_import_node, METH_VARARGS, NULL }, \
    { "clone_node", call_clone_node, METH_VARARGS, NULL }, \
    { "node", call_node, METH_VARARGS, NULL }, \
    { "children", call_children, METH_VARARGS, NULL }, \
    { "index", call_index, METH_VARARGS, NULL }, \
    { "length", call_length, METH_VARARGS, NULL }, \
    { "root", call_root, METH_VARARGS, NULL }, \
    { "contains", call_contains, METH_VARARGS, NULL }, \
    { "is_equal", call_is_equal, METH_VARARGS, NULL }, \
    { "compare_position", call_compare_position, METH_VARARGS, NULL }, \
    { "text_content", call_text_content, METH_VARARGS, NULL }, \
    { "tree", call_tree, METH_VARARGS, NULL }, \
    { "links", call_links, METH_VARARGS, NULL }, \
    { "first_child", call_first_child, METH_VARARGS, NULL }, \
    { "last_child", call_last_child, METH_VARARGS, NULL }, \
    { "child_at", call_child_at, METH_VARARGS, NULL }, \
    { "name_of", call_name_of, METH_VARARGS, NULL }, \
    { "data_of", call_data_of, METH_VARARGS, NULL }, \
    { "in_use", call_in_use, METH_VARARGS, NULL }, \
    { "nodes_made", call_nodes_made, METH_VARARGS, NULL }, \
    { "data", call_data, METH_VARARGS, NULL }, \
    { "set_data", call_set_data, METH_VARARGS, NULL }, \
    { "append_data", call_append_data, METH_VARARGS, NULL }, \
    { "insert_data", call_insert_data, METH_VARARGS, NULL }, \
    { "delete_data", call_delete_data, METH_VARARGS, NULL }, \
    { "replace_data", call_replace_data, METH_VARARGS, NULL }, \
    { "substring_data", call_substring_data, METH_VARARGS, NULL }, \
    { "split_text", call_split_text, METH_VARARGS, NULL }, \
    { "set_attribute", call_set_attribute, METH_VARARGS, NULL }, \
    { "get_attribute", call_get_attribute, METH_VARARGS, NULL }, \
    { "has_attribute", call_has_attribute, METH_VARARGS, NULL }, \
    { "remove_attribute", call_remove_attribute, METH_VARARGS, NULL }, \
    { "toggle_attribute", call_toggle_attribute, METH_VARARGS, NULL }, \
    { "attribute_names", call_attribute_names, METH_VARARGS, NULL }, \
    { "create_range", call_create_range, METH_VARARGS, NULL }, \
    { "clone_range", call_clone_range, METH_VARARGS, NULL }, \
    { "range", call_range, METH_VARARGS, NULL }, \
    { "set_start", call_set_start, METH_VARARGS, NULL }, \
    { "set_end", call_set_end, METH_VARARGS, NULL }, \
    { "set_start_before", call_set_start_before, METH_VARARGS, NULL }, \
    { "set_start_after", call_set_start_after, METH_VARARGS, NULL }, \
    { "set_end_before", call_set_end_before, METH_VARARGS, NULL }, \
    { "set_end_after", call_set_end_after, METH_VARARGS, NULL }, \
    { "collapse", call_collapse, METH_VARARGS, NULL }, \
    { "select_node", call_select_node, METH_VARARGS, NULL }, \
    { "select_node_contents", call_select_node_contents, METH_VARARGS, NULL }, \
    { "release_range", call_release_range, METH_VARARGS, NULL }, \
    { "compare_boundary_points", call_compare_boundary_points, METH_VARARGS, NULL }, \
    { "compare_point", call_compare_point, METH_VARARGS, NULL }, \
    { "is_point_in_range", call_is_point_in_range, METH_VARARGS, NULL }, \
    { "intersects_node", call_intersects_node, METH_VARARGS, NULL }, \
    { "common_ancestor", call_common_ancestor, METH_VARARGS, NULL }, \
    { "create_static_range", call_create_static_range, METH_VARARGS, NULL }, \
    { "static_range", call_static_range, METH_VARARGS, NULL }, \
    { "release_static_range", call_release_static_range, METH_VARARGS, NULL }, \
    { "range_text", call_range_text, METH_VARARGS, NULL }, \
    { "delete_contents", call_delete_contents, METH_VARARGS, NULL }, \
    { "extract_contents", call_extract_contents, METH_VARARGS, NULL }, \
    { "clone_contents", call_clone_contents, METH_VARARGS, NULL }, \
    { "insert_node", call_insert_node, METH_VARARGS, NULL }, \
    { "surround_contents", call_surround_contents, METH_VARARGS, NULL }, \
    { "create_iterator", call_create_iterator, METH_VARARGS, NULL }, \
    { "create_walker", call_create_walker, METH_VARARGS, NULL }, \
    { "iterator", call_iterator, METH_VARARGS, NULL }, \
    { "next_node", call_next_node, METH_VARARGS, NULL }, \
    { "previous_node", call_previous_node, METH_VARARGS, NULL }, \
    { "walker", call_walker, METH_VARARGS, NULL }, \
    { "set_current", call_set_current, METH_VARARGS, NULL }, \
    { "walk", call_walk, METH_VARARGS, NULL }, \
    { "release_iterator", call_release_iterator, METH_VARARGS, NULL }, \
    { "release_walker", call_release_walker, METH_VARARGS, NULL }, \
    { "create_observer", call_create_observer, METH_VARARGS, NULL }, \
    { "observe", call_observe, METH_VARARGS, NULL }, \
    { "disconnect", call_disconnect, METH_VARARGS, NULL }, \
    { "take_records", call_take_records, METH_VARARGS, NULL }, \
    { "notify", call_notify, METH_VARARGS, NULL }, \
    { "pending", call_pending, METH_VARARGS, NULL }, \
    { "take_pending", call_take_pending, METH_VARARGS, NULL }, \
    { "tell_observer", call_tell_observer, METH_VARARGS, NULL }, \
    { "release_observer", call_release_observer, METH_VARARGS, NULL }, \
    { "read_children", call_read_children, METH_VARARGS, NULL }, \
    { "read_pending", call_read_pending, METH_VARARGS, NULL }, \
    { "read_attribute_names", call_read_attribute_names, METH_VARARGS, NULL }, \
    { "read_data", call_read_data, METH_VARARGS, NULL }, \
    { "read_substring_data", call_read_substring_data, METH_VARARGS, NULL }, \
    { "read_range_text", call_read_range_text, METH_VARARGS, NULL }, \
    { "read_text_content", call_read_text_content, METH_VARARGS, NULL }, \
    { "read_get_attribute", call_read_get_attribute, METH_VARARGS, NULL },

static PyObject *member_Node_node_type(PyObject *self, PyObject *nothing)
{
    (void)nothing;
    hp_node_links links;
    if (is_busy(((Thing *)self)->calls))
        return NULL;
    uint8_t status = hp_links(session_of(self), number_of(self), &links);
    return status ? refused_of(status, "links", self, NULL, 0) : PyLong_FromSize_t(links.kind);
}

static PyObject *member_Node_node_document(PyObject *self, PyObject *nothing)
{
    (void)nothing;
    hp_node_links links;
    if (is_busy(((Thing *)self)->calls))
        return NULL;
    uint8_t status = hp_links(session_of(self), number_of(self), &links);
    return status ? refused_of(status, "links", self, NULL, 0) : made_at(self, KIND_DOCUMENT, FAMILY_NODE, links.document);
}

static PyObject *member_Node_parent_node(PyObject *self, PyObject *nothing)
{
    (void)nothing;
    hp_node_links links;
    if (is_busy(((Thing *)self)->calls))
        return NULL;
    uint8_t status = hp_links(session_of(self), number_of(self), &links);
    return status ? refused_of(status, "links", self, NULL, 0) : node_or_none_at(self, links.parent);
}

static PyObject *member_Node_previous_sibling(PyObject *self, PyObject *nothing)
{
    (void)nothing;
    hp_node_links links;
    if (is_busy(((Thing *)self)->calls))
        return NULL;
    uint8_t status = hp_links(session_of(self), number_of(self), &links);
    return status ? refused_of(status, "links", self, NULL, 0) : node_or_none_at(self, links.previous);
}

static PyObject *member_Node_next_sibling(PyObject *self, PyObject *nothing)
{
    (void)nothing;
    hp_node_links links;
    if (is_busy(((Thing *)self)->calls))
        return NULL;
    uint8_t status = hp_links(session_of(self), number_of(self), &links);
    return status ? refused_of(status, "links", self, NULL, 0) : node_or_none_at(self, links.next);
}

static PyObject *member_Node_first_child(PyObject *self, PyObject *nothing)
{
    (void)nothing;
    uint32_t child = 0;
    if (is_busy(((Thing *)self)->calls))
        return NULL;
    uint8_t status = hp_first_child(session_of(self), number_of(self), &child);
    return status ? refused_of(status, "first_child", self, NULL, 0) : node_or_none_at(self, child);
}

static PyObject *member_Node_last_child(PyObject *self, PyObject *nothing)
{
    (void)nothing;
    uint32_t child = 0;
    if (is_busy(((Thing *)self)->calls))
        return NULL;
    uint8_t status = hp_last_child(session_of(self), number_of(self), &child);
    return status ? refused_of(status, "last_child", self, NULL, 0) : node_or_none_at(self, child);
}

static PyObject *member_Node_index(PyObject *self, PyObject *nothing)
{
    (void)nothing;
    size_t index = 0;
    if (is_busy(((Thing *)self)->calls))
        return NULL;
    uint8_t status = hp_index(session_of(self), number_of(self), &index);
    return status ? refused_of(status, "index", self, NULL, 0) : PyLong_FromSize_t(index);
}

static PyObject *member_Node_length(PyObject *self, PyObject *nothing)
{
    (void)nothing;
    hp_node_links links;
    if (is_busy(((Thing *)self)->calls))
        return NULL;
    uint8_t status = hp_links(session_of(self), number_of(self), &links);
    return status ? refused_of(status, "links", self, NULL, 0) : PyLong_FromSize_t(links.length);
}

static PyObject *member_Node_get_root_node(PyObject *self, PyObject *nothing)
{
    (void)nothing;
    uint32_t root = 0;
    if (is_busy(((Thing *)self)->calls))
        return NULL;
    uint8_t status = hp_root(session_of(self), number_of(self), &root);
    return status ? refused_of(status, "root", self, NULL, 0) : node_at(self, root);
}

static PyObject *member_Node_contains(PyObject *self, PyObject *words, PyObject *named)
{
    static const char *const names[] = { "other", NULL };
    PyObject *given[1];
    uint32_t other = HP_NONE;
    uint8_t contains = 0;
    if (is_busy(((Thing *)self)->calls))
        return NULL;
    PyObject *found = NULL;
    if (sort(words, named, names, 0, given, "contains") && node_or_none_of(self, given[0], &other)) {
        uint8_t status = hp_contains(session_of(self), number_of(self), other, &contains);
        found = status ? refused_of(status, "contains", self, given, 1) : PyBool_FromLong(contains);
    }
    return found;
}

static PyObject *member_Node_is_equal_node(PyObject *self, PyObject *words, PyObject *named)
{
    static const char *const names[] = { "other", NULL };
    PyObject *given[1];
    uint32_t other = HP_NONE;
    uint8_t is_equal = 0;
    if (is_busy(((Thing *)self)->calls))
        return NULL;
    PyObject *found = NULL;
    if (sort(words, named, names, 0, given, "is_equal_node") && node_or_none_of(self, given[0], &other)) {
        uint8_t status = hp_is_equal(session_of(self), number_of(self), other, &is_equal);
        found = status ? refused_of(status, "is_equal", self, given, 1) : PyBool_FromLong(is_equal);
    }
    return found;
}

static PyObject *member_Node_compare_document_position(PyObject *self, PyObject *words, PyObject *named)
{
    static const char *const names[] = { "other", NULL };
    PyObject *given[1];
    uint32_t other = 0;
    uint32_t position = 0;
    if (is_busy(((Thing *)self)->calls))
        return NULL;
    PyObject *found = NULL;
    if (sort(words, named, names, 1, given, "compare_document_position") && node_of(self, given[0], &other)) {
        uint8_t status = hp_compare_position(session_of(self), number_of(self), other, &position);
        found = status ? refused_of(status, "compare_position", self, given, 1) : PyLong_FromSize_t(position);
    }
    return found;
}

static PyObject *member_Node_append_child(PyObject *self, PyObject *words, PyObject *named)
{
    static const char *const names[] = { "node", NULL };
    PyObject *given[1];
    uint32_t node = 0;
    if (is_busy(((Thing *)self)->calls))
        return NULL;
    PyObject *found = NULL;
    if (sort(words, named, names, 1, given, "append_child") && node_of(self, given[0], &node)) {
        moved(((Thing *)self)->calls);
        uint8_t status = hp_append_child(session_of(self), number_of(self), node);
        found = status ? refused_of(status, "append_child", self, given, 1) : placed(given[0], same(given[0]));
    }
    return found;
}

static PyObject *member_Node_insert_before(PyObject *self, PyObject *words, PyObject *named)
{
    static const char *const names[] = { "node", "child", NULL };
    PyObject *given[2];
    uint32_t node = 0;
    uint32_t child = HP_NONE;
    if (is_busy(((Thing *)self)->calls))
        return NULL;
    PyObject *found = NULL;
    if (sort(words, named, names, 1, given, "insert_before") && node_of(self, given[0], &node) && node_or_none_of(self, given[1], &child)) {
        moved(((Thing *)self)->calls);
        uint8_t status = hp_insert_before(session_of(self), number_of(self), node, child);
        found = status ? refused_of(status, "insert_before", self, given, 2) : placed(given[0], same(given[0]));
    }
    return found;
}

static PyObject *member_Node_replace_child(PyObject *self, PyObject *words, PyObject *named)
{
    static const char *const names[] = { "node", "child", NULL };
    PyObject *given[2];
    uint32_t node = 0;
    uint32_t child = 0;
    if (is_busy(((Thing *)self)->calls))
        return NULL;
    PyObject *found = NULL;
    if (sort(words, named, names, 2, given, "replace_child") && node_of(self, given[0], &node) && node_of(self, given[1], &child)) {
        let_go_noted(((Thing *)self)->calls);
        moved(((Thing *)self)->calls);
        uint8_t status = hp_replace_child(session_of(self), number_of(self), node, child);
        found = status ? refused_of(status, "replace_child", self, given, 2) : taken_out(given[1], same(given[1]));
    }
    return found;
}

static PyObject *member_Node_remove_child(PyObject *self, PyObject *words, PyObject *named)
{
    static const char *const names[] = { "child", NULL };
    PyObject *given[1];
    uint32_t child = 0;
    if (is_busy(((Thing *)self)->calls))
        return NULL;
    PyObject *found = NULL;
    if (sort(words, named, names, 1, given, "remove_child") && node_of(self, given[0], &child)) {
        let_go_noted(((Thing *)self)->calls);
        moved(((Thing *)self)->calls);
        uint8_t status = hp_remove_child(session_of(self), number_of(self), child);
        found = status ? refused_of(status, "remove_child", self, given, 1) : taken_out(given[0], same(given[0]));
    }
    return found;
}

static PyObject *member_Node_normalize(PyObject *self, PyObject *nothing)
{
    (void)nothing;
    if (is_busy(((Thing *)self)->calls))
        return NULL;
    let_go_noted(((Thing *)self)->calls);
    moved(((Thing *)self)->calls);
    note_texts(((Thing *)self)->calls, number_of(self));
    uint8_t status = hp_normalize(session_of(self), number_of(self));
    return status ? refused_of(status, "normalize", self, NULL, 0) : none();
}

static PyObject *member_Node_discard(PyObject *self, PyObject *nothing)
{
    (void)nothing;
    if (is_busy(((Thing *)self)->calls))
        return NULL;
    let_go_noted(((Thing *)self)->calls);
    moved(((Thing *)self)->calls);
    uint8_t status = hp_discard(session_of(self), number_of(self));
    return status ? refused_of(status, "discard", self, NULL, 0) : let_go(((Thing *)self)->calls, none());
}

static PyObject *member_Node_text_content_set(PyObject *self, PyObject *words, PyObject *named)
{
    static const char *const names[] = { "text", NULL };
    PyObject *given[1];
    Slice text;
    if (is_busy(((Thing *)self)->calls))
        return NULL;
    PyObject *found = NULL;
    begin(&text);
    if (sort(words, named, names, 0, given, "text_content") && text_or_none_of(given[0], &text)) {
        let_go_noted(((Thing *)self)->calls);
        moved(((Thing *)self)->calls);
        note_children(((Thing *)self)->calls, number_of(self));
        uint8_t status = hp_set_text_content(session_of(self), number_of(self), text.at, text.length);
        found = status ? refused_of(status, "set_text_content", self, given, 1) : none();
    }
    drop(&text);
    return found;
}

static PyObject *member_ChildNode_remove(PyObject *self, PyObject *nothing)
{
    (void)nothing;
    if (is_busy(((Thing *)self)->calls))
        return NULL;
    let_go_noted(((Thing *)self)->calls);
    moved(((Thing *)self)->calls);
    uint8_t status = hp_remove(session_of(self), number_of(self));
    return status ? refused_of(status, "remove", self, NULL, 0) : taken_out(self, none());
}

static PyObject *member_Element_get_attribute(PyObject *self, PyObject *words, PyObject *named)
{
    static const char *const names[] = { "name", NULL };
    PyObject *given[1];
    Slice name;
    if (is_busy(((Thing *)self)->calls))
        return NULL;
    PyObject *found = NULL;
    begin(&name);
    if (sort(words, named, names, 1, given, "get_attribute") && name_of(given[0], &name)) {
        uint8_t status = hp_get_attribute(session_of(self), number_of(self), name.at, name.length);
        found = status ? refused_of(status, "get_attribute", self, given, 1) : text_answer(session_of(self));
    }
    drop(&name);
    return found;
}

static PyObject *member_Element_set_attribute(PyObject *self, PyObject *words, PyObject *named)
{
    static const char *const names[] = { "name", "value", NULL };
    PyObject *given[2];
    Slice name;
    Slice value;
    if (is_busy(((Thing *)self)->calls))
        return NULL;
    PyObject *found = NULL;
    begin(&name);
    begin(&value);
    if (sort(words, named, names, 2, given, "set_attribute") && name_of(given[0], &name) && text_of(given[1], &value)) {
        reshaped(((Thing *)self)->calls, number_of(self));
        uint8_t status = hp_set_attribute(session_of(self), number_of(self), name.at, name.length, value.at, value.length);
        found = status ? refused_of(status, "set_attribute", self, given, 2) : none();
    }
    drop(&name);
    drop(&value);
    return found;
}

static PyObject *member_Element_has_attribute(PyObject *self, PyObject *words, PyObject *named)
{
    static const char *const names[] = { "name", NULL };
    PyObject *given[1];
    Slice name;
    uint8_t is_there = 0;
    if (is_busy(((Thing *)self)->calls))
        return NULL;
    PyObject *found = NULL;
    begin(&name);
    if (sort(words, named, names, 1, given, "has_attribute") && name_of(given[0], &name)) {
        uint8_t status = hp_has_attribute(session_of(self), number_of(self), name.at, name.length, &is_there);
        found = status ? refused_of(status, "has_attribute", self, given, 1) : PyBool_FromLong(is_there);
    }
    drop(&name);
    return found;
}

static PyObject *member_Element_remove_attribute(PyObject *self, PyObject *words, PyObject *named)
{
    static const char *const names[] = { "name", NULL };
    PyObject *given[1];
    Slice name;
    if (is_busy(((Thing *)self)->calls))
        return NULL;
    PyObject *found = NULL;
    begin(&name);
    if (sort(words, named, names, 1, given, "remove_attribute") && name_of(given[0], &name)) {
        reshaped(((Thing *)self)->calls, number_of(self));
        uint8_t status = hp_remove_attribute(session_of(self), number_of(self), name.at, name.length);
        found = status ? refused_of(status, "remove_attribute", self, given, 1) : none();
    }
    drop(&name);
    return found;
}

static PyObject *member_Element_get_attribute_names(PyObject *self, PyObject *nothing)
{
    (void)nothing;
    if (is_busy(((Thing *)self)->calls))
        return NULL;
    uint8_t status = hp_attribute_names(session_of(self), number_of(self));
    return status ? refused_of(status, "attribute_names", self, NULL, 0) : names_answer(session_of(self));
}

static PyObject *member_CharacterData_data(PyObject *self, PyObject *nothing)
{
    (void)nothing;
    hp_text_view out;
    if (is_busy(((Thing *)self)->calls))
        return NULL;
    uint8_t status = hp_data_of(session_of(self), number_of(self), &out);
    return status ? refused_of(status == HP_NOT_THERE ? HP_TYPE_ERROR : status, "data_of", self, NULL, 0) : text_from(out.units, out.length);
}

static PyObject *member_CharacterData_data_set(PyObject *self, PyObject *words, PyObject *named)
{
    static const char *const names[] = { "data", NULL };
    PyObject *given[1];
    Slice data;
    if (is_busy(((Thing *)self)->calls))
        return NULL;
    PyObject *found = NULL;
    begin(&data);
    if (sort(words, named, names, 1, given, "data") && text_of(given[0], &data)) {
        uint8_t status = hp_set_data(session_of(self), number_of(self), data.at, data.length);
        found = status ? refused_of(status, "set_data", self, given, 1) : none();
    }
    drop(&data);
    return found;
}

static PyObject *member_CharacterData_substring_data(PyObject *self, PyObject *words, PyObject *named)
{
    static const char *const names[] = { "offset", "count", NULL };
    PyObject *given[2];
    uint32_t offset = 0;
    uint32_t count = 0;
    if (is_busy(((Thing *)self)->calls))
        return NULL;
    PyObject *found = NULL;
    if (sort(words, named, names, 2, given, "substring_data") && uint32_of(given[0], &offset) && uint32_of(given[1], &count)) {
        uint8_t status = hp_substring_data(session_of(self), number_of(self), offset, count);
        found = status ? refused_of(status, "substring_data", self, given, 2) : text_answer(session_of(self));
    }
    return found;
}

static PyObject *member_CharacterData_append_data(PyObject *self, PyObject *words, PyObject *named)
{
    static const char *const names[] = { "data", NULL };
    PyObject *given[1];
    Slice data;
    if (is_busy(((Thing *)self)->calls))
        return NULL;
    PyObject *found = NULL;
    begin(&data);
    if (sort(words, named, names, 1, given, "append_data") && text_of(given[0], &data)) {
        uint8_t status = hp_append_data(session_of(self), number_of(self), data.at, data.length);
        found = status ? refused_of(status, "append_data", self, given, 1) : none();
    }
    drop(&data);
    return found;
}

static PyObject *member_CharacterData_insert_data(PyObject *self, PyObject *words, PyObject *named)
{
    static const char *const names[] = { "offset", "data", NULL };
    PyObject *given[2];
    uint32_t offset = 0;
    Slice data;
    if (is_busy(((Thing *)self)->calls))
        return NULL;
    PyObject *found = NULL;
    begin(&data);
    if (sort(words, named, names, 2, given, "insert_data") && uint32_of(given[0], &offset) && text_of(given[1], &data)) {
        uint8_t status = hp_insert_data(session_of(self), number_of(self), offset, data.at, data.length);
        found = status ? refused_of(status, "insert_data", self, given, 2) : none();
    }
    drop(&data);
    return found;
}

static PyObject *member_CharacterData_delete_data(PyObject *self, PyObject *words, PyObject *named)
{
    static const char *const names[] = { "offset", "count", NULL };
    PyObject *given[2];
    uint32_t offset = 0;
    uint32_t count = 0;
    if (is_busy(((Thing *)self)->calls))
        return NULL;
    PyObject *found = NULL;
    if (sort(words, named, names, 2, given, "delete_data") && uint32_of(given[0], &offset) && uint32_of(given[1], &count)) {
        uint8_t status = hp_delete_data(session_of(self), number_of(self), offset, count);
        found = status ? refused_of(status, "delete_data", self, given, 2) : none();
    }
    return found;
}

static PyObject *member_CharacterData_replace_data(PyObject *self, PyObject *words, PyObject *named)
{
    static const char *const names[] = { "offset", "count", "data", NULL };
    PyObject *given[3];
    uint32_t offset = 0;
    uint32_t count = 0;
    Slice data;
    if (is_busy(((Thing *)self)->calls))
        return NULL;
    PyObject *found = NULL;
    begin(&data);
    if (sort(words, named, names, 3, given, "replace_data") && uint32_of(given[0], &offset) && uint32_of(given[1], &count) && text_of(given[2], &data)) {
        uint8_t status = hp_replace_data(session_of(self), number_of(self), offset, count, data.at, data.length);
        found = status ? refused_of(status, "replace_data", self, given, 3) : none();
    }
    drop(&data);
    return found;
}

static PyObject *member_Text_split_text(PyObject *self, PyObject *words, PyObject *named)
{
    static const char *const names[] = { "offset", NULL };
    PyObject *given[1];
    uint32_t offset = 0;
    uint32_t rest = 0;
    if (is_busy(((Thing *)self)->calls))
        return NULL;
    PyObject *found = NULL;
    if (sort(words, named, names, 1, given, "split_text") && uint32_of(given[0], &offset)) {
        let_go_noted(((Thing *)self)->calls);
        moved(((Thing *)self)->calls);
        uint8_t status = hp_split_text(session_of(self), number_of(self), offset, &rest);
        found = status ? refused_of(status, "split_text", self, given, 1) : own(made_at(self, KIND_TEXT, FAMILY_NODE, rest));
    }
    return found;
}

static PyObject *member_Document_create_element(PyObject *self, PyObject *words, PyObject *named)
{
    static const char *const names[] = { "name", NULL };
    PyObject *given[1];
    Slice name;
    uint32_t element = 0;
    if (is_busy(((Thing *)self)->calls))
        return NULL;
    PyObject *found = NULL;
    begin(&name);
    if (sort(words, named, names, 1, given, "create_element") && name_of(given[0], &name)) {
        let_go_noted(((Thing *)self)->calls);
        uint8_t status = hp_create_element(session_of(self), number_of(self), name.at, name.length, &element);
        found = status ? refused_of(status, "create_element", self, given, 1) : own(made_at(self, KIND_ELEMENT, FAMILY_NODE, element));
    }
    drop(&name);
    return found;
}

static PyObject *member_Document_create_text_node(PyObject *self, PyObject *words, PyObject *named)
{
    static const char *const names[] = { "data", NULL };
    PyObject *given[1];
    Slice data;
    uint32_t text = 0;
    if (is_busy(((Thing *)self)->calls))
        return NULL;
    PyObject *found = NULL;
    begin(&data);
    if (sort(words, named, names, 1, given, "create_text_node") && text_of(given[0], &data)) {
        let_go_noted(((Thing *)self)->calls);
        uint8_t status = hp_create_text(session_of(self), number_of(self), data.at, data.length, &text);
        found = status ? refused_of(status, "create_text", self, given, 1) : own(made_at(self, KIND_TEXT, FAMILY_NODE, text));
    }
    drop(&data);
    return found;
}

static PyObject *member_Document_create_comment(PyObject *self, PyObject *words, PyObject *named)
{
    static const char *const names[] = { "data", NULL };
    PyObject *given[1];
    Slice data;
    uint32_t comment = 0;
    if (is_busy(((Thing *)self)->calls))
        return NULL;
    PyObject *found = NULL;
    begin(&data);
    if (sort(words, named, names, 1, given, "create_comment") && text_of(given[0], &data)) {
        let_go_noted(((Thing *)self)->calls);
        uint8_t status = hp_create_comment(session_of(self), number_of(self), data.at, data.length, &comment);
        found = status ? refused_of(status, "create_comment", self, given, 1) : own(made_at(self, KIND_COMMENT, FAMILY_NODE, comment));
    }
    drop(&data);
    return found;
}

static PyObject *member_Document_create_processing_instruction(PyObject *self, PyObject *words, PyObject *named)
{
    static const char *const names[] = { "target", "data", NULL };
    PyObject *given[2];
    Slice target;
    Slice data;
    uint32_t instruction = 0;
    if (is_busy(((Thing *)self)->calls))
        return NULL;
    PyObject *found = NULL;
    begin(&target);
    begin(&data);
    if (sort(words, named, names, 2, given, "create_processing_instruction") && name_of(given[0], &target) && text_of(given[1], &data)) {
        let_go_noted(((Thing *)self)->calls);
        uint8_t status = hp_create_pi(session_of(self), number_of(self), target.at, target.length, data.at, data.length, &instruction);
        found = status ? refused_of(status, "create_pi", self, given, 2) : own(made_at(self, KIND_PROCESSING_INSTRUCTION, FAMILY_NODE, instruction));
    }
    drop(&target);
    drop(&data);
    return found;
}

static PyObject *member_Document_create_document_fragment(PyObject *self, PyObject *nothing)
{
    (void)nothing;
    uint32_t fragment = 0;
    if (is_busy(((Thing *)self)->calls))
        return NULL;
    let_go_noted(((Thing *)self)->calls);
    uint8_t status = hp_create_fragment(session_of(self), number_of(self), &fragment);
    return status ? refused_of(status, "create_fragment", self, NULL, 0) : own(made_at(self, KIND_DOCUMENT_FRAGMENT, FAMILY_NODE, fragment));
}

static PyObject *member_Document_adopt_node(PyObject *self, PyObject *words, PyObject *named)
{
    static const char *const names[] = { "node", NULL };
    PyObject *given[1];
    uint32_t node = 0;
    if (is_busy(((Thing *)self)->calls))
        return NULL;
    PyObject *found = NULL;
    if (sort(words, named, names, 1, given, "adopt_node") && node_of(self, given[0], &node)) {
        moved(((Thing *)self)->calls);
        uint8_t status = hp_adopt_node(session_of(self), number_of(self), node);
        found = status ? refused_of(status, "adopt_node", self, given, 1) : taken_out(given[0], same(given[0]));
    }
    return found;
}

static PyObject *member_Document_create_range(PyObject *self, PyObject *nothing)
{
    (void)nothing;
    uint32_t range = 0;
    if (is_busy(((Thing *)self)->calls))
        return NULL;
    let_go_noted(((Thing *)self)->calls);
    uint8_t status = hp_create_range(session_of(self), number_of(self), &range);
    return status ? refused_of(status, "create_range", self, NULL, 0) : own(made_at(self, KIND_RANGE, FAMILY_RANGE, range));
}

static PyObject *member_Range_start_container(PyObject *self, PyObject *nothing)
{
    (void)nothing;
    hp_ends ends;
    if (is_busy(((Thing *)self)->calls))
        return NULL;
    uint8_t status = hp_range(session_of(self), number_of(self), &ends);
    return status ? refused_of(status, "range", self, NULL, 0) : node_at(self, ends.start);
}

static PyObject *member_Range_start_offset(PyObject *self, PyObject *nothing)
{
    (void)nothing;
    hp_ends ends;
    if (is_busy(((Thing *)self)->calls))
        return NULL;
    uint8_t status = hp_range(session_of(self), number_of(self), &ends);
    return status ? refused_of(status, "range", self, NULL, 0) : PyLong_FromSize_t(ends.start_offset);
}

static PyObject *member_Range_end_container(PyObject *self, PyObject *nothing)
{
    (void)nothing;
    hp_ends ends;
    if (is_busy(((Thing *)self)->calls))
        return NULL;
    uint8_t status = hp_range(session_of(self), number_of(self), &ends);
    return status ? refused_of(status, "range", self, NULL, 0) : node_at(self, ends.end);
}

static PyObject *member_Range_end_offset(PyObject *self, PyObject *nothing)
{
    (void)nothing;
    hp_ends ends;
    if (is_busy(((Thing *)self)->calls))
        return NULL;
    uint8_t status = hp_range(session_of(self), number_of(self), &ends);
    return status ? refused_of(status, "range", self, NULL, 0) : PyLong_FromSize_t(ends.end_offset);
}

static PyObject *member_Range_set_start(PyObject *self, PyObject *words, PyObject *named)
{
    static const char *const names[] = { "node", "offset", NULL };
    PyObject *given[2];
    uint32_t node = 0;
    uint32_t offset = 0;
    if (is_busy(((Thing *)self)->calls))
        return NULL;
    PyObject *found = NULL;
    if (sort(words, named, names, 2, given, "set_start") && node_of(self, given[0], &node) && uint32_of(given[1], &offset)) {
        uint8_t status = hp_set_start(session_of(self), number_of(self), node, offset);
        found = status ? refused_of(status, "set_start", self, given, 2) : none();
    }
    return found;
}

static PyObject *member_Range_set_end(PyObject *self, PyObject *words, PyObject *named)
{
    static const char *const names[] = { "node", "offset", NULL };
    PyObject *given[2];
    uint32_t node = 0;
    uint32_t offset = 0;
    if (is_busy(((Thing *)self)->calls))
        return NULL;
    PyObject *found = NULL;
    if (sort(words, named, names, 2, given, "set_end") && node_of(self, given[0], &node) && uint32_of(given[1], &offset)) {
        uint8_t status = hp_set_end(session_of(self), number_of(self), node, offset);
        found = status ? refused_of(status, "set_end", self, given, 2) : none();
    }
    return found;
}

static PyObject *member_Range_select_node(PyObject *self, PyObject *words, PyObject *named)
{
    static const char *const names[] = { "node", NULL };
    PyObject *given[1];
    uint32_t node = 0;
    if (is_busy(((Thing *)self)->calls))
        return NULL;
    PyObject *found = NULL;
    if (sort(words, named, names, 1, given, "select_node") && node_of(self, given[0], &node)) {
        uint8_t status = hp_select_node(session_of(self), number_of(self), node);
        found = status ? refused_of(status, "select_node", self, given, 1) : none();
    }
    return found;
}

static PyObject *member_Range_select_node_contents(PyObject *self, PyObject *words, PyObject *named)
{
    static const char *const names[] = { "node", NULL };
    PyObject *given[1];
    uint32_t node = 0;
    if (is_busy(((Thing *)self)->calls))
        return NULL;
    PyObject *found = NULL;
    if (sort(words, named, names, 1, given, "select_node_contents") && node_of(self, given[0], &node)) {
        uint8_t status = hp_select_node_contents(session_of(self), number_of(self), node);
        found = status ? refused_of(status, "select_node_contents", self, given, 1) : none();
    }
    return found;
}

static PyObject *member_Range_is_point_in_range(PyObject *self, PyObject *words, PyObject *named)
{
    static const char *const names[] = { "node", "offset", NULL };
    PyObject *given[2];
    uint32_t node = 0;
    uint32_t offset = 0;
    uint8_t is_in = 0;
    if (is_busy(((Thing *)self)->calls))
        return NULL;
    PyObject *found = NULL;
    if (sort(words, named, names, 2, given, "is_point_in_range") && node_of(self, given[0], &node) && uint32_of(given[1], &offset)) {
        uint8_t status = hp_is_point_in_range(session_of(self), number_of(self), node, offset, &is_in);
        found = status ? refused_of(status, "is_point_in_range", self, given, 2) : PyBool_FromLong(is_in);
    }
    return found;
}

static PyObject *member_Range_intersects_node(PyObject *self, PyObject *words, PyObject *named)
{
    static const char *const names[] = { "node", NULL };
    PyObject *given[1];
    uint32_t node = 0;
    uint8_t intersects = 0;
    if (is_busy(((Thing *)self)->calls))
        return NULL;
    PyObject *found = NULL;
    if (sort(words, named, names, 1, given, "intersects_node") && node_of(self, given[0], &node)) {
        uint8_t status = hp_intersects_node(session_of(self), number_of(self), node, &intersects);
        found = status ? refused_of(status, "intersects_node", self, given, 1) : PyBool_FromLong(intersects);
    }
    return found;
}

static PyObject *member_Range_release(PyObject *self, PyObject *nothing)
{
    (void)nothing;
    if (is_busy(((Thing *)self)->calls))
        return NULL;
    uint8_t status = hp_release_range(session_of(self), number_of(self));
    return status ? refused_of(status, "release_range", self, NULL, 0) : none();
}

static PyObject *member_NodeIterator_next_node(PyObject *self, PyObject *nothing)
{
    (void)nothing;
    uint32_t node = 0;
    if (is_busy(((Thing *)self)->calls))
        return NULL;
    uint8_t status = hp_next_node(session_of(self), number_of(self), &node);
    return status ? refused_of(status, "next_node", self, NULL, 0) : node_or_none_at(self, node);
}

static PyObject *member_NodeIterator_previous_node(PyObject *self, PyObject *nothing)
{
    (void)nothing;
    uint32_t node = 0;
    if (is_busy(((Thing *)self)->calls))
        return NULL;
    uint8_t status = hp_previous_node(session_of(self), number_of(self), &node);
    return status ? refused_of(status, "previous_node", self, NULL, 0) : node_or_none_at(self, node);
}

static PyObject *member_NodeIterator_release(PyObject *self, PyObject *nothing)
{
    (void)nothing;
    if (is_busy(((Thing *)self)->calls))
        return NULL;
    uint8_t status = hp_release_iterator(session_of(self), number_of(self));
    return status ? refused_of(status, "release_iterator", self, NULL, 0) : none();
}

static PyMethodDef members_made[] = {
    { "Node.node_type", member_Node_node_type, METH_NOARGS, NULL },
    { "Node.node_document", member_Node_node_document, METH_NOARGS, NULL },
    { "Node.parent_node", member_Node_parent_node, METH_NOARGS, NULL },
    { "Node.previous_sibling", member_Node_previous_sibling, METH_NOARGS, NULL },
    { "Node.next_sibling", member_Node_next_sibling, METH_NOARGS, NULL },
    { "Node.first_child", member_Node_first_child, METH_NOARGS, NULL },
    { "Node.last_child", member_Node_last_child, METH_NOARGS, NULL },
    { "Node.index", member_Node_index, METH_NOARGS, NULL },
    { "Node.length", member_Node_length, METH_NOARGS, NULL },
    { "Node.get_root_node", member_Node_get_root_node, METH_NOARGS, NULL },
    { "Node.contains", (PyCFunction)(void (*)(void))member_Node_contains, METH_VARARGS | METH_KEYWORDS, NULL },
    { "Node.is_equal_node", (PyCFunction)(void (*)(void))member_Node_is_equal_node, METH_VARARGS | METH_KEYWORDS, NULL },
    { "Node.compare_document_position", (PyCFunction)(void (*)(void))member_Node_compare_document_position, METH_VARARGS | METH_KEYWORDS, NULL },
    { "Node.append_child", (PyCFunction)(void (*)(void))member_Node_append_child, METH_VARARGS | METH_KEYWORDS, NULL },
    { "Node.insert_before", (PyCFunction)(void (*)(void))member_Node_insert_before, METH_VARARGS | METH_KEYWORDS, NULL },
    { "Node.replace_child", (PyCFunction)(void (*)(void))member_Node_replace_child, METH_VARARGS | METH_KEYWORDS, NULL },
    { "Node.remove_child", (PyCFunction)(void (*)(void))member_Node_remove_child, METH_VARARGS | METH_KEYWORDS, NULL },
    { "Node.normalize", member_Node_normalize, METH_NOARGS, NULL },
    { "Node.discard", member_Node_discard, METH_NOARGS, NULL },
    { "Node.text_content=", (PyCFunction)(void (*)(void))member_Node_text_content_set, METH_VARARGS | METH_KEYWORDS, NULL },
    { "ChildNode.remove", member_ChildNode_remove, METH_NOARGS, NULL },
    { "Element.get_attribute", (PyCFunction)(void (*)(void))member_Element_get_attribute, METH_VARARGS | METH_KEYWORDS, NULL },
    { "Element.set_attribute", (PyCFunction)(void (*)(void))member_Element_set_attribute, METH_VARARGS | METH_KEYWORDS, NULL },
    { "Element.has_attribute", (PyCFunction)(void (*)(void))member_Element_has_attribute, METH_VARARGS | METH_KEYWORDS, NULL },
    { "Element.remove_attribute", (PyCFunction)(void (*)(void))member_Element_remove_attribute, METH_VARARGS | METH_KEYWORDS, NULL },
    { "Element.get_attribute_names", member_Element_get_attribute_names, METH_NOARGS, NULL },
    { "CharacterData.data", member_CharacterData_data, METH_NOARGS, NULL },
    { "CharacterData.data=", (PyCFunction)(void (*)(void))member_CharacterData_data_set, METH_VARARGS | METH_KEYWORDS, NULL },
    { "CharacterData.substring_data", (PyCFunction)(void (*)(void))member_CharacterData_substring_data, METH_VARARGS | METH_KEYWORDS, NULL },
    { "CharacterData.append_data", (PyCFunction)(void (*)(void))member_CharacterData_append_data, METH_VARARGS | METH_KEYWORDS, NULL },
    { "CharacterData.insert_data", (PyCFunction)(void (*)(void))member_CharacterData_insert_data, METH_VARARGS | METH_KEYWORDS, NULL },
    { "CharacterData.delete_data", (PyCFunction)(void (*)(void))member_CharacterData_delete_data, METH_VARARGS | METH_KEYWORDS, NULL },
    { "CharacterData.replace_data", (PyCFunction)(void (*)(void))member_CharacterData_replace_data, METH_VARARGS | METH_KEYWORDS, NULL },
    { "Text.split_text", (PyCFunction)(void (*)(void))member_Text_split_text, METH_VARARGS | METH_KEYWORDS, NULL },
    { "Document.create_element", (PyCFunction)(void (*)(void))member_Document_create_element, METH_VARARGS | METH_KEYWORDS, NULL },
    { "Document.create_text_node", (PyCFunction)(void (*)(void))member_Document_create_text_node, METH_VARARGS | METH_KEYWORDS, NULL },
    { "Document.create_comment", (PyCFunction)(void (*)(void))member_Document_create_comment, METH_VARARGS | METH_KEYWORDS, NULL },
    { "Document.create_processing_instruction", (PyCFunction)(void (*)(void))member_Document_create_processing_instruction, METH_VARARGS | METH_KEYWORDS, NULL },
    { "Document.create_document_fragment", member_Document_create_document_fragment, METH_NOARGS, NULL },
    { "Document.adopt_node", (PyCFunction)(void (*)(void))member_Document_adopt_node, METH_VARARGS | METH_KEYWORDS, NULL },
    { "Document.create_range", member_Document_create_range, METH_NOARGS, NULL },
    { "Range.start_container", member_Range_start_container, METH_NOARGS, NULL },
    { "Range.start_offset", member_Range_start_offset, METH_NOARGS, NULL },
    { "Range.end_container", member_Range_end_container, METH_NOARGS, NULL },
    { "Range.end_offset", member_Range_end_offset, METH_NOARGS, NULL },
    { "Range.set_start", (PyCFunction)(void (*)(void))member_Range_set_start, METH_VARARGS | METH_KEYWORDS, NULL },
    { "Range.set_end", (PyCFunction)(void (*)(void))member_Range_set_end, METH_VARARGS | METH_KEYWORDS, NULL },
    { "Range.select_node", (PyCFunction)(void (*)(void))member_Range_select_node, METH_VARARGS | METH_KEYWORDS, NULL },
    { "Range.select_node_contents", (PyCFunction)(void (*)(void))member_Range_select_node_contents, METH_VARARGS | METH_KEYWORDS, NULL },
    { "Range.is_point_in_range", (PyCFunction)(void (*)(void))member_Range_is_point_in_range, METH_VARARGS | METH_KEYWORDS, NULL },
    { "Range.intersects_node", (PyCFunction)(void (*)(void))member_Range_intersects_node, METH_VARARGS | METH_KEYWORDS, NULL },
    { "Range.release", member_Range_release, METH_NOARGS, NULL },
    { "NodeIterator.next_node", member_NodeIterator_next_node, METH_NOARGS, NULL },
    { "NodeIterator.previous_node", member_NodeIterator_previous_node, METH_NOARGS, NULL },
    { "NodeIterator.release", member_NodeIterator_release, METH_NOARGS, NULL },
    { NULL, NULL, 0, NULL },
};
