/** The calls of the module, by the library's names. Made by bindings/web/glue.py from the exports; not to be edited. */

const OUT_OF_MEMORY = 48;

/** Each call answers the library's status, and what it wrote stands in the module's numbers; what it lends is answered as a string. */
export const callsOver = (module, { reserve, putName, putText, putOctets, putNumbers, bytesAt, textAt }) => ({
  hp_line(session, line) {
    let at = reserve(line.length + 8);
    if (at === 0) return OUT_OF_MEMORY;
    const lineAt = at;
    const lineLength = putOctets(at, line);
    return module.hp_line(session, lineAt, lineLength);
  },
  hp_print: module.hp_print,
  hp_text(session) {
    const status = module.hp_text(session);
    return status === 0 ? textAt() : status;
  },
  hp_name_at(session, index) {
    const status = module.hp_name_at(session, index);
    return status === 0 ? bytesAt() : status;
  },
  hp_reply_line(session) {
    const status = module.hp_reply_line(session);
    return status === 0 ? bytesAt() : status;
  },
  hp_count: module.hp_count,
  hp_number_at: module.hp_number_at,
  hp_node_name(session, part) {
    const status = module.hp_node_name(session, part);
    return status === 0 ? bytesAt() : status;
  },
  hp_row_at: module.hp_row_at,
  hp_row_name(session, index, part) {
    const status = module.hp_row_name(session, index, part);
    return status === 0 ? bytesAt() : status;
  },
  hp_row_text(session, index) {
    const status = module.hp_row_text(session, index);
    return status === 0 ? textAt() : status;
  },
  hp_row_attribute_name(session, index, itsAt) {
    const status = module.hp_row_attribute_name(session, index, itsAt);
    return status === 0 ? bytesAt() : status;
  },
  hp_row_attribute_value(session, index, itsAt) {
    const status = module.hp_row_attribute_value(session, index, itsAt);
    return status === 0 ? textAt() : status;
  },
  hp_notice_at: module.hp_notice_at,
  hp_record_at: module.hp_record_at,
  hp_record_added_at: module.hp_record_added_at,
  hp_record_removed_at: module.hp_record_removed_at,
  hp_record_name(session, notice, index) {
    const status = module.hp_record_name(session, notice, index);
    return status === 0 ? bytesAt() : status;
  },
  hp_record_old_value(session, notice, index) {
    const status = module.hp_record_old_value(session, notice, index);
    return status === 0 ? textAt() : status;
  },
  hp_new_document: module.hp_new_document,
  hp_create_element(session, document, name) {
    let at = reserve(3 * name.length + 8);
    if (at === 0) return OUT_OF_MEMORY;
    const nameAt = at;
    const nameLength = putName(at, name);
    return module.hp_create_element(session, document, nameAt, nameLength);
  },
  hp_create_text(session, document, data) {
    let at = reserve(2 * data.length + 8);
    if (at === 0) return OUT_OF_MEMORY;
    const dataAt = at;
    const dataLength = putText(at, data);
    return module.hp_create_text(session, document, dataAt, dataLength);
  },
  hp_create_comment(session, document, data) {
    let at = reserve(2 * data.length + 8);
    if (at === 0) return OUT_OF_MEMORY;
    const dataAt = at;
    const dataLength = putText(at, data);
    return module.hp_create_comment(session, document, dataAt, dataLength);
  },
  hp_create_pi(session, document, target, data) {
    let at = reserve(3 * target.length + 2 * data.length + 16);
    if (at === 0) return OUT_OF_MEMORY;
    const targetAt = at;
    const targetLength = putName(at, target);
    at += (3 * target.length + 7) & ~7;
    const dataAt = at;
    const dataLength = putText(at, data);
    return module.hp_create_pi(session, document, targetAt, targetLength, dataAt, dataLength);
  },
  hp_create_doctype(session, document, name, publicId, systemId) {
    let at = reserve(3 * name.length + 3 * publicId.length + 3 * systemId.length + 24);
    if (at === 0) return OUT_OF_MEMORY;
    const nameAt = at;
    const nameLength = putName(at, name);
    at += (3 * name.length + 7) & ~7;
    const publicIdAt = at;
    const publicIdLength = putName(at, publicId);
    at += (3 * publicId.length + 7) & ~7;
    const systemIdAt = at;
    const systemIdLength = putName(at, systemId);
    return module.hp_create_doctype(session, document, nameAt, nameLength, publicIdAt, publicIdLength, systemIdAt, systemIdLength);
  },
  hp_create_fragment: module.hp_create_fragment,
  hp_insert_before: module.hp_insert_before,
  hp_append_child: module.hp_append_child,
  hp_adopt_node: module.hp_adopt_node,
  hp_replace_child: module.hp_replace_child,
  hp_remove_child: module.hp_remove_child,
  hp_remove: module.hp_remove,
  hp_replace_children: module.hp_replace_children,
  hp_normalize: module.hp_normalize,
  hp_set_text_content(session, node, text) {
    let at = reserve(2 * text.length + 8);
    if (at === 0) return OUT_OF_MEMORY;
    const textAt = at;
    const textLength = putText(at, text);
    return module.hp_set_text_content(session, node, textAt, textLength);
  },
  hp_discard: module.hp_discard,
  hp_import_node: module.hp_import_node,
  hp_clone_node: module.hp_clone_node,
  hp_node: module.hp_node,
  hp_children: module.hp_children,
  hp_index: module.hp_index,
  hp_length: module.hp_length,
  hp_root: module.hp_root,
  hp_contains: module.hp_contains,
  hp_is_equal: module.hp_is_equal,
  hp_compare_position: module.hp_compare_position,
  hp_text_content: module.hp_text_content,
  hp_tree: module.hp_tree,
  hp_links: module.hp_links,
  hp_first_child: module.hp_first_child,
  hp_last_child: module.hp_last_child,
  hp_child_at: module.hp_child_at,
  hp_name_of(session, node, part) {
    const status = module.hp_name_of(session, node, part);
    return status === 0 ? bytesAt() : status;
  },
  hp_data_of(session, node) {
    const status = module.hp_data_of(session, node);
    return status === 0 ? textAt() : status;
  },
  hp_in_use: module.hp_in_use,
  hp_nodes_made: module.hp_nodes_made,
  hp_data: module.hp_data,
  hp_set_data(session, node, data) {
    let at = reserve(2 * data.length + 8);
    if (at === 0) return OUT_OF_MEMORY;
    const dataAt = at;
    const dataLength = putText(at, data);
    return module.hp_set_data(session, node, dataAt, dataLength);
  },
  hp_append_data(session, node, data) {
    let at = reserve(2 * data.length + 8);
    if (at === 0) return OUT_OF_MEMORY;
    const dataAt = at;
    const dataLength = putText(at, data);
    return module.hp_append_data(session, node, dataAt, dataLength);
  },
  hp_insert_data(session, node, offset, data) {
    let at = reserve(2 * data.length + 8);
    if (at === 0) return OUT_OF_MEMORY;
    const dataAt = at;
    const dataLength = putText(at, data);
    return module.hp_insert_data(session, node, offset, dataAt, dataLength);
  },
  hp_delete_data: module.hp_delete_data,
  hp_replace_data(session, node, offset, count, data) {
    let at = reserve(2 * data.length + 8);
    if (at === 0) return OUT_OF_MEMORY;
    const dataAt = at;
    const dataLength = putText(at, data);
    return module.hp_replace_data(session, node, offset, count, dataAt, dataLength);
  },
  hp_substring_data: module.hp_substring_data,
  hp_split_text: module.hp_split_text,
  hp_set_attribute(session, element, name, value) {
    let at = reserve(3 * name.length + 2 * value.length + 16);
    if (at === 0) return OUT_OF_MEMORY;
    const nameAt = at;
    const nameLength = putName(at, name);
    at += (3 * name.length + 7) & ~7;
    const valueAt = at;
    const valueLength = putText(at, value);
    return module.hp_set_attribute(session, element, nameAt, nameLength, valueAt, valueLength);
  },
  hp_get_attribute(session, element, name) {
    let at = reserve(3 * name.length + 8);
    if (at === 0) return OUT_OF_MEMORY;
    const nameAt = at;
    const nameLength = putName(at, name);
    return module.hp_get_attribute(session, element, nameAt, nameLength);
  },
  hp_has_attribute(session, element, name) {
    let at = reserve(3 * name.length + 8);
    if (at === 0) return OUT_OF_MEMORY;
    const nameAt = at;
    const nameLength = putName(at, name);
    return module.hp_has_attribute(session, element, nameAt, nameLength);
  },
  hp_remove_attribute(session, element, name) {
    let at = reserve(3 * name.length + 8);
    if (at === 0) return OUT_OF_MEMORY;
    const nameAt = at;
    const nameLength = putName(at, name);
    return module.hp_remove_attribute(session, element, nameAt, nameLength);
  },
  hp_toggle_attribute(session, element, name, force) {
    let at = reserve(3 * name.length + 8);
    if (at === 0) return OUT_OF_MEMORY;
    const nameAt = at;
    const nameLength = putName(at, name);
    return module.hp_toggle_attribute(session, element, nameAt, nameLength, force);
  },
  hp_attribute_names: module.hp_attribute_names,
  hp_create_range: module.hp_create_range,
  hp_clone_range: module.hp_clone_range,
  hp_range: module.hp_range,
  hp_set_start: module.hp_set_start,
  hp_set_end: module.hp_set_end,
  hp_set_start_before: module.hp_set_start_before,
  hp_set_start_after: module.hp_set_start_after,
  hp_set_end_before: module.hp_set_end_before,
  hp_set_end_after: module.hp_set_end_after,
  hp_collapse: module.hp_collapse,
  hp_select_node: module.hp_select_node,
  hp_select_node_contents: module.hp_select_node_contents,
  hp_release_range: module.hp_release_range,
  hp_compare_boundary_points: module.hp_compare_boundary_points,
  hp_compare_point: module.hp_compare_point,
  hp_is_point_in_range: module.hp_is_point_in_range,
  hp_intersects_node: module.hp_intersects_node,
  hp_common_ancestor: module.hp_common_ancestor,
  hp_create_static_range: module.hp_create_static_range,
  hp_static_range: module.hp_static_range,
  hp_release_static_range: module.hp_release_static_range,
  hp_range_text: module.hp_range_text,
  hp_delete_contents: module.hp_delete_contents,
  hp_extract_contents: module.hp_extract_contents,
  hp_clone_contents: module.hp_clone_contents,
  hp_insert_node: module.hp_insert_node,
  hp_surround_contents: module.hp_surround_contents,
  hp_create_iterator(session, root, show, names, lengths, verdicts) {
    let at = reserve(names.length + 4 * lengths.length + verdicts.length + 24);
    if (at === 0) return OUT_OF_MEMORY;
    const namesAt = at;
    const namesLength = putOctets(at, names);
    at += (names.length + 7) & ~7;
    const lengthsAt = at;
    const lengthsLength = putNumbers(at, lengths);
    at += (4 * lengths.length + 7) & ~7;
    const verdictsAt = at;
    const verdictsLength = putOctets(at, verdicts);
    return module.hp_create_iterator(session, root, show, namesAt, namesLength, lengthsAt, lengthsLength, verdictsAt, verdictsLength);
  },
  hp_create_walker(session, root, show, names, lengths, verdicts) {
    let at = reserve(names.length + 4 * lengths.length + verdicts.length + 24);
    if (at === 0) return OUT_OF_MEMORY;
    const namesAt = at;
    const namesLength = putOctets(at, names);
    at += (names.length + 7) & ~7;
    const lengthsAt = at;
    const lengthsLength = putNumbers(at, lengths);
    at += (4 * lengths.length + 7) & ~7;
    const verdictsAt = at;
    const verdictsLength = putOctets(at, verdicts);
    return module.hp_create_walker(session, root, show, namesAt, namesLength, lengthsAt, lengthsLength, verdictsAt, verdictsLength);
  },
  hp_iterator: module.hp_iterator,
  hp_next_node: module.hp_next_node,
  hp_previous_node: module.hp_previous_node,
  hp_walker: module.hp_walker,
  hp_set_current: module.hp_set_current,
  hp_walk: module.hp_walk,
  hp_release_iterator: module.hp_release_iterator,
  hp_release_walker: module.hp_release_walker,
  hp_create_observer: module.hp_create_observer,
  hp_observe(session, observer, node, options, names, lengths) {
    let at = reserve(names.length + 4 * lengths.length + 8 + 24);
    if (at === 0) return OUT_OF_MEMORY;
    const optionsAt = at;
    const optionsLength = putOctets(at, options);
    at += (8 + 7) & ~7;
    const namesAt = at;
    const namesLength = putOctets(at, names);
    at += (names.length + 7) & ~7;
    const lengthsAt = at;
    const lengthsLength = putNumbers(at, lengths);
    return module.hp_observe(session, observer, node, optionsAt, namesAt, namesLength, lengthsAt, lengthsLength);
  },
  hp_disconnect: module.hp_disconnect,
  hp_take_records: module.hp_take_records,
  hp_notify: module.hp_notify,
  hp_pending: module.hp_pending,
  hp_take_pending: module.hp_take_pending,
  hp_tell_observer: module.hp_tell_observer,
  hp_release_observer: module.hp_release_observer,
});

/** The library's constants. */
export const NUMBERS = {
  HP_OK: 0,
  HP_INDEX_SIZE_ERROR: 1,
  HP_HIERARCHY_REQUEST_ERROR: 3,
  HP_WRONG_DOCUMENT_ERROR: 4,
  HP_INVALID_CHARACTER_ERROR: 5,
  HP_NOT_FOUND_ERROR: 8,
  HP_NOT_SUPPORTED_ERROR: 9,
  HP_INVALID_STATE_ERROR: 11,
  HP_INVALID_NODE_TYPE_ERROR: 24,
  HP_TYPE_ERROR: 32,
  HP_NO_SUCH_OBJECT: 33,
  HP_LIMIT: 34,
  HP_IN_USE: 35,
  HP_LINE_TOO_LONG: 36,
  HP_BAD_JSON: 37,
  HP_BAD_COMMAND: 38,
  HP_BAD_ARGUMENTS: 39,
  HP_OUT_OF_MEMORY: 48,
  HP_CLOSED: 49,
  HP_ALREADY_OPEN: 50,
  HP_BAD_LIMITS: 51,
  HP_NOT_UTF8: 52,
  HP_BAD_LENGTHS: 53,
  HP_BAD_CHOICE: 54,
  HP_NOT_THERE: 55,
  HP_ENDED: 56,
  HP_NONE: 4294967295,
  HP_ATTRIBUTES: 0,
  HP_CHARACTER_DATA: 1,
  HP_CHILD_LIST: 2,
};

/** How each status is printed. */
export const WORDS = {
  0: "ok",
  1: "IndexSizeError",
  3: "HierarchyRequestError",
  4: "WrongDocumentError",
  5: "InvalidCharacterError",
  8: "NotFoundError",
  9: "NotSupportedError",
  11: "InvalidStateError",
  24: "InvalidNodeTypeError",
  32: "TypeError",
  33: "no-such-object",
  34: "limit",
  35: "in-use",
  36: "line-too-long",
  37: "bad-json",
  38: "bad-command",
  39: "bad-arguments",
  48: "out-of-memory",
  49: "closed",
  50: "already-open",
  51: "bad-limits",
  52: "not-utf8",
  53: "bad-lengths",
  54: "bad-choice",
  55: "not-there",
  56: "ended",
};
