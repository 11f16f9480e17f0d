//! The calls of the library, and over each a safe method. Made by `declare.py` from the exports of the library; not to be edited.
//!
//! This is the one file with unsafe code. All of its calls are sound for the same reasons:
//! - a handle is all zero bytes before it is opened, has an address of its own, and only calls change it;
//! - a slice's pointer is not null, even if the slice is empty, and the pointer in a struct for borrowed data is not null before a call;
//! - a handle is used by one thread at a time, since it is not `Sync`;
//! - a call that changes the session takes `&mut self`, so that nothing is borrowed when it is made;
//! - a call that reads the last answer does not change it, so that data borrowed from other reading calls stays valid.
// (some statuses and constants are not met here)
#![allow(unsafe_code, dead_code)]

use std::cell::UnsafeCell;
use std::ptr::{null_mut, NonNull};

pub(crate) const HP_OK: u8 = 0;
pub(crate) const HP_INDEX_SIZE_ERROR: u8 = 1;
pub(crate) const HP_HIERARCHY_REQUEST_ERROR: u8 = 3;
pub(crate) const HP_WRONG_DOCUMENT_ERROR: u8 = 4;
pub(crate) const HP_INVALID_CHARACTER_ERROR: u8 = 5;
pub(crate) const HP_NOT_FOUND_ERROR: u8 = 8;
pub(crate) const HP_NOT_SUPPORTED_ERROR: u8 = 9;
pub(crate) const HP_INVALID_STATE_ERROR: u8 = 11;
pub(crate) const HP_INVALID_NODE_TYPE_ERROR: u8 = 24;
pub(crate) const HP_TYPE_ERROR: u8 = 32;
pub(crate) const HP_NO_SUCH_OBJECT: u8 = 33;
pub(crate) const HP_LIMIT: u8 = 34;
pub(crate) const HP_IN_USE: u8 = 35;
pub(crate) const HP_LINE_TOO_LONG: u8 = 36;
pub(crate) const HP_BAD_JSON: u8 = 37;
pub(crate) const HP_BAD_COMMAND: u8 = 38;
pub(crate) const HP_BAD_ARGUMENTS: u8 = 39;
pub(crate) const HP_OUT_OF_MEMORY: u8 = 48;
pub(crate) const HP_CLOSED: u8 = 49;
pub(crate) const HP_ALREADY_OPEN: u8 = 50;
pub(crate) const HP_BAD_LIMITS: u8 = 51;
pub(crate) const HP_NOT_UTF8: u8 = 52;
pub(crate) const HP_BAD_LENGTHS: u8 = 53;
pub(crate) const HP_BAD_CHOICE: u8 = 54;
pub(crate) const HP_NOT_THERE: u8 = 55;
pub(crate) const HP_ENDED: u8 = 56;
pub(crate) const HP_NONE: u32 = 4294967295;
pub(crate) const HP_ATTRIBUTES: u8 = 0;
pub(crate) const HP_CHARACTER_DATA: u8 = 1;
pub(crate) const HP_CHILD_LIST: u8 = 2;

/// Borrowed bytes.
#[repr(C)]
#[allow(non_camel_case_types)]
pub(crate) struct hp_bytes {
    bytes: *const u8,
    length: usize,
}

/// Borrowed UTF-16 units.
#[repr(C)]
#[allow(non_camel_case_types)]
pub(crate) struct hp_text_view {
    units: *const u16,
    length: usize,
}

/// A row of a tree: the node's depth below the printed root, its number, the standard's number of its kind (`nodeType`), and the number of its attributes.
#[repr(C)]
#[derive(Clone, Copy, Default)]
#[allow(non_camel_case_types)]
pub(crate) struct hp_row {
    pub(crate) depth: usize,
    pub(crate) node: u32,
    pub(crate) type_: u16,
    pub(crate) attributes: usize,
}

/// A notice: the number of the observer, and the number of its records.
#[repr(C)]
#[derive(Clone, Copy, Default)]
#[allow(non_camel_case_types)]
pub(crate) struct hp_notice {
    pub(crate) observer: u32,
    pub(crate) records: usize,
}

/// A record: its type (`HP_ATTRIBUTES`, `HP_CHARACTER_DATA` or `HP_CHILD_LIST`), its target, the numbers of added and removed nodes, and the siblings beside them, or HP_NONE.
#[repr(C)]
#[derive(Clone, Copy, Default)]
#[allow(non_camel_case_types)]
pub(crate) struct hp_record {
    pub(crate) type_: u8,
    pub(crate) target: u32,
    pub(crate) added: usize,
    pub(crate) removed: usize,
    pub(crate) previous: u32,
    pub(crate) next: u32,
}

/// The start and the end of a live range.
#[repr(C)]
#[derive(Clone, Copy, Default)]
#[allow(non_camel_case_types)]
pub(crate) struct hp_ends {
    pub(crate) start: u32,
    pub(crate) start_offset: usize,
    pub(crate) end: u32,
    pub(crate) end_offset: usize,
}

/// The start and the end of a static range, and whether it is valid: 0 or 1.
#[repr(C)]
#[derive(Clone, Copy, Default)]
#[allow(non_camel_case_types)]
pub(crate) struct hp_static_ends {
    pub(crate) start: u32,
    pub(crate) start_offset: usize,
    pub(crate) end: u32,
    pub(crate) end_offset: usize,
    pub(crate) is_valid: u8,
}

/// The root and the reference of an iterator, and whether its pointer is before the reference: 0 or 1.
#[repr(C)]
#[derive(Clone, Copy, Default)]
#[allow(non_camel_case_types)]
pub(crate) struct hp_iterator_at {
    pub(crate) root: u32,
    pub(crate) reference: u32,
    pub(crate) is_before: u8,
}

/// The root and the current node of a walker.
#[repr(C)]
#[derive(Clone, Copy, Default)]
#[allow(non_camel_case_types)]
pub(crate) struct hp_walker_at {
    pub(crate) root: u32,
    pub(crate) current: u32,
}

/// The node document, the kind by the standard's number (`nodeType`), and the siblings and the parent, or HP_NONE.
#[repr(C)]
#[derive(Clone, Copy, Default)]
#[allow(non_camel_case_types)]
pub(crate) struct hp_place {
    pub(crate) document: u32,
    pub(crate) kind: u8,
    pub(crate) next: u32,
    pub(crate) parent: u32,
    pub(crate) previous: u32,
}

/// A node: the standard's number of its kind (`nodeType`), its node document, its parent, siblings and first and last child, or HP_NONE, the number of its children, and its length.
#[repr(C)]
#[derive(Clone, Copy, Default)]
#[allow(non_camel_case_types)]
pub(crate) struct hp_node_links {
    pub(crate) kind: u8,
    pub(crate) document: u32,
    pub(crate) parent: u32,
    pub(crate) previous: u32,
    pub(crate) next: u32,
    pub(crate) first_child: u32,
    pub(crate) last_child: u32,
    pub(crate) children: usize,
    pub(crate) length: usize,
}

/// A node of a subtree: its number, its parent, or HP_NONE, and the standard's number of its kind (`nodeType`).
#[repr(C)]
#[derive(Clone, Copy, Default)]
#[allow(non_camel_case_types)]
pub(crate) struct hp_subtree_row {
    pub(crate) node: u32,
    pub(crate) parent: u32,
    pub(crate) kind: u8,
}

/// The number of objects of each kind that were made, and neither discarded nor released. The registrations are those of all observers, with the transient ones.
#[repr(C)]
#[derive(Clone, Copy, Default)]
#[allow(non_camel_case_types)]
pub(crate) struct hp_counts {
    pub(crate) nodes: usize,
    pub(crate) ranges: usize,
    pub(crate) static_ranges: usize,
    pub(crate) iterators: usize,
    pub(crate) walkers: usize,
    pub(crate) observers: usize,
    pub(crate) registrations: usize,
}

/// A session, or none. All zero bytes are a closed handle.
#[repr(C)]
#[allow(non_camel_case_types)]
pub(crate) struct hp_session {
    pub(crate) slot: hp_slot,
    pub(crate) is_open: bool,
}

/// The members of `MutationObserverInit`: 0 for false, 1 for true, 2 for absent. The attribute filter is 0 if absent, and 1 if its names are passed beside.
#[repr(C)]
#[derive(Clone, Copy, Default)]
#[allow(non_camel_case_types)]
pub(crate) struct hp_options {
    pub(crate) child_list: u8,
    pub(crate) attributes: u8,
    pub(crate) character_data: u8,
    pub(crate) subtree: u8,
    pub(crate) attribute_old_value: u8,
    pub(crate) character_data_old_value: u8,
    pub(crate) attribute_filter: u8,
}

/// The owner of a session's state on the heap, or of nothing. All zero bytes are an empty slot.
#[repr(C)]
#[allow(non_camel_case_types)]
pub(crate) struct hp_slot {
    at: *mut u8,
}

extern "C" {
    fn hp_version(version: *mut u32) -> u8;
    fn hp_open(session: *mut hp_session, numbers: u64, line: usize) -> u8;
    fn hp_close(session: *mut hp_session) -> u8;
    fn hp_line(session: *mut hp_session, line: *const u8, line_length: usize) -> u8;
    fn hp_print(session: *mut hp_session) -> u8;
    fn hp_text(session: *mut hp_session, out: *mut hp_text_view) -> u8;
    fn hp_name_at(session: *mut hp_session, index: usize, out: *mut hp_bytes) -> u8;
    fn hp_reply_line(session: *mut hp_session, out: *mut hp_bytes) -> u8;
    fn hp_count(session: *mut hp_session, count: *mut usize) -> u8;
    fn hp_number_at(session: *mut hp_session, index: usize, number: *mut u32) -> u8;
    fn hp_numbers_into(session: *mut hp_session, numbers: *mut u32, numbers_capacity: usize, count: *mut usize) -> u8;
    fn hp_node_name(session: *mut hp_session, part: u8, out: *mut hp_bytes) -> u8;
    fn hp_row_at(session: *mut hp_session, index: usize, row: *mut hp_row) -> u8;
    fn hp_row_name(session: *mut hp_session, index: usize, part: u8, out: *mut hp_bytes) -> u8;
    fn hp_row_text(session: *mut hp_session, index: usize, out: *mut hp_text_view) -> u8;
    fn hp_row_attribute_name(session: *mut hp_session, index: usize, at: usize, out: *mut hp_bytes) -> u8;
    fn hp_row_attribute_value(session: *mut hp_session, index: usize, at: usize, out: *mut hp_text_view) -> u8;
    fn hp_notice_at(session: *mut hp_session, index: usize, notice: *mut hp_notice) -> u8;
    fn hp_record_at(session: *mut hp_session, notice: usize, index: usize, record: *mut hp_record) -> u8;
    fn hp_records_into(session: *mut hp_session, notice: usize, records: *mut hp_record, records_capacity: usize, count: *mut usize) -> u8;
    fn hp_record_added_at(session: *mut hp_session, notice: usize, index: usize, at: usize, node: *mut u32) -> u8;
    fn hp_record_removed_at(session: *mut hp_session, notice: usize, index: usize, at: usize, node: *mut u32) -> u8;
    fn hp_record_name(session: *mut hp_session, notice: usize, index: usize, out: *mut hp_bytes) -> u8;
    fn hp_record_old_value(session: *mut hp_session, notice: usize, index: usize, out: *mut hp_text_view) -> u8;
    fn hp_new_document(session: *mut hp_session, document: *mut u32) -> u8;
    fn hp_create_element(session: *mut hp_session, document: u32, name: *const u8, name_length: usize, element: *mut u32) -> u8;
    fn hp_create_text(session: *mut hp_session, document: u32, data: *const u16, data_length: usize, text: *mut u32) -> u8;
    fn hp_create_comment(session: *mut hp_session, document: u32, data: *const u16, data_length: usize, comment: *mut u32) -> u8;
    fn hp_create_pi(session: *mut hp_session, document: u32, target: *const u8, target_length: usize, data: *const u16, data_length: usize, instruction: *mut u32) -> u8;
    fn hp_create_doctype(session: *mut hp_session, document: u32, name: *const u8, name_length: usize, public_id: *const u8, public_id_length: usize, system_id: *const u8, system_id_length: usize, doctype: *mut u32) -> u8;
    fn hp_create_fragment(session: *mut hp_session, document: u32, fragment: *mut u32) -> u8;
    fn hp_insert_before(session: *mut hp_session, parent: u32, node: u32, child: u32) -> u8;
    fn hp_append_child(session: *mut hp_session, parent: u32, node: u32) -> u8;
    fn hp_adopt_node(session: *mut hp_session, document: u32, node: u32) -> u8;
    fn hp_replace_child(session: *mut hp_session, parent: u32, node: u32, child: u32) -> u8;
    fn hp_remove_child(session: *mut hp_session, parent: u32, child: u32) -> u8;
    fn hp_remove(session: *mut hp_session, node: u32) -> u8;
    fn hp_replace_children(session: *mut hp_session, parent: u32, node: u32) -> u8;
    fn hp_normalize(session: *mut hp_session, node: u32) -> u8;
    fn hp_set_text_content(session: *mut hp_session, node: u32, text: *const u16, text_length: usize) -> u8;
    fn hp_discard(session: *mut hp_session, node: u32) -> u8;
    fn hp_import_node(session: *mut hp_session, document: u32, node: u32, deep: bool, copy: *mut u32) -> u8;
    fn hp_clone_node(session: *mut hp_session, node: u32, deep: bool, copy: *mut u32) -> u8;
    fn hp_node(session: *mut hp_session, node: u32, place: *mut hp_place) -> u8;
    fn hp_children(session: *mut hp_session, node: u32) -> u8;
    fn hp_index(session: *mut hp_session, node: u32, index: *mut usize) -> u8;
    fn hp_length(session: *mut hp_session, node: u32, length: *mut usize) -> u8;
    fn hp_root(session: *mut hp_session, node: u32, root: *mut u32) -> u8;
    fn hp_contains(session: *mut hp_session, node: u32, other: u32, contains: *mut u8) -> u8;
    fn hp_is_equal(session: *mut hp_session, node: u32, other: u32, is_equal: *mut u8) -> u8;
    fn hp_compare_position(session: *mut hp_session, node: u32, other: u32, position: *mut u32) -> u8;
    fn hp_text_content(session: *mut hp_session, node: u32) -> u8;
    fn hp_tree(session: *mut hp_session, node: u32) -> u8;
    fn hp_links(session: *mut hp_session, node: u32, links: *mut hp_node_links) -> u8;
    fn hp_first_child(session: *mut hp_session, node: u32, child: *mut u32) -> u8;
    fn hp_last_child(session: *mut hp_session, node: u32, child: *mut u32) -> u8;
    fn hp_child_at(session: *mut hp_session, node: u32, index: usize, child: *mut u32) -> u8;
    fn hp_children_into(session: *mut hp_session, node: u32, numbers: *mut u32, numbers_capacity: usize, count: *mut usize) -> u8;
    fn hp_subtree_into(session: *mut hp_session, root: u32, start: u32, rows: *mut hp_subtree_row, rows_capacity: usize, count: *mut usize, next: *mut u32) -> u8;
    fn hp_name_of(session: *mut hp_session, node: u32, part: u8, out: *mut hp_bytes) -> u8;
    fn hp_data_of(session: *mut hp_session, node: u32, out: *mut hp_text_view) -> u8;
    fn hp_attribute_at(session: *mut hp_session, node: u32, index: usize, name: *mut hp_bytes, value: *mut hp_text_view) -> u8;
    fn hp_in_use(session: *mut hp_session, counts: *mut hp_counts) -> u8;
    fn hp_nodes_made(session: *mut hp_session, count: *mut u64) -> u8;
    fn hp_data(session: *mut hp_session, node: u32) -> u8;
    fn hp_set_data(session: *mut hp_session, node: u32, data: *const u16, data_length: usize) -> u8;
    fn hp_append_data(session: *mut hp_session, node: u32, data: *const u16, data_length: usize) -> u8;
    fn hp_insert_data(session: *mut hp_session, node: u32, offset: u32, data: *const u16, data_length: usize) -> u8;
    fn hp_delete_data(session: *mut hp_session, node: u32, offset: u32, count: u32) -> u8;
    fn hp_replace_data(session: *mut hp_session, node: u32, offset: u32, count: u32, data: *const u16, data_length: usize) -> u8;
    fn hp_substring_data(session: *mut hp_session, node: u32, offset: u32, count: u32) -> u8;
    fn hp_split_text(session: *mut hp_session, text: u32, offset: u32, rest: *mut u32) -> u8;
    fn hp_set_attribute(session: *mut hp_session, element: u32, name: *const u8, name_length: usize, value: *const u16, value_length: usize) -> u8;
    fn hp_get_attribute(session: *mut hp_session, element: u32, name: *const u8, name_length: usize) -> u8;
    fn hp_has_attribute(session: *mut hp_session, element: u32, name: *const u8, name_length: usize, is_there: *mut u8) -> u8;
    fn hp_remove_attribute(session: *mut hp_session, element: u32, name: *const u8, name_length: usize) -> u8;
    fn hp_toggle_attribute(session: *mut hp_session, element: u32, name: *const u8, name_length: usize, force: u8, is_there: *mut u8) -> u8;
    fn hp_attribute_names(session: *mut hp_session, element: u32) -> u8;
    fn hp_create_range(session: *mut hp_session, document: u32, range: *mut u32) -> u8;
    fn hp_clone_range(session: *mut hp_session, range: u32, copy: *mut u32) -> u8;
    fn hp_range(session: *mut hp_session, range: u32, ends: *mut hp_ends) -> u8;
    fn hp_set_start(session: *mut hp_session, range: u32, node: u32, offset: u32) -> u8;
    fn hp_set_end(session: *mut hp_session, range: u32, node: u32, offset: u32) -> u8;
    fn hp_set_start_before(session: *mut hp_session, range: u32, node: u32) -> u8;
    fn hp_set_start_after(session: *mut hp_session, range: u32, node: u32) -> u8;
    fn hp_set_end_before(session: *mut hp_session, range: u32, node: u32) -> u8;
    fn hp_set_end_after(session: *mut hp_session, range: u32, node: u32) -> u8;
    fn hp_collapse(session: *mut hp_session, range: u32, to_start: bool) -> u8;
    fn hp_select_node(session: *mut hp_session, range: u32, node: u32) -> u8;
    fn hp_select_node_contents(session: *mut hp_session, range: u32, node: u32) -> u8;
    fn hp_release_range(session: *mut hp_session, range: u32) -> u8;
    fn hp_compare_boundary_points(session: *mut hp_session, range: u32, how: u32, source: u32, order: *mut i8) -> u8;
    fn hp_compare_point(session: *mut hp_session, range: u32, node: u32, offset: u32, order: *mut i8) -> u8;
    fn hp_is_point_in_range(session: *mut hp_session, range: u32, node: u32, offset: u32, is_in: *mut u8) -> u8;
    fn hp_intersects_node(session: *mut hp_session, range: u32, node: u32, intersects: *mut u8) -> u8;
    fn hp_common_ancestor(session: *mut hp_session, range: u32, ancestor: *mut u32) -> u8;
    fn hp_create_static_range(session: *mut hp_session, start: u32, start_offset: u32, end: u32, end_offset: u32, range: *mut u32) -> u8;
    fn hp_static_range(session: *mut hp_session, range: u32, ends: *mut hp_static_ends) -> u8;
    fn hp_release_static_range(session: *mut hp_session, range: u32) -> u8;
    fn hp_range_text(session: *mut hp_session, range: u32) -> u8;
    fn hp_delete_contents(session: *mut hp_session, range: u32) -> u8;
    fn hp_extract_contents(session: *mut hp_session, range: u32, fragment: *mut u32) -> u8;
    fn hp_clone_contents(session: *mut hp_session, range: u32, fragment: *mut u32) -> u8;
    fn hp_insert_node(session: *mut hp_session, range: u32, node: u32) -> u8;
    fn hp_surround_contents(session: *mut hp_session, range: u32, parent: u32) -> u8;
    fn hp_create_iterator(session: *mut hp_session, root: u32, show: u32, names: *const u8, names_length: usize, lengths: *const u32, lengths_length: usize, verdicts: *const u8, verdicts_length: usize, iterator: *mut u32) -> u8;
    fn hp_create_walker(session: *mut hp_session, root: u32, show: u32, names: *const u8, names_length: usize, lengths: *const u32, lengths_length: usize, verdicts: *const u8, verdicts_length: usize, walker: *mut u32) -> u8;
    fn hp_iterator(session: *mut hp_session, iterator: u32, place: *mut hp_iterator_at) -> u8;
    fn hp_next_node(session: *mut hp_session, iterator: u32, node: *mut u32) -> u8;
    fn hp_next_nodes_into(session: *mut hp_session, iterator: u32, nodes: *mut u32, nodes_capacity: usize, count: *mut usize) -> u8;
    fn hp_previous_node(session: *mut hp_session, iterator: u32, node: *mut u32) -> u8;
    fn hp_walker(session: *mut hp_session, walker: u32, place: *mut hp_walker_at) -> u8;
    fn hp_set_current(session: *mut hp_session, walker: u32, node: u32) -> u8;
    fn hp_walk(session: *mut hp_session, walker: u32, direction: u8, node: *mut u32) -> u8;
    fn hp_walk_into(session: *mut hp_session, walker: u32, direction: u8, nodes: *mut u32, nodes_capacity: usize, count: *mut usize) -> u8;
    fn hp_release_iterator(session: *mut hp_session, iterator: u32) -> u8;
    fn hp_release_walker(session: *mut hp_session, walker: u32) -> u8;
    fn hp_create_observer(session: *mut hp_session, observer: *mut u32) -> u8;
    fn hp_observe(session: *mut hp_session, observer: u32, node: u32, options: *const hp_options, names: *const u8, names_length: usize, lengths: *const u32, lengths_length: usize) -> u8;
    fn hp_disconnect(session: *mut hp_session, observer: u32) -> u8;
    fn hp_take_records(session: *mut hp_session, observer: u32) -> u8;
    fn hp_notify(session: *mut hp_session) -> u8;
    fn hp_pending(session: *mut hp_session) -> u8;
    fn hp_take_pending(session: *mut hp_session) -> u8;
    fn hp_tell_observer(session: *mut hp_session, observer: u32) -> u8;
    fn hp_release_observer(session: *mut hp_session, observer: u32) -> u8;
}

/// An open session of the library, which is closed when it is dropped.
pub(crate) struct Handle {
    session: Box<UnsafeCell<hp_session>>,
}

// SAFETY: the library keeps nothing by threads, and a session may go to another thread between two calls.
unsafe impl Send for Handle {}

/// The status of a call: a session that has ended is read as any other.
fn read(status: u8) -> u8 {
    if status == HP_ENDED { HP_OK } else { status }
}

impl Drop for Handle {
    fn drop(&mut self) {
        // SAFETY: as at the head of the file. Closing frees all that the session keeps.
        unsafe { hp_close(self.session.get()) };
    }
}

impl Handle {
    pub(crate) fn open(numbers: u64, line: usize) -> Result<Handle, u8> {
        let closed = hp_session { slot: hp_slot { at: null_mut() }, is_open: false };
        let handle = Handle { session: Box::new(UnsafeCell::new(closed)) };
        // SAFETY: as at the head of the file. Dropping a handle that stayed closed does nothing.
        let status = unsafe { hp_open(handle.session.get(), numbers, line) };
        if status == HP_OK {
            Ok(handle)
        } else {
            Err(status)
        }
    }

    pub(crate) fn has_ended(&self) -> bool {
        let mut out = hp_counts::default();
        // SAFETY: as at the head of the file.
        unsafe { hp_in_use(self.session.get(), &mut out) == HP_ENDED }
    }

    pub(crate) fn version(&self) -> Result<u32, u8> {
        let mut out = 0;
        // SAFETY: as at the head of the file.
        let status = read(unsafe { hp_version(&mut out) });
        if status == HP_OK { Ok(out) } else { Err(status) }
    }

    pub(crate) fn line(&mut self, line: &[u8]) -> Result<(), u8> {
        // SAFETY: as at the head of the file.
        let status = read(unsafe { hp_line(self.session.get(), line.as_ptr(), line.len()) });
        if status == HP_OK { Ok(()) } else { Err(status) }
    }

    pub(crate) fn print(&mut self) -> Result<(), u8> {
        // SAFETY: as at the head of the file.
        let status = read(unsafe { hp_print(self.session.get()) });
        if status == HP_OK { Ok(()) } else { Err(status) }
    }

    pub(crate) fn text(&self) -> Result<&[u16], u8> {
        let mut out = hp_text_view { units: NonNull::dangling().as_ptr(), length: 0 };
        // SAFETY: as at the head of the file.
        let status = read(unsafe { hp_text(self.session.get(), &mut out) });
        if status != HP_OK {
            return Err(status);
        }
        // SAFETY: the borrowed data is valid as long as the handle is borrowed.
        Ok(unsafe { std::slice::from_raw_parts(out.units, out.length) })
    }

    pub(crate) fn name_at(&self, index: usize) -> Result<&[u8], u8> {
        let mut out = hp_bytes { bytes: NonNull::dangling().as_ptr(), length: 0 };
        // SAFETY: as at the head of the file.
        let status = read(unsafe { hp_name_at(self.session.get(), index, &mut out) });
        if status != HP_OK {
            return Err(status);
        }
        // SAFETY: the borrowed data is valid as long as the handle is borrowed.
        Ok(unsafe { std::slice::from_raw_parts(out.bytes, out.length) })
    }

    pub(crate) fn reply_line(&self) -> Result<&[u8], u8> {
        let mut out = hp_bytes { bytes: NonNull::dangling().as_ptr(), length: 0 };
        // SAFETY: as at the head of the file.
        let status = read(unsafe { hp_reply_line(self.session.get(), &mut out) });
        if status != HP_OK {
            return Err(status);
        }
        // SAFETY: the borrowed data is valid as long as the handle is borrowed.
        Ok(unsafe { std::slice::from_raw_parts(out.bytes, out.length) })
    }

    pub(crate) fn count(&self) -> Result<usize, u8> {
        let mut out = 0;
        // SAFETY: as at the head of the file.
        let status = read(unsafe { hp_count(self.session.get(), &mut out) });
        if status == HP_OK { Ok(out) } else { Err(status) }
    }

    pub(crate) fn number_at(&self, index: usize) -> Result<u32, u8> {
        let mut out = 0;
        // SAFETY: as at the head of the file.
        let status = read(unsafe { hp_number_at(self.session.get(), index, &mut out) });
        if status == HP_OK { Ok(out) } else { Err(status) }
    }

    pub(crate) fn numbers_into(&self, numbers: &mut [u32]) -> Result<usize, u8> {
        let mut out = 0;
        // SAFETY: as at the head of the file.
        let status = read(unsafe { hp_numbers_into(self.session.get(), numbers.as_mut_ptr(), numbers.len(), &mut out) });
        if status == HP_OK { Ok(out) } else { Err(status) }
    }

    pub(crate) fn node_name(&self, part: u8) -> Result<&[u8], u8> {
        let mut out = hp_bytes { bytes: NonNull::dangling().as_ptr(), length: 0 };
        // SAFETY: as at the head of the file.
        let status = read(unsafe { hp_node_name(self.session.get(), part, &mut out) });
        if status != HP_OK {
            return Err(status);
        }
        // SAFETY: the borrowed data is valid as long as the handle is borrowed.
        Ok(unsafe { std::slice::from_raw_parts(out.bytes, out.length) })
    }

    pub(crate) fn row_at(&self, index: usize) -> Result<hp_row, u8> {
        let mut out = hp_row::default();
        // SAFETY: as at the head of the file.
        let status = read(unsafe { hp_row_at(self.session.get(), index, &mut out) });
        if status == HP_OK { Ok(out) } else { Err(status) }
    }

    pub(crate) fn row_name(&self, index: usize, part: u8) -> Result<&[u8], u8> {
        let mut out = hp_bytes { bytes: NonNull::dangling().as_ptr(), length: 0 };
        // SAFETY: as at the head of the file.
        let status = read(unsafe { hp_row_name(self.session.get(), index, part, &mut out) });
        if status != HP_OK {
            return Err(status);
        }
        // SAFETY: the borrowed data is valid as long as the handle is borrowed.
        Ok(unsafe { std::slice::from_raw_parts(out.bytes, out.length) })
    }

    pub(crate) fn row_text(&self, index: usize) -> Result<&[u16], u8> {
        let mut out = hp_text_view { units: NonNull::dangling().as_ptr(), length: 0 };
        // SAFETY: as at the head of the file.
        let status = read(unsafe { hp_row_text(self.session.get(), index, &mut out) });
        if status != HP_OK {
            return Err(status);
        }
        // SAFETY: the borrowed data is valid as long as the handle is borrowed.
        Ok(unsafe { std::slice::from_raw_parts(out.units, out.length) })
    }

    pub(crate) fn row_attribute_name(&self, index: usize, at: usize) -> Result<&[u8], u8> {
        let mut out = hp_bytes { bytes: NonNull::dangling().as_ptr(), length: 0 };
        // SAFETY: as at the head of the file.
        let status = read(unsafe { hp_row_attribute_name(self.session.get(), index, at, &mut out) });
        if status != HP_OK {
            return Err(status);
        }
        // SAFETY: the borrowed data is valid as long as the handle is borrowed.
        Ok(unsafe { std::slice::from_raw_parts(out.bytes, out.length) })
    }

    pub(crate) fn row_attribute_value(&self, index: usize, at: usize) -> Result<&[u16], u8> {
        let mut out = hp_text_view { units: NonNull::dangling().as_ptr(), length: 0 };
        // SAFETY: as at the head of the file.
        let status = read(unsafe { hp_row_attribute_value(self.session.get(), index, at, &mut out) });
        if status != HP_OK {
            return Err(status);
        }
        // SAFETY: the borrowed data is valid as long as the handle is borrowed.
        Ok(unsafe { std::slice::from_raw_parts(out.units, out.length) })
    }

    pub(crate) fn notice_at(&self, index: usize) -> Result<hp_notice, u8> {
        let mut out = hp_notice::default();
        // SAFETY: as at the head of the file.
        let status = read(unsafe { hp_notice_at(self.session.get(), index, &mut out) });
        if status == HP_OK { Ok(out) } else { Err(status) }
    }

    pub(crate) fn record_at(&self, notice: usize, index: usize) -> Result<hp_record, u8> {
        let mut out = hp_record::default();
        // SAFETY: as at the head of the file.
        let status = read(unsafe { hp_record_at(self.session.get(), notice, index, &mut out) });
        if status == HP_OK { Ok(out) } else { Err(status) }
    }

    pub(crate) fn records_into(&self, notice: usize, records: &mut [hp_record]) -> Result<usize, u8> {
        let mut out = 0;
        // SAFETY: as at the head of the file.
        let status = read(unsafe { hp_records_into(self.session.get(), notice, records.as_mut_ptr(), records.len(), &mut out) });
        if status == HP_OK { Ok(out) } else { Err(status) }
    }

    pub(crate) fn record_added_at(&self, notice: usize, index: usize, at: usize) -> Result<u32, u8> {
        let mut out = 0;
        // SAFETY: as at the head of the file.
        let status = read(unsafe { hp_record_added_at(self.session.get(), notice, index, at, &mut out) });
        if status == HP_OK { Ok(out) } else { Err(status) }
    }

    pub(crate) fn record_removed_at(&self, notice: usize, index: usize, at: usize) -> Result<u32, u8> {
        let mut out = 0;
        // SAFETY: as at the head of the file.
        let status = read(unsafe { hp_record_removed_at(self.session.get(), notice, index, at, &mut out) });
        if status == HP_OK { Ok(out) } else { Err(status) }
    }

    pub(crate) fn record_name(&self, notice: usize, index: usize) -> Result<&[u8], u8> {
        let mut out = hp_bytes { bytes: NonNull::dangling().as_ptr(), length: 0 };
        // SAFETY: as at the head of the file.
        let status = read(unsafe { hp_record_name(self.session.get(), notice, index, &mut out) });
        if status != HP_OK {
            return Err(status);
        }
        // SAFETY: the borrowed data is valid as long as the handle is borrowed.
        Ok(unsafe { std::slice::from_raw_parts(out.bytes, out.length) })
    }

    pub(crate) fn record_old_value(&self, notice: usize, index: usize) -> Result<&[u16], u8> {
        let mut out = hp_text_view { units: NonNull::dangling().as_ptr(), length: 0 };
        // SAFETY: as at the head of the file.
        let status = read(unsafe { hp_record_old_value(self.session.get(), notice, index, &mut out) });
        if status != HP_OK {
            return Err(status);
        }
        // SAFETY: the borrowed data is valid as long as the handle is borrowed.
        Ok(unsafe { std::slice::from_raw_parts(out.units, out.length) })
    }

    pub(crate) fn new_document(&mut self) -> Result<u32, u8> {
        let mut out = 0;
        // SAFETY: as at the head of the file.
        let status = read(unsafe { hp_new_document(self.session.get(), &mut out) });
        if status == HP_OK { Ok(out) } else { Err(status) }
    }

    pub(crate) fn create_element(&mut self, document: u32, name: &[u8]) -> Result<u32, u8> {
        let mut out = 0;
        // SAFETY: as at the head of the file.
        let status = read(unsafe { hp_create_element(self.session.get(), document, name.as_ptr(), name.len(), &mut out) });
        if status == HP_OK { Ok(out) } else { Err(status) }
    }

    pub(crate) fn create_text(&mut self, document: u32, data: &[u16]) -> Result<u32, u8> {
        let mut out = 0;
        // SAFETY: as at the head of the file.
        let status = read(unsafe { hp_create_text(self.session.get(), document, data.as_ptr(), data.len(), &mut out) });
        if status == HP_OK { Ok(out) } else { Err(status) }
    }

    pub(crate) fn create_comment(&mut self, document: u32, data: &[u16]) -> Result<u32, u8> {
        let mut out = 0;
        // SAFETY: as at the head of the file.
        let status = read(unsafe { hp_create_comment(self.session.get(), document, data.as_ptr(), data.len(), &mut out) });
        if status == HP_OK { Ok(out) } else { Err(status) }
    }

    pub(crate) fn create_pi(&mut self, document: u32, target: &[u8], data: &[u16]) -> Result<u32, u8> {
        let mut out = 0;
        // SAFETY: as at the head of the file.
        let status = read(unsafe { hp_create_pi(self.session.get(), document, target.as_ptr(), target.len(), data.as_ptr(), data.len(), &mut out) });
        if status == HP_OK { Ok(out) } else { Err(status) }
    }

    pub(crate) fn create_doctype(&mut self, document: u32, name: &[u8], public_id: &[u8], system_id: &[u8]) -> Result<u32, u8> {
        let mut out = 0;
        // SAFETY: as at the head of the file.
        let status = read(unsafe { hp_create_doctype(self.session.get(), document, name.as_ptr(), name.len(), public_id.as_ptr(), public_id.len(), system_id.as_ptr(), system_id.len(), &mut out) });
        if status == HP_OK { Ok(out) } else { Err(status) }
    }

    pub(crate) fn create_fragment(&mut self, document: u32) -> Result<u32, u8> {
        let mut out = 0;
        // SAFETY: as at the head of the file.
        let status = read(unsafe { hp_create_fragment(self.session.get(), document, &mut out) });
        if status == HP_OK { Ok(out) } else { Err(status) }
    }

    pub(crate) fn insert_before(&mut self, parent: u32, node: u32, child: u32) -> Result<(), u8> {
        // SAFETY: as at the head of the file.
        let status = read(unsafe { hp_insert_before(self.session.get(), parent, node, child) });
        if status == HP_OK { Ok(()) } else { Err(status) }
    }

    pub(crate) fn append_child(&mut self, parent: u32, node: u32) -> Result<(), u8> {
        // SAFETY: as at the head of the file.
        let status = read(unsafe { hp_append_child(self.session.get(), parent, node) });
        if status == HP_OK { Ok(()) } else { Err(status) }
    }

    pub(crate) fn adopt_node(&mut self, document: u32, node: u32) -> Result<(), u8> {
        // SAFETY: as at the head of the file.
        let status = read(unsafe { hp_adopt_node(self.session.get(), document, node) });
        if status == HP_OK { Ok(()) } else { Err(status) }
    }

    pub(crate) fn replace_child(&mut self, parent: u32, node: u32, child: u32) -> Result<(), u8> {
        // SAFETY: as at the head of the file.
        let status = read(unsafe { hp_replace_child(self.session.get(), parent, node, child) });
        if status == HP_OK { Ok(()) } else { Err(status) }
    }

    pub(crate) fn remove_child(&mut self, parent: u32, child: u32) -> Result<(), u8> {
        // SAFETY: as at the head of the file.
        let status = read(unsafe { hp_remove_child(self.session.get(), parent, child) });
        if status == HP_OK { Ok(()) } else { Err(status) }
    }

    pub(crate) fn remove(&mut self, node: u32) -> Result<(), u8> {
        // SAFETY: as at the head of the file.
        let status = read(unsafe { hp_remove(self.session.get(), node) });
        if status == HP_OK { Ok(()) } else { Err(status) }
    }

    pub(crate) fn replace_children(&mut self, parent: u32, node: u32) -> Result<(), u8> {
        // SAFETY: as at the head of the file.
        let status = read(unsafe { hp_replace_children(self.session.get(), parent, node) });
        if status == HP_OK { Ok(()) } else { Err(status) }
    }

    pub(crate) fn normalize(&mut self, node: u32) -> Result<(), u8> {
        // SAFETY: as at the head of the file.
        let status = read(unsafe { hp_normalize(self.session.get(), node) });
        if status == HP_OK { Ok(()) } else { Err(status) }
    }

    pub(crate) fn set_text_content(&mut self, node: u32, text: &[u16]) -> Result<(), u8> {
        // SAFETY: as at the head of the file.
        let status = read(unsafe { hp_set_text_content(self.session.get(), node, text.as_ptr(), text.len()) });
        if status == HP_OK { Ok(()) } else { Err(status) }
    }

    pub(crate) fn discard(&mut self, node: u32) -> Result<(), u8> {
        // SAFETY: as at the head of the file.
        let status = read(unsafe { hp_discard(self.session.get(), node) });
        if status == HP_OK { Ok(()) } else { Err(status) }
    }

    pub(crate) fn import_node(&mut self, document: u32, node: u32, deep: bool) -> Result<u32, u8> {
        let mut out = 0;
        // SAFETY: as at the head of the file.
        let status = read(unsafe { hp_import_node(self.session.get(), document, node, deep, &mut out) });
        if status == HP_OK { Ok(out) } else { Err(status) }
    }

    pub(crate) fn clone_node(&mut self, node: u32, deep: bool) -> Result<u32, u8> {
        let mut out = 0;
        // SAFETY: as at the head of the file.
        let status = read(unsafe { hp_clone_node(self.session.get(), node, deep, &mut out) });
        if status == HP_OK { Ok(out) } else { Err(status) }
    }

    pub(crate) fn node(&mut self, node: u32) -> Result<hp_place, u8> {
        let mut out = hp_place::default();
        // SAFETY: as at the head of the file.
        let status = read(unsafe { hp_node(self.session.get(), node, &mut out) });
        if status == HP_OK { Ok(out) } else { Err(status) }
    }

    pub(crate) fn children(&mut self, node: u32) -> Result<(), u8> {
        // SAFETY: as at the head of the file.
        let status = read(unsafe { hp_children(self.session.get(), node) });
        if status == HP_OK { Ok(()) } else { Err(status) }
    }

    pub(crate) fn index(&mut self, node: u32) -> Result<usize, u8> {
        let mut out = 0;
        // SAFETY: as at the head of the file.
        let status = read(unsafe { hp_index(self.session.get(), node, &mut out) });
        if status == HP_OK { Ok(out) } else { Err(status) }
    }

    pub(crate) fn length(&mut self, node: u32) -> Result<usize, u8> {
        let mut out = 0;
        // SAFETY: as at the head of the file.
        let status = read(unsafe { hp_length(self.session.get(), node, &mut out) });
        if status == HP_OK { Ok(out) } else { Err(status) }
    }

    pub(crate) fn root(&mut self, node: u32) -> Result<u32, u8> {
        let mut out = 0;
        // SAFETY: as at the head of the file.
        let status = read(unsafe { hp_root(self.session.get(), node, &mut out) });
        if status == HP_OK { Ok(out) } else { Err(status) }
    }

    pub(crate) fn contains(&mut self, node: u32, other: u32) -> Result<u8, u8> {
        let mut out = 0;
        // SAFETY: as at the head of the file.
        let status = read(unsafe { hp_contains(self.session.get(), node, other, &mut out) });
        if status == HP_OK { Ok(out) } else { Err(status) }
    }

    pub(crate) fn is_equal(&mut self, node: u32, other: u32) -> Result<u8, u8> {
        let mut out = 0;
        // SAFETY: as at the head of the file.
        let status = read(unsafe { hp_is_equal(self.session.get(), node, other, &mut out) });
        if status == HP_OK { Ok(out) } else { Err(status) }
    }

    pub(crate) fn compare_position(&mut self, node: u32, other: u32) -> Result<u32, u8> {
        let mut out = 0;
        // SAFETY: as at the head of the file.
        let status = read(unsafe { hp_compare_position(self.session.get(), node, other, &mut out) });
        if status == HP_OK { Ok(out) } else { Err(status) }
    }

    pub(crate) fn text_content(&mut self, node: u32) -> Result<(), u8> {
        // SAFETY: as at the head of the file.
        let status = read(unsafe { hp_text_content(self.session.get(), node) });
        if status == HP_OK { Ok(()) } else { Err(status) }
    }

    pub(crate) fn tree(&mut self, node: u32) -> Result<(), u8> {
        // SAFETY: as at the head of the file.
        let status = read(unsafe { hp_tree(self.session.get(), node) });
        if status == HP_OK { Ok(()) } else { Err(status) }
    }

    pub(crate) fn links(&self, node: u32) -> Result<hp_node_links, u8> {
        let mut out = hp_node_links::default();
        // SAFETY: as at the head of the file.
        let status = read(unsafe { hp_links(self.session.get(), node, &mut out) });
        if status == HP_OK { Ok(out) } else { Err(status) }
    }

    pub(crate) fn first_child(&self, node: u32) -> Result<u32, u8> {
        let mut out = 0;
        // SAFETY: as at the head of the file.
        let status = read(unsafe { hp_first_child(self.session.get(), node, &mut out) });
        if status == HP_OK { Ok(out) } else { Err(status) }
    }

    pub(crate) fn last_child(&self, node: u32) -> Result<u32, u8> {
        let mut out = 0;
        // SAFETY: as at the head of the file.
        let status = read(unsafe { hp_last_child(self.session.get(), node, &mut out) });
        if status == HP_OK { Ok(out) } else { Err(status) }
    }

    pub(crate) fn child_at(&self, node: u32, index: usize) -> Result<u32, u8> {
        let mut out = 0;
        // SAFETY: as at the head of the file.
        let status = read(unsafe { hp_child_at(self.session.get(), node, index, &mut out) });
        if status == HP_OK { Ok(out) } else { Err(status) }
    }

    pub(crate) fn children_into(&self, node: u32, numbers: &mut [u32]) -> Result<usize, u8> {
        let mut out = 0;
        // SAFETY: as at the head of the file.
        let status = read(unsafe { hp_children_into(self.session.get(), node, numbers.as_mut_ptr(), numbers.len(), &mut out) });
        if status == HP_OK { Ok(out) } else { Err(status) }
    }

    pub(crate) fn subtree_into(&self, root: u32, start: u32, rows: &mut [hp_subtree_row]) -> Result<(usize, u32), u8> {
        let mut count = 0;
        let mut next = 0;
        // SAFETY: as at the head of the file.
        let status = read(unsafe { hp_subtree_into(self.session.get(), root, start, rows.as_mut_ptr(), rows.len(), &mut count, &mut next) });
        if status == HP_OK { Ok((count, next)) } else { Err(status) }
    }

    pub(crate) fn name_of(&self, node: u32, part: u8) -> Result<&[u8], u8> {
        let mut out = hp_bytes { bytes: NonNull::dangling().as_ptr(), length: 0 };
        // SAFETY: as at the head of the file.
        let status = read(unsafe { hp_name_of(self.session.get(), node, part, &mut out) });
        if status != HP_OK {
            return Err(status);
        }
        // SAFETY: the borrowed data is valid as long as the handle is borrowed.
        Ok(unsafe { std::slice::from_raw_parts(out.bytes, out.length) })
    }

    pub(crate) fn data_of(&self, node: u32) -> Result<&[u16], u8> {
        let mut out = hp_text_view { units: NonNull::dangling().as_ptr(), length: 0 };
        // SAFETY: as at the head of the file.
        let status = read(unsafe { hp_data_of(self.session.get(), node, &mut out) });
        if status != HP_OK {
            return Err(status);
        }
        // SAFETY: the borrowed data is valid as long as the handle is borrowed.
        Ok(unsafe { std::slice::from_raw_parts(out.units, out.length) })
    }

    pub(crate) fn attribute_at(&self, node: u32, index: usize) -> Result<(&[u8], &[u16]), u8> {
        let mut name = hp_bytes { bytes: NonNull::dangling().as_ptr(), length: 0 };
        let mut value = hp_text_view { units: NonNull::dangling().as_ptr(), length: 0 };
        // SAFETY: as at the head of the file.
        let status = read(unsafe { hp_attribute_at(self.session.get(), node, index, &mut name, &mut value) });
        if status != HP_OK {
            return Err(status);
        }
        // SAFETY: the borrowed data is valid as long as the handle is borrowed.
        Ok((unsafe { std::slice::from_raw_parts(name.bytes, name.length) }, unsafe { std::slice::from_raw_parts(value.units, value.length) }))
    }

    pub(crate) fn in_use(&self) -> Result<hp_counts, u8> {
        let mut out = hp_counts::default();
        // SAFETY: as at the head of the file.
        let status = read(unsafe { hp_in_use(self.session.get(), &mut out) });
        if status == HP_OK { Ok(out) } else { Err(status) }
    }

    pub(crate) fn nodes_made(&self) -> Result<u64, u8> {
        let mut out = 0;
        // SAFETY: as at the head of the file.
        let status = read(unsafe { hp_nodes_made(self.session.get(), &mut out) });
        if status == HP_OK { Ok(out) } else { Err(status) }
    }

    pub(crate) fn data(&mut self, node: u32) -> Result<(), u8> {
        // SAFETY: as at the head of the file.
        let status = read(unsafe { hp_data(self.session.get(), node) });
        if status == HP_OK { Ok(()) } else { Err(status) }
    }

    pub(crate) fn set_data(&mut self, node: u32, data: &[u16]) -> Result<(), u8> {
        // SAFETY: as at the head of the file.
        let status = read(unsafe { hp_set_data(self.session.get(), node, data.as_ptr(), data.len()) });
        if status == HP_OK { Ok(()) } else { Err(status) }
    }

    pub(crate) fn append_data(&mut self, node: u32, data: &[u16]) -> Result<(), u8> {
        // SAFETY: as at the head of the file.
        let status = read(unsafe { hp_append_data(self.session.get(), node, data.as_ptr(), data.len()) });
        if status == HP_OK { Ok(()) } else { Err(status) }
    }

    pub(crate) fn insert_data(&mut self, node: u32, offset: u32, data: &[u16]) -> Result<(), u8> {
        // SAFETY: as at the head of the file.
        let status = read(unsafe { hp_insert_data(self.session.get(), node, offset, data.as_ptr(), data.len()) });
        if status == HP_OK { Ok(()) } else { Err(status) }
    }

    pub(crate) fn delete_data(&mut self, node: u32, offset: u32, count: u32) -> Result<(), u8> {
        // SAFETY: as at the head of the file.
        let status = read(unsafe { hp_delete_data(self.session.get(), node, offset, count) });
        if status == HP_OK { Ok(()) } else { Err(status) }
    }

    pub(crate) fn replace_data(&mut self, node: u32, offset: u32, count: u32, data: &[u16]) -> Result<(), u8> {
        // SAFETY: as at the head of the file.
        let status = read(unsafe { hp_replace_data(self.session.get(), node, offset, count, data.as_ptr(), data.len()) });
        if status == HP_OK { Ok(()) } else { Err(status) }
    }

    pub(crate) fn substring_data(&mut self, node: u32, offset: u32, count: u32) -> Result<(), u8> {
        // SAFETY: as at the head of the file.
        let status = read(unsafe { hp_substring_data(self.session.get(), node, offset, count) });
        if status == HP_OK { Ok(()) } else { Err(status) }
    }

    pub(crate) fn split_text(&mut self, text: u32, offset: u32) -> Result<u32, u8> {
        let mut out = 0;
        // SAFETY: as at the head of the file.
        let status = read(unsafe { hp_split_text(self.session.get(), text, offset, &mut out) });
        if status == HP_OK { Ok(out) } else { Err(status) }
    }

    pub(crate) fn set_attribute(&mut self, element: u32, name: &[u8], value: &[u16]) -> Result<(), u8> {
        // SAFETY: as at the head of the file.
        let status = read(unsafe { hp_set_attribute(self.session.get(), element, name.as_ptr(), name.len(), value.as_ptr(), value.len()) });
        if status == HP_OK { Ok(()) } else { Err(status) }
    }

    pub(crate) fn get_attribute(&mut self, element: u32, name: &[u8]) -> Result<(), u8> {
        // SAFETY: as at the head of the file.
        let status = read(unsafe { hp_get_attribute(self.session.get(), element, name.as_ptr(), name.len()) });
        if status == HP_OK { Ok(()) } else { Err(status) }
    }

    pub(crate) fn has_attribute(&mut self, element: u32, name: &[u8]) -> Result<u8, u8> {
        let mut out = 0;
        // SAFETY: as at the head of the file.
        let status = read(unsafe { hp_has_attribute(self.session.get(), element, name.as_ptr(), name.len(), &mut out) });
        if status == HP_OK { Ok(out) } else { Err(status) }
    }

    pub(crate) fn remove_attribute(&mut self, element: u32, name: &[u8]) -> Result<(), u8> {
        // SAFETY: as at the head of the file.
        let status = read(unsafe { hp_remove_attribute(self.session.get(), element, name.as_ptr(), name.len()) });
        if status == HP_OK { Ok(()) } else { Err(status) }
    }

    pub(crate) fn toggle_attribute(&mut self, element: u32, name: &[u8], force: u8) -> Result<u8, u8> {
        let mut out = 0;
        // SAFETY: as at the head of the file.
        let status = read(unsafe { hp_toggle_attribute(self.session.get(), element, name.as_ptr(), name.len(), force, &mut out) });
        if status == HP_OK { Ok(out) } else { Err(status) }
    }

    pub(crate) fn attribute_names(&mut self, element: u32) -> Result<(), u8> {
        // SAFETY: as at the head of the file.
        let status = read(unsafe { hp_attribute_names(self.session.get(), element) });
        if status == HP_OK { Ok(()) } else { Err(status) }
    }

    pub(crate) fn create_range(&mut self, document: u32) -> Result<u32, u8> {
        let mut out = 0;
        // SAFETY: as at the head of the file.
        let status = read(unsafe { hp_create_range(self.session.get(), document, &mut out) });
        if status == HP_OK { Ok(out) } else { Err(status) }
    }

    pub(crate) fn clone_range(&mut self, range: u32) -> Result<u32, u8> {
        let mut out = 0;
        // SAFETY: as at the head of the file.
        let status = read(unsafe { hp_clone_range(self.session.get(), range, &mut out) });
        if status == HP_OK { Ok(out) } else { Err(status) }
    }

    pub(crate) fn range(&mut self, range: u32) -> Result<hp_ends, u8> {
        let mut out = hp_ends::default();
        // SAFETY: as at the head of the file.
        let status = read(unsafe { hp_range(self.session.get(), range, &mut out) });
        if status == HP_OK { Ok(out) } else { Err(status) }
    }

    pub(crate) fn set_start(&mut self, range: u32, node: u32, offset: u32) -> Result<(), u8> {
        // SAFETY: as at the head of the file.
        let status = read(unsafe { hp_set_start(self.session.get(), range, node, offset) });
        if status == HP_OK { Ok(()) } else { Err(status) }
    }

    pub(crate) fn set_end(&mut self, range: u32, node: u32, offset: u32) -> Result<(), u8> {
        // SAFETY: as at the head of the file.
        let status = read(unsafe { hp_set_end(self.session.get(), range, node, offset) });
        if status == HP_OK { Ok(()) } else { Err(status) }
    }

    pub(crate) fn set_start_before(&mut self, range: u32, node: u32) -> Result<(), u8> {
        // SAFETY: as at the head of the file.
        let status = read(unsafe { hp_set_start_before(self.session.get(), range, node) });
        if status == HP_OK { Ok(()) } else { Err(status) }
    }

    pub(crate) fn set_start_after(&mut self, range: u32, node: u32) -> Result<(), u8> {
        // SAFETY: as at the head of the file.
        let status = read(unsafe { hp_set_start_after(self.session.get(), range, node) });
        if status == HP_OK { Ok(()) } else { Err(status) }
    }

    pub(crate) fn set_end_before(&mut self, range: u32, node: u32) -> Result<(), u8> {
        // SAFETY: as at the head of the file.
        let status = read(unsafe { hp_set_end_before(self.session.get(), range, node) });
        if status == HP_OK { Ok(()) } else { Err(status) }
    }

    pub(crate) fn set_end_after(&mut self, range: u32, node: u32) -> Result<(), u8> {
        // SAFETY: as at the head of the file.
        let status = read(unsafe { hp_set_end_after(self.session.get(), range, node) });
        if status == HP_OK { Ok(()) } else { Err(status) }
    }

    pub(crate) fn collapse(&mut self, range: u32, to_start: bool) -> Result<(), u8> {
        // SAFETY: as at the head of the file.
        let status = read(unsafe { hp_collapse(self.session.get(), range, to_start) });
        if status == HP_OK { Ok(()) } else { Err(status) }
    }

    pub(crate) fn select_node(&mut self, range: u32, node: u32) -> Result<(), u8> {
        // SAFETY: as at the head of the file.
        let status = read(unsafe { hp_select_node(self.session.get(), range, node) });
        if status == HP_OK { Ok(()) } else { Err(status) }
    }

    pub(crate) fn select_node_contents(&mut self, range: u32, node: u32) -> Result<(), u8> {
        // SAFETY: as at the head of the file.
        let status = read(unsafe { hp_select_node_contents(self.session.get(), range, node) });
        if status == HP_OK { Ok(()) } else { Err(status) }
    }

    pub(crate) fn release_range(&mut self, range: u32) -> Result<(), u8> {
        // SAFETY: as at the head of the file.
        let status = read(unsafe { hp_release_range(self.session.get(), range) });
        if status == HP_OK { Ok(()) } else { Err(status) }
    }

    pub(crate) fn compare_boundary_points(&mut self, range: u32, how: u32, source: u32) -> Result<i8, u8> {
        let mut out = 0;
        // SAFETY: as at the head of the file.
        let status = read(unsafe { hp_compare_boundary_points(self.session.get(), range, how, source, &mut out) });
        if status == HP_OK { Ok(out) } else { Err(status) }
    }

    pub(crate) fn compare_point(&mut self, range: u32, node: u32, offset: u32) -> Result<i8, u8> {
        let mut out = 0;
        // SAFETY: as at the head of the file.
        let status = read(unsafe { hp_compare_point(self.session.get(), range, node, offset, &mut out) });
        if status == HP_OK { Ok(out) } else { Err(status) }
    }

    pub(crate) fn is_point_in_range(&mut self, range: u32, node: u32, offset: u32) -> Result<u8, u8> {
        let mut out = 0;
        // SAFETY: as at the head of the file.
        let status = read(unsafe { hp_is_point_in_range(self.session.get(), range, node, offset, &mut out) });
        if status == HP_OK { Ok(out) } else { Err(status) }
    }

    pub(crate) fn intersects_node(&mut self, range: u32, node: u32) -> Result<u8, u8> {
        let mut out = 0;
        // SAFETY: as at the head of the file.
        let status = read(unsafe { hp_intersects_node(self.session.get(), range, node, &mut out) });
        if status == HP_OK { Ok(out) } else { Err(status) }
    }

    pub(crate) fn common_ancestor(&mut self, range: u32) -> Result<u32, u8> {
        let mut out = 0;
        // SAFETY: as at the head of the file.
        let status = read(unsafe { hp_common_ancestor(self.session.get(), range, &mut out) });
        if status == HP_OK { Ok(out) } else { Err(status) }
    }

    pub(crate) fn create_static_range(&mut self, start: u32, start_offset: u32, end: u32, end_offset: u32) -> Result<u32, u8> {
        let mut out = 0;
        // SAFETY: as at the head of the file.
        let status = read(unsafe { hp_create_static_range(self.session.get(), start, start_offset, end, end_offset, &mut out) });
        if status == HP_OK { Ok(out) } else { Err(status) }
    }

    pub(crate) fn static_range(&mut self, range: u32) -> Result<hp_static_ends, u8> {
        let mut out = hp_static_ends::default();
        // SAFETY: as at the head of the file.
        let status = read(unsafe { hp_static_range(self.session.get(), range, &mut out) });
        if status == HP_OK { Ok(out) } else { Err(status) }
    }

    pub(crate) fn release_static_range(&mut self, range: u32) -> Result<(), u8> {
        // SAFETY: as at the head of the file.
        let status = read(unsafe { hp_release_static_range(self.session.get(), range) });
        if status == HP_OK { Ok(()) } else { Err(status) }
    }

    pub(crate) fn range_text(&mut self, range: u32) -> Result<(), u8> {
        // SAFETY: as at the head of the file.
        let status = read(unsafe { hp_range_text(self.session.get(), range) });
        if status == HP_OK { Ok(()) } else { Err(status) }
    }

    pub(crate) fn delete_contents(&mut self, range: u32) -> Result<(), u8> {
        // SAFETY: as at the head of the file.
        let status = read(unsafe { hp_delete_contents(self.session.get(), range) });
        if status == HP_OK { Ok(()) } else { Err(status) }
    }

    pub(crate) fn extract_contents(&mut self, range: u32) -> Result<u32, u8> {
        let mut out = 0;
        // SAFETY: as at the head of the file.
        let status = read(unsafe { hp_extract_contents(self.session.get(), range, &mut out) });
        if status == HP_OK { Ok(out) } else { Err(status) }
    }

    pub(crate) fn clone_contents(&mut self, range: u32) -> Result<u32, u8> {
        let mut out = 0;
        // SAFETY: as at the head of the file.
        let status = read(unsafe { hp_clone_contents(self.session.get(), range, &mut out) });
        if status == HP_OK { Ok(out) } else { Err(status) }
    }

    pub(crate) fn insert_node(&mut self, range: u32, node: u32) -> Result<(), u8> {
        // SAFETY: as at the head of the file.
        let status = read(unsafe { hp_insert_node(self.session.get(), range, node) });
        if status == HP_OK { Ok(()) } else { Err(status) }
    }

    pub(crate) fn surround_contents(&mut self, range: u32, parent: u32) -> Result<(), u8> {
        // SAFETY: as at the head of the file.
        let status = read(unsafe { hp_surround_contents(self.session.get(), range, parent) });
        if status == HP_OK { Ok(()) } else { Err(status) }
    }

    pub(crate) fn create_iterator(&mut self, root: u32, show: u32, names: &[u8], lengths: &[u32], verdicts: &[u8]) -> Result<u32, u8> {
        let mut out = 0;
        // SAFETY: as at the head of the file.
        let status = read(unsafe { hp_create_iterator(self.session.get(), root, show, names.as_ptr(), names.len(), lengths.as_ptr(), lengths.len(), verdicts.as_ptr(), verdicts.len(), &mut out) });
        if status == HP_OK { Ok(out) } else { Err(status) }
    }

    pub(crate) fn create_walker(&mut self, root: u32, show: u32, names: &[u8], lengths: &[u32], verdicts: &[u8]) -> Result<u32, u8> {
        let mut out = 0;
        // SAFETY: as at the head of the file.
        let status = read(unsafe { hp_create_walker(self.session.get(), root, show, names.as_ptr(), names.len(), lengths.as_ptr(), lengths.len(), verdicts.as_ptr(), verdicts.len(), &mut out) });
        if status == HP_OK { Ok(out) } else { Err(status) }
    }

    pub(crate) fn iterator(&mut self, iterator: u32) -> Result<hp_iterator_at, u8> {
        let mut out = hp_iterator_at::default();
        // SAFETY: as at the head of the file.
        let status = read(unsafe { hp_iterator(self.session.get(), iterator, &mut out) });
        if status == HP_OK { Ok(out) } else { Err(status) }
    }

    pub(crate) fn next_node(&mut self, iterator: u32) -> Result<u32, u8> {
        let mut out = 0;
        // SAFETY: as at the head of the file.
        let status = read(unsafe { hp_next_node(self.session.get(), iterator, &mut out) });
        if status == HP_OK { Ok(out) } else { Err(status) }
    }

    pub(crate) fn next_nodes_into(&mut self, iterator: u32, nodes: &mut [u32]) -> Result<usize, u8> {
        let mut out = 0;
        // SAFETY: as at the head of the file.
        let status = read(unsafe { hp_next_nodes_into(self.session.get(), iterator, nodes.as_mut_ptr(), nodes.len(), &mut out) });
        if status == HP_OK { Ok(out) } else { Err(status) }
    }

    pub(crate) fn previous_node(&mut self, iterator: u32) -> Result<u32, u8> {
        let mut out = 0;
        // SAFETY: as at the head of the file.
        let status = read(unsafe { hp_previous_node(self.session.get(), iterator, &mut out) });
        if status == HP_OK { Ok(out) } else { Err(status) }
    }

    pub(crate) fn walker(&mut self, walker: u32) -> Result<hp_walker_at, u8> {
        let mut out = hp_walker_at::default();
        // SAFETY: as at the head of the file.
        let status = read(unsafe { hp_walker(self.session.get(), walker, &mut out) });
        if status == HP_OK { Ok(out) } else { Err(status) }
    }

    pub(crate) fn set_current(&mut self, walker: u32, node: u32) -> Result<(), u8> {
        // SAFETY: as at the head of the file.
        let status = read(unsafe { hp_set_current(self.session.get(), walker, node) });
        if status == HP_OK { Ok(()) } else { Err(status) }
    }

    pub(crate) fn walk(&mut self, walker: u32, direction: u8) -> Result<u32, u8> {
        let mut out = 0;
        // SAFETY: as at the head of the file.
        let status = read(unsafe { hp_walk(self.session.get(), walker, direction, &mut out) });
        if status == HP_OK { Ok(out) } else { Err(status) }
    }

    pub(crate) fn walk_into(&mut self, walker: u32, direction: u8, nodes: &mut [u32]) -> Result<usize, u8> {
        let mut out = 0;
        // SAFETY: as at the head of the file.
        let status = read(unsafe { hp_walk_into(self.session.get(), walker, direction, nodes.as_mut_ptr(), nodes.len(), &mut out) });
        if status == HP_OK { Ok(out) } else { Err(status) }
    }

    pub(crate) fn release_iterator(&mut self, iterator: u32) -> Result<(), u8> {
        // SAFETY: as at the head of the file.
        let status = read(unsafe { hp_release_iterator(self.session.get(), iterator) });
        if status == HP_OK { Ok(()) } else { Err(status) }
    }

    pub(crate) fn release_walker(&mut self, walker: u32) -> Result<(), u8> {
        // SAFETY: as at the head of the file.
        let status = read(unsafe { hp_release_walker(self.session.get(), walker) });
        if status == HP_OK { Ok(()) } else { Err(status) }
    }

    pub(crate) fn create_observer(&mut self) -> Result<u32, u8> {
        let mut out = 0;
        // SAFETY: as at the head of the file.
        let status = read(unsafe { hp_create_observer(self.session.get(), &mut out) });
        if status == HP_OK { Ok(out) } else { Err(status) }
    }

    pub(crate) fn observe(&mut self, observer: u32, node: u32, options: &hp_options, names: &[u8], lengths: &[u32]) -> Result<(), u8> {
        // SAFETY: as at the head of the file.
        let status = read(unsafe { hp_observe(self.session.get(), observer, node, options, names.as_ptr(), names.len(), lengths.as_ptr(), lengths.len()) });
        if status == HP_OK { Ok(()) } else { Err(status) }
    }

    pub(crate) fn disconnect(&mut self, observer: u32) -> Result<(), u8> {
        // SAFETY: as at the head of the file.
        let status = read(unsafe { hp_disconnect(self.session.get(), observer) });
        if status == HP_OK { Ok(()) } else { Err(status) }
    }

    pub(crate) fn take_records(&mut self, observer: u32) -> Result<(), u8> {
        // SAFETY: as at the head of the file.
        let status = read(unsafe { hp_take_records(self.session.get(), observer) });
        if status == HP_OK { Ok(()) } else { Err(status) }
    }

    pub(crate) fn notify(&mut self) -> Result<(), u8> {
        // SAFETY: as at the head of the file.
        let status = read(unsafe { hp_notify(self.session.get()) });
        if status == HP_OK { Ok(()) } else { Err(status) }
    }

    pub(crate) fn pending(&mut self) -> Result<(), u8> {
        // SAFETY: as at the head of the file.
        let status = read(unsafe { hp_pending(self.session.get()) });
        if status == HP_OK { Ok(()) } else { Err(status) }
    }

    pub(crate) fn take_pending(&mut self) -> Result<(), u8> {
        // SAFETY: as at the head of the file.
        let status = read(unsafe { hp_take_pending(self.session.get()) });
        if status == HP_OK { Ok(()) } else { Err(status) }
    }

    pub(crate) fn tell_observer(&mut self, observer: u32) -> Result<(), u8> {
        // SAFETY: as at the head of the file.
        let status = read(unsafe { hp_tell_observer(self.session.get(), observer) });
        if status == HP_OK { Ok(()) } else { Err(status) }
    }

    pub(crate) fn release_observer(&mut self, observer: u32) -> Result<(), u8> {
        // SAFETY: as at the head of the file.
        let status = read(unsafe { hp_release_observer(self.session.get(), observer) });
        if status == HP_OK { Ok(()) } else { Err(status) }
    }
}
