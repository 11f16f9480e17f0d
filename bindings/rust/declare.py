#!/usr/bin/env python3
"""Writes src/ffi.rs: the calls of the library as Rust declares them, and over each a safe method of a handle.

It is made from the exports of crates/dom_c, as the header for C is. With --check it writes nothing, and fails if the file differs.
"""
import argparse
import os
import sys

HERE = os.path.dirname(os.path.abspath(__file__))
sys.dont_write_bytecode = True
sys.path.insert(0, os.path.join(os.path.dirname(HERE), "c"))
from exports import READING, SOURCES, modules

TO = os.path.join(HERE, "src/ffi.rs")

TYPES = {
    "uint8_t": "u8",
    "uint16_t": "u16",
    "uint32_t": "u32",
    "uint64_t": "u64",
    "int8_t": "i8",
    "int16_t": "i16",
    "int32_t": "i32",
    "int64_t": "i64",
    "size_t": "usize",
    "bool": "bool",
}
KEYWORDS = {"type": "type_", "move": "move_", "ref": "ref_"}

# These two are the handle's own opening and closing.
OWN = {"hp_open", "hp_close"}

HEAD = """\
//! The calls of the library, and over each a safe method. Made by `declare.py` from the exports of the library; not to be edited.
//!
//! This is the one file with unsafe code. All of its calls are sound for the same reasons:
//! - a handle is all zero bytes before it is opened, has an address of its own, and only calls change it;
//! - a slice's pointer is not null, even if the slice is empty, and the pointer in a struct for borrowed data is not null before a call;
//! - a handle is used by one thread at a time, since it is not `Sync`;
//! - a call that changes the session takes `&mut self`, so that nothing is borrowed when it is made;
//! - a call that reads the last answer does not change it, so that data borrowed from other reading calls stays valid.
// (some statuses and constants are not met here)
#![allow(unsafe_code, dead_code)]

use std::cell::UnsafeCell;
use std::ptr::{null_mut, NonNull};

"""

HANDLE = """\
/// An open session of the library, which is closed when it is dropped.
pub(crate) struct Handle {
    session: Box<UnsafeCell<hp_session>>,
}

// SAFETY: the library keeps nothing by threads, and a session may go to another thread between two calls.
unsafe impl Send for Handle {}

/// The status of a call: a session that has ended is read as any other.
fn read(status: u8) -> u8 {
    if status == HP_ENDED { HP_OK } else { status }
}

impl Drop for Handle {
    fn drop(&mut self) {
        // SAFETY: as at the head of the file. Closing frees all that the session keeps.
        unsafe { hp_close(self.session.get()) };
    }
}

impl Handle {
    pub(crate) fn open(numbers: u64, line: usize) -> Result<Handle, u8> {
        let closed = hp_session { slot: hp_slot { at: null_mut() }, is_open: false };
        let handle = Handle { session: Box::new(UnsafeCell::new(closed)) };
        // SAFETY: as at the head of the file. Dropping a handle that stayed closed does nothing.
        let status = unsafe { hp_open(handle.session.get(), numbers, line) };
        if status == HP_OK {
            Ok(handle)
        } else {
            Err(status)
        }
    }

    pub(crate) fn has_ended(&self) -> bool {
        let mut out = hp_counts::default();
        // SAFETY: as at the head of the file.
        unsafe { hp_in_use(self.session.get(), &mut out) == HP_ENDED }
    }
"""


def named(name):
    return KEYWORDS.get(name.rstrip("_"), name)


def rust(name):
    return TYPES.get(name, name)


def line_doc(text, indent=""):
    return f"{indent}/// {text.replace('`HP_NONE`', 'HP_NONE')}\n" if text else ""


def constant(it):
    return f"pub(crate) const {it.name}: {rust(it.type)} = {it.value};\n"


def field(it, is_alone):
    if it.kind == "slice":
        length = "length" if is_alone else it.name + "_length"
        return f"    {named(it.name)}: *const {rust(it.type)},\n    {length}: usize,\n"
    if it.kind == "pointer":
        return f"    {named(it.name)}: *mut {rust(it.type)},\n"
    return f"    pub(crate) {named(it.name)}: {rust(it.type)},\n"


def struct(it):
    is_plain = all(part.kind == "scalar" for part in it.fields)
    derive = "#[derive(Clone, Copy, Default)]\n" if is_plain else ""
    fields = "".join(field(its, len(it.fields) == 1) for its in it.fields)
    return f"{line_doc(it.doc)}#[repr(C)]\n{derive}#[allow(non_camel_case_types)]\npub(crate) struct {it.name} {{\n{fields}}}\n\n"


def declared(it):
    if it.kind == "session":
        return "session: *mut hp_session"
    if it.kind == "scalar":
        return f"{named(it.name)}: {rust(it.type)}"
    if it.kind == "slice":
        return f"{named(it.name)}: *const {rust(it.type)}, {it.name}_length: usize"
    if it.kind == "array":
        return f"{named(it.name)}: *mut {rust(it.type)}, {it.name}_capacity: usize"
    return f"{named(it.name)}: *{'const' if it.kind == 'in' else 'mut'} {rust(it.type)}"


def external(it):
    return f"    fn {it.name}({', '.join(map(declared, it.parameters))}) -> u8;\n"


def given(it):
    """A parameter of the safe method."""
    form = rust(it.type)
    return f"{named(it.name)}: " + {"scalar": form, "slice": f"&[{form}]", "array": f"&mut [{form}]", "in": f"&{form}"}[it.kind]


def handed(it, place):
    """Returns a parameter as the safe method passes it on; an out value is written at a place."""
    name = named(it.name)
    forms = {"session": "self.session.get()", "scalar": name, "slice": f"{name}.as_ptr(), {name}.len()", "in": name, "out": f"&mut {place}"}
    forms["array"] = f"{name}.as_mut_ptr(), {name}.len()"
    return forms[it.kind]


def nothing(it, lent):
    """Returns the value at an out pointer before the call."""
    if it.type in lent:
        pointer = lent[it.type].fields[0]
        return f"{it.type} {{ {pointer.name}: NonNull::dangling().as_ptr(), length: 0 }}"
    return f"{it.type}::default()" if it.type not in TYPES else "0"


def answered(it, place, lent):
    """Returns the type of the value that a call wrote at a place, and the value."""
    if it.type not in lent:
        return rust(it.type), place
    pointer = lent[it.type].fields[0]
    return f"&[{rust(pointer.type)}]", f"unsafe {{ std::slice::from_raw_parts({place}.{pointer.name}, {place}.length) }}"


def together(parts):
    """One as it is; none and several as a tuple."""
    return parts[0] if len(parts) == 1 else f"({', '.join(parts)})"


def method(it, is_reading, lent):
    """The safe method over a call."""
    outs = [its for its in it.parameters if its.kind == "out"]
    places = {its.name: "out" if len(outs) == 1 else named(its.name) for its in outs}
    answers = [answered(its, places[its.name], lent) for its in outs]
    answer, value = together([form for form, _ in answers]), together([value for _, value in answers])
    reach = "&self" if is_reading else "&mut self"
    ins = [given(its) for its in it.parameters if its.kind not in ("session", "out")]
    text = f"\n    pub(crate) fn {it.name[3:]}({', '.join([reach, *ins])}) -> Result<{answer}, u8> {{\n"
    text += "".join(f"        let mut {places[its.name]} = {nothing(its, lent)};\n" for its in outs)
    words = ", ".join(handed(its, places.get(its.name)) for its in it.parameters)
    text += f"        // SAFETY: as at the head of the file.\n        let status = read(unsafe {{ {it.name}({words}) }});\n"
    if not any(its.type in lent for its in outs):
        return text + f"        if status == HP_OK {{ Ok({value}) }} else {{ Err(status) }}\n    }}\n"
    text += "        if status != HP_OK {\n            return Err(status);\n        }\n"
    return text + f"        // SAFETY: the borrowed data is valid as long as the handle is borrowed.\n        Ok({value})\n    }}\n"


def text_of(found):
    constants = [it for module in found for it in module.constants]
    structs = [it for module in found for it in module.structs]
    lent = {it.name: it for it in structs if [part.kind for part in it.fields] == ["slice"]}
    text = HEAD + "".join(map(constant, constants)) + "\n" + "".join(map(struct, structs))
    text += 'extern "C" {\n' + "".join(external(it) for module in found for it in module.exports) + "}\n\n" + HANDLE
    for module in found:
        # (several of what these lend may be held at once)
        is_reading = module.name in READING | {"version"}
        text += "".join(method(it, is_reading, lent) for it in module.exports if it.name not in OWN)
    return text + "}\n"


def main():
    parser = argparse.ArgumentParser(description=__doc__, formatter_class=argparse.RawDescriptionHelpFormatter)
    parser.add_argument("--sources", default=SOURCES, help="the folder of the exports (crates/dom_c/src)")
    parser.add_argument("--check", action="store_true", help="only check that the file is the one of the exports")
    given_words = parser.parse_args()
    text = text_of(modules(given_words.sources))
    if not given_words.check:
        with open(TO, "w", encoding="utf-8") as file:
            file.write(text)
        return
    with open(TO, encoding="utf-8") as file:
        if file.read() != text:
            sys.exit("bindings/rust/src/ffi.rs is not what the exports give: run python3 bindings/rust/declare.py")


if __name__ == "__main__":
    main()
