"""Reads the declarations of a huckleport.h: its calls, structs and constants, for the scripts that test the library.

They are read from the header and not from the exports, so that the scripts test the same declarations that a program in C has.
"""
import ctypes
import re
from collections import namedtuple

SCALARS = {
    "uint8_t": ctypes.c_uint8,
    "uint16_t": ctypes.c_uint16,
    "uint32_t": ctypes.c_uint32,
    "uint64_t": ctypes.c_uint64,
    "int8_t": ctypes.c_int8,
    "int16_t": ctypes.c_int16,
    "int32_t": ctypes.c_int32,
    "int64_t": ctypes.c_int64,
    "size_t": ctypes.c_size_t,
    "bool": ctypes.c_bool,
}

# type: without its const; is_pointer, is_const
Parameter = namedtuple("Parameter", "name type is_pointer is_const")
Call = namedtuple("Call", "name parameters")
Header = namedtuple("Header", "calls structs constants")


def parameter(text):
    whole = re.fullmatch(r"(const )?(\w+) (\*)?(\w+)", text.strip())
    return Parameter(whole[4], whole[2], bool(whole[3]), bool(whole[1]))


def call(name, text):
    return Call(name, [parameter(it) for it in text.split(",") if it.strip() != "void"])


def header(path):
    """The calls, the structs (by their names, lists of parameters) and the constants of a header."""
    with open(path, encoding="utf-8") as file:
        text = re.sub(r"/\*.*?\*/", "", file.read(), flags=re.S)
    calls = [call(name, given) for name, given in re.findall(r"^uint8_t (hp_\w+)\(([^)]*)\);", text, re.M)]
    structs = {}
    for name, body in re.findall(r"^typedef struct (\w+) \{\n(.*?)^\}", text, re.M | re.S):
        structs[name] = [parameter(it) for it in body.split(";") if it.strip()]
    constants = {name: int(value) for name, value in re.findall(r"^#define (HP_\w+) (?:\(\(uint32_t\))?(\d+)u?\)?$", text, re.M)}
    return Header(calls, structs, constants)


def form(it, made):
    base = made.get(it.type) or SCALARS[it.type]
    return ctypes.POINTER(base) if it.is_pointer else base


def library(path, found):
    """The library, whose calls have the types of the header, and the structs by their names."""
    made, opened = {}, ctypes.CDLL(path)
    for name, fields in found.structs.items():
        made[name] = type(name, (ctypes.Structure,), {"_fields_": [(it.name, form(it, made)) for it in fields]})
    for it in found.calls:
        of_library = getattr(opened, it.name)
        of_library.argtypes = [form(its, made) for its in it.parameters]
        of_library.restype = ctypes.c_uint8
    return opened, made
