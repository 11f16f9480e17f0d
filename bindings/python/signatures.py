#!/usr/bin/env python3
"""Writes the modules of huckleport that describe the library:

- _signatures.py, from the exports of crates/dom_c: the constants, and the names of the arguments of calls;
- _core.pyi, from the same exports: the types of the extension module;
- _commands.py, from docs/commands.json: the names and arguments of the commands.

--check writes nothing, and fails if a module is out of date.
"""
import argparse
import json
import os
import sys

HERE = os.path.dirname(os.path.abspath(__file__))
ROOT = os.path.dirname(os.path.dirname(HERE))
PACKAGE = os.path.join(HERE, "huckleport")
sys.dont_write_bytecode = True
sys.path[:0] = [HERE, os.path.join(ROOT, "bindings/c")]
from exports import SOURCES, modules, status_word
from members import READS

MADE = "Made by bindings/python/signatures.py; not to be edited."
# Slices of bytes that are no name, but a line or what belongs to a list of names.
OCTETS = {"line", "names", "verdicts"}
SLICES = {"uint8_t": "str", "uint16_t": "str", "uint32_t": "Sequence[int]"}
# What a struct that is lent comes back as, and the numbers of an answer.
LENT = {"hp_bytes": "str", "hp_text_view": "str"}
NUMBERS = {"uint8_t": "bool", "int8_t": "int", "uint16_t": "int", "uint32_t": "int", "uint64_t": "int", "size_t": "int"}


def said(text):
    """A comment of the sources as the text of a docstring."""
    return text.replace("`", "").replace('"', "'")


def constants(found):
    text = ""
    for module in found:
        text += "".join(f"{it.name} = {it.value}\n" for it in module.constants)
    statuses = [it for module in found if module.name == "status" for it in module.constants if it.type == "uint8_t"]
    text += "\n# How each status is printed.\nWORDS = {\n"
    text += "".join(f'    {it.name}: "{status_word(it.name)}",\n' for it in statuses) + "}\n"
    text += "\n# The meaning of each status whose word does not say it.\nMEANINGS = {\n"
    text += "".join(f'    {it.name}: "{said(it.doc)}",\n' for it in statuses if it.doc) + "}\n"
    return text


def struct_in(it):
    """A struct that calls are handed."""
    fields = "".join(f"    {part.name}: int\n" for part in it.fields)
    return f'\n\nclass {it.name}(NamedTuple):\n    """{said(it.doc)}"""\n\n{fields}'


def struct_out(it):
    """A struct that calls answer with, as the extension module has it."""
    text = f"\n@final\nclass {it.name}(structseq[int], Tuple[{', '.join(['int'] * len(it.fields))}]):\n"
    names = ", ".join(f'"{part.name}"' for part in it.fields)
    text += f"    if sys.version_info >= (3, 10):\n        __match_args__: Final = ({names})\n\n"
    return text + "".join(f"    @property\n    def {part.name}(self) -> int: ...\n" for part in it.fields)


def outs(it):
    return [part for part in it.parameters if part.kind == "out"]


def signatures(found):
    exports = [it for module in found for it in module.exports]
    taken = {part.type for it in exports for part in it.parameters if part.kind == "in"}
    text = f'"""The constants, the structs that are handed in, and the names of what each call is handed. {MADE}"""\n\n'
    text += "from typing import Dict, NamedTuple, Tuple\n\n" + constants(found)
    text += "".join(struct_in(it) for module in found for it in module.structs if it.name in taken)
    text += "\n\n# The names of what each call is handed beside the session.\nPARAMETERS: Dict[str, Tuple[str, ...]] = {\n"
    for it in exports:
        words = "".join(f'"{part.name}", ' for part in it.parameters if part.kind not in ("session", "out", "array"))
        text += f'    "{it.name[3:]}": ({words.rstrip()}),\n'
    return text + "}\n"


def given(it):
    """The type of a parameter in Python."""
    if it.kind == "slice":
        return "bytes" if it.type == "uint8_t" and it.name in OCTETS else SLICES[it.type]
    if it.kind == "in":
        return f"_signatures.{it.type}"
    return "bool" if it.type == "bool" else "int"


# How an answer is read whole: Python's type.
WHOLE = {"text": "str", "text?": "Optional[str]", "numbers": "List[int]", "names": "List[str]"}


def is_plain(export):
    """Whether a call is a method by itself: it has a session, writes into no array, and at most one thing."""
    kinds = [it.kind for it in export.parameters]
    return "session" in kinds and "array" not in kinds and kinds.count("out") < 2


def takes(export):
    """What a method is handed; each by its place."""
    parts = [it for it in export.parameters if it.kind not in ("out", "session")]
    return ", ".join(["self", *(f"{it.name}: {given(it)}" for it in parts), "/"])


def method(export):
    """The method that makes a call."""
    written = outs(export)
    answer = "None"
    if written:
        answer = LENT.get(written[0].type) or NUMBERS.get(written[0].type) or written[0].type
    return f"    def {export.name[3:]}({takes(export)}) -> {answer}: ...\n"


def reading(export):
    """The method that makes a call and reads its whole answer."""
    return f"    def read_{export.name[3:]}({takes(export)}) -> {WHOLE[READS[export.name[3:]]]}: ...\n"


STUB = """\
import sys
from typing import Any, Dict, Final, Iterator, List, Mapping, Optional, Sequence, Set, Tuple, Type, TypeVar, Union, final

from _typeshed import structseq

from . import _signatures
from .nodes import Node, Row
from .observers import MutationObserver, MutationRecord
from .session import Session

_K = TypeVar("_K", bound=Thing)
"""

BY_HAND = """
class Thing:
    _is_own: bool
    def __new__(cls, session: Session, number: int, /, *given: Any) -> Any: ...
    def __init__(self, session: Session, number: int, /, *given: Any) -> None: ...
    @property
    def session(self) -> Session: ...
    @property
    def number(self) -> int: ...
    @property
    def _calls(self) -> Calls: ...

@final
class Builder:
    def __new__(cls, calls: Calls, document: int, root: int, is_lenient: bool, /) -> Builder: ...
    def add_xml(self, source: Union[str, bytes], /) -> bool: ...
    def add_page(self, page: Any, is_exact: bool, /) -> bool: ...
    def add_part(self, page: Any, /) -> None: ...
    def start(self, name: str, attributes: Mapping[str, str], /) -> None: ...
    def end(self, name: str, /) -> None: ...
    def data(self, text: str, /) -> None: ...
    def comment(self, text: str, /) -> None: ...
    def pi(self, target: str, data: Optional[str], /) -> None: ...
    def doctype(self, name: Optional[str], public_id: Optional[str], system_id: Optional[str], /) -> None: ...
    def close(self, /) -> None: ...
    def add_record(self, /) -> None: ...
    def abandon(self, /) -> None: ...

@final
class Walk(Iterator[Node]):
    def __iter__(self) -> Walk: ...
    def __next__(self) -> Node: ...

@final
class Quick:
    def __get__(self, of: Any, kind: Any = ..., /) -> Any: ...
    def __set__(self, of: Any, value: Any, /) -> None: ...
    def __delete__(self, of: Any, /) -> None: ...

def settle(classes: Dict[str, Any], /) -> None: ...
def member(kind: type, name: str, doc: str, /) -> Any: ...
def attribute(kind: type, name: str, doc: str, /) -> Any: ...
def quick(kind: type, name: str, usual: Any, /) -> Any: ...

@final
class Calls:
    @property
    def is_open(self) -> bool: ...
    def keep(self, session: Session, kind: Type[_K], number: int, /) -> _K: ...
    def make(self, session: Session, kind: Type[_K], number: int, /) -> _K: ...
    def let_all_go(self, /) -> None: ...
    def note(self, nodes: Sequence[int], /) -> None: ...
    def node_object(self, session: Session, number: int, /) -> Node: ...
    def read_name(self, node: int, part: int, /) -> str: ...
    def read_line(self, line: bytes, /) -> Tuple[int, Optional[bytes]]: ...
    def read_printed(self, node: int, /) -> bytes: ...
    def read_tree(self, session: Session, node: int, most: Optional[int], /) -> List[Row]: ...
    def read_orders(self, node: int, to: Dict[int, List[str]], /) -> None: ...
    def read_data_of(self, nodes: Sequence[Node], /) -> List[str]: ...
    def read_text_content_of(self, nodes: Sequence[Node], /) -> List[Optional[str]]: ...
    def read_attribute_of(self, nodes: Sequence[Node], name: str, /) -> List[Optional[str]]: ...
    def read_attributes_of(self, nodes: Sequence[Node], /) -> List[Dict[str, str]]: ...
    def read_markup(
        self,
        node: int,
        text: Tuple[Optional[bytes], ...],
        value: Tuple[Optional[bytes], ...],
        void: Tuple[bytes, ...],
        plain: Tuple[bytes, ...],
        has_empty_tags: bool,
        is_plain: bool,
        /,
    ) -> Tuple[List[Any], Set[str], bool]: ...
    def read_records(self, observer: MutationObserver, left: List[Optional[Tuple[MutationObserver, List[MutationRecord]]]], /) -> List[MutationRecord]: ...
    def tell(
        self,
        session: Session,
        told: List[Optional[Tuple[MutationObserver, List[MutationRecord]]]],
        left: List[Optional[Tuple[MutationObserver, List[MutationRecord]]]],
        /,
    ) -> List[BaseException]: ...
"""


def core(found):
    """The types of the extension module."""
    exports = [it for module in found for it in module.exports]
    written = {part.type for it in exports for part in outs(it)} - set(LENT)
    text = f"# The types of the extension module. {MADE}\n" + STUB
    text += "".join(struct_out(it) for module in found for it in module.structs if it.name in written) + BY_HAND
    calls = [it for it in exports if is_plain(it)]
    return text + "".join(map(method, calls)) + "".join(reading(it) for it in calls if it.name[3:] in READS)


def commands():
    """The table of the commands as docs/commands.json has it."""
    with open(os.path.join(ROOT, "docs/commands.json"), encoding="utf-8") as file:
        found = json.load(file)["commands"]
    text = f'"""The commands of lines: their groups, names, arguments and answers. {MADE}"""\n\nfrom typing import NamedTuple, Tuple\n\n\n'
    text += 'class Command(NamedTuple):\n    group: str\n    name: str\n    arguments: Tuple[str, ...]\n    answer: str\n\n\nCOMMANDS = (\n'
    for it in found:
        words = "".join(f'"{argument["name"]}{"?" if argument["nullable"] else ""}", ' for argument in it["arguments"])
        text += f'    Command("{it["group"].capitalize()}", "{it["name"]}", ({words.rstrip()}), "{it["answer"]}"),\n'
    return text + ")\n"


def main():
    parser = argparse.ArgumentParser(description=__doc__, formatter_class=argparse.RawDescriptionHelpFormatter)
    parser.add_argument("--check", action="store_true", help="write nothing, and fail where a module is not what the sources give")
    parser.add_argument("--sources", default=SOURCES, metavar="FOLDER", help="the folder of the exports (crates/dom_c/src)")
    words = parser.parse_args()
    found = modules(words.sources)
    made = {"_signatures.py": signatures(found), "_core.pyi": core(found), "_commands.py": commands()}
    other = []
    for name, text in made.items():
        path = os.path.join(PACKAGE, name)
        if words.check:
            there = open(path, encoding="utf-8").read() if os.path.exists(path) else ""
            other += [name] if there != text else []
        else:
            with open(path, "w", encoding="utf-8") as file:
                file.write(text)
    if other:
        sys.exit(f"not what the sources give: {', '.join(other)}; run python3 bindings/python/signatures.py")


if __name__ == "__main__":
    main()
