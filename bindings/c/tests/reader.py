"""Reads the answer that a session keeps, part by part, by the calls of the header; each list is read past its end as well."""
import ctypes

MOST = 4294967295
RECORDS = {"HP_CHILD_LIST": "childList", "HP_ATTRIBUTES": "attributes", "HP_CHARACTER_DATA": "characterData"}
NO_STATUSES = {"HP_NONE", *RECORDS}
# What a node has by its type: the names of those with none of their own, and which have data.
NAMES = {3: "#text", 8: "#comment", 9: "#document", 11: "#document-fragment"}
ELEMENT, DOCTYPE = 1, 10
WITH_DATA = (3, 7, 8)


def maybe(number):
    return None if number == MOST else number


def of_units(units):
    """A text as replies have it: a string where it is well-formed, or else the list of its units."""
    try:
        return b"".join(it.to_bytes(2, "little") for it in units).decode("utf-16-le")
    except UnicodeDecodeError:
        return list(units)


class Reader:
    """Reads the last answer of a session. The class over it has `call` and `must`, `words`, `structs` and `header`."""

    def nothing(self, form):
        """A struct whose pointers are real ones."""
        found = form()
        for name, its in form._fields_:
            if isinstance(its, type) and issubclass(its, ctypes.Structure):
                setattr(found, name, self.nothing(its))
            elif hasattr(its, "contents"):
                setattr(found, name, ctypes.cast((ctypes.c_uint64 * 1)(), its))
        return found

    def lent(self, form, name, *words):
        """Returns the data that a call lends, as a list of units or bytes; None if it is not there."""
        out = self.nothing(self.structs[form])
        status = self.call(name, *words, ctypes.byref(out))
        if self.words[status] == "not-there":
            return None
        assert status == 0, f"{name}: {self.words[status]}"
        return getattr(out, out._fields_[0][0])[: out.length]

    def name(self, call, *words):
        found = self.lent("hp_bytes", call, *words)
        return None if found is None else bytes(found).decode()

    def text(self, call, *words):
        found = self.lent("hp_text_view", call, *words)
        return None if found is None else of_units(found)

    def attribute(self, node, at):
        """The attribute of a node at a place, which is lent with no command; None past the last."""
        name, value = self.nothing(self.structs["hp_bytes"]), self.nothing(self.structs["hp_text_view"])
        status = self.call("hp_attribute_at", node, at, ctypes.byref(name), ctypes.byref(value))
        if self.words[status] == "not-there":
            return None
        assert status == 0, f"hp_attribute_at: {self.words[status]}"
        return [bytes(name.bytes[: name.length]).decode(), of_units(value.units[: value.length])]

    def held(self, row):
        """Checks that the data and the attributes in a row are those that calls with no command lend of its node."""
        node, kind, last = row[1], row[2], row[-1]
        assert self.text("hp_data_of", node) == (last if kind in WITH_DATA else None), "hp_data_of"
        for at, due in enumerate([*(last if kind == ELEMENT else ()), None]):
            assert self.attribute(node, at) == due, "hp_attribute_at"

    def count(self, call="hp_count", *words):
        found = ctypes.c_size_t(7)
        self.must(call, *words, ctypes.byref(found))
        return found.value

    def part_at(self, call, *words):
        """A number that a call writes; None where it is not there."""
        found = ctypes.c_uint32(7)
        status = self.call(call, *words, ctypes.byref(found))
        assert self.words[status] in ("ok", "not-there"), call
        return found.value if status == 0 else None

    def number_at(self, at):
        found = self.part_at("hp_number_at", at)
        assert found is not None
        return found

    def node_name(self, kind, call, *words):
        """The name as replies have it; a node of a kind that has none of its own has no such part."""
        name, others = self.name(call, *words, 0), [self.name(call, *words, part) for part in (1, 2)]
        assert (name is None) == (kind in NAMES) and all((it is None) == (kind != DOCTYPE) for it in others)
        return NAMES.get(kind, name)

    def read(self, form, name, *words):
        """A struct that a call writes; None where it is not there."""
        out = self.structs[form]()
        status = self.call(name, *words, ctypes.byref(out))
        assert self.words[status] in ("ok", "not-there"), name
        return out if status == 0 else None

    def row(self, at):
        it = self.read("hp_row", "hp_row_at", at)
        found = [it.depth, it.node, it.type, self.node_name(it.type, "hp_row_name", at)]
        attributes = [[self.name("hp_row_attribute_name", at, place), self.text("hp_row_attribute_value", at, place)] for place in range(it.attributes)]
        ends = (self.name("hp_row_attribute_name", at, it.attributes), self.text("hp_row_attribute_value", at, it.attributes))
        data = self.text("hp_row_text", at)
        assert ends == (None, None) and (data is None) == (it.type not in WITH_DATA) and (it.type == ELEMENT or not attributes)
        if it.type in WITH_DATA:
            found.append(data)
        if it.type == ELEMENT:
            found.append(attributes)
        if it.type == DOCTYPE:
            found += [self.name("hp_row_name", at, part) for part in (1, 2)]
        return found

    def record_nodes(self, call, count, *words):
        found = [self.part_at(call, *words, at) for at in range(count + 1)]
        assert found.pop() is None
        return found

    def record(self, notice, at):
        it = self.read("hp_record", "hp_record_at", notice, at)
        added = self.record_nodes("hp_record_added_at", it.added, notice, at)
        removed = self.record_nodes("hp_record_removed_at", it.removed, notice, at)
        what = next(what for name, what in RECORDS.items() if self.header.constants[name] == it.type)
        name, value = self.name("hp_record_name", notice, at), self.text("hp_record_old_value", notice, at)
        return [what, it.target, added, removed, maybe(it.previous), maybe(it.next), name, value]

    def records(self, notice, count):
        assert self.read("hp_record", "hp_record_at", notice, count) is None
        return [self.record(notice, at) for at in range(count)]

    def notice(self, at):
        it = self.read("hp_notice", "hp_notice_at", at)
        return [it.observer, self.records(at, it.records)]

    def many(self, name):
        """Returns the rows of a tree, the records that were taken, or the notices of the observers."""
        count = self.count()
        calls = {"tree": ("hp_row", "hp_row_at"), "notify": ("hp_notice", "hp_notice_at")}
        for form, call in calls.values():
            assert self.read(form, call, count) is None
        if name == "takeRecords":
            assert self.read("hp_record", "hp_record_at", 1, 0) is None
            return self.records(0, count)
        assert self.read("hp_record", "hp_record_at", count, 0) is None
        return [(self.row if name == "tree" else self.notice)(at) for at in range(count)]
