/** Tables, their sections, rows and cells (HTML Standard, section 4.9), as far as they are lists and makers of elements. */
import { refuse, refuseOther } from "../core.js";
import { listOf } from "./collections.js";
import { isNamed } from "./states.js";

const childrenOf = (element, ...names) => [...element.children].filter((it) => names.includes(it.localName));
const firstOf = (element, name) => childrenOf(element, name)[0] ?? null;

/** Rows in the order of a table: those of heads, then the body's, then those of feet. */
function rowsOf(table) {
  const rows = (section) => childrenOf(section, "tr");
  const body = [...table.children].flatMap((it) => (it.localName === "tr" ? [it] : it.localName === "tbody" ? rows(it) : []));
  return [...childrenOf(table, "thead").flatMap(rows), ...body, ...childrenOf(table, "tfoot").flatMap(rows)];
}

const refuseIndex = (index, most) => refuse("IndexSizeError", `the index ${index} is not from -1 to ${most}`);

function insertAt(list, parent, index, name) {
  if (index < -1 || index > list.length) refuseIndex(index, list.length);
  const made = parent.ownerDocument.createElement(name);
  return parent.insertBefore(made, index === -1 ? null : (list[index] ?? null));
}

function deleteAt(list, index) {
  const at = index === -1 ? list.length - 1 : index;
  if (index < -1 || index >= list.length) refuseIndex(index, list.length - 1);
  list[at]?.remove();
}

function insertRow(table, index) {
  const rows = rowsOf(table);
  if (index < -1 || index > rows.length) refuseIndex(index, rows.length);
  const section = rows.length ? rows[Math.min(index === -1 ? rows.length : index, rows.length - 1)].parentNode : (childrenOf(table, "tbody").at(-1) ?? createSection(table, "tbody"));
  const made = table.ownerDocument.createElement("tr");
  return section.insertBefore(made, index === -1 || index === rows.length ? null : (rows[index] ?? null));
}

const createSection = (table, name) => table.appendChild(table.ownerDocument.createElement(name));

function sectionOrNew(name, before) {
  return (table) => firstOf(table, name) ?? table.insertBefore(table.ownerDocument.createElement(name), before(table));
}

const AT = ["long = -1"];
const cellsOf = (row) => childrenOf(row, "td", "th");
const deleteFirst = (name) => [[], (table) => firstOf(table, name)?.remove()];
const afterCaption = (table) => [...table.children].find((it) => !["caption", "colgroup"].includes(it.localName)) ?? null;

/** The first child of a name; setting it puts another in its place, or none. */
const replacing = (name, before) => ({
  type: "any",
  get: (table) => firstOf(table, name),
  set(table, given) {
    const its = given ?? null;
    if (its !== null && !isNamed(its, "caption", "thead", "tfoot")) refuseOther(`a ${name} element`, its);
    if (its !== null && !isNamed(its, name)) refuse("HierarchyRequestError", `expected a ${name} element, not ${its.localName}`);
    firstOf(table, name)?.remove();
    if (its !== null) table.insertBefore(its, before(table));
  },
});

export const tableMembers = {
  attributes: {
    caption: replacing("caption", (table) => table.firstChild),
    tHead: replacing("thead", afterCaption),
    tFoot: replacing("tfoot", () => null),
    tBodies: (table) => listOf(table, "tBodies", () => childrenOf(table, "tbody")),
    rows: (table) => listOf(table, "rows", () => rowsOf(table)),
  },
  operations: {
    createCaption: [[], sectionOrNew("caption", (table) => table.firstChild)],
    deleteCaption: deleteFirst("caption"),
    createTHead: [[], sectionOrNew("thead", afterCaption)],
    deleteTHead: deleteFirst("thead"),
    createTFoot: [[], sectionOrNew("tfoot", () => null)],
    deleteTFoot: deleteFirst("tfoot"),
    createTBody: [[], (table) => table.insertBefore(table.ownerDocument.createElement("tbody"), childrenOf(table, "tbody").at(-1)?.nextSibling ?? null)],
    insertRow: [AT, insertRow],
    deleteRow: [["long"], (table, index) => deleteAt(rowsOf(table), index)],
  },
};

export const sectionMembers = {
  attributes: { rows: (section) => listOf(section, "rows", () => childrenOf(section, "tr")) },
  operations: {
    insertRow: [AT, (section, index) => insertAt(childrenOf(section, "tr"), section, index, "tr")],
    deleteRow: [["long"], (section, index) => deleteAt(childrenOf(section, "tr"), index)],
  },
};

const tableOf = (row) => row.closest("table");

export const rowMembers = {
  attributes: {
    cells: (row) => listOf(row, "cells", () => cellsOf(row)),
    rowIndex: (row) => (tableOf(row) ? rowsOf(tableOf(row)).indexOf(row) : -1),
    sectionRowIndex: (row) => (row.parentNode ? childrenOf(row.parentNode, "tr").indexOf(row) : -1),
  },
  operations: {
    insertCell: [AT, (row, index) => insertAt(cellsOf(row), row, index, "td")],
    deleteCell: [["long"], (row, index) => deleteAt(cellsOf(row), index)],
  },
};

export const cellMembers = { attributes: { cellIndex: (cell) => (cell.parentNode?.localName === "tr" ? cellsOf(cell.parentNode).indexOf(cell) : -1) } };
