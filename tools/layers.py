"""The layers of crates.txt, which graphviz (`dot`) draws as docs/layers.svg.

A box is a crate, with its words in SAYS. Arrows lead to the crates that it lists. There is none to a crate that another of these depends on, and none to
dom_model, which nearly all list, and which is drawn as the ground.
"""
import html
import re
import subprocess

from start import ROOT, listed, with_lower

PICTURE = f"{ROOT}/docs/layers.svg"
MODEL = "dom_model"
ANEW = "run python3 tools/docs.py write layers"

SAYS = {
    "domserve": "the program: streams, status",
    "dom_options": "the words of the command line",
    "dom_serve": "bytes in, lines, replies, bytes out",
    "dom_wire": "a line to a command, a reply to a line",
    "dom_session": "commands on one world, and answers",
    "dom_commands": "commands and replies, as values",
    "dom_wrap": "insertions into and around a range",
    "dom_content": "the contents of ranges",
    "dom_clone": "copies, equality, positions",
    "dom_data": "character data, Texts, attributes",
    "dom_edit": "the world, and its edits",
    "dom_observe": "registrations, queues, the pending list",
    "dom_traverse": "filters, iterators, walkers",
    "dom_ranges": "live and static ranges",
    "dom_point": "boundary points and their order",
    "dom_payload": "a node's data or attributes",
    "dom_attrs": "an element's attributes",
    "dom_tree": "nodes by number, seen as nested lists",
    "dom_links": "linked slots in raw memory",
    "dom_pages": "tables in pages that are given back",
    "dom_slots": "numbers that come and go, without gaps",
    "dom_chains": "items in the chain of their key",
    "dom_ids": "callers' numbers of things",
    "dom_units": "texts as UTF-16 units",
    "dom_kinds": "kinds, labels, names, exceptions",
    "dom_c": "the core as a C library",
    "dialogues": "inputs and the outputs due, as tables",
    "stated_pieces": "a reader and a writer for tests",
    "dialogue_cases": "tests of dialogues, with faults",
    "stream_cases": "tests of streams over those of std",
    "drawn_cases": "tests of token texts, drawn twice",
    "size_cases": "tests of large trees, long texts",
    "edit_cases": "tests of edits, copies, contents",
    "observer_cases": "tests of observers and records",
    "range_cases": "tests of live and static ranges",
    "tree_cases": "tests of trees and walkers",
    "store_cases": "tests of texts, slots, pages, labels",
    "tree_steps": "nodes made and put, for tests",
    "growth_marks": "rows of tests, played",
    "uses": "callers, one module for each crate",
    MODEL: "the definitions that the others speak of, and their laws",
}

HEAD = """digraph {
graph [rankdir=TB, nodesep=0.2, ranksep=0.35, fontname="sans-serif"]
node [shape=box, style="rounded,filled", fillcolor="#f3f6fa", color="#5d7896", fontname="sans-serif", fontsize=11]
edge [color="#7f8b96", arrowsize=0.6]
"""


def arrows(rows):
    """Returns each pair of a crate and one that it lists, without those that another of its crates leads to."""
    for name, deps in rows.items():
        lower = {below for dep in deps for below in with_lower(rows, dep)[:-1]}
        yield from ((name, dep) for dep in deps if dep != MODEL and dep not in lower)


def drawing(rows):
    """Returns the graph in graphviz's language."""
    boxes = [f'{name} [label=<<b>{name}</b><br/>{SAYS[name]}>]' for name in rows]
    ground = [f"{name} -> {MODEL} [style=invis]" for name in rows if rows[name] == [MODEL]]
    return HEAD + "\n".join([*boxes, *(f"{one} -> {other}" for one, other in arrows(rows)), *ground]) + "\n}\n"


def shown(picture):
    """Returns the names of the boxes and arrows of a picture that graphviz drew."""
    return {it.replace("&#45;", "-").replace("&gt;", ">") for it in re.findall(r"<title>([^<%]+)</title>", picture)}


def unsaid(rows):
    return [it for it in rows if it not in SAYS]


def check():
    """Returns the faults of the picture, and what holds without any."""
    rows = listed()
    faults = [f"tools/layers.py: SAYS has no line for {it}" for it in unsaid(rows)]
    with open(PICTURE, encoding="utf-8") as it:
        picture = it.read()
    found, due, words = shown(picture), {*rows, *(f"{one}->{other}" for one, other in arrows(rows))}, html.unescape(picture)
    faults += [f"docs/layers.svg: it lacks {it}: {ANEW}" for it in sorted(due - found)]
    faults += [f"docs/layers.svg: it shows {it}, which crates.txt does not have: {ANEW}" for it in sorted(found - due)]
    faults += [f"docs/layers.svg: it has other words for {it} than SAYS of tools/layers.py: {ANEW}" for it in rows if SAYS.get(it, "") not in words]
    return faults, f"docs/layers.svg shows the {len(rows)} crates of crates.txt"


def write():
    """Draws the picture, if SAYS has each crate."""
    rows = listed()
    if not unsaid(rows):
        subprocess.run(["dot", "-Tsvg", "-o", PICTURE], input=drawing(rows), text=True, check=True)
