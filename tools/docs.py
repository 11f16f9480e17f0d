#!/usr/bin/env python3
"""Checks the pages, writes the parts of them that are made, and runs the commands that they print.

The parts are modules beside this file, each with the rules that it checks. `write` makes those that are out of date anew, and those that are named in any
case; then it checks. `run` takes pages by their paths from the top; without any it runs README.md and docs/*.md.
"""
import argparse
import sys

import charts
import clauses
import commands
import layers
import links
import printed
import promises
import quoted
import words

# Each part: its module, and what it is about. Those that are made have a function `write`.
PARTS = {
    "layers": (layers, "docs/layers.svg, drawn by graphviz from crates.txt"),
    "links": (links, "links, files and names on pages"),
    "commands": (commands, "docs/commands.json, made from the definitions and docs/commands.md"),
    "clauses": (clauses, "the homes of clauses' words, and the reading order of definitions"),
    "quoted": (quoted, "code and tables of calls on pages, from the sources"),
    "promises": (promises, "calls and clauses in the tables of docs/proved.md"),
    "charts": (charts, "charts and repeated figures, from the tables of docs/costs.md"),
    "words": (words, "the rules of docs/writing.md"),
}


def checked(names):
    """Checks parts, prints their faults, and returns the number of parts that have any."""
    failed = 0
    for name in names:
        faults, passed = PARTS[name][0].check()
        failed += bool(faults)
        for it in faults:
            print(it)
        print(f"{name}: {f'{len(faults)} wrong' if faults else passed}", flush=True)
    return failed


def write(names):
    """Writes the named parts, or those whose check fails if none is named."""
    for name in names or PARTS:
        module = PARTS[name][0]
        if hasattr(module, "write") and (names or module.check()[0]):
            module.write()


def main():
    parser = argparse.ArgumentParser(description=__doc__, formatter_class=argparse.RawDescriptionHelpFormatter)
    verbs = parser.add_subparsers(dest="verb", required=True, metavar="check|write|run")
    listed = "parts:\n" + "\n".join(f"  {name:<9} {about}" for name, (_, about) in PARTS.items())
    for verb, does in (("check", "write nothing, and fail if a part is wrong"), ("write", "write the parts that are made, then check")):
        of = verbs.add_parser(verb, help=does, description=does, epilog=listed, formatter_class=argparse.RawDescriptionHelpFormatter)
        parts = [*PARTS] if verb == "check" else [name for name, (module, _) in PARTS.items() if hasattr(module, "write")]
        of.add_argument("names", nargs="*", metavar="PART", help=f"only these ({', '.join(parts)})")
        of.set_defaults(parts=parts)
    runs = verbs.add_parser("run", help="run what pages print", description=printed.__doc__, formatter_class=argparse.RawDescriptionHelpFormatter)
    runs.add_argument("pages", nargs="*", metavar="PAGE", help="only these pages, by their paths from the top")
    given = parser.parse_args()
    if given.verb == "run":
        return 1 if printed.run_all(given.pages) else 0
    unknown = [it for it in given.names if it not in given.parts]
    if unknown:
        parser.error(f"{given.verb} has no part {unknown[0]}: it knows {', '.join(given.parts)}")
    if given.verb == "write":
        write(given.names)
    return 1 if checked(given.names or PARTS) else 0


if __name__ == "__main__":
    sys.exit(main())
