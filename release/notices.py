"""NOTICE and the SBOM: what the built files contain of others, by the crates that they are linked of, with versions and licences.

`python3 release/notices.py` writes NOTICE; with --check it fails if NOTICE is another, if crates.txt names a crate of the kit that components.json lacks, or
if the kit that is here has another version of one.
"""
import argparse
import hashlib
import json
import os
import re
import subprocess
import sys

ROOT = os.path.dirname(os.path.dirname(os.path.abspath(__file__)))
NOTICE = os.path.join(ROOT, "NOTICE")
# The crate at the top of each built file.
TOPS = {"program": "domserve", "library": "dom_c", "module": "dom_c"}
NAMES = {"program": "the program domserve", "library": "the library for C", "module": "the WebAssembly module"}
# The kit's own crates, which are no ports.
OWN = {"core", "std_alloc", "json"}
KIT = "Rattle kit"
SPDX = "SPDX-2.3"
HEAD = """Huckleport
Copyright 2026 the maintainers of Huckleport

Huckleport is under the MIT License or the Apache License, version 2.0 (LICENSE-MIT, LICENSE-APACHE). Its built files contain code of others. Each
component below is a port in the {kit}, with the version and the terms of the crate that it was ported from, or code in C that is linked in. The text of the
MIT License in LICENSE-MIT, with each component's own copyright line, and that of the Apache License in LICENSE-APACHE are the terms named here; BSL-1.0 and
CC0-1.0 ask for no notice in built files. The {kit}'s own crates ({own}) are in all built files.
"""


def components():
    with open(os.path.join(ROOT, "release/components.json"), encoding="utf-8") as file:
        return json.load(file)


def lower():
    """Of each crate of crates.txt those that it lists."""
    with open(os.path.join(ROOT, "crates.txt"), encoding="utf-8") as file:
        rows = [it.partition("#")[0].partition(":") for it in file]
    return {name.split()[0]: lists.split() for name, mark, lists in rows if mark}


def linked(top):
    """The crates of the kit that a crate is linked of, by crates.txt and by what these need themselves."""
    rows, found, waiting = lower(), set(), [top]
    needs = {it["kit"]: it["needs"] for it in components() if "needs" in it}
    while waiting:
        name = waiting.pop()
        if name not in found:
            found.add(name)
            waiting += rows.get(name, needs.get(name, []))
    return {it for it in found if it not in rows}


def contained():
    """The components, each with the built files that contain it."""
    of_kit = {part: linked(top) for part, top in TOPS.items()}
    return [{**it, "in": it.get("in") or [part for part, names in of_kit.items() if it["kit"] in names]} for it in components()]


def notice():
    """The text of NOTICE."""
    parts = [HEAD.format(kit=KIT, own=", ".join(sorted(OWN)))]
    for it in contained():
        where = ", ".join(NAMES[part] for part in it["in"])
        parts.append(f"{it['name']} {it['version']}\n  License: {it['license']}\n  Copyright: {it['copyright']}\n  In: {where}\n")
    return "\n".join(parts)


def package(it):
    """A component as a package of the SBOM."""
    url = f"https://crates.io/crates/{it['name']}/{it['version']}" if it["kit"] else "NOASSERTION"
    found = {"SPDXID": f"SPDXRef-{it['name'].replace('_', '-')}", "name": it["name"], "versionInfo": it["version"], "downloadLocation": url}
    return {**found, "filesAnalyzed": False, "licenseConcluded": it["license"], "licenseDeclared": it["license"], "copyrightText": it["copyright"]}


def sbom(name, version, moment, kit, sums):
    """The SBOM of a release, in the form of SPDX: its files with their sums by algorithm, and what they contain."""
    own = {"SPDXID": "SPDXRef-huckleport", "name": "huckleport", "versionInfo": version, "downloadLocation": "NOASSERTION", "filesAnalyzed": False}
    own |= {"licenseConcluded": "MIT OR Apache-2.0", "licenseDeclared": "MIT OR Apache-2.0", "copyrightText": "2026 the maintainers of Huckleport"}
    of_kit = {"SPDXID": "SPDXRef-kit", "name": KIT, "versionInfo": kit, "downloadLocation": "NOASSERTION", "filesAnalyzed": False}
    of_kit |= {"licenseConcluded": "NOASSERTION", "licenseDeclared": "NOASSERTION", "copyrightText": "NOASSERTION"}
    packages = [own, of_kit, *map(package, contained())]
    files = [{"SPDXID": f"SPDXRef-file-{at}", "fileName": f"./{path}",
        "checksums": [{"algorithm": algorithm.upper(), "checksumValue": total} for algorithm, total in its.items()],
        "licenseConcluded": "MIT OR Apache-2.0", "copyrightText": "NOASSERTION"} for at, (path, its) in enumerate(sums.items(), 1)]
    relations = [("SPDXRef-DOCUMENT", "DESCRIBES", "SPDXRef-huckleport")]
    relations += [("SPDXRef-huckleport", "CONTAINS", it["SPDXID"]) for it in packages[1:]]
    # (a package whose files are not listed may contain none)
    relations += [(it["SPDXID"], "GENERATED_FROM", "SPDXRef-huckleport") for it in files]
    head = {"spdxVersion": SPDX, "dataLicense": "CC0-1.0", "SPDXID": "SPDXRef-DOCUMENT", "name": name}
    of_all = hashlib.sha256(repr(sums).encode()).hexdigest()[:16]
    head |= {"documentNamespace": f"https://huckleport.example/spdx/{name}-{of_all}", "creationInfo": {"created": moment, "creators": ["Tool: huckleport-release"]}}
    named = [{"spdxElementId": one, "relationshipType": kind, "relatedSpdxElement": other} for one, kind, other in relations]
    return json.dumps({**head, "packages": packages, "files": files, "relationships": named}, indent=1) + "\n"


# ---- the table beside the kit


def faults():
    """Returns the faults of the table: crates of the kit that it lacks, and versions that differ from those of the kit."""
    known = {it["kit"] for it in components()} | OWN
    found = [f"components.json has no {it}" for top in set(TOPS.values()) for it in sorted(linked(top) - known)]
    try:
        page = subprocess.run(["rt", "doc"], stdout=subprocess.PIPE, stderr=subprocess.DEVNULL, text=True, check=True).stdout.strip()
    except (OSError, subprocess.CalledProcessError):
        return found
    for it in components():
        path = os.path.join(os.path.dirname(page), "rattle", it["kit"] or "", "README.md")
        if it["kit"] and os.path.exists(path):
            with open(path, encoding="utf-8") as file:
                told = re.findall(rf"{it['name'].replace('_', '[_]')}`? (\d+\.\d+\.\d+)", file.read())
            found += [] if it["version"] in told else [f"the kit has {it['name']} {', '.join(told) or 'unnamed'}, and components.json {it['version']}"]
    return found


def main():
    parser = argparse.ArgumentParser(description=__doc__, formatter_class=argparse.RawDescriptionHelpFormatter)
    parser.add_argument("--check", action="store_true", help="writes nothing")
    given, text = parser.parse_args(), notice()
    wrong = faults()
    if given.check:
        with open(NOTICE, encoding="utf-8") as file:
            wrong += [] if file.read() == text else ["NOTICE is not what release/notices.py writes"]
    elif not wrong:
        with open(NOTICE, "w", encoding="utf-8") as file:
            file.write(text)
    print(*wrong, sep="\n", end="\n" if wrong else "")
    return 1 if wrong else 0


if __name__ == "__main__":
    sys.exit(main())
