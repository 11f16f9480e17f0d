"""The program and the library for C as they stand below a prefix, and as an archive that may lie anywhere."""
import os

import files
from given import ARCHIVE, BINDINGS, HEADER, LICENSES, NAME, SHARED, VERSION, dated, make, page, template, text_of

SHARE = os.path.join(os.path.dirname(os.path.abspath(__file__)), "share")
# The pages that go with them.
PAGES = ("CHANGELOG.md", "SECURITY.md", "docs/c-library.md", "docs/commands.md", "docs/release.md", "docs/rules.md")


def documents():
    names = {os.path.basename(it) for it in PAGES} | set(LICENSES)
    found = {os.path.basename(it): page(it, names) for it in PAGES}
    found.update({it: files.text(text_of(it)) for it in LICENSES})
    found.update(files.under(os.path.join(BINDINGS, "c/examples"), (".c",), "examples"))
    return found


def below(work, libraries, prefix):
    """All files below a prefix, by the folder of the libraries, and by the prefix as huckleport.pc has it."""
    up = "/".join(".." for _ in libraries.split("/"))
    found = {"bin/domserve": files.of(os.path.join(work, "domserve"), 0o755), f"include/{HEADER}": files.of(os.path.join(work, HEADER))}
    found["bin/domserve-explain"] = files.of(os.path.join(os.path.dirname(SHARE), "domserve-explain"), 0o755)
    found["share/huckleport/commands.json"] = files.text(text_of("docs/commands.json"))
    found[f"{libraries}/{ARCHIVE}"] = files.of(os.path.join(work, ARCHIVE))
    found[f"{libraries}/{SHARED}"] = files.of(os.path.join(work, SHARED))
    found[f"{libraries}/libhuckleport.so"] = files.link(SHARED)
    found[f"{libraries}/pkgconfig/huckleport.pc"] = files.text(make.pkgconfig(prefix, f"/{libraries}", "/include"))
    found[f"{libraries}/cmake/huckleport/huckleportConfig.cmake"] = template("config.cmake", INCLUDE=f"{up}/include", SONAME=SHARED)
    found[f"{libraries}/cmake/huckleport/huckleportConfigVersion.cmake"] = template("version.cmake", VERSION=VERSION)
    found.update({f"share/doc/huckleport/{name}": it for name, it in documents().items()})
    # (the man pages and the completions of the program)
    found.update({path: dated(it) if "/man/" in path else it for path, it in files.under(SHARE, "", "share").items()})
    return found


def archive(work, to, machine):
    name = f"{NAME}-{machine.name}-linux"
    files.tar(below(work, "lib", "${pcfiledir}/../.."), name, os.path.join(to, f"{name}.tar.gz"))
