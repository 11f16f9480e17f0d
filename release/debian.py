"""Makes the packages for Debian: the program, the library, its header and static library, and the package for Python."""
import gzip
import hashlib
import os
import re
import shutil
import time

import files
from given import HEADER, SHARED, VERSION, make, text_of
from machines import BINDINGS_PYTHON, extension, stripped
from prefix import below, documents

LIBRARY = f"libhuckleport{make.SERIES}"
MAINTAINER = "Huckleport maintainers <maintainers@huckleport.example>"
HOMEPAGE = "https://huckleport.example/"
CORE = """ Documents by the DOM Standard: trees, character data, attributes, live
 ranges, iterators, walkers and mutation observers."""
PYTHON = "usr/lib/python3/dist-packages"
# The section, first line and added text of each package, and the packages that it asks for.
PACKAGES = {
    "huckleport": ("text", "documents by the DOM Standard, one JSON command a line", "The program domserve: a JSON command a line in, a JSON reply a line out.", ("python3",)),
    LIBRARY: ("libs", "documents by the DOM Standard, shared library", "The shared library, for programs in C.", ()),
    "libhuckleport-dev": ("libdevel", "documents by the DOM Standard, header and static library", "The header, the static library, and examples.", (f"{LIBRARY} (= {VERSION})",)),
    "python3-huckleport": ("python", "documents by the DOM Standard, for Python", "The package huckleport for Python 3.", ("python3 (>= 3.8)",)),
}


def squeezed(content):
    return files.File(gzip.compress(content, 9, mtime=0))


def share_of(package, copyright_text):
    """Returns the files of each package below usr/share/doc."""
    when = time.strftime("%a, %d %b %Y %H:%M:%S +0000", time.gmtime(files.MOMENT))
    changes = f"huckleport ({VERSION}) unstable; urgency=medium\n\n  * Version {VERSION}; CHANGELOG.md tells what it brought.\n\n -- {MAINTAINER}  {when}\n"
    folder = f"usr/share/doc/{package}"
    return {f"{folder}/changelog.gz": squeezed(changes.encode()), f"{folder}/copyright": files.text(copyright_text)}


def copyright_text():
    mit = text_of("LICENSE-MIT").partition("\n\n")[2].partition("\n\n")[2]
    body = "\n".join(f" {line or '.'}" for line in mit.strip().split("\n"))
    head = "Format: https://www.debian.org/doc/packaging-manuals/copyright-format/1.0/\nUpstream-Name: huckleport\n"
    terms = "License: Apache-2.0\n On Debian systems the text stands in /usr/share/common-licenses/Apache-2.0.\n"
    notice = "\n".join(f" {line or '.'}" for line in text_of("NOTICE").strip().split("\n"))
    files_of = f"Files: *\nCopyright: 2026 the maintainers of Huckleport\nLicense: Expat or Apache-2.0\nComment: What the built files contain of others.\n{notice}\n"
    return f"{head}\n{files_of}\nLicense: Expat\n{body}\n\n{terms}"


def contents(work, machine):
    """The files of each package."""
    libraries = f"lib/{machine.multiarch}"
    found = {f"usr/{path}": it for path, it in below(work, libraries, "/usr").items()}
    for path, it in (("usr/bin/domserve", "domserve"), (f"usr/{libraries}/{SHARED}", SHARED), (f"usr/{libraries}/libhuckleport.a", "libhuckleport.a")):
        found[path] = stripped(os.path.join(work, it), machine)
    pages = {path: it for path, it in found.items() if path.startswith("usr/share/doc/")}
    for path in [it for it in found if it.startswith(("usr/share/doc/", "usr/share/man/"))]:
        it = found.pop(path)
        if "/man/" in path:
            found[f"{path}.gz"] = squeezed(it.content)
    development = {path: it for path, it in found.items() if path.startswith((f"usr/include/{HEADER}", f"usr/{libraries}/")) and not path.endswith(SHARED)}
    development |= {path: it for path, it in found.items() if "/man3/" in path}
    development |= {path.replace("/huckleport/", "/libhuckleport-dev/", 1): it for path, it in pages.items() if not path.endswith("LICENSE")}
    return {
        "huckleport": {path: it for path, it in found.items() if path not in development and not path.endswith(SHARED)} | commands_page(),
        LIBRARY: {f"usr/{libraries}/{SHARED}": found[f"usr/{libraries}/{SHARED}"]},
        "libhuckleport-dev": development,
        "python3-huckleport": python(work, machine),
    }


def commands_page():
    """The pages that are about the program."""
    return {f"usr/share/doc/huckleport/{name}": it for name, it in documents().items() if name in ("commands.md", "rules.md", "SECURITY.md")}


def python(work, machine):
    found = files.under(BINDINGS_PYTHON, (".py", ".pyi", "py.typed"), f"{PYTHON}/huckleport")
    extension(work, machine)
    module = stripped(os.path.join(work, "_core.abi3.so"), machine)._replace(mode=0o644)
    about = f"Metadata-Version: 2.1\nName: huckleport\nVersion: {VERSION}\n"
    return found | {f"{PYTHON}/huckleport/_core.abi3.so": module, f"{PYTHON}/huckleport-{VERSION}.egg-info/PKG-INFO": files.text(about)}


def least_libc(found):
    """The version of the C library that files ask for; None if they ask for none."""
    asked = {tuple(map(int, it.split(b"."))) for file in found.values() for it in re.findall(rb"GLIBC_(\d+\.\d+)", file.content) if file.content[:4] == b"\x7fELF"}
    return ".".join(map(str, max(asked))) if asked else None


def control(package, found, machine):
    section, short, words, needs = PACKAGES[package]
    libc = least_libc(found)
    depends = ", ".join([*([f"libc6 (>= {libc})"] if libc else []), *needs])
    size = sum(len(it.content) for it in found.values()) // 1024 + 1
    head = {"Package": package, "Source": "huckleport", "Version": VERSION, "Architecture": machine.debian, "Maintainer": MAINTAINER}
    head |= {"Installed-Size": size, "Depends": depends, "Section": section, "Priority": "optional", "Homepage": HOMEPAGE}
    if package == "huckleport":
        head.pop("Source")
    if package.startswith("lib"):
        head["Multi-Arch"] = "same"
    lines = "".join(f"{name}: {value}\n" for name, value in head.items() if value)
    return files.text(f"{lines}Description: {short}\n{CORE}\n .\n {words}\n")


def of_library(names):
    """Returns the files on the shared object for Debian's tools: its package, the version that has each call first, and the loader's trigger."""
    symbols = f"{SHARED} {LIBRARY} #MINVER#\n" + "".join(f" {it}@{make.SYMBOLS} {VERSION}\n" for it in sorted([*names, make.SYMBOLS]))
    triggers = "activate-noawait ldconfig\n"
    return {"shlibs": f"libhuckleport {make.SERIES} {LIBRARY} (>= {VERSION})\n", "symbols": symbols, "triggers": triggers}


def packages(work, to, machine):
    """Makes the four packages; returns why none are made, or None."""
    if not shutil.which("dpkg-deb"):
        return "there is no dpkg-deb"
    terms = copyright_text()
    names = make.shown(os.path.join(work, SHARED), "gcc")
    for package, found in contents(work, machine).items():
        found |= share_of(package, terms)
        about = {"control": control(package, found, machine)}
        if package == LIBRARY:
            about |= {name: files.text(it) for name, it in of_library(names).items()}
        about["md5sums"] = files.text("".join(f"{hashlib.md5(it.content).hexdigest()}  {path}\n" for path, it in sorted(found.items()) if not it.target))
        folder = os.path.join(work, "debian", package)
        files.lay(found | {f"DEBIAN/{name}": it for name, it in about.items()}, folder)
        environment = {**os.environ, "SOURCE_DATE_EPOCH": str(files.MOMENT)}
        file = os.path.join(to, f"{package}_{VERSION}_{machine.debian}.deb")
        make.call("dpkg-deb", "-Zxz", "--root-owner-group", "--build", folder, file, env=environment)
    return None
