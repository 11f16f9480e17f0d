#!/usr/bin/env python3
"""Makes the library for C in one folder: libhuckleport.a, libhuckleport.so, huckleport.h and huckleport.pc.

The archive is built of the proved assembly in generated/, if that was made of the sources that are here. Otherwise, or with --prove, crates/dom_c and the
crates below it are proved and built first, which takes long once. --library takes an archive that is there. The shared object shows the calls of the header
and no other name. With --install the four files are copied under a prefix.
"""
import argparse
import os
import shutil
import subprocess
import sys
import tempfile

from exports import ROOT, SOURCES, modules
from header import header
from version import LICENSE, VERSION

HERE = os.path.dirname(os.path.abspath(__file__))
CRATE = "dom_c"
# Until 1.0 each 0.x has a binary interface of its own; then all of a first number have one.
SERIES = ".".join(VERSION.split(".")[: 2 if VERSION.startswith("0.") else 1])
SONAME = f"libhuckleport.so.{SERIES}"
# The version of all symbols, which the linker writes into programs.
SYMBOLS = f"HUCKLEPORT_{SERIES}"

PKGCONFIG = """\
prefix={prefix}
libdir=${{prefix}}{lib}
includedir=${{prefix}}{include}

Name: huckleport
Description: Documents by the DOM Standard: trees, live ranges, iterators, walkers and mutation observers
Version: {version}
License: {license}
Libs: -L${{libdir}} -lhuckleport
Cflags: -I${{includedir}}
"""


def pkgconfig(prefix, lib="", include=""):
    """Returns the text of huckleport.pc. A prefix that begins with ${pcfiledir} is relative to the file's folder, so that this may be moved."""
    return PKGCONFIG.format(prefix=prefix, lib=lib, include=include, version=VERSION, license=LICENSE)


sys.path.append(os.path.join(ROOT, "tools"))
sys.dont_write_bytecode = True
import assemble
import start


def kit():
    """The folder of the kit."""
    try:
        page = subprocess.run(["rt", "doc"], stdout=subprocess.PIPE, universal_newlines=True, check=True).stdout.strip()
    except (OSError, subprocess.CalledProcessError):
        sys.exit("there is no rt here: the Rattle kit proves and builds the library, and has its part in C (--c-part)")
    return os.path.dirname(page)


def build():
    """Proves and builds the crate and those below it that are missing, or takes them from the kit's store, and returns the archive."""
    if not start.start([CRATE]):
        sys.exit(f"{CRATE} was not proved and built")
    return start.built(CRATE)[0]


def archive_of(given):
    """Returns an archive that was given, or proved because that was asked for; or why the assembly in generated/ does not do, or neither."""
    if given.library or given.prove:
        return given.library or build(), None
    try:
        assemble.fits(CRATE, given.machine)
    except assemble.Unfit as why:
        return None, str(why)
    return None, None


def call(*words, **how):
    ran = subprocess.run(words, stdout=subprocess.PIPE, stderr=subprocess.STDOUT, universal_newlines=True, **how)
    if ran.returncode:
        sys.exit(f"{' '.join(words)}\n{ran.stdout}")
    return ran.stdout


def merge(archives, to):
    """One archive of what several have."""
    links = []
    for at, it in enumerate(archives):
        # (a script of ar reads no path with signs of its own)
        links.append(f"part{at}.a")
        link = os.path.join(os.path.dirname(to), links[-1])
        shutil.copyfile(it, link)
    script = "create merged.a\n" + "".join(f"addlib {it}\n" for it in links) + "save\nend\n"
    call("ar", "-M", input=script, cwd=os.path.dirname(to))
    for it in links:
        os.remove(os.path.join(os.path.dirname(to), it))
    os.rename(os.path.join(os.path.dirname(to), "merged.a"), to)
    call("ranlib", to)


def share(compiler, archive, names, folder):
    """Makes the shared object, which shows these names alone, and the second name for linking; returns its path."""
    script = os.path.join(folder, "names.map")
    with open(script, "w", encoding="utf-8") as file:
        file.write(f"{SYMBOLS} {{ global: " + "".join(f"{it}; " for it in names) + "local: *; };\n")
    to = os.path.join(folder, SONAME)
    words = ["-shared", f"-Wl,-soname,{SONAME}", f"-Wl,--version-script={script}", "-Wl,-z,defs", "-Wl,-z,noexecstack"]
    words += ["-Wl,--whole-archive", archive, "-Wl,--no-whole-archive"]
    call(compiler, *words, "-o", to)
    os.remove(script)
    # (a second name of the file: rt takes no folder in which anything is a symbolic link)
    os.link(to, os.path.join(folder, "libhuckleport.so"))
    return to


def shown(path, compiler):
    """The names that a shared object shows."""
    said = call(call(compiler, "-print-prog-name=nm").strip(), "-D", "--defined-only", path)
    return {line.split()[-1].partition("@")[0] for line in said.splitlines() if line.strip()} - {SYMBOLS}


def check(path, names, compiler="gcc"):
    """Fails where the shared object shows another name than the header's calls, or lacks one."""
    found = shown(path, compiler)
    more, less = sorted(found - set(names)), sorted(set(names) - found)
    if more or less:
        sys.exit(f"{os.path.basename(path)} shows what the header lacks: {more}; and lacks what it has: {less}")


def write(path, text):
    with open(path, "w", encoding="utf-8") as file:
        file.write(text)


def install(folder, prefix):
    for part in ("lib/pkgconfig", "include"):
        os.makedirs(os.path.join(prefix, part), exist_ok=True)
    shutil.copy(os.path.join(folder, "libhuckleport.a"), os.path.join(prefix, "lib"))
    shutil.copy(os.path.join(folder, SONAME), os.path.join(prefix, "lib"))
    link = os.path.join(prefix, "lib/libhuckleport.so")
    if os.path.lexists(link):
        os.remove(link)
    os.symlink(SONAME, link)
    shutil.copy(os.path.join(folder, "huckleport.h"), os.path.join(prefix, "include"))
    write(os.path.join(prefix, "lib/pkgconfig/huckleport.pc"), pkgconfig("${pcfiledir}/../..", "/lib", "/include"))


def put_archive(given, to):
    """Puts the archive, with all that it takes beside the C library, into a file."""
    archive, why = archive_of(given)
    if not archive and not why:
        try:
            return assemble.library(to, given.machine, given.compiler)
        except assemble.Unfit as fault:
            sys.exit(str(fault))
    archive = archive or (start.built(CRATE)[0] if start.is_fresh(CRATE) else assemble.proved(CRATE, why))
    c_part = os.path.abspath(given.c_part or os.path.join(kit(), "c/liblibc_c.a"))
    for it in (archive, c_part):
        if not os.path.isfile(it):
            sys.exit(f"{it} is not there")
    return merge([os.path.abspath(archive), c_part], to)


def make(given):
    """Makes the four files in a folder; each is put in place whole, since others may read it meanwhile."""
    found = modules(given.sources)
    names = [it.name for module in found for it in module.exports]
    text = header(found)
    folder = os.path.abspath(given.to)
    os.makedirs(folder, exist_ok=True)
    with tempfile.TemporaryDirectory(dir=folder) as room:
        merged = os.path.join(room, "libhuckleport.a")
        put_archive(given, merged)
        check(share(given.compiler, merged, names, room), names, given.compiler)
        write(os.path.join(room, "huckleport.h"), text)
        write(os.path.join(room, "huckleport.pc"), pkgconfig("${pcfiledir}"))
        for it in os.listdir(room):
            os.replace(os.path.join(room, it), os.path.join(folder, it))
    return folder, len(names)


def words_of(text):
    parser = argparse.ArgumentParser(description=text, formatter_class=argparse.RawDescriptionHelpFormatter)
    parser.add_argument("--library", metavar="FILE", help=f"the archive of {CRATE}, in place of one that is proved and built now")
    parser.add_argument("--c-part", metavar="FILE", help="the kit's part in C (c/liblibc_c.a of the kit)")
    parser.add_argument("--sources", metavar="FOLDER", default=SOURCES, help="the exports that the header is made of (crates/dom_c/src)")
    parser.add_argument("--to", metavar="FOLDER", default=os.path.join(HERE, "out"), help="where the files go (bindings/c/out)")
    parser.add_argument("--prove", action="store_true", help="prove and build the crate first, and do not take generated/")
    parser.add_argument("--machine", choices=assemble.MACHINES, help="the processor that the assembly of generated/ is taken for (this one)")
    parser.add_argument("--compiler", default="gcc", help="the C compiler that assembles and links (gcc)")
    return parser


def main():
    parser = words_of(__doc__)
    parser.add_argument("--install", metavar="PREFIX", help="copies the files under this prefix: lib, include and lib/pkgconfig")
    given = parser.parse_args()
    folder, count = make(given)
    print(f"{folder}: libhuckleport.a, libhuckleport.so, huckleport.h and huckleport.pc, with {count} calls")
    if given.install:
        install(folder, os.path.abspath(given.install))
        print(f"installed under {os.path.abspath(given.install)}")


if __name__ == "__main__":
    main()
