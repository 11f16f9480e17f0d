#!/usr/bin/env python3
"""Builds the core as a WebAssembly module: out/huckleport.wasm, and out/calls.js, its calls for JavaScript.

The kit proves dom_c and writes it as LLVM code for x86-64, which it hands to clang. This script keeps that code and makes the module of it:

- it retargets the code for wasm64;
- the kit's clang compiles it;
- the kit's lld links it with a heap, Debian's functions of compiler-rt, and glue;
- binaryen lowers it to memory of 32 bits, which every host has.

A crate that the kit has proved once on this machine, and whose code was kept, is not proved again.

Debian has the parts that the kit lacks: binaryen, libclang-rt-16-dev-wasm64, and the malloc's source in the package emscripten. --install installs the
first two and takes that one file out of the third.
"""
import argparse
import glob
import gzip
import hashlib
import importlib.util
import json
import os
import re
import shutil
import subprocess
import sys
import tempfile

HERE = os.path.dirname(os.path.abspath(__file__))
ROOT = os.path.dirname(os.path.dirname(HERE))
OUT = os.path.join(HERE, "out")
sys.dont_write_bytecode = True
sys.path[:0] = [HERE, os.path.join(ROOT, "bindings/c"), os.path.join(ROOT, "tools")]

from exports import SOURCES, modules
from glue import glue
from header import header
from retarget import apart, TRIPLE, refuse, retarget
from wasm import without_table

CRATE = "dom_c"
BUILTINS = ["/usr/lib/llvm-*/lib/clang/*/lib/*/libclang_rt.builtins-wasm64.a"]
MALLOC = ["/usr/share/emscripten/system/lib/dlmalloc.c", os.path.join(OUT, "dlmalloc.c")]
# What lime1 stands for, as binaryen names it.
FEATURES = "memory64 bulk-memory mutable-globals sign-ext nontrapping-float-to-int multivalue simd".split()
STACK = 1048576
# How large a function may be that binaryen puts into the only one that calls it: an engine compiles functions whole, when they are called often.
SMALL = 60
# Compiled for: what node 20 has with memory of 32 bits.
STRICT = ["-ffreestanding", "-fno-builtin", "-nostdinc", "-Wall", "-Wextra", "-Werror"]


def loaded(name, path):
    """A script as a module."""
    spec = importlib.util.spec_from_file_location(name, path)
    found = importlib.util.module_from_spec(spec)
    spec.loader.exec_module(found)
    return found


def call(*words, **how):
    ran = subprocess.run(words, stdout=subprocess.PIPE, stderr=subprocess.STDOUT, errors="replace", check=False, **how)
    if ran.returncode:
        sys.exit(f"{' '.join(words[:4])} ..\n{ran.stdout[-3000:]}")
    return ran.stdout


def kit_folder():
    return os.path.dirname(call("rt", "doc").strip())


# ---- The proved crate

def prove_for_wasm(start, kit, crate, jobs):
    """Proves the crate for wasm64; answers whether it is proved. The line of its verdict is then out/NAME."""
    status = crate.prove(["check", *crate.words(["--jobs", str(jobs)], keeps=False)])
    if not status:
        write(f"{crate.folder}/out/{crate.name}", f"{crate.name} is proved for {TRIPLE}\n")
    return not status


def script_that_proves():
    """Loads the script that proves missing crates."""
    return loaded("start", os.path.join(ROOT, "tools/start.py"))


def code():
    """Proves missing crates, or takes them from the kit's store, and returns the file of the crate's LLVM code, which is made with its archive."""
    start = script_that_proves()
    if not start.start([CRATE]):
        sys.exit(f"{CRATE} was not proved and built")
    found = start.code_of(CRATE)
    if not os.path.isfile(found):
        refuse("no file of it was handed to clang")
    return found


def take_target(rt):
    """Has the kit take the last line of a check for the target of the module, for which its gate has no place; it is held to all else that the gate holds it to."""
    beyond, target = rt.Crate.beyond, f"target={TRIPLE}"

    def held(crate, line, of_tests):
        said = line.split()
        if crate.is_wasm and target not in said:
            return f"it was not checked for {TRIPLE}"
        return beyond(crate, " ".join(it for it in said if it != target), of_tests)

    rt.Crate.beyond = held


def bring(start, top, name):
    """Puts the line of the verdict beside the crate, with the sum of what it was proved of."""
    file, noted = start.built(name)
    os.makedirs(os.path.dirname(file), exist_ok=True)
    shutil.copy(f"{top}/crates/{name}/out/{name}", file)
    write(noted, start.sum_of(start.with_lower(start.listed(), name)))


def for_wasm(start, kit):
    """Alters the script, so that it proves the crate for the target of the module, which is kept in the kit's store under a sum of its own."""

    class Proving(start.Start):
        def build(self, crate, jobs):
            return prove_for_wasm(start, kit, crate, jobs) if crate.name == CRATE else super().build(crate, jobs)

    whole, built = start.store, start.built

    def store(rt, crates):
        found = whole(rt, crates)
        if not hasattr(rt, "Kept"):
            sys.exit("this kit keeps nothing that was proved: take a newer one")
        key = found.key
        found.key = lambda crate: hashlib.sha256(f"{TRIPLE} {key(crate)}".encode()).hexdigest() if crate.name == CRATE else key(crate)
        return found

    take_target(start.kit())
    start.Start, start.store = Proving, store
    start.bring = lambda top, name: bring(start, top, name)
    start.built = lambda name: tuple(it.replace(f"out/{name}", f"out/{name}.wasm64") for it in built(name))


def verdict(kit):
    """Proves the crate for the target of the module, where that was not done."""
    start = script_that_proves()
    for_wasm(start, kit)
    copied = start.kit().copy_crates

    def copy_crates(top, to):
        copied(top, to)
        listed = os.path.join(to, "crates.txt")
        with open(listed, encoding="utf-8") as file:
            text = file.read()
        changed = text.replace(f"\n{CRATE} staticlib:", f"\n{CRATE} wasm64:")
        if changed == text:
            sys.exit(f"crates.txt has no line of {CRATE} that is known here")
        write(listed, changed)

    start.kit().copy_crates = copy_crates
    if not start.start([CRATE]):
        sys.exit(f"{CRATE} is not proved for {TRIPLE}")
    with open(start.built(CRATE)[0], encoding="utf-8") as file:
        return file.read().strip()


# ---- The module

def first(patterns):
    """The last of the files that fit the first pattern that any fits, or None."""
    return next((sorted(glob.glob(it))[-1] for it in patterns if glob.glob(it)), None)


def lacking(malloc=None):
    """Why no module can be made here, or None."""
    for tool, how in (("rt", "the Rattle kit proves and compiles"), ("wasm-opt", "apt-get install binaryen"), ("node", "apt-get install nodejs")):
        if not shutil.which(tool):
            return f"there is no {tool} ({how})"
    if not first(BUILTINS):
        return "there is no library of compiler-rt for wasm64 (apt-get install libclang-rt-16-dev-wasm64)"
    return None if malloc or first(MALLOC) else "there is no dlmalloc.c (bindings/web/make.py --install, or --malloc FILE)"


class Tools:
    """What makes a module: the kit's clang and its linker, and Debian's parts."""

    def __init__(self, kit, work, malloc):
        self.clang = os.path.join(kit, "toolchain/bin/clang")
        self.work = work
        self.linker, self.archiver = os.path.join(work, "wasm-ld"), os.path.join(work, "llvm-ar")
        for it in (self.linker, self.archiver):
            os.symlink(self.clang, it)
        self.builtins, self.malloc = first(BUILTINS), malloc or first(MALLOC)

    def path(self, name):
        return os.path.join(self.work, name)

    def compile(self, source, to, *words):
        call(self.clang, f"--target={TRIPLE}", "-mcpu=lime1", "-O3", "--no-default-config", *words, "-c", source, "-o", self.path(to))
        return self.path(to)

    def core(self, kept):
        """The archive of the crate's code."""
        text = self.path("core.ll")
        call(self.clang, "--target=x86_64-unknown-linux-gnu", "--no-default-config", "-x", "ir", kept, "-S", "-emit-llvm", "-o", text)
        with open(text, encoding="utf-8") as file:
            made = apart(retarget(file.read()))
        with open(text, "w", encoding="utf-8") as file:
            file.write(made)
        words = ["-ffunction-sections", "-fdata-sections", "-mllvm", "-disable-machine-licm", "-x", "ir"]
        call(self.archiver, "rcs", self.path("core.a"), self.compile(text, "core.o", *words))
        return self.path("core.a")

    def glue(self, in_c):
        """The objects of the glue and of the heap."""
        with open(self.path("glue.c"), "w", encoding="utf-8") as file:
            file.write(in_c)
        places = [f"-I{it}" for it in (os.path.join(HERE, "include"), HERE, self.work)]
        shutil.copy(self.malloc, self.path("dlmalloc.c"))
        glued = self.compile(self.path("glue.c"), "glue.o", *STRICT, *places)
        over_bytes = self.compile(os.path.join(HERE, "bytes.c"), "bytes.o", *STRICT, *places)
        # (the malloc is another project's: its warnings are not ours)
        return [glued, over_bytes, self.compile(os.path.join(HERE, "heap.c"), "heap.o", *STRICT, "-Wno-everything", *places)]

    def link(self, core, objects, most):
        """The module with memory of 64 bits. Its stack stands ahead of all data and grows down, so that a call too deep leaves the memory and ends."""
        words = ["-mwasm64", "--no-entry", "--stack-first", "-z", f"stack-size={STACK}", "--gc-sections", "--strip-all", "--threads=1"]
        words += [f"--max-memory={most}"] if most else []
        call(self.linker, *words, "-o", self.path("linked.wasm"), core, *objects, self.builtins)
        return self.path("linked.wasm")

    def lower(self, linked, to):
        """The module with memory of 32 bits."""
        with open(linked, "rb") as file:
            made = without_table(file.read())
        with open(self.path("bare.wasm"), "wb") as file:
            file.write(made)
        call("wasm-opt", self.path("bare.wasm"), *(f"--enable-{it}" for it in FEATURES), "--memory64-lowering", "-O3", f"--one-caller-inline-max-function-size={SMALL}", "-o", to)


def check(module, calls):
    """Fails where the module takes more from its host than the one word that memory has grown, or lacks a call."""
    said = call("node", "-e", "const m = new WebAssembly.Module(require('fs').readFileSync(process.argv[1])); console.log(JSON.stringify([WebAssembly.Module.imports(m), WebAssembly.Module.exports(m)]))", module)
    taken, shown = json.loads(said)
    taken, shown = [f"{it['module']}.{it['name']}" for it in taken], {it["name"] for it in shown}
    if taken != ["env.grown"] or not set(calls) <= shown:
        sys.exit(f"the module takes {taken} from its host, and lacks {sorted(set(calls) - shown)}")


def write(path, text):
    with open(path, "w", encoding="utf-8") as file:
        file.write(text)


def make(given):
    """Makes the module and its calls; returns the module."""
    why = lacking(given.malloc)
    if why:
        sys.exit(why)
    kit = kit_folder()
    found = modules(given.sources)
    in_c, in_script = glue(found)
    kept = os.path.abspath(given.code) if given.code else code()
    os.makedirs(given.to, exist_ok=True)
    to = os.path.join(os.path.abspath(given.to), "huckleport.wasm")
    with tempfile.TemporaryDirectory() as work:
        tools = Tools(kit, work, given.malloc)
        write(tools.path("huckleport.h"), header(found))
        tools.lower(tools.link(tools.core(kept), tools.glue(in_c), given.memory), to)
    check(to, re.findall(r"module\.(hp_\w+)", in_script))
    write(os.path.join(os.path.dirname(to), "calls.js"), in_script)
    return to


def install():
    """Installs Debian's packages, and puts the malloc's source, out of the one that is not installed, where that would have it."""
    if not lacking():
        return
    call("apt-get", "install", "-y", "--no-install-recommends", "binaryen", "libclang-rt-16-dev-wasm64")
    os.makedirs(os.path.dirname(MALLOC[0]), exist_ok=True)
    with tempfile.TemporaryDirectory() as work:
        call("apt-get", "download", "-o", "APT::Sandbox::User=root", "emscripten", cwd=work)
        package = glob.glob(os.path.join(work, "emscripten_*.deb"))[0]
        call("dpkg-deb", "-x", package, os.path.join(work, "whole"))
        shutil.copy(os.path.join(work, "whole", MALLOC[0].lstrip("/")), MALLOC[0])


def words_of(text):
    parser = argparse.ArgumentParser(description=text, formatter_class=argparse.RawDescriptionHelpFormatter)
    parser.add_argument("--code", metavar="FILE", help=f"the LLVM code of {CRATE}; without it the crate is proved and built now")
    parser.add_argument("--sources", metavar="FOLDER", default=SOURCES, help="the exports that the glue is made of (crates/dom_c/src)")
    parser.add_argument("--malloc", metavar="FILE", help="the source of the malloc (dlmalloc.c)")
    parser.add_argument("--memory", metavar="BYTES", type=int, help="how large the memory may become, in pages of 65,536 bytes (4 GB)")
    parser.add_argument("--to", metavar="FOLDER", default=OUT, help="where the files go (bindings/web/out)")
    return parser


def main():
    parser = words_of(__doc__)
    parser.add_argument("--install", action="store_true", help="installs the parts that the kit lacks, from Debian, and makes nothing")
    parser.add_argument("--verdict", action="store_true", help="proves the crate for the target wasm64, where that was not done, and makes nothing")
    given = parser.parse_args()
    if given.install:
        return install()
    if given.verdict:
        return print(verdict(kit_folder()))
    made = make(given)
    with open(made, "rb") as file:
        whole = file.read()
    print(f"{made}: {len(whole):,} bytes, {len(gzip.compress(whole, 9)):,} under gzip -9; calls.js beside it")


if __name__ == "__main__":
    main()
