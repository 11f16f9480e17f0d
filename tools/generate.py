#!/usr/bin/env python3
"""Writes the files of generated/:

- the proved program and the proved library as assembly, for each processor of a release
- the WebAssembly module and its calls
- the header for C
- SUMS, with the sum of each file, and the sum of its sources

Missing proofs are made first, for each processor, and kept in the kit's store. They leave code, which the kit's own clang compiles with the kit's own words,
but to assembly. A file is written only if its content is another, so the others stay byte for byte.

With --check nothing is written, and it fails if a file is not the one that the proofs leave.
"""
import argparse
import concurrent.futures
import contextlib
import hashlib
import importlib.util
import lzma
import os
import shutil
import subprocess
import sys
import tempfile

import assemble
import start
from assemble import CALLS, FOLDER, HEADER, HEAP, LIBRARY, MODULE, SYSTEM, WRITER
from start import PROGRAM, ROOT

sys.dont_write_bytecode = True
TARGETS = {start.HERE: "x86_64", start.ARM: "aarch64"}
# The filters of xz, so that its version's defaults do not matter.
FILTERS = [{"id": lzma.FILTER_LZMA2, "preset": 9 | lzma.PRESET_EXTREME}]
# The most bytes of the folder, and the most files that are kept beside the kit's store.
MOST, MOST_KEPT = 3_000_000, 40
HEAD = """\
# The proved code of {program} and of the library, written by {writer}; `sha256sum --check SUMS` in this folder compares the files.
# kit: {kit}
"""


def kit_sum():
    """Returns the sum of the kit's files, or its name and version if it has no store."""
    return start.kit().kit_sum() if hasattr(start.kit(), "kit_sum") else kit()


def module(name, path):
    """Returns a script as a module, with the folder of its own imports."""
    sys.path.insert(0, os.path.dirname(path))
    spec = importlib.util.spec_from_file_location(name, path)
    found = importlib.util.module_from_spec(spec)
    spec.loader.exec_module(found)
    return found


def kit():
    """Returns the kit's name and its logic. Releases of the kit that share a logic make the same code, so the release is left out."""
    told = subprocess.run(["rt", "version"], stdout=subprocess.PIPE, text=True, check=True).stdout.strip()
    return f"rattle-kit {told[told.index('logic') :]}"


def words_of(name, target, code, to):
    """Returns the words for clang to compile the code to assembly. They are the kit's words, which ask for an object, with changes."""
    with open(f"{start.code_of(name, target)}.words", encoding="utf-8") as file:
        words = file.read().splitlines()
    if words.count("-c") != 1 or words.count("-x") != 1:
        sys.exit(f"clang was called for {name} in a way that is not known here: {' '.join(words)}")
    words = [it for it in words if not it.startswith("--sysroot=")]
    words[words.index("-c")] = "-S"
    words[words.index("-x") + 2] = code
    words[words.index("-o") + 1] = to
    return [*words, "-fno-addrsig"]


def sum_of_bytes(*parts):
    """Returns a sum over texts and bytes."""
    return hashlib.sha256(repr(parts).encode()).hexdigest()


def kept(key, make):
    """Returns the content that `make` returns. It is kept beside the kit's store, if there is one, under a sum of its sources, and then not made again."""
    if not hasattr(start.kit(), "STORE"):
        return make()
    folder = f"{start.kit().STORE}/generated"
    with contextlib.suppress(OSError), open(f"{folder}/{key}", "rb") as file:
        whole = lzma.decompress(file.read())
        os.utime(file.name)
        return whole
    whole = make()
    with contextlib.suppress(OSError):
        os.makedirs(folder, 0o700, exist_ok=True)
        with tempfile.NamedTemporaryFile(dir=folder, delete=False) as file:
            file.write(lzma.compress(whole, preset=0))
        os.replace(file.name, f"{folder}/{key}")
        for it in sorted(os.scandir(folder), key=lambda it: it.stat().st_mtime)[:-MOST_KEPT]:
            os.remove(it.path)
    return whole


def compile(clang, name, target, to):
    """Compiles the code of the program or the library to assembly."""
    code = start.code_of(name, target)

    def made():
        with tempfile.TemporaryDirectory() as room:
            words = [clang, *words_of(name, target, code, f"{room}/made.s")]
            ran = subprocess.run(words, stdout=subprocess.PIPE, stderr=subprocess.STDOUT, text=True, check=False)
            if ran.returncode:
                sys.exit(f"clang made no assembly of {code}: {ran.stdout[-2000:]}")
            return bytes_of(f"{room}/made.s")

    whole = kept(sum_of_bytes(kit_sum(), bytes_of(code), words_of(name, target, "code", "made.s")), made)
    with open(f"{to}/{assemble.assembly(name, TARGETS[target])}", "wb") as file:
        file.write(whole)


def make_module(to):
    """Makes the WebAssembly module and its calls. Returns why that cannot be done here, or None."""
    web = module("web_make", f"{ROOT}/bindings/web/make.py")
    why = web.lacking()
    if why:
        return why
    code = start.code_of(LIBRARY)

    def made():
        with tempfile.TemporaryDirectory() as room:
            web.make(web.words_of("").parse_args(["--code", code, "--to", room]))
            return b"".join(len(it).to_bytes(8) + it for it in (bytes_of(f"{room}/{name}") for name in (MODULE, CALLS)))

    tools = [bytes_of(it) for it in (shutil.which("wasm-opt"), web.first(web.BUILTINS), web.first(web.MALLOC))]
    whole = kept(sum_of_bytes(kit_sum(), bytes_of(code), assemble.sources_of(MODULE), tools), made)
    for name in (MODULE, CALLS):
        size = int.from_bytes(whole[:8])
        with open(f"{to}/{name}", "wb") as file:
            file.write(whole[8 : 8 + size])
        whole = whole[8 + size :]
    return None


def make_header(to):
    words = "from exports import SOURCES, modules\nfrom header import header\nprint(header(modules(SOURCES)), end='')"
    made = subprocess.run([sys.executable, "-c", words], cwd=f"{ROOT}/bindings/c", stdout=subprocess.PIPE, check=True).stdout
    with open(f"{to}/{HEADER}", "wb") as file:
        file.write(made)


def make(to):
    """Makes all files in a folder, side by side, without xz. Returns the files that could not be made here, and why."""
    for it in (HEAP, SYSTEM):
        shutil.copy(f"{FOLDER}/{it}", to)
    clang = f"{start.kit().KIT}/toolchain/bin/clang"
    with concurrent.futures.ThreadPoolExecutor(os.cpu_count() or 1) as pool:
        left = pool.submit(make_module, to)
        waits = [pool.submit(compile, clang, name, target, to) for name in (PROGRAM, LIBRARY) for target in TARGETS]
        make_header(to)
        for it in waits:
            it.result()
        return {it: left.result() for it in (MODULE, CALLS)} if left.result() else {}


def bytes_of(path):
    with open(path, "rb") as file:
        return file.read()


def content(name):
    """Returns the content of a file of generated/, without xz, or None if it is missing or no whole file of xz."""
    try:
        whole = bytes_of(f"{FOLDER}/{name}")
        return lzma.decompress(whole) if name.endswith(".xz") else whole
    except (FileNotFoundError, lzma.LZMAError):
        return None


def sums(names, folder):
    """Returns the text of SUMS, over the files of a folder."""
    text = HEAD.format(program=PROGRAM, writer=WRITER, kit=kit())
    rows = start.listed()
    crates = {it for name in (PROGRAM, LIBRARY) for it in start.with_lower(rows, name)}
    text += "".join(f"# crate {it}: {assemble.sum_of_crate(it)}\n" for it in rows if it in crates)
    return text + "".join(f"# {it}: sources {assemble.sources_of(it)}\n{assemble.sum_of_file(f'{folder}/{it}')}  {it}\n" for it in names)


def compared(made, names, left):
    """Returns the faults of generated/ beside the files made now."""
    wrong = [f"generated/{it} is not what the proof leaves" for it in names if it not in left and content(it) != bytes_of(f"{made}/{it}")]
    wrong += [f"generated/{it} is not made by {WRITER}" for it in sorted(os.listdir(FOLDER)) if it not in (*names, "SUMS")]
    there = all(os.path.isfile(f"{FOLDER}/{it}") for it in names)
    if not there or content("SUMS") != sums(names, FOLDER).encode():
        wrong.append("generated/SUMS is not of these sources and files")
    return wrong


def put(made, names):
    """Writes the files whose content is another, and SUMS. Returns their names."""
    written = []
    for it in names:
        whole = bytes_of(f"{made}/{it}")
        if content(it) != whole:
            with open(f"{FOLDER}/{it}.new", "wb") as file:
                file.write(lzma.compress(whole, lzma.FORMAT_XZ, lzma.CHECK_CRC64, filters=FILTERS) if it.endswith(".xz") else whole)
            os.replace(f"{FOLDER}/{it}.new", f"{FOLDER}/{it}")
            written.append(it)
    text = sums(names, FOLDER).encode()
    if content("SUMS") != text:
        with open(f"{FOLDER}/SUMS", "wb") as file:
            file.write(text)
        written.append("SUMS")
    return written


def main():
    words = argparse.ArgumentParser(description=__doc__, formatter_class=argparse.RawDescriptionHelpFormatter)
    words.add_argument("--check", action="store_true", help="write nothing, and fail if generated/ is not what the proofs leave")
    given = words.parse_args()
    names = [HEAP, SYSTEM, HEADER, *(assemble.assembly(name, it) for name in (PROGRAM, LIBRARY) for it in TARGETS.values()), MODULE, CALLS]
    if not start.start([PROGRAM, LIBRARY], (start.ARM,), has_code=True):
        return 1
    with tempfile.TemporaryDirectory() as made:
        left = make(made)
        for it, why in left.items():
            print(f"left out: generated/{it}, since {why}")
        if left and not given.check:
            return 1
        wrong = compared(made, names, left) if given.check else []
        written = [] if given.check else put(made, names)
    size = sum(os.path.getsize(f"{FOLDER}/{it}") for it in os.listdir(FOLDER))
    wrong += [f"generated/ has {size:,} bytes, and at most {MOST:,} are due"] if size > MOST else []
    for it in wrong:
        print(f"{it}: {WRITER} writes it")
    print(f"generated/ has {size:,} bytes; " + (f"{len(wrong)} wrong" if given.check else f"written: {', '.join(written) or 'nothing, since nothing is new'}"))
    return 1 if wrong else 0


if __name__ == "__main__":
    sys.exit(main())
