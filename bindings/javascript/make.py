#!/usr/bin/env python3
"""Puts the module beside the package: out/huckleport.wasm and out/calls.js; and out/bytes.js, the module as a text for pages.

The first two are taken from generated/ if they were made of the sources that are here. Otherwise, or with --prove, bindings/web/make.py makes them in
bindings/web/out. --module takes another folder that has both.
"""
import argparse
import base64
import importlib.util
import os
import subprocess
import sys

HERE = os.path.dirname(os.path.abspath(__file__))
ROOT = os.path.dirname(os.path.dirname(HERE))
sys.path.append(os.path.join(ROOT, "tools"))
import assemble

WEB = os.path.join(os.path.dirname(HERE), "web")
MODULE = os.path.join(WEB, "out")
FILES = ("huckleport.wasm", "calls.js")


def module(name, path):
    """A script as a module."""
    spec = importlib.util.spec_from_file_location(name, path)
    found = importlib.util.module_from_spec(spec)
    sys.dont_write_bytecode = True
    spec.loader.exec_module(found)
    return found


def script_of(module):
    """Returns the module's bytes as a script that exports them in base64."""
    with open(module, "rb") as file:
        return f'export default "{base64.b64encode(file.read()).decode()}";\n'


def put_script(folder):
    """Writes the script of the module beside it, whole."""
    to = os.path.join(folder, "bytes.js")
    with open(f"{to}.new", "w", encoding="ascii") as file:
        file.write(script_of(os.path.join(folder, FILES[0])))
    os.replace(f"{to}.new", to)


def has_module(folder):
    return all(os.path.isfile(os.path.join(folder, it)) for it in FILES)


def why_made():
    """Why the files in generated/ do not do, or None."""
    try:
        return next(filter(None, map(assemble.why_unfit, FILES)), None)
    except assemble.Unfit as why:
        return str(why)


def made(given):
    """The content of both files: from generated/, or from a folder, in which they may have to be made first."""
    if given.module is None and not given.prove and why_made() is None:
        return [assemble.content(it) for it in FILES]
    folder = given.module or MODULE
    if given.module is None:
        print(f"making the module: {'that is asked for' if given.prove else why_made()}", file=sys.stderr, flush=True)
        if subprocess.run([sys.executable, os.path.join(WEB, "make.py")], check=False).returncode:
            sys.exit("the WebAssembly module was not built: bindings/web/make.py says above why")
    if not has_module(folder):
        sys.exit(f"{folder} has no {' or no '.join(FILES)}: --module names a folder that has both")
    return [content(os.path.join(folder, it)) for it in FILES]


def content(path):
    with open(path, "rb") as file:
        return file.read()


def build(given):
    """Puts both files into the package's folder, each whole, since others may read it meanwhile; returns the module."""
    os.makedirs(given.to, exist_ok=True)
    try:
        found = made(given)
    except assemble.Unfit as why:
        sys.exit(str(why))
    for it, whole in zip(FILES, found):
        to = os.path.join(given.to, it)
        with open(f"{to}.new", "wb") as file:
            file.write(whole)
        os.replace(f"{to}.new", to)
    put_script(given.to)
    return os.path.join(given.to, FILES[0])


def words_of(text):
    parser = argparse.ArgumentParser(description=text, formatter_class=argparse.RawDescriptionHelpFormatter)
    parser.add_argument("--module", metavar="FOLDER", help="where huckleport.wasm and calls.js are, in place of generated/")
    parser.add_argument("--prove", action="store_true", help="prove the crate and make the module, and do not take generated/")
    parser.add_argument("--to", metavar="FOLDER", default=os.path.join(HERE, "out"), help="where they go (bindings/javascript/out)")
    return parser


def main():
    print(build(words_of(__doc__).parse_args()))


if __name__ == "__main__":
    main()
