#!/usr/bin/env python3
"""Builds and tests the library for Rust, without a network; prints the tests that it leaves out if cargo, or a part of it, is missing.

- src/ffi.rs is the file of the exports, and its declarations are those that bindgen reads in the header for C;
- all tests and doc tests, the example, the documentation without a warning, and clippy;
- all tests but those of comments once more by Debian's Rust, the oldest that the crate is for;
- the feature html5ever in tests/parsing, with the crates of Debian.
The library for C is in bindings/c/out, or in the folder that HUCKLEPORT_LIB_DIR names.
"""
import argparse
import os
import shutil
import subprocess
import sys
import tempfile

HERE = os.path.dirname(os.path.abspath(__file__))
PARSING = os.path.join(HERE, "tests/parsing")
# Where Debian's packages put the sources of crates.
REGISTRY = "/usr/share/cargo/registry"
PACKAGES = {"html5ever-0.26.0": "librust-html5ever-dev", "markup5ever_rcdom-0.2.0": "librust-markup5ever-rcdom-dev"}

DECLARED = (("declare.py", "--check"), ("bound.py",))
STEPS = (
    ("the tests", ["test", "--quiet"]),
    ("the example", ["run", "--quiet", "--example", "undo"]),
    ("the documentation", ["doc", "--quiet", "--no-deps"]),
    ("clippy", ["clippy", "--quiet", "--all-targets", "--", "-D", "warnings"]),
)
# The oldest Rust that the crate is for, as Debian 12 has it beside another one.
OLDEST = "/usr/bin/cargo"
OLDEST_STEPS = (("the tests by Debian's Rust", ["test", "--quiet", "--lib", "--tests", "--target-dir", "target/oldest"]),)
PARSING_STEPS = (
    ("parsing", ["test", "--quiet"]),
    ("the documentation with parsing", ["doc", "--quiet", "--no-deps", "--package", "huckleport"]),
    ("clippy with parsing", ["clippy", "--quiet", "--all-targets", "--", "-D", "warnings"]),
)


def has(part):
    return subprocess.run(["cargo", part, "--version"], stdout=subprocess.DEVNULL, stderr=subprocess.DEVNULL).returncode == 0


def run(steps, folder, environment, *words, cargo="cargo"):
    """Runs steps of cargo in a folder. Returns whether each passed."""
    failed = False
    for what, (name, *rest) in steps:
        if name == "clippy" and not has("clippy"):
            print(f"left out: {what}, since there is no clippy")
            continue
        ran = subprocess.run([cargo, name, "--offline", *words, *rest], cwd=folder, env=environment)
        print(f"{'FAILED ' if ran.returncode else ''}{what}", flush=True)
        failed = failed or ran.returncode != 0
    return not failed


def by_oldest(environment):
    """Tests by the oldest Rust, if that is there and not the one that ran already; returns whether that passed."""
    if os.path.realpath(shutil.which("cargo")) == os.path.realpath(OLDEST):
        return True
    if not os.path.isfile(OLDEST):
        print(f"left out: the tests by Debian's Rust, since there is no {OLDEST}")
        return True
    return run(OLDEST_STEPS, HERE, {**environment, "RUSTC": "/usr/bin/rustc", "RUSTDOC": "/usr/bin/rustdoc"}, cargo=OLDEST)


def mended(folder):
    """Debian's crates in another folder. One of them gets a line as its later versions have it: Rust since 1.69 takes no reference into a packed
    struct, and the tendril of Debian 12 does so."""
    for name in os.listdir(REGISTRY):
        os.symlink(os.path.join(REGISTRY, name), os.path.join(folder, name))
    tendril = os.path.join(folder, "tendril-0.4.0")
    if not os.path.islink(tendril):
        return
    os.remove(tendril)
    shutil.copytree(os.path.join(REGISTRY, "tendril-0.4.0"), tendril)
    path = os.path.join(tendril, "src/tendril.rs")
    with open(path, encoding="utf-8") as file:
        text = file.read()
    with open(path, "w", encoding="utf-8") as file:
        file.write(text.replace("#[repr(packed)]\nstruct Header", "#[repr(C)]\nstruct Header"))


def parsing(environment):
    """Tests the feature, if Debian's packages are there; returns whether that passed."""
    missing = [package for name, package in PACKAGES.items() if not os.path.isdir(os.path.join(REGISTRY, name))]
    if missing:
        print(f"left out: the feature html5ever, since there is no {' and no '.join(missing)}")
        return True
    with tempfile.TemporaryDirectory() as folder:
        mended(folder)
        return run(PARSING_STEPS, PARSING, environment, "--config", f'source.debian.directory="{folder}"')


def main():
    argparse.ArgumentParser(description=__doc__, formatter_class=argparse.RawDescriptionHelpFormatter).parse_args()
    passed = not any([subprocess.run([sys.executable, *it], cwd=HERE).returncode for it in DECLARED])
    if not shutil.which("cargo"):
        print("left out: the library for Rust, since there is no cargo")
        return int(not passed)
    # (the library beside it is tested, even if another is installed)
    made = os.path.join(os.path.dirname(HERE), "c/out")
    environment = {"HUCKLEPORT_LIB_DIR": made, **os.environ, "RUSTDOCFLAGS": "-D warnings"}
    passed = run(STEPS, HERE, environment) and passed
    passed = by_oldest(environment) and passed
    passed = parsing(environment) and passed
    return int(not passed)


if __name__ == "__main__":
    sys.exit(main())
