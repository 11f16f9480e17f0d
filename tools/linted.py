#!/usr/bin/env python3
"""Checks the form of sources by the linters of each language, and that the man page and the completions of domserve have its options.

The options are read from the source `options.rt` of their crate, with their bounds and defaults. --help is clap's own, and so is --version if the source
has a version. Tests whose tools this machine lacks are left out, with a line that says so. With --write it lays the sources in C out.
"""
import argparse
import glob
import os
import re
import shutil
import subprocess
import sys
import tempfile

from start import ROOT

sys.dont_write_bytecode = True
# The one file that has the options.
OPTIONS = "crates/*/src/options.rt"
SHARE = "release/share"
MAN = f"{SHARE}/man/man1/domserve.1"
COMPLETIONS = ("bash-completion/completions/domserve", "zsh/site-functions/_domserve", "fish/vendor_completions.d/domserve.fish")
# The sources in C, but for the one that is made; .clang-format has their form.
SOURCES_IN_C = ("bench/**/*.[ch]", "bindings/**/*.[ch]", "release/**/*.c", "tools/*.c", "generated/*.c", "examples/*.c")
MADE = "bindings/python/core/calls.h"
# Debian's packages for node are found by the one; by the other ESLint 9 reads .eslintrc.json too.
ESLINT = {"NODE_PATH": "/usr/share/nodejs", "ESLINT_USE_FLAT_CONFIG": "false"}


def text_of(file):
    with open(f"{ROOT}/{file}", encoding="utf-8") as it:
        return it.read()


def said(*words, given=None, is_silent=False, **variables):
    """Returns a tool's messages of faults, as lines; none if it passes. For a tool that is silent if it passes, any output is a fault."""
    how = {"input": given, "env": {**os.environ, **variables}, "text": True, "errors": "replace"}
    ran = subprocess.run(words, cwd=ROOT, stdout=subprocess.PIPE, stderr=subprocess.STDOUT, check=False, **how)
    is_wrong = ran.returncode or (is_silent and ran.stdout.strip())
    return (ran.stdout.strip() or f"status {ran.returncode}").splitlines()[:20] if is_wrong else []


def files(*patterns):
    found = [it for pattern in patterns for it in glob.glob(f"{ROOT}/{pattern}", recursive=True)]
    return sorted(os.path.relpath(it, ROOT) for it in found if not re.search(r"/(out|build|target|node_modules)/", it))


# ---- the options


def source_of_options():
    return "".join(text_of(it) for it in files(OPTIONS))


def options():
    """Returns the options that take a value: the name, the value's name, its greatest value and its default."""
    text = source_of_options()
    return re.findall(r'\.long\("(\w+)"\)\s*\.value_name\("(\w+)"\).*?\.range\(1\.\.=(\d+)\)\)\s*\.default_value\("(\d+)"\)', text, re.S)


def long_names():
    is_versioned = ".version(" in source_of_options()
    return {*(name for name, *_ in options()), "help", *(["version"] if is_versioned else [])}


def man_page():
    """Returns the differences of the man page from the source: in its options, and in the words, bounds and defaults of each."""
    text = text_of(MAN)
    found = set(re.findall(r"Fl Fl (\w+)", text))
    wrong = [] if found == long_names() else [f"{MAN}: it has the options {sorted(found)}, where the program has {sorted(long_names())}"]
    for name, value, most, default in options():
        about = text.partition(f".It Fl Fl {name} Ar {value}\n")[2].partition("\n.It ")[0]
        wrong += [f"{MAN}: --{name} has not {it}" for it in (f"from 1 to {most}", f"The default is {default}.") if it not in about]
    return wrong


def completions():
    """The completions whose options are not those of the program."""
    found = {it: set(re.findall(r"(?:--|-l )(\w+)", text_of(f"{SHARE}/{it}"))) for it in COMPLETIONS}
    return [f"{SHARE}/{it}: it has the options {sorted(names)}" for it, names in found.items() if names != long_names()]


# ---- the linters


def c_form(write=False):
    words = ["-i"] if write else ["--dry-run", "-Werror"]
    return said("clang-format", "--style=file", *words, *(it for it in files(*SOURCES_IN_C) if it != MADE))


def python():
    sources = files("**/*.py") + ["tools/setup", "tools/release", "referee/referee"]
    return said("ruff", "check", "--quiet", *sources) if shutil.which("ruff") else said("flake8", *sources)


def rust():
    crates = ("bindings/rust", "bindings/rust/tests/parsing")
    return [line for it in crates for line in said("cargo", "fmt", "--check", "--manifest-path", f"{it}/Cargo.toml")]


def shell():
    return said("shellcheck", "--severity=warning", ".ci/run", "test", "domserve") + said("shellcheck", "--shell=bash", "--severity=warning", f"{SHARE}/{COMPLETIONS[0]}")


def javascript():
    return said("eslint", "--max-warnings", "0", *files("bench/**/*.js", "bindings/**/*.js", "release/**/*.mjs", "referee/**/*.js"), **ESLINT)


def doxygen():
    """Returns doxygen's warnings about the header, which is made of the exports."""
    with tempfile.TemporaryDirectory() as folder:
        words = [sys.executable, "-c", "from exports import SOURCES, modules\nfrom header import header\nprint(header(modules(SOURCES)), end='')"]
        made = subprocess.run(words, cwd=f"{ROOT}/bindings/c", stdout=subprocess.PIPE, check=True).stdout
        with open(f"{folder}/huckleport.h", "wb") as it:
            it.write(made)
        return said("doxygen", "-", given=f"{text_of('bindings/c/Doxyfile')}\nINPUT = {folder}/huckleport.h\nOUTPUT_DIRECTORY = {folder}/pages\n")


def mandoc():
    """Returns mandoc's messages about the pages for man. (Its rules of style ask for installed pages, which the others name.)"""
    return said("mandoc", "-T", "lint", "-W", "style", MAN) + said("mandoc", "-T", "lint", "-W", "warning", *files(f"{SHARE}/man/*/*"))


def units():
    """Returns systemd's messages about the units, in copies that start an existing program, since it checks that too."""
    with tempfile.TemporaryDirectory() as folder:
        made = {f"{folder}/{os.path.basename(it)}": re.sub(r"(?m)^ExecStart=\S+", "ExecStart=/bin/true", text_of(it)) for it in files("serving/units/*")}
        for path, text in made.items():
            with open(path, "w", encoding="utf-8") as it:
                it.write(text)
        return said("systemd-analyze", "verify", *made, is_silent=True)


def lacking(tools):
    """Returns why a linter is not run here, or None."""
    return None if not tools or any(shutil.which(it) for it in tools) else f"there is no {' and no '.join(tools)}"


# The name of each test, its tools (one of them is enough), and the test.
TESTS = (
    ("the man page has the options", (), man_page),
    ("the completions have the options", (), completions),
    ("the form of the man pages", ("mandoc",), mandoc),
    ("the form of sources in C", ("clang-format",), c_form),
    ("the linter of Python", ("ruff", "flake8"), python),
    ("the form of sources in Rust", ("rustfmt",), rust),
    ("the linter of shell scripts", ("shellcheck",), shell),
    ("the linter of JavaScript", ("eslint",), javascript),
    ("pages made of the header", ("doxygen",), doxygen),
    ("the form of the units for systemd", ("systemd-analyze",), units),
)


def main():
    words = argparse.ArgumentParser(description=__doc__, formatter_class=argparse.RawDescriptionHelpFormatter)
    words.add_argument("--write", action="store_true", help="lay the sources in C out first")
    if words.parse_args().write:
        c_form(True)
    wrong = ran = 0
    for what, tools, test in TESTS:
        why = lacking(tools)
        if why:
            print(f"left out: {what}, since {why}", flush=True)
            continue
        faults = test()
        ran, wrong = ran + 1, wrong + bool(faults)
        for it in faults:
            print(f"{what}: {it}", flush=True)
    print(f"{ran} linters, {wrong} with faults")
    return 1 if wrong else 0


if __name__ == "__main__":
    sys.exit(main())
