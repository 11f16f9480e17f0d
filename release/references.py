"""The references of the libraries as pages of HTML, each by its language's own tool: doxygen, rustdoc, Sphinx. Debian has none for TypeScript, so declarations.py
makes those.
"""
import os
import shutil
import subprocess
import sys
import tempfile

import declarations
import files
from given import ARCHIVE, BINDINGS, HEADER, NAME, ROOT
from machines import HERE, MACHINES, extension

ENDINGS = (".html", ".css", ".js", ".svg", ".png", ".woff2", ".md", ".txt", ".inv")


def tried(*words, **how):
    """Runs a tool; returns whether it did its work."""
    settings = {"stdout": subprocess.DEVNULL, "stderr": subprocess.DEVNULL, "stdin": subprocess.DEVNULL, "check": False}
    return subprocess.run(words, **settings, **how).returncode == 0


def of_c(work, room):
    if not shutil.which("doxygen"):
        return None
    with open(os.path.join(BINDINGS, "c/Doxyfile"), encoding="utf-8") as file:
        settings = file.read()
    settings += f"INPUT = {os.path.join(work, HEADER)}\nOUTPUT_DIRECTORY = {room}\nHTML_TIMESTAMP = NO\nFULL_PATH_NAMES = NO\nHAVE_DOT = NO\n"
    with open(os.path.join(room, "Doxyfile"), "w", encoding="utf-8") as file:
        file.write(settings)
    return os.path.join(room, "html") if tried("doxygen", os.path.join(room, "Doxyfile"), cwd=ROOT) else None


def of_rust(work, room):
    if not shutil.which("cargo"):
        return None
    words = ["cargo", "doc", "--quiet", "--offline", "--no-deps", "--target-dir", room]
    done = tried(*words, cwd=os.path.join(BINDINGS, "rust"), env={**os.environ, "HUCKLEPORT_LIB_DIR": work})
    return os.path.join(room, "doc") if done and os.path.isfile(os.path.join(work, ARCHIVE)) else None


def of_python(work, room):
    """By the first Python that has Sphinx."""
    package = os.path.join(room, "python/huckleport")
    shutil.copytree(os.path.join(BINDINGS, "python/huckleport"), package, ignore=shutil.ignore_patterns("__pycache__", "*.so"))
    shutil.copy(extension(work, MACHINES[HERE]), package)
    shutil.copytree(os.path.join(BINDINGS, "python/pages"), os.path.join(room, "python/pages"))
    for python in (sys.executable, "/usr/bin/python3"):
        words = [python, "-m", "sphinx", "-q", "-d", os.path.join(room, "trees"), os.path.join(room, "python/pages"), os.path.join(room, "pages")]
        if tried(*words, env={**os.environ, "PYTHONPATH": os.path.dirname(package), "PYTHONDONTWRITEBYTECODE": "1"}):
            return os.path.join(room, "pages")
    return None


MAKERS = {"c": of_c, "rust": of_rust, "python": of_python}


def references(work, to):
    """The archive of references; returns which are left out, or None."""
    found = {f"typescript/{name}": it for name, it in declarations.pages(os.path.join(BINDINGS, "javascript")).items()}
    lacking = []
    for name, maker in MAKERS.items():
        with tempfile.TemporaryDirectory() as room:
            folder = maker(work, room)
            if folder is None:
                lacking.append(name)
                continue
            found |= files.under(folder, ENDINGS, name)
    files.tar(found, f"{NAME}-references", os.path.join(to, f"{NAME}-references.tar.gz"))
    return f"no reference was made of {', '.join(lacking)}" if lacking else None
