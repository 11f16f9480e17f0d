"""The packages for Python, Rust and JavaScript, each with the library inside."""
import base64
import hashlib
import importlib.util
import json
import os
import re
import shutil
import sysconfig
import tomllib

import files
from given import ARCHIVE, BINDINGS, LICENSE, LICENSES, MODULE_FILES, NAME, ROOT, VERSION, assemble, has_header, has_module, page, text_of
from machines import extension, tool

CLASSIFIERS = ("Development Status :: 4 - Beta", "Intended Audience :: Developers", "Operating System :: POSIX :: Linux", "Topic :: Text Processing :: Markup", "Typing :: Typed")
URLS = {"Homepage": "https://huckleport.example/", "Changelog": "https://huckleport.example/CHANGELOG.md"}
# The last minor version of Python that the packages were tried with.
LAST_PYTHON = 13
# The modules ask for nothing newer than this glibc.
GLIBC = (2, 17)


def licenses(at=""):
    """The terms, by their paths in a folder."""
    return {f"{at}{it}": files.text(text_of(it)) for it in LICENSES}


# ---- Python


def metadata(project, about):
    """Returns the metadata of a wheel: the project's own file, and its page."""
    head = {"Metadata-Version": "2.4", "Name": project["name"], "Version": VERSION, "Summary": project["description"]}
    head.update({"License-Expression": LICENSE, "Requires-Python": project["requires-python"], "Description-Content-Type": "text/markdown"})
    lines = [*head.items(), *(("License-File", it) for it in LICENSES), *(("Requires-Dist", it) for it in project.get("dependencies", ()))]
    lines += [("Classifier", it) for it in (*CLASSIFIERS, *map("Programming Language :: Python :: 3.{}".format, versions(project)))]
    lines += [("Project-URL", f"{name}, {it}") for name, it in URLS.items()]
    for extra, its in project.get("optional-dependencies", {}).items():
        lines += [("Provides-Extra", extra), *(("Requires-Dist", f"{it}; extra == '{extra}'") for it in its)]
    return files.text("".join(f"{name}: {it}\n" for name, it in lines) + "\n" + page(about).content.decode())


def record(found, at):
    """The sums of a wheel's files, in the form that wheels have for them."""
    sums = {path: base64.urlsafe_b64encode(hashlib.sha256(it.content).digest()).rstrip(b"=").decode() for path, it in found.items()}
    return files.text("".join(f"{path},sha256={sums[path]},{len(it.content)}\n" for path, it in found.items()) + f"{at},,\n")


def versions(project):
    """The minor versions of Python that a package was tried with."""
    return range(int(project["requires-python"].rpartition(".")[2]), LAST_PYTHON + 1)


def asked_glibc(path):
    """The newest version of the C library that a module asks for."""
    with open(path, "rb") as file:
        return max(tuple(map(int, it.split(b"."))) for it in re.findall(rb"GLIBC_(\d+\.\d+)", file.read()))


def wheel(work, to, machine):
    """The wheel for each CPython from 3.8 on, with the extension module. It is a zip whose form is settled, and needs no tool of its own."""
    if not shutil.which(tool(machine, "gcc")) or not has_header(sysconfig.get_path("include"), "Python.h"):
        return f"there is no {tool(machine, 'gcc')}, or no Python.h"
    module = extension(work, machine)
    if asked_glibc(module) > GLIBC:
        return f"the extension module asks for glibc {'.'.join(map(str, asked_glibc(module)))}"
    project = tomllib.loads(text_of("bindings/python/pyproject.toml"))["project"]
    found = files.under(os.path.join(BINDINGS, "python/huckleport"), (".py", ".pyi", "py.typed"), "huckleport")
    found["huckleport/_core.abi3.so"] = files.of(module, 0o755)
    about = f"{NAME}.dist-info"
    found[f"{about}/METADATA"] = metadata(project, "docs/python.md")
    tag = f"cp38-abi3-{machine.wheel}"
    close(found, about, tag, os.path.join(to, f"{NAME}-{tag}.whl"))
    return None


def serving(_, to):
    """The wheel of the package that serves documents, for any Python 3 that it is for: it has no library, and asks for the other wheel."""
    project = tomllib.loads(text_of("serving/pyproject.toml"))["project"]
    found = files.under(os.path.join(ROOT, "serving/huckleport_serving"), (".py", ".sql", "py.typed"), "huckleport_serving")
    name = f"huckleport_serving-{VERSION}"
    found[f"{name}.dist-info/METADATA"] = metadata(project, "docs/serving.md")
    scripts = "".join(f"{script} = {it}\n" for script, it in project["scripts"].items())
    found[f"{name}.dist-info/entry_points.txt"] = files.text(f"[console_scripts]\n{scripts}")
    close(found, f"{name}.dist-info", "py3-none-any", os.path.join(to, f"{name}-py3-none-any.whl"))


def close(found, about, tag, path):
    """Writes a wheel, once the terms, its form and its sums are in it."""
    found[f"{about}/WHEEL"] = files.text(f"Wheel-Version: 1.0\nGenerator: huckleport\nRoot-Is-Purelib: {str(tag.endswith('any')).lower()}\nTag: {tag}\n")
    found.update(licenses(f"{about}/licenses/"))
    found[f"{about}/RECORD"] = record(found, f"{about}/RECORD")
    files.packed(found, path)


# ---- Rust


def has_assembly(machine):
    try:
        assemble.fits(assemble.LIBRARY, machine)
    except assemble.Unfit:
        return False
    return True


def code(work):
    """The proved code: as assembly for each processor that has some of the sources that are here, and else as the archive of this one."""
    names = [assemble.assembly(assemble.LIBRARY, it) for it in assemble.MACHINES if has_assembly(it)]
    if not names:
        return {f"lib/{ARCHIVE}": files.of(os.path.join(work, ARCHIVE))}
    found = {f"assembly/{it.removesuffix('.xz')}": files.File(assemble.plain(assemble.content(it))) for it in names}
    return found | {f"assembly/{assemble.HEAP}": files.File(assemble.content(assemble.HEAP))}


def crate(work, to):
    """The crate, with the proved code, which its build script compiles."""
    folder = os.path.join(BINDINGS, "rust")
    found = {it: files.of(os.path.join(folder, it)) for it in ("Cargo.toml", "Cargo.lock", "build.rs", ".cargo/config.toml")}
    found.update(files.under(os.path.join(folder, "stand-in"), (".toml", ".json", ".rs"), "stand-in"))
    for it in ("src", "examples"):
        found.update(files.under(os.path.join(folder, it), (".rs",), it))
    found.update(code(work) | licenses() | {"README.md": page("docs/rust.md")})
    files.tar(found, NAME, os.path.join(to, f"{NAME}.crate"))


# ---- JavaScript


def manifest():
    """Returns the package's own manifest, without the scripts, which are run in the repository alone."""
    found = json.loads(text_of("bindings/javascript/package.json"))
    found.pop("scripts", None)
    return files.text(json.dumps(found, indent=2) + "\n")


def javascript():
    """The script that puts the package together in the repository."""
    spec = importlib.util.spec_from_file_location("javascript_make", os.path.join(BINDINGS, "javascript/make.py"))
    found = importlib.util.module_from_spec(spec)
    spec.loader.exec_module(found)
    return found


def npm(work, to):
    """The package for npm, with the module, which has no platform in it."""
    if not has_module(work):
        return "there is no module (bindings/web/make.py makes it)"
    found = files.under(os.path.join(BINDINGS, "javascript/lib"), (".js", ".ts"), "lib")
    found.update({f"out/{it}": files.of(os.path.join(work, it)) for it in MODULE_FILES})
    found["out/bytes.js"] = files.text(javascript().script_of(os.path.join(work, MODULE_FILES[0])))
    found.update({"package.json": manifest(), "README.md": page("bindings/javascript/README.md", ("javascript.md",))} | licenses())
    found["docs/javascript.md"] = page("docs/javascript.md")
    files.tar(found, "package", os.path.join(to, f"{NAME}.tgz"))
    return None
