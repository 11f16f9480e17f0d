"""Builds the package with its extension module, of libhuckleport.a and huckleport.h, for any CPython from 3.8 on.

They are looked for in the folder that the variable HUCKLEPORT_STATIC names, and else in bindings/c/out.
"""
import os
import sys

from setuptools import Extension, setup

HERE = os.path.dirname(os.path.abspath(__file__))
STATIC = os.environ.get("HUCKLEPORT_STATIC") or os.path.join(os.path.dirname(HERE), "c", "out")
ARCHIVE = os.path.join(STATIC, "libhuckleport.a")
MISSING = [it for it in ("libhuckleport.a", "huckleport.h") if not os.path.exists(os.path.join(STATIC, it))]
if MISSING:
    sys.exit(f"{STATIC} has no {' and no '.join(MISSING)}: python3 bindings/c/make.py makes them, and HUCKLEPORT_STATIC names the folder where they lie elsewhere")

MODULE = Extension(
    "huckleport._core",
    ["core/core.c"],
    depends=[os.path.join("core", it) for it in sorted(os.listdir(os.path.join(HERE, "core")))],
    include_dirs=[STATIC, "core"],
    extra_objects=[ARCHIVE],
    extra_compile_args=["-std=c99", "-O3", "-fno-tree-vectorize", "-fvisibility=hidden"],
    extra_link_args=["-Wl,--exclude-libs,ALL", "-Wl,-z,noexecstack"],
    py_limited_api=True,
)

setup(ext_modules=[MODULE], options={"bdist_wheel": {"py_limited_api": "cp38"}})
