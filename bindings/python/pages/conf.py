"""What Sphinx makes pages of the package by: `sphinx-build bindings/python/pages FOLDER`.

The bodies in Python have the types and docstrings of all members, so no extension module is needed: an empty one stands for it.
"""
import os
import sys
import types

sys.path.insert(0, os.path.dirname(os.path.dirname(os.path.abspath(__file__))))
core = types.ModuleType("huckleport._core")
core.attribute = core.member = core.settle = lambda *_: None
core.Builder, core.Calls, core.Thing = (type(it, (), {"__slots__": ()}) for it in ("Builder", "Calls", "Thing"))
sys.modules[core.__name__] = core
from huckleport import __version__ as release  # noqa: F401

project = "huckleport"
extensions = ["sphinx.ext.autodoc"]
autodoc_member_order = "bysource"
autodoc_default_options = {"members": True, "undoc-members": True, "show-inheritance": True}
html_show_copyright = False
