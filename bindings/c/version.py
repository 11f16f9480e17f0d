"""The number of this version, which stands in bindings/VERSION, and the terms that it is passed on under."""
import os

LICENSE = "MIT OR Apache-2.0"

with open(os.path.join(os.path.dirname(os.path.dirname(os.path.abspath(__file__))), "VERSION"), encoding="utf-8") as file:
    VERSION = file.read().strip()
