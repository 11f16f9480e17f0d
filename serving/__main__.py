"""The commands, run from the repository: `python3 serving --help`."""
import os
import sys

HERE = os.path.dirname(os.path.abspath(__file__))
sys.path[:0] = [HERE, os.path.join(os.path.dirname(HERE), "bindings/python")]

from huckleport_serving.commands import main

sys.exit(main())
