"""The commands, as `python3 -m huckleport_serving` and as the installed script."""

import sys

from .commands import main


def run() -> None:
    sys.exit(main())


if __name__ == "__main__":
    run()
