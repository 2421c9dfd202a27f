"""`python3 tools/compare`: see `__init__.py`."""

import pathlib
import sys

sys.path[0] = str(pathlib.Path(__file__).resolve().parent.parent)

from compare.command import main  # noqa: E402: the package is found by the line above

sys.exit(main())
