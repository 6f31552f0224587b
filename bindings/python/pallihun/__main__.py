"""`python3 -m pallihun`, and `python3 bindings/python/pallihun` from elsewhere."""

import os
import sys

if not __package__:
    # Run as a folder: modules are then looked for in it, and not beside it.
    sys.path[0] = os.path.dirname(os.path.dirname(os.path.abspath(__file__)))

from pallihun.command import main  # noqa: E402

sys.exit(main())
