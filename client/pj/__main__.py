"""`python3 -m pj`: the same as `tools/pj`."""

import sys

from .raw import is_raw

if is_raw(sys.argv[1:]):
    from .raw import main
else:
    from .cli import main

sys.exit(main(sys.argv[1:]))
