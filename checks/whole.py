"""Whether this is ./check, or ./check --anew, and not `make test`."""

import os

WHOLE = bool(os.environ.get("OSB_WHOLE"))
"""In ./check, more random cases are compared, and the tests of Go run with the race detector. With that they take five
times the processor time.
"""
ANEW = os.environ.get("OSB_WHOLE") == "anew"
"""In ./check --anew, the most random cases are compared."""
