"""What tests/freeze uses: programs that are cut at many keys, and frozen there."""

import os
import sys

from ..program import TOP

sys.path.insert(0, os.path.join(TOP, "tools"))
