"""What tests/translate uses: a second reader and interpreter of old code files, which share nothing
with the translator's, and files for both of them."""

import os
import sys

from ..program import TOP

sys.path.insert(0, os.path.join(TOP, "tools"))
