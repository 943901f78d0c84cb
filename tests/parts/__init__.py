"""What the tests and benches share. A folder has what one script alone uses, but for compile.
tools/group/shared is a part of it too: what the scripts for a group have in common."""

import os
import sys

HERE = os.path.dirname(os.path.realpath(__file__))
sys.path.insert(0, os.path.join(HERE, "..", "..", "tools", "group"))
