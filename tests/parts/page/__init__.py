"""A page of tools/group and who visits it, without a browser: what tests/page uses."""
