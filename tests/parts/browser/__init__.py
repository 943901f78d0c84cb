"""A page in a real browser: what tests/browser uses."""
