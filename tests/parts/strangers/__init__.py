"""Parts of tests/strangers."""
