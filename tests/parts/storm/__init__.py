"""What tests/storm alone uses."""
