"""What tests/stuck alone uses."""
