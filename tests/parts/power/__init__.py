"""What tests/power alone uses."""
