"""What tests/run alone uses."""
