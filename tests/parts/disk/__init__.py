"""What tests/disk alone uses."""
