"""What tests/old_records alone uses."""
