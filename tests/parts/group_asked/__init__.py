"""What tests/group_asked alone uses."""
