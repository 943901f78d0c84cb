"""What tests/group_session alone uses."""
