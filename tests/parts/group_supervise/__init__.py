"""What tests/group_supervise alone uses."""
