"""What tests/replay alone uses."""
