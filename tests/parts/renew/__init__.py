"""What tests/renew alone uses."""
