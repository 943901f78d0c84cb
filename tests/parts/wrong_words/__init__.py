"""What tests/wrong_words alone uses."""
