"""What tests/compile and tests/pascal try the compiler with."""
