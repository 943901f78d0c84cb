"""What `demo` alone uses: the group that it starts, and what removes it."""
