"""What keeps a node of a group running, and finds who is asked to lead: `supervise`."""
