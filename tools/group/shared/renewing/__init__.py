"""Takes what was typed in a session that is full into a new one: `renew`."""
