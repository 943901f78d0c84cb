"""A session and its group in a browser: `page`."""
