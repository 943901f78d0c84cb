"""The volumes of a p-System, and what their files look like."""
