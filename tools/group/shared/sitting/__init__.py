"""A session over several nodes of a group: keys that are typed once, one console that is shown, and
what is told of keys that were lost. `attach` stands on it."""
