"""Classes with fields, and little else."""


class Fields:
    """A class whose fields are its annotations, as those of a dataclass are. It is made in a tenth
    of the time, which each start of the compiler pays for all of them. A field with the default
    `list` or `dict` begins as a fresh one. Two of them are equal if they are the same."""

    _names, _fresh = (), ()

    def __init_subclass__(cls):
        own = [it for it in cls.__annotations__ if it not in cls._names]
        cls._names += tuple(own)
        fresh = [(it, cls.__dict__[it]) for it in own if cls.__dict__.get(it) in (list, dict)]
        cls._fresh += tuple(fresh)

    def __init__(self, *values, **named):
        fields = self.__dict__
        for name, make in self._fresh:
            fields[name] = make()
        fields.update(zip(self._names, values))
        if named:
            fields.update(named)

    def fields(self):
        """The values of the fields."""
        return [getattr(self, name) for name in self._names]

    def __repr__(self):
        inner = ", ".join(f"{name}={getattr(self, name)!r}" for name in self._names)
        return f"{type(self).__name__}({inner})"
