"""Subclasses of arrays whose state has more in it than NumPy's."""

import numpy


class Nested(numpy.ndarray):
    """Has its own state beside that of NumPy."""

    unit = ""

    @classmethod
    def of(cls, values):
        kind = float if type(values[0]) is float else object
        made = numpy.array([None, None], kind).view(cls)
        made[:] = values
        made.unit = "m"
        return made

    def __reduce__(self):
        make, given, state = super().__reduce__()
        return make, given, (state, {"unit": self.unit})

    def __setstate__(self, state):
        super().__setstate__(state[0])
        self.unit = state[1]["unit"]


class Longer(Nested):
    """Has its own state at the end of that of NumPy."""

    def __reduce__(self):
        make, given, state = numpy.ndarray.__reduce__(self)
        return make, given, (*state, self.unit)

    def __setstate__(self, state):
        numpy.ndarray.__setstate__(self, state[:-1])
        self.unit = state[-1]
