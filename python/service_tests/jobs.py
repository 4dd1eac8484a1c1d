"""What the workers of the tests do."""


def add(first, second):
    """The sum."""
    return first + second


def finish(value):
    """The value itself."""
    return value


def fail(why):
    """Fails."""
    raise KeyError(why)


class Image:
    """A class with methods of each kind."""

    def __init__(self, size=1):
        self.size = size

    def resize(self, factor):
        """The size times the factor."""
        return self.size * factor

    def shrink(self):
        """Isn't on a list."""
        return self.size

    @classmethod
    def made(cls):
        """An image."""
        return cls()

    class Part:
        """A nested class."""

        @staticmethod
        def cut():
            """A text."""
            return "cut"


class Other(Image):
    """Isn't on a list by its methods."""
