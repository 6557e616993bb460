"""Commands and responses, as the library has them."""

from . import frame


class Response:
    """The result of a command."""

    def __init__(self, val):
        if val is not None and not isinstance(val, frame.BackwardFrame):
            raise TypeError("a response is None or a backward frame")
        self._value = val

    @property
    def raw_value(self):
        """Give the backward frame, or None."""
        return self._value


class CommandTracker(type):
    """Keeps a table of the commands that are known; a class whose name begins with _ isn't one."""

    known = []

    def __init__(cls, name, bases, attrs):
        super().__init__(name, bases, attrs)
        if bases and not name.startswith("_"):
            cls.known.append(name)


class Command(metaclass=CommandTracker):
    """A command, which is sent as its frame."""

    sendtwice, devicetype, response = False, 0, None

    def __init__(self, f):
        assert isinstance(f, frame.ForwardFrame)
        self._data = f

    @property
    def frame(self):
        """Give its frame."""
        return self._data
