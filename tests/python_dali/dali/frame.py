"""Frames, as the library has them."""


class Frame:
    """So many bits."""

    def __init__(self, bits, data=0):
        if not 0 <= data < 1 << bits:
            raise ValueError("the data don't fit")
        self._bits, self._data, self._error = bits, data, False

    def __len__(self):
        return self._bits

    @property
    def error(self):
        """Whether it was received with a fault of its form."""
        return self._error

    @property
    def as_integer(self):
        """Give its bits as a number."""
        return self._data


class ForwardFrame(Frame):
    """A frame to the units."""


class BackwardFrame(Frame):
    """A frame from a unit."""

    def __init__(self, data):
        super().__init__(8, data)


class BackwardFrameError(BackwardFrame):
    """A frame from units that has no valid form."""

    def __init__(self, data):
        super().__init__(data)
        self._error = True
