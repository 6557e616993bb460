"""Drivers of serial lines, which are named by URIs, and are connected once `connect` has ended."""

from ..play import Player, played


class DriverSerialBase(Player):
    """A serial line. It has no event that tells whether it is connected."""

    uri_scheme = None

    def __init__(self, uri, dev_inst_map=None):
        scheme, _, path = uri.partition(":")
        if scheme != self.uri_scheme:
            raise ValueError(f"the URI {uri} isn't of {self.uri_scheme}")
        super().__init__(path)

    async def connect(self, *, scan_dev_inst=False):
        """Open the line."""
        if played().get("connect") == "refused":
            raise OSError(16, "could not open port: Device or resource busy")
        self.is_up.set()


class DriverLubaRs232(DriverSerialBase):
    """Lunatone, by its protocol LUBA."""

    uri_scheme = "luba232"


class DriverOther(DriverSerialBase):
    """Another one."""

    uri_scheme = "other"
