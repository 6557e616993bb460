"""Drivers of devices over HID, which connect by themselves once that was asked for."""

import asyncio

from ..play import Player, played


class hid(Player):
    """A device over HID."""

    @property
    def connected(self):
        """Give the event that is set as long as the device is there."""
        return self.is_up

    def connect(self):
        """Begin to connect, and tell whether the device's file could be opened."""
        how = played().get("connect", "at once")
        if how == "refused":
            return False
        if how != "never":
            asyncio.get_running_loop().call_later(0.05, self.is_up.set)
        return True


class tridonic(hid):
    """Tridonic DALI USB."""


class hasseb(hid):
    """hasseb DALI Master."""
