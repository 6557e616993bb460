"""The deeds of the interface that is played: a list of turns, one for each frame, or simulated units.

A turn's parts are seconds to wait, the two digits of an answer, `none`, `damaged`, `fail`, `gone`, `lost` (the device
is gone after this frame's answer), `nothing` for no response at all, and `words` for a fault that has some.
"""

import asyncio
import json
import os

from . import command, frame


class CommunicationError(Exception):
    """The device can't be reached."""


def note(words):
    """Note what was heard."""
    with open(played()["heard"], "a", encoding="utf-8") as file:
        file.write(f"{words}\n")


def played():
    """Give what is to be played."""
    with open(os.environ["PLAYED_DALI"], encoding="utf-8") as file:
        return json.load(file)


def units():
    """Give a bus of simulated units whose collisions come back as they are."""
    import addressing
    import collisions
    import simulated_link

    class Raw(collisions.Collisions):
        """Tells what comes back and not what an adapter makes of it."""

        def told(self, word, back):
            return back

    clock, folder = addressing.Clock(), played()["units"]
    names = {f"new_{number}": None for number in (1, 2)}
    found = simulated_link.load_addressable(folder, names, clock, addressing.EDITIONS[2], 1, {})
    return simulated_link.FiledBus(folder, found, collisions=Raw(), clock=clock)


class Player:
    """The driver of an interface that is played."""

    def __init__(self, device):
        note(f"device {device}")
        self.turns = list(played().get("turns", []))
        self.bus = units() if "units" in played() else None
        self.is_up, self.transaction_lock = asyncio.Event(), asyncio.Lock()

    async def send(self, sent):
        """Send a command, as often as it asks for, and give its response."""
        async with self.transaction_lock:
            await self.is_up.wait()
            if sent.devicetype:
                note(f"type {sent.devicetype}")
            for _ in range(2 if sent.sendtwice else 1):
                note(f"{len(sent.frame)} {sent.frame.as_integer:04X} {len(command.CommandTracker.known)}")
            back = self.carry(sent.frame.as_integer) if self.bus else await self.take_turn()
            return sent.response(back) if sent.response and back != "nothing" else None

    def carry(self, word):
        """Carry a frame to simulated units; give what comes back."""
        back = self.bus.carry(word)
        if back is None:
            return None
        return frame.BackwardFrameError(0xFF) if back < 0 else frame.BackwardFrame(back)

    async def take_turn(self):
        """Do what is to be done for a frame; give what comes back."""
        back = None
        for part in self.turns.pop(0):
            if part == "fail":
                raise CommunicationError
            if part == "words":
                raise CommunicationError("the device\n says no")
            if part == "gone":
                self.is_up.clear()
                await asyncio.Event().wait()
            if part == "lost":
                asyncio.get_running_loop().call_later(0, self.is_up.clear)
            elif isinstance(part, (int, float)):
                await asyncio.sleep(part)
            elif part == "nothing":
                back = "nothing"
            elif part == "damaged":
                back = frame.BackwardFrameError(0x55)
            elif part != "none":
                back = frame.BackwardFrame(int(part, 16))
        return back
