"""The bus of a station: a drive runs there only while the order of a scan is carried out."""

from __future__ import annotations

import time
from typing import Callable, Optional

from . import cancelling, journals
from .bus import LOCKED, POLL, BusProcess
from .database import StoreLost
from .faults import Failed, Refused, why
from .link import JOURNAL
from .orders import Order
from .program import NOT_BEGUN


class StationBus(BusProcess):
    """The process of a station's bus, whose drive runs while the order of a scan is carried out, and no longer."""

    number: Optional[int] = None
    watch: Callable[[], None]
    note: Callable[[str], None]
    is_ended = False

    def _next_order(self) -> Optional[Order]:
        """Give the order of the scan, until it has its end. No other one of the bus is taken."""
        return None if self.number is None else self.work.order(self.number)

    def carry_out(self, number: int) -> None:
        """Carry out an order to its end. Adapter and drive have ended with it."""
        self.number, self.is_wanted, self.is_until_empty = number, not self.is_ended, True
        self.run()
        self.number = None

    def _turn(self) -> None:
        """Look once at everything, and show it."""
        super()._turn()
        self.watch()

    def tell(self, words: str) -> None:
        """Tell a person."""
        self.note(words)

    def end(self) -> None:
        """Have it end, whatever is at work."""
        self.is_ended, self.is_wanted = True, False

    def want_store(self, fault: StoreLost) -> None:
        """Open the store again, which was lost, as soon as that can be."""
        self._lose_store(fault)
        while self.database is None and not self.is_ended:
            time.sleep(POLL)
            try:
                if self.store_waits.is_over():
                    self._open_again()
                    self._say()
            except (Failed, Refused) as again:
                self._lose_store(again)

    def answer_asks(self) -> None:
        """Do what is asked of the bus while no order is at work: that one is cancelled, or its journal retired."""
        self._withdraw()
        if not self.work.is_asked_to_retire():
            return
        try:
            self.note(f"retired {journals.retire(self.database, self.bus, self.folder, self.program)}")
        except StoreLost:
            raise
        except (Refused, Failed, OSError) as fault:
            self.work.refuse_retire(why(fault))

    def cancel_unbegun(self, order: Order) -> None:
        """Cancel an order that a stop has left, where the journals never had it."""
        if order.state == "added":
            cancelling.ask(self.database, order.number)
            return
        last = time.monotonic() + LOCKED
        while True:
            try:
                with journals.at_rest(self.folder):
                    said = self._said_of(order)
                    if said in NOT_BEGUN:
                        cancelling.settle(self.database, order, said)
                    return
            except Refused:
                if time.monotonic() > last:
                    raise
            time.sleep(POLL)

    def stands_idle(self) -> bool:
        """Tell whether other frames than a drive's may be sent: nothing is begun, and no unit left."""
        path = self.folder / JOURNAL
        return not path.exists() or self.program.standing(str(path)) == ("idle", True)
