"""The station: a person, a scanner, one luminaire at a time. A scan is an order for the luminaire at the seat.

It may be killed anywhere: the store has which scan each order is for, and what `verify` has found. On its next start an
order that the journal never had is cancelled; of one that was begun, or is done and not verified, the luminaire has to
be scanned once more, so that nothing is written into another one, and none gets its label.
"""

from __future__ import annotations

import contextlib
import time
from typing import Callable, NamedTuple, Optional

from . import labels, scans, stations
from .bus import IDLE, POLL
from .database import Database, StoreLost
from .faults import Failed, Refused, why
from .luminaire import SAME, SILENT, Luminaire
from .orders import now
from .screen import FAIL, OFF, PASS, SCAN, WORK, Scanner, Screen
from .station_bus import StationBus
from .stations import GONE, AtHand, Shown
from .template import Template, Wanted
from .work import SHORT, BusState

# Words that a person types in place of a scan, in capitals or not.
AGAIN, GIVE_UP = "AGAIN", "GONE"
SEEN = 10  # seconds between two tellings that the station is there
FRAME = 0.041  # seconds that a frame takes with its answer, as a rule
SHORTER = 0.45  # the part of its frames that an order takes by the short plan, as a rule
SCANNING, ADDRESSING, VERIFYING = 30, 120, 40  # frames, as a rule
PRINTING = 3  # seconds until a label that isn't out is tried again
STORED = 30  # seconds after which a unit has stored its short address for sure
DOUBT_OPEN = 5
NEXT = "Put the next luminaire in, then scan it."
STAY = "Leave the luminaire in, and don't scan."
# The remedy for a luminaire whose order has ended otherwise than as done, by the order's code.
REMEDIES = {
    1: "Its memory bank 1 is too short for the template: take it out, it doesn't suit.",
    2: "Its memory bank 1 has another content format: take it out, it doesn't suit.",
    3: "See to its power and its wire, then scan it again.",
    4: "It may be written in part. See to its power and its wire, then scan it again. If it fails again, take it out.",
    DOUBT_OPEN: "Leave it in: it may be written in part, and still be open. See to its power and its wire, then scan it"
                " again.",
}


class Fault(Exception):
    """Why a luminaire gets no label: the cause, and what to do."""

    def __init__(self, cause: str, remedy: str):
        """Take both."""
        super().__init__(cause)
        self.lines = (cause, remedy)


class Choices(NamedTuple):
    """How a station is meant to work."""

    template: Template
    is_addressing: bool
    is_again: bool
    put: Optional[Callable[[labels.Label], None]]  # puts a label out; without it labels stay in the store


class Station:
    """A station at a bus."""

    def __init__(self, bus: StationBus, choices: Choices):
        """Take the bus, whose store is open and locked."""
        self.bus, self.choices, self.screen = bus, choices, Screen()
        self.template = choices.template
        self.luminaire = Luminaire(bus.folder, bus.adapter, bus.program, self._goes_on)
        self.scanner = Scanner(self._refuse_line)
        self.is_again, self.is_idle, self.hand = choices.is_again, False, None
        self.given_at: Optional[float] = None  # when the luminaire got its short address
        self.said_at = self.asked_at = 0.0
        self.trouble: Optional[str] = None
        bus.watch, bus.note = self._watch, self.screen.note

    @property
    def database(self) -> Database:
        """Give the store, which may have been opened again."""
        return self.bus.database

    def run(self) -> None:
        """Serve scans, until standard input ends or this isn't wanted any more."""
        try:
            is_over = False
            while not (is_over or self.bus.is_ended):
                try:
                    is_over = self._serve_all()
                except StoreLost as fault:
                    self.bus.want_store(fault)
        finally:
            with contextlib.suppress(StoreLost):
                if self.database:
                    stations.show(self.database, self.bus.bus, Shown(OFF, ("The station has ended.",)), False)
                    self.bus.work.say(BusState("stopped"))

    def _serve_all(self) -> bool:
        """Serve scan after scan; tell whether standard input has ended."""
        shown = self._begin()
        while not self.bus.is_ended:
            self.scanner.wait()
            self._show(shown, True)
            line = self._next_line()
            if line is None:
                return True
            shown = self._answer(line)
        return False

    # The screen

    def _show(self, shown: Shown, waits: bool = False) -> None:
        """Show something, here and on the page."""
        self.screen.show(shown)
        stations.show(self.database, self.bus.bus, shown, waits)
        self.said_at = time.monotonic()

    def _watch(self) -> None:
        """Show how far the work is, and that the station is there."""
        self.screen.draw()
        if self.database is None:
            return
        if self.bus.state.trouble != self.trouble:
            self.trouble = self.bus.state.trouble
            lines = (self.trouble, STAY) if self.trouble else (STAY,)
            stations.show(self.database, self.bus.bus, Shown(WORK, lines), False)
        if time.monotonic() - self.said_at > SEEN:
            stations.say(self.database, self.bus.bus)
            self.said_at = time.monotonic()

    def _goes_on(self) -> bool:
        """Show how far the work is; tell whether it goes on."""
        self._watch()
        return not self.bus.is_ended

    def _refuse_line(self) -> None:
        """Tell that a line of the scanner isn't taken."""
        with contextlib.suppress(Failed):
            self.screen.note(stations.NOT_TAKEN)

    # Scans

    def _begin(self) -> Shown:
        """See what a stop has left; give what is to be shown for it."""
        database, bus = self.database, self.bus.bus
        self.bus.work.say(BusState("ready"))
        self._show(Shown(WORK, ("Looking at what is there. Don't scan.",)))
        hand = stations.at_hand(database, bus)
        if hand and not hand.is_written():
            self.bus.cancel_unbegun(hand.order)
        self.hand, self.is_idle = stations.at_hand(database, bus), self.bus.stands_idle()
        out = stations.unprinted(database, bus) if self.choices.put else []
        for number, _ in out:
            self._put(number)
        lines = [f"The label of {name}, order {number}, is out now: put it on." for number, name in out]
        if self.hand:
            lines.append(f"The station was stopped amid order {self.hand.order.number}.")
            return Shown(FAIL, (*lines, *self._stays()))
        if hand:
            lines.append(f"Order {hand.order.number} wasn't begun when the station was stopped, and is cancelled.")
        return Shown(SCAN, (*lines, "Put a luminaire in, then scan it."))

    def _stays(self) -> tuple:
        """Tell what to do while an order is at hand."""
        return (f"Leave its luminaire in, or put it back: {self.hand.name}. Then scan it once more.",
                f"If it is gone for good, take out what stands there, and type the word {GIVE_UP}.")

    def _next_line(self) -> Optional[str]:
        """Wait for a line of the scanner, or a scan of the page; None where standard input has ended."""
        try:
            while not self.bus.is_ended:
                line = self.scanner.take(IDLE) or stations.take_posted(self.database, self.bus.bus)
                if line is not None:
                    return line
                if self.scanner.is_over:
                    return None
                self._rest()
            return None
        finally:
            self.scanner.wait_no_more()

    def _rest(self) -> None:
        """Do what is asked of the bus while there is no scan."""
        if time.monotonic() - self.asked_at > SEEN:
            self.asked_at = time.monotonic()
            self.bus.work.say(BusState("ready"))
        self._watch()
        self.bus.answer_asks()

    def _answer(self, line: str) -> Shown:
        """Do what a line asks for; give what is to be shown for it."""
        try:
            if line.strip().upper() == AGAIN:
                self.is_again = True
                return Shown(SCAN, ("The next scan is taken even if its luminaire has a label.", "Scan it now."))
            if line.strip().upper() == GIVE_UP:
                return self._give_up()
            try:
                return self._serve(line)
            finally:
                self.is_again = self.choices.is_again
        except Fault as fault:
            return Shown(FAIL, fault.lines)
        except StoreLost:
            raise
        except Refused as fault:
            return self._failed(f"The scan isn't taken: {fault}.", "Scan again.")
        except (Failed, OSError) as fault:
            return self._failed(f"{why(fault)}.", "See to that, then scan again.")

    def _failed(self, cause: str, remedy: str) -> Shown:
        """Give what is to be shown where something fails."""
        return Shown(FAIL, (cause.replace("\n", "; "), *(self._stays() if self.hand else (remedy,))))

    def _serve(self, line: str) -> Shown:
        """Serve a scan."""
        wanted = self.template.wanted(scans.read(line))
        if self.hand:
            if wanted.key != self.hand.key:
                raise Fault(f"{wanted.name} isn't taken: order {self.hand.order.number} isn't finished.",
                            " ".join(self._stays()))
            return self._finish(self.hand, self._frames(wanted))
        waiting = stations.others(self.database, self.bus.bus)
        if waiting:
            raise Fault(f"Order {waiting[0]} of the bus stands for no scan.",
                        "`cancel` it, or end the station and have `run` carry it out. Then scan again.")
        self._want_unused(wanted)
        before = SCANNING + ADDRESSING * self.choices.is_addressing
        self._show_work(wanted.name, before + self._frames(wanted) + VERIFYING)
        self.given_at = None
        self._look(wanted.item.unit)
        stations.add(self.database, self.bus.bus, wanted, self.is_again)
        self.hand = stations.at_hand(self.database, self.bus.bus)
        if self.hand is None:
            raise Fault("The order was cancelled.", "Scan again.")
        return self._finish(self.hand, self._frames(wanted))

    def _frames(self, wanted: Wanted) -> float:
        """Give how many frames the order of a scan should take."""
        return wanted.item.expected * (SHORTER if self.bus.plan == SHORT else 1)

    def _want_unused(self, wanted: Wanted) -> None:
        """Refuse a scan whose luminaire has its label."""
        try:
            stations.want_unused(self.database, wanted, self.is_again)
        except Refused as fault:
            raise Fault(f"{fault}.", "If it is this luminaire, it is done: take it out. To write another one with the"
                        f" same number, type the word {AGAIN}, then scan.") from fault

    def _show_work(self, name: str, frames: float) -> None:
        """Show that the station is at work, for this many frames."""
        seconds = 1 + round(frames * FRAME)
        self._show(Shown(WORK, (f"{name}.", f"{STAY} It takes some {seconds} s."), now() + seconds))

    def _look(self, unit: int) -> None:
        """Make sure that the luminaire at the seat may be written. A new one gets its short address first."""
        if not self.is_idle:
            return  # a unit is left: no frames but those of the drive that closes it
        keys = self.luminaire.keys(unit)
        if keys is None and self.choices.is_addressing:
            self._address(unit)
        elif keys is None:
            raise Fault(f"No luminaire answers at the short address {unit}.",
                        "See to its power and its wire, then scan it again.")
        elif (before := stations.labelled(self.database, keys)) and not self.is_again:
            raise Fault(f"The luminaire that stands there has its label: {before[1]}, by order {before[0]}.",
                        "Take it out, put the right one in, and scan again. To write it anew, type the word"
                        f" {AGAIN}, then scan.")

    def _address(self, unit: int) -> None:
        """Give the luminaire its short address."""
        try:
            self.luminaire.address(unit)
        except Refused as fault:
            raise Fault(f"The luminaire got no short address: {fault}.", "See that just one luminaire is in, and to its"
                        " power and its wire, then scan it again. If it has another short address already, `dali_bench"
                        f" address --all {unit}` gives it this one.") from fault
        self.given_at = time.monotonic()

    # Orders

    def _finish(self, hand: AtHand, expected: float) -> Shown:
        """Carry out the order at hand, verify its luminaire, and put its label out."""
        number = hand.order.number
        self._show_work(f"{hand.name}, order {number}", VERIFYING + expected * (not hand.is_written()))
        if not hand.is_written():
            told, code = self._carry_out(number)
            if self.bus.is_ended:
                return Shown(WORK, ("The station ends.",))
            if self.hand is None:
                raise Fault(f"Order {number}: {told}.", REMEDIES.get(code, "Scan it again."))
        if not self.is_idle:
            raise Fault(f"Order {number} can't be verified: another one has left a unit open.",
                        f"Type the word {GIVE_UP}, then scan again.")
        found = self.luminaire.verify(hand.order)
        if found == SILENT:
            raise Fault(f"Order {number} is written, and its luminaire doesn't answer now.",
                        "Leave it in. See to its power and its wire, then scan it once more. " + self._stays()[1])
        stations.settle(self.database, number, found)
        self.hand = None
        if found != SAME:
            raise Fault(f"Order {number} was written, and its luminaire isn't the same: {found}.",
                        "It gets no label. Scan it again. If it fails again, take it out.")
        return self._label(hand)

    def _carry_out(self, number: int) -> tuple[str, Optional[int]]:
        """Carry out an order to its end; give that in words, and its code."""
        self.bus.carry_out(number)
        self.trouble = None
        if self.bus.is_ended:
            return "", None
        self.hand = stations.at_hand(self.database, self.bus.bus)
        state, code, told = self.database.rows(
            "select state, code, told from bench_orders where number = ?", number)[0]
        self.is_idle = self.is_idle if code is None else code != DOUBT_OPEN
        return told or state, code

    def _label(self, hand: AtHand) -> Shown:
        """Put the label out; give what is to be shown then."""
        number = hand.order.number
        where = f"The label of order {number} is in the store: `labels --take` prints it."
        if self.choices.put:
            self._put(number)
            where = f"The label of order {number} is out: put it on."
        left = 0 if self.given_at is None else round(STORED - (time.monotonic() - self.given_at))
        out = f"Take the luminaire out in {left} s: then it has stored its short address." if left > 0 else \
            "Take the luminaire out."
        return Shown(PASS, (f"{hand.name}.", where, out, NEXT))

    def _put(self, number: int) -> None:
        """Put a label out, however often that has to be tried."""
        label = labels.label_of(self.database, number)
        while not self.bus.is_ended:
            try:
                labels.take_one(self.database, label, self.choices.put)
                return
            except StoreLost:
                raise
            except (Failed, Refused) as fault:
                self._show(Shown(FAIL, (f"{fault}.", "See to the printer: it is tried again. Leave the luminaire in.")))
            last = time.monotonic() + PRINTING
            while time.monotonic() < last and not self.bus.is_ended:
                time.sleep(POLL)
                self._watch()

    def _give_up(self) -> Shown:
        """Give up the luminaire of the order at hand: it gets no label."""
        hand = self.hand
        if hand is None:
            return Shown(SCAN, ("There is no order to give up.", NEXT))
        if not hand.is_written():
            self._show(Shown(WORK, (f"Order {hand.order.number} is brought to its end.", "Put nothing in.")))
            self._carry_out(hand.order.number)
            if self.bus.is_ended:
                return Shown(WORK, ("The station ends.",))
        stations.settle(self.database, hand.order.number, GONE)
        self.hand = None
        return Shown(SCAN, (f"Order {hand.order.number} is given up, and gets no label.", NEXT))
