"""The process of a bus: it has an adapter and a drive, and brings them the orders of the store, one at a time.

It may be killed anywhere. The facts that are needed afterwards are in the store and in the journal: a line is sent only
once that is durable in the store, and the lines of a drive change the store in one transaction, so that after any stop
the order at hand is sent again and answered from the journal. If the store is lost, adapter and drive go on with their
order.
"""

from __future__ import annotations

import collections
import contextlib
import pathlib
import sys
import time
from typing import Optional

from . import cancelling, journals, schema
from .database import Database, StoreLost
from .faults import Failed, Refused, plain, why
from .link import Link
from .orders import Order, now
from .program import NOT_BEGUN, Program
from .told import Ready, Replied, Reported, Taken, Told, Trouble, Unaccepted, told_by
from .work import CHECKED, SHORT, BusState, Work

POLL = 0.05  # seconds between two looks at the drive's lines
IDLE = 0.2  # and at the store, where there is no order
SHORTEST_WAIT = 0.1
RESEND = 60  # seconds after which a line is sent again that no reply came to
BEGIN = 0.1  # seconds after the reply `taken` in which a journal gets the order, as a rule
SAY = 1  # seconds between two tellings of how far an order is
SEEN = 10  # and that the process is there
LOCKED = 2  # seconds for another process of this bus to end
MOST_REASONS = 3


class Waits:
    """How long to wait before what failed is tried again: longer each time."""

    def __init__(self, longest: float):
        """Take the longest time, in seconds."""
        self.longest, self.next, self.until = longest, SHORTEST_WAIT, 0.0

    def begin(self) -> float:
        """Begin to wait; give for how long."""
        seconds = min(self.next, self.longest)
        self.next, self.until = 2 * seconds, time.monotonic() + seconds
        return seconds

    def is_over(self) -> bool:
        """Tell whether that time is over."""
        return time.monotonic() >= self.until

    def reset(self) -> None:
        """Begin with the shortest time again."""
        self.next, self.until = SHORTEST_WAIT, 0.0


class BusProcess:
    """The process of one bus."""

    def __init__(self, place: str, bus: str, folder: pathlib.Path, adapter: list[str], program: Program,
                 longest_wait: float):
        """Take what is to be opened and started."""
        self.place, self.bus, self.folder, self.adapter, self.program = place, bus, folder, adapter, program
        self.database: Optional[Database] = None
        self.link: Optional[Link] = None
        self.state = BusState()
        self.start_waits, self.store_waits, self.order_waits = (Waits(longest_wait) for _ in range(3))
        self.is_wanted, self.is_until_empty, self.plan = True, False, CHECKED
        self.asked_at = 0.0  # when to look whether an order is to be cancelled
        self._forget()

    def _forget(self) -> None:
        """Know nothing of a drive: it is another one. Replies that weren't kept come again from the journal."""
        self.is_ready, self.sent, self.is_taken, self.sent_at = False, None, False, 0.0
        self.said_at = self.look_at = 0.0
        self.order: Optional[Order] = None  # that was sent last
        self.unbegun_at: Optional[float] = None  # when to look whether the journal has it, once the drive has taken it
        # By number how many lines were written that no last reply came to: the drive may still take one of them.
        self.unanswered: collections.Counter = collections.Counter()
        self.unkept: list[Told] = []  # replies that aren't in the store yet
        self.reasons: list[str] = []  # words of what may have gone wrong

    # The store

    def open(self) -> None:
        """Open the store and lock the bus, before anything is started. A fault is reported, and ends the process."""
        last = time.monotonic() + LOCKED
        self.database = schema.open_store(self.place)
        number = schema.number_of_bus(self.database, self.bus)
        while not self.database.lock(self.bus, number):
            if time.monotonic() > last:
                raise Refused(f"the bus {self.bus} has another process: only one `run` of a bus may be at work")
            time.sleep(POLL)
        self.work = Work(self.database, self.bus, self.plan)
        self.work.say(self.state)
        try:
            self.mark = journals.claim(self.database, self.bus, self.folder)
            journals.recover(self.database, self.bus, self.folder)
            journals.want_newer_store(self.database, self.bus, self.folder, self.program)
            journals.want_all_known(self.database, self.bus, self.folder, self.program)
        except (Refused, Failed, OSError) as fault:
            self.work.say(BusState("stopped", trouble=why(fault), since=now()))
            raise Failed(why(fault)) if isinstance(fault, OSError) else fault

    def _open_again(self) -> None:
        """Open the store again, which was lost. Adapter and drive end where another process may have the bus now."""
        database = schema.open_store(self.place)
        with database.closing_on_fault():
            if not database.lock(self.bus, schema.number_of_bus(database, self.bus)):
                self._end_link()
                raise StoreLost(f"the bus {self.bus} is locked by another process, or still by an earlier connection")
        self.database, self.work = database, Work(database, self.bus, self.plan)

    def _lose_store(self, fault: Exception) -> None:
        """Close the store, and wait before it is opened again."""
        if self.database:
            self.database.close()
        self.database = None
        seconds = self.store_waits.begin()
        self.tell(f"the store can't be used: {fault}: tried again in {seconds:.1f} s")

    # The process

    def run(self) -> None:
        """Carry out the orders of the bus, until this isn't wanted any more."""
        try:
            while self.is_wanted:
                try:
                    self._turn()
                except (Failed, Refused) as fault:
                    self._lose_store(fault)
        finally:
            self._end_link()
            self.state = BusState("stopped")
            with contextlib.suppress(StoreLost):
                if self.database:
                    self.work.say(self.state)

    def _turn(self) -> None:
        """Look once at everything."""
        if self.database is None:
            if not self.store_waits.is_over():
                time.sleep(POLL)
                return
            self._open_again()
        if time.monotonic() - self.said_at > SEEN:
            self._say()
        if time.monotonic() >= self.asked_at:
            self.asked_at = time.monotonic() + IDLE
            self._withdraw()
        if self.link is None:
            self._start()
        else:
            self._listen(self.link.read(POLL))
            if self.link.is_over():
                self._note_end()
            elif self.is_ready and self.order_waits.is_over() and time.monotonic() >= self.look_at:
                self._go_on()

    def _say(self) -> None:
        """Have the store know how the bus stands. Where it takes that, it can be used again."""
        self.said_at = time.monotonic()
        self.work.say(self.state)
        self.store_waits.reset()

    def _start(self) -> None:
        """Start adapter and drive, once the time to wait is over."""
        if not self.start_waits.is_over():
            time.sleep(POLL)
            return
        self._forget()
        try:
            journals.recover(self.database, self.bus, self.folder)
            older = journals.older(self.database, self.bus)
            drive = [self.program.path, "drive", *(["--short-plan"] if self.plan == SHORT else [])]
            self.link = Link(self.folder, self.adapter, drive, older)
        except StoreLost:
            raise
        except (Refused, Failed, OSError) as fault:
            self._wait_to_start(why(fault))
            return
        self.state.state, self.state.number, self.state.frames, self.state.spoke = "starting", None, None, now()
        self._say()

    def _listen(self, lines: list[str]) -> None:
        """Keep the drive's lines, and then act on them."""
        self.unkept += [it for it in map(told_by, lines) if it is not None]
        if not self.unkept:
            return
        for it in self.unkept:
            self._show(it)
        self.work.keep(self.unkept, self.state)
        self.store_waits.reset()
        self.said_at = time.monotonic()
        told, self.unkept = self.unkept, []
        for it in told:
            self._follow(it)

    def _show(self, it: Told) -> None:
        """Show a line of the drive in the state of the bus. It may be shown again, if the store was lost."""
        self.state.spoke = now()
        if isinstance(it, Ready):
            self.state.state = "ready"
        elif isinstance(it, Taken):
            self.state.number = it.number
        elif isinstance(it, Unaccepted):
            self.state.number = self.state.frames = None
        elif isinstance(it, Reported):
            self.state.number = self.state.frames = None
            if it.code is None:
                self.state.is_in(it.words())
            else:
                self.state.is_well()

    def _follow(self, it: Told) -> None:
        """Do the work that follows from a line of the drive."""
        if isinstance(it, Ready):
            self.is_ready = True
        elif isinstance(it, Taken):
            self.is_taken = it.number == self.sent
            self.unbegun_at = time.monotonic() + BEGIN if self.is_taken else None
        elif isinstance(it, Replied):
            # Where its report doesn't come, it is sent again.
            self.is_taken, self.sent_at = False, time.monotonic()
        elif isinstance(it, Reported):
            self.unanswered[it.number] -= 1
            if it.number == self.sent:
                self.sent = self.unbegun_at = None
            if it.code is None:
                self.tell(it.words())
                self.order_waits.begin()
            else:
                self.start_waits.reset()
                self.order_waits.reset()
        elif isinstance(it, Unaccepted):
            self.sent = None
            self.order_waits.begin()
            self._note(it.line)
        elif isinstance(it, Trouble):
            self._note(it.line)

    def _note(self, line: str) -> None:
        """Note words that may say why adapter and drive end."""
        if plain(line) not in self.reasons[-1:]:
            self.reasons = [*self.reasons, plain(line)][-MOST_REASONS:]
            self.tell(line)

    def _note_end(self) -> None:
        """Note that adapter and drive have ended, and why."""
        status = self._end_link()
        self._wait_to_start("; ".join(dict.fromkeys(self.reasons)) or f"the adapter ended with status {status}")

    def _end_link(self) -> Optional[int]:
        """End adapter and drive, and keep what they told last; give the adapter's status."""
        if self.link is None:
            return None
        link, self.link = self.link, None
        lines = link.end()
        if self.database:
            self._listen(lines)
            if self.unbegun_at is not None:
                self._look_whether_begun()
        return link.adapter.returncode

    def _wait_to_start(self, words: str) -> None:
        """Wait before adapter and drive are started, and say why."""
        seconds = self.start_waits.begin()
        self.tell(f"{words}: started again in {seconds:.1f} s")
        self.state.state, self.state.number, self.state.frames = "waiting", None, None
        self.state.is_in(words)
        self._say()

    # Orders

    def _go_on(self) -> None:
        """Have the drive at work on the first order that has no end."""
        if self.sent is not None and (self.is_taken or time.monotonic() - self.sent_at < RESEND):
            if self.unbegun_at is not None and time.monotonic() >= self.unbegun_at:
                self._look_whether_begun()
            self._say_how_far()
            return
        if self.sent is not None:
            self.tell(f"order {self.sent} is sent again: nothing was told of it in {RESEND} s")
            self.sent = None
        order = self._next_order()
        is_asked = (order is None or order.state == "added") and self.work.is_asked_to_retire()
        if is_asked or order is not None and order.state == "full":
            self._retire()
        elif order is not None:
            self._bring(order)
        else:
            self._rest()

    def _next_order(self) -> Optional[Order]:
        """Give the order that the drive is to be at work on, if there is one."""
        return self.work.next_order()

    def _bring(self, order: Order) -> None:
        """Send an order, the first time once `check` accepts it."""
        expected = None
        if order.state == "added":
            try:
                checked = self.program.check([order.object()])[0]
                expected = checked.short_frames if self.plan == SHORT else checked.frames
            except Refused as fault:
                self.work.refuse(order.number, plain(str(fault)))
                return
            except Failed as fault:
                self.tell(str(fault))
                self.order_waits.begin()
                return
        order = self.work.send(order, expected)
        if order is None:
            return
        self.order, self.unbegun_at = order, None
        self.unanswered[order.number] += 1
        if self.link.write(order.line()):
            self.sent, self.is_taken, self.sent_at = order.number, False, time.monotonic()
            if self.state.number != order.number:
                self.state.number, self.state.frames, self.state.spoke = order.number, None, now()
        else:
            self.order_waits.begin()

    def _look_whether_begun(self) -> None:
        """Keep that the order at work is begun once the journal has it, which is a while after the reply `taken`."""
        self.unbegun_at = time.monotonic() + SAY
        try:
            if self._said_of(self.order) not in NOT_BEGUN:
                self.work.keep_begun(self.order.number)
                self.unbegun_at = None
        except StoreLost:
            raise
        except (Refused, Failed):
            pass  # as where the journal can't be read: the drive tells that too

    def _said_of(self, order: Order) -> str:
        """Give what the journals of the bus say of an order."""
        return self.program.said_of(journals.paths(self.database, self.bus, self.folder), order.object())

    def _withdraw(self) -> None:
        """Cancel what is asked to be cancelled where the journal never had it. A drive that may have it is stopped."""
        for order in cancelling.asked(self.database, self.bus):
            try:
                said = self._said_of(order)
                if said in NOT_BEGUN and self.link is not None and self.unanswered[order.number] > 0:
                    self.tell(f"the drive is stopped, since order {order.number} is to be cancelled")
                    self._end_link()
                if self.link is None:
                    with journals.at_rest(self.folder):
                        said = self._said_of(order)
                cancelling.settle(self.database, order, said)
            except StoreLost:
                raise
            except (Refused, Failed, OSError) as fault:
                cancelling.answer(self.database, order.number,
                                  f"order {order.number} can't be cancelled now: {why(fault)}")
            self.order_waits.reset()

    def _say_how_far(self) -> None:
        """Say now and then how many frames of the order were answered."""
        if time.monotonic() - self.said_at > SAY:
            frames = self.link.frames()
            if frames != self.state.frames:
                self.state.frames, self.state.spoke = frames, now()
            self._say()

    def _rest(self) -> None:
        """Look for an order a little later, where there is none. Whatever was wrong is over."""
        if self.state.trouble:
            self.state.is_well()
            self._say()
        self.look_at = time.monotonic() + IDLE
        if self.is_until_empty:
            self.is_wanted = False

    def _retire(self) -> None:
        """Let adapter and drive end, and retire the journal; both start again over a new one."""
        link, self.link = self.link, None
        self._listen(link.finish())
        try:
            self.tell(f"retired {journals.retire(self.database, self.bus, self.folder, self.program)}")
        except StoreLost:
            raise
        except (Refused, Failed, OSError) as fault:
            self.work.refuse_retire(why(fault))
            self._wait_to_start(why(fault))

    def tell(self, words: str) -> None:
        """Tell a person, where standard error takes it."""
        with contextlib.suppress(OSError):
            print(f"{self.bus}: {plain(words)}", file=sys.stderr, flush=True)
