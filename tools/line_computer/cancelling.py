"""Cancelling orders: one that waits at once, and one that was sent where the journal of its bus never had it.

The process of a bus may have a drive at work on an order that was sent, so it is asked; where the bus has none, the
journal is looked at here.
"""

from __future__ import annotations

import pathlib
import time
from typing import Callable, Optional

from . import journals
from .database import Database, StoreLost
from .faults import Failed, Refused, why
from .orders import Order, now
from .program import NOT_BEGUN, Program
from .schema import AT_WORK, SENT

POLL = 0.1  # seconds between two looks at what was answered
SAY = 3  # seconds after which it says what it waits for
CANCELLED = "cancelled"


def cancel(database: Database, numbers: list[int], program: Program, tell: Callable[[str], None]) -> dict[int, str]:
    """Cancel orders; give for each number `cancelled`, or why it isn't. None is where one of them isn't there."""
    for number in numbers:
        if not database.rows("select 1 from bench_orders where number = ?", number):
            raise Refused(f"there is no order {number}")
    answers = {number: ask(database, number) for number in dict.fromkeys(numbers)}
    waiting = [number for number, answer in answers.items() if answer is None]
    try:
        answers.update(answered(database, waiting, program, tell))
    finally:
        # Also where this is interrupted: nobody waits for an answer any more.
        for number in waiting:
            database.change("delete from bench_withdrawals where number = ?", number)
    return answers


def ask(database: Database, number: int) -> Optional[str]:
    """Cancel an order that waits; of one that was sent, ask for that, and give None. Else give what it is."""
    with database.transaction():
        database.change("update bench_orders set state = 'cancelled', ended = ? where number = ? and state = 'added'",
                        now(), number)
        if database.rows(f"select 1 from bench_orders where number = ? and {SENT} and state <> 'taken'", number):
            database.change("insert into bench_withdrawals (number) values (?) on conflict (number) do update set"
                            " answer = null", number)
            return None
    return standing(database, number)


def standing(database: Database, number: int) -> str:
    """Tell how an order stands that isn't cancelled now."""
    state, told = database.rows("select state, told from bench_orders where number = ?", number)[0]
    if state == CANCELLED:
        return CANCELLED
    if state in AT_WORK:
        return f"order {number} is at work: it was sent, and is carried out or told as ended"
    return f"order {number} has ended: {told or state}"


def answered(database: Database, waiting: list[int], program: Program, tell: Callable[[str], None]) -> dict[int, str]:
    """Wait until each of these is answered, by its bus's process or here; give the answers."""
    answers: dict[int, str] = {}
    locked: set[str] = set()
    asked, is_told = time.monotonic(), False
    while left := [number for number in waiting if number not in answers]:
        for number in left:
            bus, its_number = database.rows("select bench_buses.bus, bench_buses.number from bench_orders join"
                                            " bench_buses on bench_buses.bus = bench_orders.bus where"
                                            " bench_orders.number = ?", number)[0]
            if bus not in locked and database.lock(bus, its_number):
                locked.add(bus)
            if bus in locked:
                answer_here(database, bus, number, program)
            found = database.rows("select answer from bench_withdrawals where number = ?", number)
            # Where another one has asked too, and was answered, this asks again.
            words = found[0][0] if found else ask(database, number)
            if words is not None:
                answers[number] = words
        if not is_told and time.monotonic() - asked > SAY:
            tell(f"waits until the process of the bus has looked whether {', '.join(map(str, left))} can be cancelled")
            is_told = True
        if len(answers) < len(waiting):
            time.sleep(POLL)
    return answers


def answer_here(database: Database, bus: str, number: int, program: Program) -> None:
    """Answer for a bus that has no process now, and whose lock this has."""
    folder = database.rows("select folder from bench_buses where bus = ?", bus)[0][0]
    orders = asked(database, bus, number)
    for order in orders:
        try:
            path = pathlib.Path(folder or "")
            if not folder or not (path / journals.MARK).exists():
                raise Refused(f"the folder of the bus {bus} isn't here: {folder}: cancel where its `run` stands")
            with journals.claim(database, bus, path):
                journals.recover(database, bus, path)
                journals.want_all_known(database, bus, path, program)
                with journals.at_rest(path):
                    settle(database, order, program.said_of(journals.paths(database, bus, path), order.object()))
        except StoreLost:
            raise
        except (Refused, Failed, OSError) as fault:
            answer(database, number, f"order {number} can't be cancelled now: {why(fault)}")


def asked(database: Database, bus: str, number: Optional[int] = None) -> list[Order]:
    """Give the orders of a bus that are asked to be cancelled, without an answer yet: all, or this one."""
    which, values = ("", ()) if number is None else (" and bench_orders.number = ?", (number,))
    return [Order(*row) for row in database.rows(
        "select bench_orders.number, unit, fields, state, sent from bench_withdrawals join bench_orders on"
        f" bench_orders.number = bench_withdrawals.number where bus = ? and answer is null{which}"
        " order by bench_orders.number", bus, *values)]


def settle(database: Database, order: Order, said: str) -> None:
    """Cancel an order whose drive has ended where the journals say that it was never begun; else answer why not."""
    with database.transaction():
        if said in NOT_BEGUN:
            database.change("update bench_orders set state = 'cancelled', told = null, ended = ? where number = ?"
                            f" and {SENT} and state <> 'taken'", now(), order.number)
        answer(database, order.number, standing(database, order.number))


def answer(database: Database, number: int, words: str) -> None:
    """Answer whoever has asked to cancel an order."""
    database.change("update bench_withdrawals set answer = ? where number = ?", words, number)
