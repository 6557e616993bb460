"""The journals of a bus: the folder that they stand in, the one in use, and those that were retired."""

from __future__ import annotations

import contextlib
import fcntl
import json
import os
import pathlib
from typing import BinaryIO, Iterator

from .database import Database
from .faults import Refused
from .link import JOURNAL
from .orders import Order, now
from .program import NOT_BEGUN, Program
from .schema import LIVE, SENT

# Says of which store and bus a folder is: so none is taken for another's, whose journal has other orders.
MARK = "line_computer.json"
DOUBT = 4


def sync(path: pathlib.Path) -> None:
    """Have a file, or the names in a folder, on the disk."""
    file = os.open(path, os.O_RDONLY)
    try:
        os.fsync(file)
    finally:
        os.close(file)


def mark_of(database: Database, bus: str) -> str:
    """Give what the mark of a bus's folder holds."""
    return json.dumps({"store": database.rows("select id from bench_store")[0][0], "bus": bus}) + "\n"


def claim(database: Database, bus: str, folder: pathlib.Path) -> BinaryIO:
    """Make sure that a folder is that of a bus, or make it so; give its mark, locked as long as that is open.

    Where a server forgets who had the bus's lock, the folder's keeps a second process away all the same.
    """
    mark, wanted = folder / MARK, mark_of(database, bus)
    if not mark.exists():
        if database.rows("select has_journal from bench_buses where bus = ?", bus)[0][0]:
            raise Refused(f"the bus {bus} has its journal in another folder, or its disk isn't there: {folder}")
        folder.mkdir(parents=True, exist_ok=True)
        new = folder / f"{MARK}.new"
        new.write_text(wanted, encoding="ascii")
        sync(new)
        new.rename(mark)
        sync(folder)
    elif mark.read_text("ascii", "replace") != wanted:
        raise Refused(f"the folder is that of another bus, or of another store: {folder}")
    database.change("update bench_buses set folder = ? where bus = ?", str(folder.resolve()), bus)
    file = open(mark, "rb")
    try:
        fcntl.flock(file, fcntl.LOCK_EX | fcntl.LOCK_NB)
    except BlockingIOError as fault:
        file.close()
        raise Refused(f"another process has the folder: {folder}") from fault
    return file


def recover(database: Database, bus: str, folder: pathlib.Path) -> None:
    """End what a stop left of retiring a journal, and make sure that no journal is missing."""
    for place, name, retired in database.rows(
            "select place, name, retired from bench_journals where bus = ? order by place", bus):
        if retired is None:
            move(database, bus, folder, place, name)
        elif not (folder / name).exists():
            raise Refused(f"the retired journal isn't there: {folder / name}")
    has_journal = database.rows("select has_journal from bench_buses where bus = ?", bus)[0][0]
    if has_journal and not (folder / JOURNAL).exists():
        raise Refused(f"the journal isn't there, and its orders would be carried out again: {folder / JOURNAL}")


def older(database: Database, bus: str) -> list[str]:
    """Give the names of the journals that a drive has to know besides, the oldest first."""
    return [name for name, in database.rows("select name from bench_journals where bus = ? and named = 1"
                                            " order by place", bus)]


def paths(database: Database, bus: str, folder: pathlib.Path) -> list[str]:
    """Give the journals that a drive of this bus has, the one in use first, where it is there."""
    names = [JOURNAL] if (folder / JOURNAL).exists() else []
    return [str(folder / name) for name in names + older(database, bus)]


@contextlib.contextmanager
def at_rest(folder: pathlib.Path) -> Iterator[None]:
    """Keep each drive from the journal. It is refused while one has it, as one that a kill has left."""
    try:
        file = open(folder / JOURNAL, "rb")
    except FileNotFoundError:
        yield
        return
    with file:
        try:
            fcntl.flock(file, fcntl.LOCK_EX | fcntl.LOCK_NB)
        except BlockingIOError as fault:
            raise Refused(f"a drive is still at work on the journal: {folder / JOURNAL}") from fault
        yield


def want_all_known(database: Database, bus: str, folder: pathlib.Path, program: Program) -> None:
    """Make sure that the journals have each order that this store holds as begun or ended: else one of them is older.

    The orders of a journal that was given up aren't looked for: no drive has it.
    """
    begun = set().union(*map(program.begun, paths(database, bus, folder)))
    rows = database.rows("select number from bench_orders where bus = ? and state in ('taken', 'ended') and place not"
                         " in (select place from bench_journals where bus = ? and named = 0) order by number", bus, bus)
    missing = [number for number, in rows if number not in begun]
    if missing:
        more = f" and {len(missing) - 1} more" if missing[1:] else ""
        raise Refused(f"a journal of the bus {bus} is older than this store: order {missing[0]}{more} was begun, and it"
                      f" isn't there: {folder / JOURNAL}: put the newer one back; if that is lost, take the power from"
                      " all units of the bus, give it back, and `retire --power-was-taken`")


def want_newer_store(database: Database, bus: str, folder: pathlib.Path, program: Program) -> None:
    """Make sure that the journals have no number that this store has yet to give."""
    known = paths(database, bus, folder)
    free = program.free(known) if known else 0
    following = database.rows("select following from bench_store")[0][0]
    if free > following:
        count, = database.rows(f"select count(*) from bench_orders where bus = ? and {LIVE}", bus)[0]
        more = f"; of the {count} that wait, add those again that then end as reused" if count else ""
        raise Refused(f"the journal has orders up to {free - 1}, and this store has given numbers up to"
                      f" {following - 1}: put the newer store back, or begin behind them with `init --first {free}`"
                      f"{more}")


def retire(database: Database, bus: str, folder: pathlib.Path, program: Program) -> str:
    """Retire the journal of a bus whose drive has ended, which has to stand idle; give its name from now on."""
    want_journal(folder)
    standing, is_whole = program.standing(str(folder / JOURNAL))
    if standing != "idle" or not is_whole:
        raise Refused(f"the journal can't be retired now: it stands {standing if is_whole else 'cut'}")
    return rename(database, bus, folder, [], [], True)


def give_up(database: Database, bus: str, folder: pathlib.Path, program: Program, cancels_sent: bool) -> str:
    """Retire the journal of a bus all of whose units have lost their power, so that none is write-enabled.

    No drive has it any more. Of the orders that were sent and haven't ended, those that the journal never had are
    cancelled, and the others end as in doubt; unless that is meant, it is refused. Give the journal's name.
    """
    want_journal(folder)
    with at_rest(folder):
        sent = database.rows(f"select number, unit, fields, state, sent from bench_orders where bus = ? and {SENT}"
                             " order by number", bus)
        orders = [Order(*row) for row in sent]
        new = [order for order in orders if is_new(database, bus, folder, program, order)]
        doubtful = [order for order in orders if order not in new]
        if orders and not cancels_sent:
            raise Refused("\n".join(
                [f"order {order.number} for unit {order.unit} was sent and isn't begun: it would be sent again, to the"
                 " luminaire that is there then" for order in new] +
                [f"order {order.number} for unit {order.unit} was begun, as far as is known, and hasn't ended: it"
                 " counts as in doubt" for order in doubtful] +
                ["--cancel-sent cancels those that aren't begun, and ends the others as `kept 4 Doubt, by hand`"]))
        return rename(database, bus, folder, new, doubtful, False)


def want_journal(folder: pathlib.Path) -> None:
    """Make sure that the bus has a journal that can be retired."""
    if not (folder / JOURNAL).exists():
        raise Refused("the journal can't be retired: the bus has none now")


def is_new(database: Database, bus: str, folder: pathlib.Path, program: Program, order: Order) -> bool:
    """Tell whether the journals say of an order that was sent that it was never begun. Where they can't be read, or
    have less than the store knows of, they don't.
    """
    if order.state == "taken":
        return False
    try:
        want_all_known(database, bus, folder, program)
        return program.said_of(paths(database, bus, folder), order.object()) in NOT_BEGUN
    except Refused:
        return False


def rename(database: Database, bus: str, folder: pathlib.Path, new: list[Order], doubtful: list[Order],
           is_named: bool) -> str:
    """Give the journal the name of a retired one, and these orders their ends; give that name."""
    place = 1 + database.rows("select count(*) from bench_journals where bus = ?", bus)[0][0]
    name = f"bench_{place}.journal"
    if (folder / name).exists():
        raise Refused(f"the journal can't be retired: this file is in its way: {folder / name}")
    # The name is kept before the journal is moved there, so that after a stop it is moved once more.
    with database.transaction():
        database.change("insert into bench_journals (bus, place, name, named) values (?, ?, ?, ?)", bus, place, name,
                        int(is_named))
        for order in new:
            database.change("update bench_orders set state = 'cancelled', told = null, ended = ? where number = ?",
                            now(), order.number)
        for order in doubtful:
            database.change("update bench_orders set state = 'ended', code = ?, told = ?, ended = ? where number = ?",
                            DOUBT, "kept 4 Doubt, by hand", now(), order.number)
    move(database, bus, folder, place, name)
    return name


def move(database: Database, bus: str, folder: pathlib.Path, place: int, name: str) -> None:
    """Move the journal to the name that it has as a retired one, where that wasn't done yet, and keep that."""
    if not (folder / name).exists():
        (folder / JOURNAL).rename(folder / name)
    sync(folder)
    with database.transaction():
        database.change("update bench_journals set retired = ? where bus = ? and place = ?", now(), bus, place)
        database.change("update bench_buses set has_journal = 0, retire = 0, answer = ? where bus = ?",
                        f"retired {name}", bus)
        database.change("update bench_orders set state = 'sent' where bus = ? and state = 'full'", bus)
