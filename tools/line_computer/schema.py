"""The tables of the store, their version, and how an older store is brought up to it."""

from __future__ import annotations

import re
import uuid

from .database import Database, opened
from .faults import Failed, Refused
from .identities import fill_identifications

BUS = re.compile("[A-Za-z0-9][A-Za-z0-9_-]{0,31}")
# A number up to this one is read exactly by whatever reads JSON.
MOST_NUMBER = 2**53 - 1

# How an order may stand: a drive may have it once its line was sent.
AT_WORK = ("sent", "taken", "blocked", "full")
STATES = ("added", *AT_WORK, "ended", "refused", "reused", "cancelled")
SENT = f"state in {AT_WORK}"
# Of those that have no end yet there is an index, which a query uses that says so with these words.
LIVE = f"state in {('added', *AT_WORK)}"
# An order that stands for the scan of a station is carried out there alone.
OF_NO_SCAN = "not exists (select 1 from bench_scans where bench_scans.number = bench_orders.number)"
# And of those that came to an end, and aren't done.
NOT_DONE = "(code > 0 or state in ('refused', 'reused'))"
# Seconds of a quarter of an hour, at which time zones and shifts begin: by these the ends of orders are counted.
QUARTER = 900

FIRST = f"""
create table bench_store (
    version   integer not null,
    id        text not null,
    following bigint not null
);
create table bench_buses (
    bus         text primary key,
    number      integer not null unique,
    folder      text,
    has_journal integer not null default 0,
    retire      integer not null default 0,
    answer      text
);
create table bench_states (
    bus     text primary key references bench_buses,
    state   text not null,
    number  bigint,
    frames  bigint,
    trouble text,
    since   bigint,
    seen    bigint not null
);
create table bench_journals (
    bus     text not null references bench_buses,
    place   integer not null,
    name    text not null,
    named   integer not null,
    retired bigint,
    primary key (bus, place)
);
create table bench_orders (
    number    bigint primary key,
    bus       text not null references bench_buses,
    reference text,
    unit      integer not null check (unit between 0 and 63),
    fields    text not null,
    gtin      text,
    expected  bigint,
    state     text not null check (state in {STATES}),
    code      integer,
    added     bigint not null,
    sent      bigint,
    ended     bigint,
    sends     bigint not null default 0,
    told      text,
    report    text,
    frames    bigint,
    misses    bigint,
    unique (bus, reference)
);
create index bench_orders_live on bench_orders (bus, number) where {LIVE};
create index bench_orders_unit on bench_orders (unit, number);
create index bench_orders_gtin on bench_orders (gtin, number);
create index bench_orders_hour on bench_orders ((ended / 3600), state, code);
create index bench_orders_state on bench_orders (state, number);
create index bench_orders_misses on bench_orders (bus, number) where misses is not null;
create table bench_labels (
    number bigint primary key references bench_orders,
    made   bigint not null,
    taken  bigint
);
create index bench_labels_left on bench_labels (number) where taken is null;
"""
# The place of an order's journal among those of its bus; who has asked to cancel an order that was sent, and what was
# answered; how often a label was printed. An order was taken in a store of version 1 once the drive had said so, which
# it does before the journal has it.
SECOND = """
alter table bench_orders add column place integer;
alter table bench_labels add column printed integer not null default 0;
create table bench_withdrawals (
    number bigint primary key references bench_orders,
    answer text
);
update bench_labels set printed = 1 where taken is not null;
update bench_orders set place = 1 + (
    select count(*) from bench_journals
    where bench_journals.bus = bench_orders.bus and bench_journals.retired < bench_orders.ended
) where state = 'ended' and report is not null;
update bench_orders set state = 'sent' where state = 'taken';
"""
# By which plan an order was carried out: in a store of version 2 all that it sent itself used the checked one. Which
# order it repeats, at most one each, and the number that this had where it came from, which stays that one's alone.
# Which luminaire the scan of a station was for, and what `verify` has found of it; what each station shows, and the
# scan that the page has for it. The identification number of an order's luminaire, by which it is searched for; when a
# drive last spoke, or was last spoken to. The columns that the page looks in have indexes.
THIRD = f"""
alter table bench_orders add column plan text;
alter table bench_orders add column repeats bigint;
alter table bench_orders add column repeated_reference text;
create unique index bench_orders_repeats on bench_orders (repeats) where repeats is not null;
create index bench_orders_repeated_reference on bench_orders (repeated_reference, number)
    where repeated_reference is not null;
update bench_orders set plan = 'checked'
    where sent is not null and (told is null or told = replace(told, ', known before', ''));
create table bench_scans (
    number bigint primary key references bench_orders,
    key    text not null,
    name   text not null,
    latest integer not null default 1,
    found  text
);
create unique index bench_scans_key on bench_scans (key) where latest = 1;
create index bench_scans_keys on bench_scans (key, number);
create table bench_stations (
    bus    text primary key references bench_buses,
    word   text not null,
    lines  text not null,
    until  bigint,
    waits  integer not null,
    seen   bigint not null,
    scan   text,
    answer text
);
alter table bench_orders add column identification text;
alter table bench_states add column spoke bigint;
create index bench_orders_identification on bench_orders (identification, number) where identification is not null;
create index bench_orders_reference on bench_orders (reference, number) where reference is not null;
drop index bench_orders_hour;
create index bench_orders_quarter on bench_orders ((ended / {QUARTER}), bus, state, code);
create index bench_orders_not_done on bench_orders (ended) where {NOT_DONE};
"""
# The statements that bring a store up, each from the version that is its place here to the next one.
MIGRATIONS = (FIRST, SECOND, THIRD)
IDENTIFIED = 3  # the version from which on an order has its identification number by itself


def version_of(database: Database) -> int:
    """Give the version of a store's tables, 0 where there are none."""
    return database.rows("select version from bench_store")[0][0] if database.has_table("bench_store") else 0


def open_store(place: str) -> Database:
    """Open a store that is there, with the tables of this version."""
    database = opened(place)
    with database.closing_on_fault():
        version = version_of(database)
        if version == 0:
            raise Failed("there is no store in this database: `init` makes one")
        if version != len(MIGRATIONS):
            what = "`init` brings it up" if version < len(MIGRATIONS) else "use the line computer that made it"
            raise Refused(f"the store has version {version}, and this line computer has {len(MIGRATIONS)}: {what}")
    return database


def init(place: str, buses: list[str], first: int) -> None:
    """Make the store, or bring it up to this version, and make the buses that aren't there."""
    for bus in buses:
        if not BUS.fullmatch(bus):
            raise Refused(f"the name of a bus has 1 to 32 letters, digits, - and _: {bus}")
    database = opened(place, is_made=True)
    with database.transaction():
        bring_up(database)
        database.change("update bench_store set following = ? where following < ?", first, first)
        known = {bus: number for bus, number in database.rows("select bus, number from bench_buses")}
        new = [bus for bus in dict.fromkeys(buses) if bus not in known]
        for number, bus in enumerate(new, max(known.values(), default=0) + 1):
            database.change("insert into bench_buses (bus, number) values (?, ?)", bus, number)
            database.change("insert into bench_states (bus, state, seen) values (?, 'stopped', 0)", bus)
    database.close()


def bring_up(database: Database) -> None:
    """Bring a store's tables up to this version, within a transaction and while no bus of it is at work."""
    version = version_of(database)
    if version > len(MIGRATIONS):
        raise Refused(f"the store has version {version}, and this line computer has {len(MIGRATIONS)}")
    if 0 < version < len(MIGRATIONS):
        for bus, number in database.rows("select bus, number from bench_buses"):
            if not database.lock(bus, number):
                raise Refused(f"the bus {bus} is at work: end its `run` first")
    for migration in MIGRATIONS[version:]:
        for statement in migration.split(";\n"):
            if statement.strip():
                database.change(statement)
    if 0 < version < IDENTIFIED:
        fill_identifications(database)
    if version == 0:
        database.change("insert into bench_store (version, id, following) values (?, ?, 1)", len(MIGRATIONS),
                        str(uuid.uuid4()))
    else:
        database.change("update bench_store set version = ?", len(MIGRATIONS))


def number_of_bus(database: Database, bus: str) -> int:
    """Give the number of a bus that is there."""
    found = database.rows("select number from bench_buses where bus = ?", bus)
    if not found:
        raise Refused(f"there is no bus {bus}: `init --bus {bus}` makes it")
    return found[0][0]


def bus_meant(database: Database, bus: str | None) -> str:
    """Give the bus of this name, or the only one that there is."""
    if bus is not None:
        number_of_bus(database, bus)
        return bus
    buses = [name for name, in database.rows("select bus from bench_buses order by number")]
    if len(buses) != 1:
        raise Refused(f"--bus says which one is meant of {', '.join(buses)}" if buses else
                      "there is no bus: `init --bus B` makes one")
    return buses[0]
