"""The database under the store, with the same few calls: SQLite, one file, or PostgreSQL, by its URL.

A statement has `?` where a value goes, and is one that both take. A lock goes with the process that has it.
"""

from __future__ import annotations

import contextlib
import fcntl
import os
import re
import sqlite3
import struct
import sys
import urllib.parse

from .faults import Failed, Refused, why

# The variable that names the store.
STORE = "LINE_COMPUTER_STORE"
PATIENCE = 10  # seconds that a statement waits for one of another process
URL = re.compile("([a-z0-9+]+)://", re.IGNORECASE)
# The first of the two numbers of a lock in PostgreSQL, which other programs may use too; the second is the bus's. A
# label's lock has one number, its order's with this before it: order's numbers have 53 bits.
LOCKS = 0x44424C43
LABELS = 0x15B << 53
# A lock of a whole file, as the system has it (`struct flock`).
FLOCK = "hhqqi4x"
WHOLE_FILE = struct.pack(FLOCK, fcntl.F_WRLCK, os.SEEK_SET, 0, 0, 0)


class StoreLost(Failed):
    """The database can't be reached, or didn't do what it was asked: nothing of a transaction that was open is so."""


class Database:
    """A connection to a database."""

    errors: tuple = ()
    begin = "begin"
    connection = None

    @contextlib.contextmanager
    def telling(self):
        """Tell what the database refuses, also a value that it can't hold, as `StoreLost`, by its words' first line."""
        try:
            yield
        except (*self.errors, ValueError, OverflowError) as fault:
            words = str(fault).strip() or type(fault).__name__
            raise StoreLost(self.explained(words.splitlines()[0])) from fault

    def explained(self, words: str) -> str:
        """Give the words of the database with what a person needs besides."""
        return words

    def rows(self, statement: str, *values) -> list:
        """Give the rows that a statement answers."""
        # A cursor that stays open, as in the traces of a fault, keeps the files of a closed connection open too.
        with self.telling(), contextlib.closing(self.connection.cursor()) as cursor:
            cursor.execute(self.spelled(statement), values)
            return cursor.fetchall()

    def change(self, statement: str, *values) -> int:
        """Carry out a statement that answers no rows; give how many it changed."""
        with self.telling(), contextlib.closing(self.connection.cursor()) as cursor:
            cursor.execute(self.spelled(statement), values)
            return cursor.rowcount

    def spelled(self, statement: str) -> str:
        """Spell a statement as the database's module wants it."""
        return statement

    @contextlib.contextmanager
    def transaction(self):
        """Make all changes inside, or none of them; once this is left well they are durable."""
        self.change(self.begin)
        try:
            yield
            self.commit()
        except BaseException:
            with contextlib.suppress(StoreLost):
                self.change("rollback")
            raise

    @contextlib.contextmanager
    def holding_label(self, number: int):
        """Lock the label of an order while this is entered, or until the process ends; give whether that could be."""
        is_held = self.lock_label(number)
        try:
            yield is_held
        finally:
            if is_held:
                self.unlock_label(number)

    def commit(self) -> None:
        """End a transaction: then its changes are durable."""
        self.change("commit")

    @contextlib.contextmanager
    def closing_on_fault(self):
        """Close the connection where what is done with it fails."""
        try:
            yield
        except BaseException:
            self.close()
            raise

    def close(self) -> None:
        """Close the connection, and with it each lock."""
        with contextlib.suppress(*self.errors):
            self.connection.close()


class SqliteDatabase(Database):
    """A database in a file."""

    errors = (sqlite3.Error,)
    remedies = {
        "unable to open database file": "this user has to have the right to read and write it and its folder",
        "attempt to write a readonly database": "this user has to have the right to write it and its folder: as a"
                                                " member of the group `dali-bench` of the service",
        "file is not a database": "this file is something else: --store names the store",
    }
    # One writer at a time, from the transaction's start: so none finds at its commit that it may not.
    begin = "begin immediate"

    def __init__(self, path: str, is_made: bool):
        """Open the file, or make it."""
        self.path, self.locks, self.labels = os.path.abspath(path), [], None
        name = urllib.parse.quote(self.path)
        if is_made:
            make(self.path)
        with self.telling():
            self.connection = sqlite3.connect(f"file:{name}?mode={'rwc' if is_made else 'rw'}", uri=True,
                                              timeout=PATIENCE, isolation_level=None)
        with self.closing_on_fault():
            self.change("pragma synchronous = full")
            self.change("pragma foreign_keys = on")
            if is_made:
                self.change("pragma journal_mode = wal")

    def explained(self, words: str) -> str:
        """Give the words of SQLite, with the file's whole path and what to do."""
        remedy = self.remedies.get(words)
        return f"{words}: {self.path}" + (f": {remedy}" if remedy else "")

    def has_table(self, name: str) -> bool:
        """Tell whether there is a table."""
        return bool(self.rows("select 1 from sqlite_master where type = 'table' and name = ?", name))

    def lock(self, bus: str, _: int) -> bool:
        """Lock a bus until this is closed or its process ends; tell whether that could be."""
        with self.telling_of_lock():
            file = open(f"{self.path}.{bus}.lock", "ab")
            try:
                fcntl.flock(file, fcntl.LOCK_EX | fcntl.LOCK_NB)
                # A lock of this kind besides, since who looks at it needs none of its own.
                fcntl.fcntl(file, fcntl.F_OFD_SETLK, WHOLE_FILE)
            except BlockingIOError:
                file.close()
                return False
        self.locks.append(file)
        return True

    def locked(self, buses: dict[str, int]) -> set[str]:
        """Give those of these buses that somebody has locked, without a lock of one's own."""
        return {bus for bus in buses if self._is_locked(bus)}

    def _is_locked(self, bus: str) -> bool:
        """Tell whether somebody has locked a bus. Where this user may not look, it counts as locked."""
        try:
            with open(f"{self.path}.{bus}.lock", "rb") as file:
                return struct.unpack(FLOCK, fcntl.fcntl(file, fcntl.F_OFD_GETLK, WHOLE_FILE))[0] != fcntl.F_UNLCK
        except FileNotFoundError:
            return False
        except OSError:
            return True

    def lock_label(self, number: int) -> bool:
        """Lock the label of an order, by one byte of a file; tell whether that could be."""
        with self.telling_of_lock():
            # No bus's file has this name. One open file: to close another one would give up its locks.
            self.labels = self.labels or open(f"{self.path}.labels", "ab")
            try:
                fcntl.lockf(self.labels, fcntl.LOCK_EX | fcntl.LOCK_NB, 1, number)
            except (BlockingIOError, PermissionError):
                return False
        return True

    def unlock_label(self, number: int) -> None:
        """Give up the lock of a label."""
        fcntl.lockf(self.labels, fcntl.LOCK_UN, 1, number)

    @contextlib.contextmanager
    def telling_of_lock(self):
        """Tell what the system refuses of a lock's file as `StoreLost`."""
        try:
            yield
        except OSError as fault:
            raise StoreLost(why(fault)) from fault

    def close(self) -> None:
        """Close the connection, and with it each lock."""
        super().close()
        for file in [*self.locks, *([self.labels] if self.labels else [])]:
            file.close()


def make(path: str) -> None:
    """Make a file that is to be a database, with the rights that the process gives: SQLite gives a group none."""
    try:
        os.close(os.open(path, os.O_RDWR | os.O_CREAT, 0o666))
    except OSError as fault:
        raise StoreLost(why(fault)) from fault


class PostgresDatabase(Database):
    """A database of a server."""

    def __init__(self, url: str):
        """Connect to it."""
        try:
            import psycopg2
        except ImportError as fault:
            raise Failed(f"a store in PostgreSQL needs psycopg2, and {sys.executable} doesn't have it: Debian's"
                         " python3-psycopg2 is for /usr/bin/python3") from fault
        self.errors = (psycopg2.Error,)
        url, self.secrets = with_password_quoted(url)
        with self.telling():
            self.connection = psycopg2.connect(url, connect_timeout=5, application_name="line_computer",
                                               keepalives_idle=10, keepalives_interval=5, keepalives_count=3)
            self.connection.autocommit = True
        with self.closing_on_fault():
            # A computer that has gone is noticed at both ends, so that its lock is free again.
            self.change(f"set lock_timeout = '{PATIENCE}s'; set synchronous_commit = on; set tcp_keepalives_idle = 10;"
                        " set tcp_keepalives_interval = 5; set tcp_keepalives_count = 3")

    def spelled(self, statement: str) -> str:
        """Spell a statement as the database's module wants it."""
        return statement.replace("?", "%s")

    def explained(self, words: str) -> str:
        """Give the words of the server or its module, without any part of the password."""
        for secret in self.secrets:
            words = words.replace(secret, "***")
        return words

    def has_table(self, name: str) -> bool:
        """Tell whether there is a table."""
        return self.rows("select to_regclass(?) is not null", name)[0][0]

    def lock(self, _: str, number: int) -> bool:
        """Lock a bus until this is closed or its process ends; tell whether that could be."""
        return self.rows("select pg_try_advisory_lock(?, ?)", LOCKS, number)[0][0]

    def locked(self, buses: dict[str, int]) -> set[str]:
        """Give those of these buses that somebody has locked, without a lock of one's own."""
        held = {number for number, in self.rows(
            "select objid from pg_locks where locktype = 'advisory' and classid = ? and objsubid = 2 and granted"
            " and database = (select oid from pg_database where datname = current_database())", LOCKS)}
        return {bus for bus, number in buses.items() if number in held}

    def lock_label(self, number: int) -> bool:
        """Lock the label of an order; tell whether that could be."""
        return self.rows("select pg_try_advisory_lock(?)", LABELS | number)[0][0]

    def unlock_label(self, number: int) -> None:
        """Give up the lock of a label."""
        self.rows("select pg_advisory_unlock(?)", LABELS | number)


def with_password_quoted(url: str) -> tuple[str, list[str]]:
    """Spell a URL so that its password may have any character but a question mark: it ends at the last @ before that.

    Give it with the parts of the password that a fault's words might have.
    """
    scheme, _, rest = url.partition("://")
    head, mark, query = rest.partition("?")
    who, at, where = (head if "@" in head else rest).rpartition("@")
    user, colon, password = who.partition(":")
    if not colon:
        return url, []
    plain = urllib.parse.quote(urllib.parse.unquote(password), safe="")
    parts = {password, urllib.parse.unquote(password), plain, *re.split("[@/?#:%]", password)}
    secrets = sorted((part for part in parts if len(part) > 2), key=len, reverse=True)
    return f"{scheme}://{user}:{plain}{at}{where}{mark}{query}" if "@" in head else url, secrets


def opened(place: str, is_made: bool = False) -> Database:
    """Open the database at a place: the name of a file or a URL."""
    scheme = URL.match(place)
    if not scheme:
        if not is_made and not os.path.exists(place):
            raise Failed(f"there is no store: {os.path.abspath(place)}: `init` makes one; --store, or {STORE}, names"
                         " another")
        return SqliteDatabase(place, is_made)
    if scheme[1].lower() not in ("postgresql", "postgres"):
        raise Refused(f"a store is a file, or postgresql://..., and not {scheme[0]}...")
    return PostgresDatabase(place)
