"""The command line of the line computer."""

from __future__ import annotations

import argparse
import contextlib
import errno
import os
import pathlib
import platform
import re
import shutil
import signal
import sys
import time
from typing import Callable

from . import (cancelling, incoming, journals, label_template, labels, listing, moments, orders, outputs, repeating,
               scans, schema, server, spans, standing, template)
from .arguments import number_of, place_of, read_by, seconds_of, words_of
from .bus import BusProcess
from .database import STORE, Database, StoreLost
from .faults import Failed, Refused, plain, why
from .outputs import write, write_text
from .page import Look
from .program import Program
from .schema import MIGRATIONS, STATES
from .station import Choices, Station
from .station_bus import StationBus
from .work import CHECKED, SHORT, Work

ROOT = pathlib.Path(__file__).resolve().parent.parent.parent
LONGEST_WAIT = 30.0
WAITED = 5  # seconds after which a command says what it waits for
ABOUT = """Bring orders to the drives of a bench's buses, one at a time, and their ends and labels back.

STORE is the file of an SQLite database (default: orders.db), or postgresql://USER@HOST/DATABASE, which needs psycopg2;
the variable LINE_COMPUTER_STORE names it where --store doesn't. docs/LINE_COMPUTER.md tells how all of it is used.

Status 0: it was done. Status 1: something is refused, as an order that `dali_bench check` refuses, or a wrong command
line. Status 2: the store, a file, dali_bench or the output fails."""


class Parser(argparse.ArgumentParser):
    """A parser that tells a wrong command line as dali_bench does."""

    def error(self, message):
        """Tell what is wrong, and end with status 1."""
        self.exit(1, f"error: {plain(message)}\n{self.format_usage()}")


def say(words: str) -> None:
    """Tell a person what a command waits for, where standard error takes it."""
    with contextlib.suppress(OSError):
        print(plain(words), file=sys.stderr, flush=True)


def let_signals_interrupt() -> None:
    """Have what ends a command end it as an interrupt does, so that what it asked for is withdrawn."""
    for number in (signal.SIGTERM, signal.SIGHUP):
        if signal.getsignal(number) != signal.SIG_IGN:
            signal.signal(number, signal.default_int_handler)


def on_init(options) -> None:
    """Make the store and its buses."""
    schema.init(options.store, options.bus or [], options.first)
    write([f"store of version {len(MIGRATIONS)}", *(f"bus {bus}" for bus in options.bus or [])])


def on_add(options) -> None:
    """Add the orders of a file: all of them or none."""
    database = schema.open_store(options.store)
    bus = schema.bus_meant(database, options.bus)
    items = incoming.items_of(incoming.read(options.file), options.latin_1, Program(options.program))
    given = orders.add(database, bus, items, options.same_luminaire)
    new = sum(is_new for _, is_new in given)
    lines = [f"item {at} order {number}" + ("" if is_new else " known") for at, (number, is_new) in enumerate(given, 1)]
    write([*lines, f"added {new} known {len(given) - new}"])


def on_run(options) -> None:
    """Be the process of a bus until SIGTERM, or an interrupt from the keyboard."""
    folder = pathlib.Path(options.folder or options.bus)
    want_adapter(options.words[0])
    process = BusProcess(options.store, options.bus, folder, options.words, Program(options.program),
                         options.longest_wait)
    process.is_until_empty = options.until_empty
    process.plan = options.plan
    for number in (signal.SIGTERM, signal.SIGINT):
        signal.signal(number, lambda *_: setattr(process, "is_wanted", False))
    process.open()
    process.run()


def on_station(options) -> None:
    """Be a station until standard input ends, SIGTERM, or an interrupt from the keyboard."""
    want_adapter(options.words[0])
    program = Program(options.program)
    bus = StationBus(options.store, options.bus, pathlib.Path(options.folder or options.bus), options.words, program,
                     options.longest_wait)
    bus.plan = options.plan
    choices = Choices(template.read(options.template, options.serial, program), options.address, options.again,
                      put_of_station(options))
    for number in (signal.SIGTERM, signal.SIGINT, signal.SIGHUP):
        if signal.getsignal(number) != signal.SIG_IGN:
            signal.signal(number, lambda *_: bus.end())
    bus.open()
    Station(bus, choices).run()


def put_of_station(options) -> Callable[[labels.Label], None] | None:
    """Give what puts a label of a station out, if it isn't left in the store."""
    if options.label and not (options.to or options.label_command):
        raise Refused("--label spells what --to or --label-command gets: name one of them")
    spelled = label_template.read(options.label).of if options.label else labels.lined
    if options.to:
        return outputs.to_printer(*place_of("--to", options.to, "192.0.2.7:9100"), spelled)
    return outputs.to_command(options.label_command, spelled) if options.label_command else None


def want_adapter(name: str) -> None:
    """Make sure that the adapter is there and may be run."""
    if not shutil.which(name):
        path = os.path.abspath(name) if "/" in name else f"{name}, on the path"
        what = "may not be run: `chmod +x` lets it" if os.path.isfile(name) and "/" in name else "isn't there"
        raise Failed(f"the adapter {what}: {path}")


def on_status(options) -> None:
    """Tell how the buses stand, and how many orders and labels there are."""
    database = schema.open_store(options.store)
    lines = [f"bus {it.bus} {it.words()}" for it in standing.buses(database)]
    counts = dict(database.rows("select state, count(*) from bench_orders group by state"))
    done = database.rows("select count(*) from bench_orders where state = 'ended' and code = 0")[0][0]
    left = database.rows("select count(*) from bench_labels where taken is null")[0][0]
    write([*lines, "orders " + " ".join(f"{state} {counts.get(state, 0)}" for state in STATES), f"done {done}",
           f"labels left {left}"])


def on_orders(options) -> None:
    """List the orders, or those that are chosen."""
    database = schema.open_store(options.store)
    if options.bus is not None:
        schema.number_of_bus(database, options.bus)
    if None not in (options.since, options.until) and options.since >= options.until:
        raise Refused("--since isn't before --until, so no order is between them")
    chosen = listing.Chosen(options.bus, options.reference, options.state, tuple(options.end or ()), options.since,
                            options.until)
    if options.csv:
        write_text(listing.table(database, chosen))
    else:
        write(listing.lines(database, chosen))


def on_again(options) -> None:
    """Add orders anew that came to no good end."""
    database = schema.open_store(options.store)
    given = repeating.again(database, options.numbers, Program(options.program), options.same_luminaire)
    write(f"order {repeat} repeats {number}" + ("" if is_new else " known") for number, repeat, is_new in given)


def on_cancel(options) -> None:
    """Cancel orders that weren't begun."""
    database = schema.open_store(options.store)
    let_signals_interrupt()
    answers = cancelling.cancel(database, options.numbers, Program(options.program), say)
    write(f"order {number} cancelled" for number, answer in answers.items() if answer == cancelling.CANCELLED)
    refused = [answer for answer in answers.values() if answer != cancelling.CANCELLED]
    if refused:
        raise Refused("\n".join(refused))


def on_labels(options) -> None:
    """Put labels out: to standard output, a command or a printer."""
    want_way_out(options)
    database = schema.open_store(options.store)
    if options.bus is not None:
        schema.number_of_bus(database, options.bus)
    template = label_template.read(options.template) if options.template else None
    numbers, is_again = options.again or options.numbers, bool(options.again)
    if numbers:
        found = labels.wanted(database, numbers, is_again)
    else:
        found = (labels.all_of if options.all else labels.left)(database, options.bus)
    # A label that can't be put out is refused before any is.
    texts = [template.of(label) for label in found] if template else []
    if options.take or is_again:
        act = labels.again if is_again else labels.take
        act(database, found, put_of(options, template.of if template else labels.lined))
    elif template:
        write_text("".join(texts))
    else:
        write(outputs.lines_of(found, options.csv))


def want_way_out(options) -> None:
    """Refuse options that don't go together."""
    is_out = options.take or options.again
    ways = sum(map(bool, (options.words, options.command, options.to)))
    if ways > 1 or ways and (not is_out or options.csv):
        raise Refused("one command, or --to, stands beside --take or --again, and --csv beside neither")
    if options.template and options.csv:
        raise Refused("--template and --csv are two ways to spell a label: take one")
    if options.numbers and not options.take:
        raise Refused("N.. stands beside --take, or behind --again")
    if options.bus and (options.numbers or options.again):
        raise Refused("--bus chooses among all labels, and N.. names them: take one")


def put_of(options, spelled: Callable[[labels.Label], str]) -> Callable[[labels.Label], None]:
    """Give what puts a label out as the options say."""
    words = options.words or options.command
    if words:
        return outputs.to_command(words, spelled)
    return outputs.to_printer(*place_of("--to", options.to, "192.0.2.7:9100"), spelled) if options.to else \
        outputs.to_output(options.csv, spelled)


def on_retire(options) -> None:
    """Retire the journal of a bus: here, or by its process once the order at work has ended."""
    database = schema.open_store(options.store)
    number = schema.number_of_bus(database, options.bus)
    let_signals_interrupt()
    database.change("update bench_buses set retire = ?, answer = null where bus = ?", int(not options.power_was_taken),
                    options.bus)
    try:
        answer = answer_to_retire(database, options, number)
    except BaseException:
        # Nobody waits for an answer any more.
        with contextlib.suppress(StoreLost):
            database.change("update bench_buses set retire = 0 where bus = ?", options.bus)
        raise
    if not answer.startswith("retired "):
        raise Refused(answer)
    write([answer])


def answer_to_retire(database: Database, options, number: int) -> str:
    """Wait until the journal of a bus is retired, or can't be; give what became of it."""
    asked, told = time.monotonic(), None
    while True:
        answer, folder = database.rows("select answer, folder from bench_buses where bus = ?", options.bus)[0]
        if answer is None and database.lock(options.bus, number):
            return retire_here(database, options, folder)
        if answer is not None:
            return answer
        if options.power_was_taken:
            raise Refused(f"the bus {options.bus} has a process: end its `run` first")
        words = Work(database, options.bus).waited_for()
        if words and words != told and (time.monotonic() - asked > WAITED or "blocked" in words):
            say(words)
            told = words
        time.sleep(0.1)


def retire_here(database: Database, options, name: str | None) -> str:
    """Retire the journal of a bus that has no process now, in the folder of this name; give what became of it."""
    bus, folder, program = options.bus, pathlib.Path(name or ""), Program(options.program)
    try:
        if name is None:
            raise Refused("the journal can't be retired: the bus has none now")
        with journals.claim(database, bus, folder):
            journals.recover(database, bus, folder)
            if options.power_was_taken:
                return f"retired {journals.give_up(database, bus, folder, program, options.cancel_sent)}"
            return f"retired {journals.retire(database, bus, folder, program)}"
    except StoreLost:
        raise
    except (Refused, Failed, OSError) as fault:
        Work(database, bus).refuse_retire(why(fault))
        return why(fault)


def on_page(options) -> None:
    """Serve the page until an interrupt."""
    host, port = place_of("--listen", options.listen, "127.0.0.1:8080")
    if not options.anyone_may_read and not server.is_of_this_computer(host):
        raise Refused(f"--listen {options.listen} is open to other computers, and the page asks for no password: leave"
                      " it at 127.0.0.1, behind a server with a password, or let them by --anyone-may-read")
    look = Look(options.name, spans.clock_times(options.shift) if options.shift else [])
    database = schema.open_store(options.store)
    if options.station:
        schema.number_of_bus(database, options.station)
    database.close()
    for number in (signal.SIGTERM, signal.SIGINT):
        signal.signal(number, lambda *_: sys.exit(0))
    try:
        server.serve(options.store, look, host, port, options.station, lambda url: write([url]))
    except OSError as fault:
        more = f": --listen {host}:{port + 1} takes another port" if fault.errno == errno.EADDRINUSE else ""
        raise Failed(f"{options.listen}: {fault.strerror or fault}{more}") from fault


def command(commands, act, about: str, bus: dict | None = None, has_program: bool = False) -> Parser:
    """Make a command, with the options that several have. Its help begins with what stands before a colon or a dot."""
    name = act.__name__.removeprefix("on_")
    made = commands.add_parser(name, help=re.split("[:.]", about)[0], description=about, allow_abbrev=False)
    made.set_defaults(act=act)
    made.add_argument("--store", default=os.environ.get(STORE, "orders.db"),
                      help=f"the store (default: {STORE}, or orders.db)")
    if bus:
        made.add_argument("--bus", metavar="B", **bus)
    if has_program:
        made.add_argument("--program", metavar="PATH", default=str(ROOT / "dali_bench"),
                          help="dali_bench (default: the one that this belongs to)")
    return made


def make_order_commands(commands) -> None:
    """Make the commands that are about orders and labels."""
    made = command(commands, on_init, "Make the store, or bring an older one up to this version, and make its buses."
                   " What is there stays.", {"action": "append", "help": "a bus of this name; may be given again"})
    made.add_argument("--first", metavar="N", type=number_of, default=1, help="give no order a number below N")
    made = command(commands, on_add, "Add the orders of FILE: all of them or none. FILE is JSON, as `dali_bench check`"
                   " takes it, or a table, as `orders_from_csv` takes it; - is standard input. `order` may be left out:"
                   " the store gives each order a number of its own, which is printed. Where it is there, an order that"
                   " the bus knows by it is the same one, and isn't added again.",
                   {"help": "the bus that they are for; may be left out where there is only one"}, True)
    made.add_argument("--latin-1", action="store_true", help="the table is in Latin-1")
    made.add_argument("--same-luminaire", action="store_true",
                      help="take orders that give another GTIN or identification number to a unit than one that waits")
    made.add_argument("file", metavar="FILE")
    make_listing(commands)
    made = command(commands, on_again, "Add orders anew that came to no good end: each gets a new number, and is the"
                   " repeat of the one that is named. All of them or none.", has_program=True)
    made.add_argument("--same-luminaire", action="store_true", help="as of `add`")
    made.add_argument("numbers", metavar="N", type=number_of, nargs="+")
    made = command(commands, on_cancel, "Cancel orders that weren't begun: one that was sent too, if the journal of its"
                   " bus never had it. The bus's drive is stopped for that if it has to be.", has_program=True)
    made.add_argument("numbers", metavar="N", type=number_of, nargs="+")
    make_labels(commands)


def make_listing(commands) -> None:
    """Make the command that lists orders."""
    made = command(commands, on_orders, "List the orders: a line each, by their numbers.",
                   {"help": "those of this bus alone"})
    made.add_argument("--state", choices=STATES, metavar="S", help=f"those alone that are {', '.join(STATES)}")
    made.add_argument("--end", action="append", metavar="E", type=read_by(listing.end_of),
                      help=f"those that ended so: {', '.join(listing.CODES)}, 0 to 5, or a state; may be given again")
    for name, is_end, what in (("--since", False, "from this moment, or date, on"),
                               ("--until", True, "before this moment, or to the end of this date")):
        made.add_argument(name, metavar="MOMENT", type=read_by(lambda text, is_end=is_end: moments.read(text, is_end)),
                          help=f"those that ended {what}, as 2026-11-30 or '2026-11-30 14:00'; one without an end"
                               " counts as ending now")
    made.add_argument("--reference", metavar="R", help="the one that has this number where it comes from, and its"
                                                       " repeats")
    made.add_argument("--csv", action="store_true", help="as a table (RFC 4180), with all that is known of each")


def make_labels(commands) -> None:
    """Make the command that puts labels out."""
    made = command(commands, on_labels, "Print the labels that nobody has taken: a line of JSON each, with the order's"
                   " fields. With --take or --again a COMMAND behind -- is started for each, with its line as standard"
                   " input.", {"help": "those of this bus alone"})
    made.usage = "line_computer labels [options] [N ...] [-- COMMAND [WORDS..]]"
    which = made.add_mutually_exclusive_group()
    which.add_argument("--take", action="store_true",
                       help="have each taken once it is out, so that it isn't printed again: once it was read, of a"
                            " pipe; once COMMAND ended with status 0")
    which.add_argument("--again", metavar="N", type=number_of, nargs="+",
                       help="print those of these orders once more, which were taken, with how often they were printed")
    which.add_argument("--all", action="store_true", help="print those that were taken too")
    made.add_argument("--csv", action="store_true", help="as a table, in place of lines of JSON")
    made.add_argument("--template", metavar="FILE",
                      help=f"the text of FILE ({', '.join(label_template.KINDS)}) in place of a line of JSON, filled"
                           " with each label's {gtin}, {identification}, {gs1} ..")
    way = made.add_mutually_exclusive_group()
    way.add_argument("--to", metavar="HOST:PORT", help="send each to a printer, over a connection of its own")
    way.add_argument("--printer", dest="to", metavar="HOST:PORT", help="the same as --to")
    way.add_argument("--command", metavar="WORDS", type=read_by(words_of),
                     help="start this for each, which is its standard input: the same as a COMMAND behind --")
    made.add_argument("numbers", metavar="N", type=number_of, nargs="*",
                      help="with --take: those of these orders alone")


def add_plans(made) -> None:
    """Add the options that name the plan of a drive."""
    plans = made.add_mutually_exclusive_group()
    plans.add_argument("--short-plan", dest="plan", action="store_const", const=SHORT, default=SHORT,
                       help="have the drive use the short plan, which takes fewer frames (the default)")
    plans.add_argument("--checked-plan", dest="plan", action="store_const", const=CHECKED,
                       help="have the drive use the checked plan")


def make_bus_commands(commands) -> None:
    """Make the commands that are about buses."""
    bus = {"required": True, "help": "the bus"}
    made = command(commands, on_run, "Carry out the orders of a bus, as they come: start ADAPTER with its words and a"
                   " drive, and both again where they end.", bus, True)
    made.usage = "line_computer run [options] --bus B -- ADAPTER [WORDS..]"
    made.add_argument("--folder", metavar="F", help="where the journal of the bus stands (default: B, in this folder)")
    made.add_argument("--until-empty", action="store_true", help="end once no order of the bus is left")
    add_plans(made)
    made.add_argument("--longest-wait", metavar="SECONDS", type=seconds_of, default=LONGEST_WAIT,
                      help="the longest time before what failed is tried again (default: 30)")
    make_station(commands, bus)
    command(commands, on_status, "Tell how the buses stand, and how many orders and labels there are.")
    made = command(commands, on_retire, "Retire the journal of a bus: it is moved, and named with --older from then on."
                   " Where the bus is at work this waits for the end of its order.", bus, True)
    made.add_argument("--power-was-taken", action="store_true",
                      help="retire one that isn't idle or can't be read, now that all units of the bus have lost their"
                           " power and have it again")
    made.add_argument("--cancel-sent", action="store_true",
                      help="with --power-was-taken: cancel the orders that were sent and aren't begun; one that was"
                           " begun counts as in doubt. Without it they are named, and nothing is done")
    made = command(commands, on_page, "Show all of it as a page for browsers, which changes nothing.")
    made.add_argument("--listen", metavar="HOST:PORT", default="127.0.0.1:8080",
                      help="where the page is (default: 127.0.0.1:8080)")
    made.add_argument("--station", metavar="B", help="show the station of this bus too, at /station, which takes a scan"
                      " from this computer")
    made.add_argument("--anyone-may-read", action="store_true",
                      help="let other computers read it, which asks for no password")
    made.add_argument("--name", metavar="NAME", default=platform.node(),
                      help="what the bench is called in its title (default: as this computer)")
    made.add_argument("--shift", metavar="TIMES",
                      help="count by shifts, which begin at these clock times, as 06:00,14:00,22:00")


def make_station(commands, bus: dict) -> None:
    """Make the command that is a station."""
    made = command(commands, on_station, "Write a luminaire for each scan that a scanner types: verify it, and make its"
                   " label.", bus, True)
    made.usage = "line_computer station [options] --bus B --template FILE -- ADAPTER [WORDS..]"
    made.add_argument("--template", metavar="FILE", required=True, help="keys of an order, with `scan` and `now` where"
                      " the scan and the clock fill them")
    made.add_argument("--serial", choices=sorted(scans.SERIALS), default="hex", metavar="KIND",
                      help="how a scan spells an identification number: hex or decimal (default: hex)")
    made.add_argument("--address", action="store_true", help="give a new luminaire the template's short address first")
    made.add_argument("--again", action="store_true", help="take scans that were used before, as of a GTIN alone")
    add_plans(made)
    way = made.add_mutually_exclusive_group()
    way.add_argument("--to", metavar="HOST:PORT", help="send each label to a printer; else it stays in the store")
    way.add_argument("--label-command", metavar="WORDS", type=read_by(words_of),
                     help="start this for each label, which is its standard input")
    made.add_argument("--label", metavar="FILE", help="the text of FILE in place of a line of JSON, as `labels"
                      " --template` fills it")
    made.add_argument("--folder", metavar="F", help="where the journal of the bus stands (default: B, in this folder)")
    made.add_argument("--longest-wait", metavar="SECONDS", type=seconds_of, default=LONGEST_WAIT,
                      help="the longest time before what failed is tried again (default: 30)")


def parser() -> Parser:
    """Give the parser of the command line."""
    found = Parser("line_computer", description=ABOUT, formatter_class=argparse.RawDescriptionHelpFormatter,
                   allow_abbrev=False)
    commands = found.add_subparsers(metavar="COMMAND", required=True)
    make_order_commands(commands)
    make_bus_commands(commands)
    return found


def main(arguments: list[str]) -> int:
    """Do what a command line says, and give the status to end with."""
    end = arguments.index("--") if "--" in arguments else len(arguments)
    words = parser()
    options, unknown = words.parse_known_args(arguments[:end])
    if unknown:
        more = ": put -- before the adapter" if options.act in (on_run, on_station) else ""
        words.error(f"unrecognized arguments: {' '.join(unknown)}{more}")
    options.words = arguments[end + 1:]
    if options.act in (on_run, on_station) and not options.words or \
            options.words and options.act not in (on_run, on_station, on_labels):
        words.error("`run` and `station` take the adapter and its words behind --, and `labels` a command; no other one"
                    " does")
    try:
        options.act(options)
    except StoreLost as fault:
        return told(Failed(f"the store can't be used: {fault}"))
    except (Refused, Failed) as fault:
        return told(fault)
    except OSError as fault:
        return told(Failed(why(fault)))
    except KeyboardInterrupt:
        return 130
    return 0


def told(fault: Refused | Failed) -> int:
    """Tell what went wrong, where the outputs take it, and give its status."""
    with contextlib.suppress(Failed):
        write(getattr(fault, "lines", []))
    with contextlib.suppress(OSError):
        sys.stderr.write("".join(f"error: {plain(line)}\n" for line in str(fault).splitlines()))
        sys.stderr.flush()
    return fault.status
