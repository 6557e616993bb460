"""Cases of `read`, `verify` and `scan` made by chance, for tests/fuzz: over any answers, and over simulated units.

The frames and lines that each of them has to send and print are in read_plan.py; the form of all output is in
fuzz_lines.py.
"""

import copy

import fuzz_inputs
import fuzz_lines
from driven import simulated_link
from read_desk import Changing, Reading, WithBank0
from read_plan import bytes_of, carried, text_of

COMMANDS = ("read", "read", "verify", "verify", "scan")
ODD_LINES = [b"-5\n", b"123456789", b"12345678\n", b"\n", b"ff\r\n", b"0\n", b"--", b"\x00\x00\n", b"1", b"000\n"]


def bank_of(rng):
    """Give the bytes of a bank 1 that a unit may have."""
    if rng.random() < 0.5:
        return bytes.fromhex(fuzz_inputs.good_bank(rng))
    length = rng.choice([17, 18, 32, 33, 34, 120, 254, 255, rng.randint(17, 255)])
    bank = bytearray(rng.randint(0, 255) for _ in range(length))
    bank[0], bank[2] = length - 1, simulated_link.SHUT
    return bytes(bank)


def unit_of(rng, address):
    """Give a unit: one as the desk's, one with a bank 0, or one whose bytes change while it is read."""
    bank, kind = bank_of(rng), rng.random()
    if kind < 0.5:
        return simulated_link.Unit(address, bank)
    if kind < 0.8:
        return WithBank0(address, bank)
    places = [0x00, 0x00, 0x03, 0x11, 0x12, rng.randint(3, len(bank) - 1)]
    changes = {rng.randint(1, 60): (min(rng.choice(places), len(bank) - 1), rng.randint(0, 255))
               for _ in range(rng.randint(1, 3))}
    return Changing(address, bank, changes)


def losses_of(rng, addresses):
    """Give what a bus loses: now and then nothing, some frames, or many in a row, which may reach eight tries."""
    if rng.random() < 0.2:
        return {}
    frames = range(1, rng.choice([30, 120, 400]))
    few = lambda most: set(rng.sample(frames, rng.randint(0, most)))  # noqa: E731
    first = rng.choice(frames)
    row = set(range(first, first + rng.choice([0, 0, 8, 20, 70, 180])))
    power = {(rng.choice(addresses), frame) for frame in few(4)} if addresses else set()
    return {"lost_frames": few(6) | row, "lost_answers": few(9), "lost_power": power}


def bus_of(rng, frames):
    """Give a bus for `drive` that loses some of these frames, answers and power, and bank 1 of each of its units."""
    few = lambda most: rng.sample(frames, rng.randint(0, most))  # noqa: E731
    banks = {at: bytes.fromhex(fuzz_inputs.good_bank(rng)) for at in (5, 6)}
    units = [simulated_link.Unit(at, bank, rng.sample(range(3, 9), rng.choice([0, 0, 1])))
             for at, bank in banks.items()]
    return banks, simulated_link.Bus(units, few(9), few(9), few(2), [(rng.choice([5, 6]), at) for at in few(4)])


def case_of(rng, program, folder):
    """Give a desk for one of the commands, and a bus for it."""
    command, addresses = rng.choice(COMMANDS), rng.choice([[5], [5, 6], [5, 6, 9], []])
    orders = [fuzz_inputs.good_order(rng, number) for number in range(rng.randint(0, 4))]
    desk = Reading(folder, command, rng.choice([5, 5, 5, 6, 9]), orders, program)
    desk.units, desk.with_gtin = rng.choice([(), (5,), (9, 5), (6, 5, 63, 9)]), rng.random() < 0.5
    units = [unit_of(rng, address) for address in addresses]
    for unit in units:
        for order in orders if rng.random() < 0.7 else []:
            write(unit, order)
    return desk, simulated_link.Bus(units, **losses_of(rng, addresses))


def write(unit, order):
    """Put the bytes of an order into its unit's bank, as far as that goes."""
    for location, byte in bytes_of(order).items():
        if order["unit"] == unit.short_address and location < len(unit.banks[1]):
            unit.banks[1][location] = byte


def least_frames(length):
    """Give how many frames the reading of this many bytes takes at least."""
    blocks = [1] + [min(16, length - at) for at in range(1, length, 16)]
    return sum(count + 6 for count in blocks)


def try_over_units(program, rng, folder):
    """Try a command over simulated units that lose frames, answers and power."""
    desk, bus = case_of(rng, program, folder)
    before = bus.frames
    is_lossless = not (bus.lost_frames or bus.lost_answers or bus.lost_power)
    banks = {unit.short_address: bytes(unit.banks[1]) for unit in bus.units if not isinstance(unit, Changing)}
    wanted = desk.run(bus)
    fuzz_lines.JUDGES[desk.command](wanted.status, wanted.sent, wanted.told.encode())
    if desk.command == "read" and wanted.status == 0 and desk.unit in banks:
        assert desk.text() == text_of(banks[desk.unit]), "other bytes than the bank's were read"
        frames, least = bus.frames - before, least_frames(len(banks[desk.unit]))
        assert frames == least or frames > least and not is_lossless, (frames, least)
    if is_lossless and desk.command == "read" and desk.unit in banks:
        assert wanted.status == 0, wanted


def answers_of(rng, desk, bus):
    """Give the answers to a command over a bus as bytes, spoilt now and then, or any others."""
    if rng.random() < 0.2:
        return fuzz_inputs.answers(rng)
    lines = []

    def noted(word, carry=copy.deepcopy(bus).carry):
        answer = carry(word)
        lines.append(b"--\n" if answer is None else b"%02X\n" % answer)
        return answer

    desk.wanted(noted)
    for _ in range(rng.choice([0, 0, 1, 3])):
        at = rng.randint(0, len(lines))
        lines[at:at + rng.choice([0, 1])] = [rng.choice([b"--\n", b"00\n", b"01\n", rng.choice(ODD_LINES)])]
    given = b"".join(lines)
    return given[:rng.randint(0, len(given))] if rng.random() < 0.2 else given


def try_over_answers(program, rng, folder, run):
    """Try a command on answers that are any, and `verify` on orders that are any, too."""
    desk, bus = case_of(rng, program, folder)
    given = answers_of(rng, desk, bus)
    (folder / "input").write_bytes(given)
    if desk.command == "verify" and rng.random() < 0.3:
        orders = fuzz_inputs.orders(rng)
        desk.orders.write_bytes(fuzz_inputs.spoilt(rng, orders) if rng.random() < 0.3 else orders)
        return fuzz_lines.JUDGES["verify"](*run(desk.words(), given))
    wanted, ended = desk.wanted(carried(given)), run(desk.words(), given)
    assert ended == (wanted.status, wanted.sent, wanted.told.encode()), (ended, wanted)
    assert desk.text() == wanted.text and not desk.new().exists(), (desk.text(), wanted)
    return fuzz_lines.JUDGES[desk.command](*ended)
