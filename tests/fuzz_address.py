"""Cases of `address` made by chance, for tests/fuzz: over any answers, and over simulated units."""

import re

import fuzz_inputs
from address_desk import OPEN, READINGS, crowd, held, told_by, task_of, want_kept, want_true
from address_runs import Addressing

TAKEN = re.compile("error: a unit is at short address ([0-9]+) already")
FAULT = re.compile("drive fault (?:3 Line|4 End|6 TooLong)")


def words_of(rng):
    """Give the words after `address`: short addresses to give, or another task."""
    some = [str(it) for it in rng.sample(range(64), rng.choice([0, 0, 1, 3]))]
    return rng.choice([some, some, ["--all", *some], ["--list"], ["--count"]])


def bus_of(rng):
    """Give a bus of new units and of others, some at one address, that loses and damages what it may."""
    shorts = [rng.choice([0, 1, 5, 62, 63]) for _ in range(rng.choice([0, 0, 1, 3]))]
    chances = {"each_loss": rng.choice([0, 0, 0.01, 0.05]), "noise": rng.choice([0, 0, 0.005]), "alike": rng.random()}
    losses = {"lost_frames": rng.sample(range(1, 400), rng.choice([0, 0, 5])), "loss": rng.choice([0, 0, 0.02])}
    return crowd(rng.choice([0, 1, 2, 4]), shorts, rng.random(), rng.choice(READINGS), chances, **losses)


def try_over_units(program, rng):
    """Try a run over simulated units, after runs that were killed."""
    bus, words = bus_of(rng), words_of(rng)
    for _ in range(rng.choice([0, 0, 1, 2])):
        before, task = held(bus), task_of(words)
        Addressing(words, program).over(bus, (rng.randint(1, 300), rng.choice(["sent", "carried"])))
        want_kept(bus, before, task)
    before, first = held(bus), len(bus.exchanges)
    ended = Addressing(words, program).over(bus)
    if taken := TAKEN.fullmatch(ended.told.rstrip("\n")):
        assert ended.status == 1 and taken[1] in words and held(bus) == before, ended
        assert {word[2:] for word, _ in bus.exchanges[first:]} == {"91"}, bus.exchanges[first:]
        return
    want_true(bus, before, ended, task_of(words))


def try_over_answers(program, rng, folder, run):
    """Try a run on answers that are any."""
    words, given = words_of(rng), fuzz_inputs.answers(rng) * rng.choice([1, 1, 20])
    (folder / "input").write_bytes(given)
    status, sent, told = run(Addressing(words, program).words(), given)
    Addressing().look_at(sent)
    *lines, last = told.decode().splitlines()
    if FAULT.fullmatch(last):
        assert status == 1 and ("--list" in words or lines.pop() == OPEN), (status, told)
        told_by("".join(line + "\n" for line in lines))
    elif not TAKEN.fullmatch(last):
        found = told_by(told.decode())
        is_well = found.summary[1:] == (0, 0) and not (found.is_open or found.is_unclear or found.shared)
        assert not found.rest and status == int(not is_well), (status, told)
    else:
        assert (status, lines) == (1, []), (status, told)
