"""Cases of runs that give short addresses over simulated units, for any `over(bus, words, stop)` that runs them.

test_address.py runs the program, test_desk.py the plan, which tests the simulated units.
"""

from address_desk import (READINGS, AltersOne, LosesOne, LosesProgram, at_each, crowd, held, task_of, told_by,
                          want_all_told, want_kept, want_true)
from base import want


def run(over, bus, *words, stop=None, is_sure=True):
    """Run over a bus, and look at what it leaves and tells, all of it or what is sure whatever is lost; give that."""
    before, task = held(bus), task_of(words)
    ended = over(bus, words, stop)
    if stop and ended.status < 0:
        want_kept(bus, before, task)
        return None
    told = want_true(bus, before, ended, task)
    if is_sure:
        want_all_told(bus, before, told, task)
    return told


def want_each_given(over, bus, shorts, *words):
    """Raise unless a run gives each unit its own, these short addresses in all, and says so."""
    is_new = {unit.name for unit in bus.units if unit.short_address is None}
    told = run(over, bus, *words)
    want((told.summary, told.is_open), ((len(is_new), 0, 0), False))
    want(sorted(at_each(bus)), sorted(shorts))
    want(sorted(told.units), sorted(unit.short_address for unit in bus.units if unit.name in is_new))


def frames_of(over, **units):
    """Give how many frames a run over such a bus takes where nothing is lost."""
    bus = crowd(**units)
    run(over, bus)
    return bus.frames


# Where nothing is lost


def want_new_units_given(over):
    for count, most in ((0, 40), (1, 120), (2, 220), (10, 1000)):
        bus = crowd(count)
        want_each_given(over, bus, range(count))
        assert bus.frames <= most, (count, bus.frames)


def want_named_ones(over):
    want_each_given(over, crowd(2, [0, 5]), [0, 5, 9, 63], "63", "9")
    want_each_given(over, crowd(1, [0, 5]), [0, 5, 9], "9", "63")
    want_each_given(over, crowd(3, [0, 5]), [0, 1, 2, 5, 9], "9")
    for number in (0, 62):
        want_each_given(over, crowd(1), [number], str(number))


def want_addressed_ones_left(over):
    bus = crowd(2, [1, 63])
    want_each_given(over, bus, [0, 1, 2, 63])
    told = run(over, bus)
    want((told.units, told.summary), ({}, (0, 0, 0)))


def want_taken_ones_refused(over):
    bus = crowd(1, [0, 5])
    before = held(bus)
    ended = over(bus, ["9", "5"], None)
    want((ended.status, held(bus), "5" in ended.told), (1, before, True))
    want({word[2:] for word, _ in bus.exchanges}, {"91"})


def want_lists(over):
    bus = crowd(0, [5, 0, 63])
    before = held(bus)
    told = run(over, bus, "--list")
    want((told.units, told.summary, held(bus)),
         ({unit.short_address: unit.addresses.drawn for unit in bus.units}, (0, 0, 0), before))
    told = run(over, crowd(1, [5]), "--list")
    want((sorted(told.units), told.summary), ([5], (0, 1, 0)))


def want_two_at_one_address(over):
    bus = crowd(1, [5, 5, 9])
    told = run(over, bus, "--list")
    want((sorted(told.units), told.shared, told.summary), ([9], [5], (0, 1, 1)))
    want(told_by(over(bus, ["--count"], None).told).shared, [5])
    run(over, bus)
    want(sorted(at_each(bus)), [0, 5, 9])
    told = run(over, bus, "--all")
    want((sorted(told.units), told.summary, sorted(at_each(bus))), ([0, 1, 2, 3], (4, 0, 0), [0, 1, 2, 3]))
    want(run(over, bus, "--count").apart, 4)


def want_counts(over):
    for shorts in ([], [7], [0, 63, 5]):
        bus = crowd(0, shorts)
        want((run(over, bus, "--count").apart, sorted(at_each(bus))), (len(shorts), sorted(shorts)))
    told = run(over, crowd(1, [5]), "--count")
    want((told.apart, told.shared, told.summary[1]), (None, [], 1))


def want_64_and_one_more(over):
    bus = crowd(64)
    want_each_given(over, bus, range(64))
    bus = crowd(65)
    told = run(over, bus)
    want((told.summary, sorted(told.units)), ((64, 1, 0), list(range(64))))
    bus = crowd(1, range(64))
    want(run(over, bus).summary, (0, 1, 0))


def want_readings(over):
    for number, rules in enumerate(READINGS):
        bus = crowd(2, [1, 1], number, rules)
        run(over, bus)
        want(sorted(at_each(bus)), [0, 1, 2])
        want((run(over, bus, "--all").summary, sorted(at_each(bus))), ((4, 0, 0), [0, 1, 2, 3]))
        want(run(over, bus, "--count").apart, 4)


# Units that were left in the initialisation state


def want_left_open_closed(over):
    for rules in READINGS:
        bus = crowd(1, [0, 5], rules=rules)
        for word in (0xA500, 0xA500, 0xA700, 0xA700):
            bus.carry(word)
        run(over, bus)
        want(sorted(at_each(bus)), [0, 1, 5])


def want_killed_count(over):
    frames = crowd(0, [0, 5, 9])
    over(frames, ["--count"], None)
    for at in range(1, frames.frames + 1, 3):
        bus = crowd(0, [0, 5, 9])
        run(over, bus, "--count", stop=(at, "carried"))
        want((at, sorted(at_each(bus))), (at, [0, 5, 9]))
        told = run(over, bus, "--list")
        want((at, sorted(told.units), told.summary), (at, [0, 5, 9], (0, 0, 0)))


# Losses and kills


def want_each_loss_made_good(over, count):
    """A frame is lost to all units, or to one alone, or what was answered to it."""
    for at in range(1, frames_of(over, new=count) + 1):
        buses = [crowd(count, lost_frames=[at]), crowd(count, lost_answers=[at]),
                 *[crowd(count, chances=LosesOne(count, unit, at)) for unit in range(count) if count > 1]]
        for bus in buses:
            want_each_given(over, bus, range(count))


def want_each_altered_answer_made_good(over):
    """An answer comes as another byte: no wrong random address is reported for a unit."""
    for at in range(1, frames_of(over, new=1) + 1):
        bus = crowd(1, [5], altering=AltersOne(at))
        run(over, bus)
        want((at, 5 in at_each(bus), None in at_each(bus)), (at, True, False))


def want_none_given_twice(over):
    """PROGRAM SHORT ADDRESS is lost, and what its unit answers after it: another unit never gets the same address."""
    bus = crowd(2, kind=LosesProgram)
    run(over, bus)
    want((len(at_each(bus)), None in at_each(bus)), (2, False))


def want_each_loss_of_power_made_good(over, count):
    for at in range(1, frames_of(over, new=count) + 1):
        bus = crowd(count, lost_power=[(None, at)])
        run(over, bus)
        want((at, None in at_each(bus)), (at, False))


def want_killed_goes_on(over, count, steps=1):
    """A run is killed at a frame; the units stay powered, or lose their power, and the next run is killed or not."""
    for at in range(1, frames_of(over, new=count) + 1, steps):
        for moment, then in (("sent", None), ("carried", None), ("carried", "power"), ("carried", "killed")):
            bus = crowd(count, [40])
            kept = bus.units[-1].addresses.kept()
            run(over, bus, stop=(at, moment))
            if then == "power":
                for unit in bus.units:
                    unit.power_up()
            elif then == "killed":
                run(over, bus, stop=(at // 2 + 1, "carried"))
            told = run(over, bus)
            want((at, told.summary[1:], len(at_each(bus))), (at, (0, 0), count + 1))
            want((at, bus.units[-1].addresses.kept()), (at, kept))


def want_anew_after_a_kill(over, steps=1):
    """All are given anew; that is killed at a frame, and begun again."""
    whole = crowd(0, [3, 3])
    run(over, whole, "--all")
    for at in range(1, whole.frames + 1, steps):
        bus = crowd(0, [3, 3])
        run(over, bus, "--all", stop=(at, "carried"))
        told = run(over, bus, "--all")
        want((at, sorted(told.units), told.summary[1:], sorted(at_each(bus))), (at, [0, 1], (0, 0), [0, 1]))


def want_noise_heard_through(over):
    for seed in range(10):
        bus = crowd(3, [1], seed, chances={"noise": 0.01})
        run(over, bus)
        want((seed, len(at_each(bus)), None in at_each(bus)), (seed, 4, False))


def want_alike_answers_told_apart(over):
    for seed in range(10):
        bus = crowd(3, [1], seed, chances={"alike": seed / 9})
        want((run(over, bus).summary[1:], sorted(at_each(bus))), ((0, 0), [0, 1, 2, 3]))


def want_deaf_interface_misses_two(over):
    """The words of docs/LINK.md on an interface that reports a damaged answer as none."""
    bus = crowd(2, chances={"is_deaf": True})
    ended = over(bus, [], None)
    want((told_by(ended.told).summary, at_each(bus)[None]), ((0, 0, 0), [0xFFFFFF] * 2))
    want_each_given(over, crowd(1, chances={"is_deaf": True}), [0])


def want_bench(over, seed):
    """Ten units, some of them with an address, at 5 % of frames and of answers lost, with kills at any frame."""
    addressed, is_each = seed % 4, seed % 2
    chances = {"each_loss": 0.05 * is_each, "noise": 0.002 * (seed % 3), "alike": 0.5}
    bus = crowd(10 - addressed, [7 * number for number in range(addressed)], seed, READINGS[seed % 16], chances,
                loss=0.05 - 0.03 * is_each)
    kept = [unit.addresses.kept() for unit in bus.units if unit.short_address is not None]
    for kill in range(seed % 4):
        run(over, bus, stop=(1 + (seed * 7919 + kill * 104729) % 2000, "carried"))
    for _ in range(3):
        told = run(over, bus)
        if told.summary[1:] == (0, 0) and not told.is_open:
            break
    there = at_each(bus)
    want((seed, len(there), None in there), (seed, 10, False))
    want([(short, there.get(short)) for short, _ in kept], [(short, [drawn]) for short, drawn in kept])
