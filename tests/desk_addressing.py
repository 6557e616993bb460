"""Tests of simulated units that can be given a short address, word by word, and by the plan of address_plan.py.

All words are put down by hand after IEC 62386-102.
"""

import address_cases as cases
from address_desk import READINGS, crowd, plan_over
from adapter_desk import ADAPTERS, run
from addressing import DISABLED, ENABLED, WITHDRAWN, Rules
from base import want
from cases import case_of

SIMULATED = ADAPTERS / "simulated_link.py"
BROUGHT_IN = "A500 A500"
DRAWN = "A500 A500 A700 A700"
# The search address 123456h, or another one.
AT_123456, AT_123455 = "B112 B334 B556", "B112 B334 B555"


def answers(bus, words):
    """Carry frames over a bus, and return the answers as text; a number with `s` lets this many seconds pass."""
    told = []
    for word in words.split():
        if word.endswith("s"):
            bus.clock.now += float(word[:-1])
        else:
            answer = bus.carry(int(word, 16))
            told.append("--" if answer is None else f"{answer:02X}")
    return " ".join(told)


def one(words, short=5, rules=Rules(), drawn=0x123456):
    """Carry frames to one unit at a short address, or none, with a random address; return the answers and the unit."""
    bus = crowd(0, [short], rules=rules)
    bus.units[0].addresses.drawn = drawn
    return answers(bus, words), bus.units[0]


def want_last(words, answer, **unit):
    """Raise unless the last of these frames to one unit is answered so."""
    want((words, unit, one(words, **unit)[0].split()[-1]), (words, unit, answer))


def want_state(words, state, **unit):
    """Raise unless one unit is in this state after these frames."""
    want((words, unit, one(words, **unit)[1].addresses.state), (words, unit, state))


# Word by word


def test_queries_that_only_its_own_address_has(folder):
    want(one("0B91 0D91 0BC2 0BC3 0BC4 0DC2 FF96 0A91")[0], "FF -- 12 34 56 -- -- --")
    want(one("0B91 0BC2 FF96 FF96 0191 7F91 0198", short=None)[0], "-- -- FF FF -- -- --")
    want(one("7F91 7FC4 0191 0B91", short=63)[0], "FF 56 -- --")


def test_initialise_is_heard_twice_and_by_whom_it_means(folder):
    for short, heard, others in [(5, ("A500", "A50B"), ("A5FF", "A50D", "A50A", "A505")),
                                 (None, ("A500", "A5FF"), ("A50B", "A501", "A57F")),
                                 (0, ("A500", "A501"), ("A5FF", "A503")), (63, ("A500", "A57F"), ("A5FF",))]:
        for word in heard:
            want_state(f"{word} {word}", ENABLED, short=short)
            for words in (word, f"{word} A100 {word}", f"{word} 0B91 {word}", f"{word} 0.2s {word}"):
                want_state(words, DISABLED, short=short)
        for word in others:
            want_state(f"{word} {word}", DISABLED, short=short)
            want_state(f"A500 {word}", DISABLED, short=short)
    want_state(f"{BROUGHT_IN} A100", DISABLED)


def test_the_initialisation_state_ends_by_itself(folder):
    for period in (13.5, 15, 16.5):
        rules, seconds = Rules(period=60 * period), 60 * period
        want_last(f"{BROUGHT_IN} {seconds - 1}s A900", "FF", rules=rules)
        want_last(f"{BROUGHT_IN} {seconds + 1}s A900", "--", rules=rules)
        want_last(f"{BROUGHT_IN} {seconds - 1}s {BROUGHT_IN} {seconds - 1}s A900", "FF", rules=rules)
    want(Rules().period, 15 * 60)


def test_randomise_is_heard_twice_and_in_the_initialisation_state(folder):
    for words, is_drawn in [(DRAWN, True), ("A700 A700", False), (f"{BROUGHT_IN} A700", False),
                            (f"{BROUGHT_IN} A700 A100 A700", False), (f"{BROUGHT_IN} A100 A700 A700", False),
                            (f"{BROUGHT_IN} A700 0.2s A700", False)]:
        want((words, one(words)[1].addresses.drawn != 0x123456), (words, is_drawn))
    want(one(f"{DRAWN} A700")[1].addresses.drawn, one(DRAWN)[1].addresses.drawn)
    want(one(f"{DRAWN} A700 A700")[1].addresses.drawn == one(DRAWN)[1].addresses.drawn, False)
    for rules in READINGS:
        found = one(f"{BROUGHT_IN} {AT_123456} AB00 A700 A700", rules=rules)[1].addresses
        want((rules, found.state, found.drawn != 0x123456), (rules, WITHDRAWN, rules.withdrawn_draws))


def test_random_addresses_are_of_24_bits_and_never_the_undrawn_one(folder):
    bus, found = crowd(0, [5], rules=Rules(period=1e9)), set()
    answers(bus, BROUGHT_IN)
    bus.units[0].addresses.chance = type("Chance", (), {"randrange": lambda self, most: found.add(most) or most - 1})()
    answers(bus, "A700 A700")
    want((found, bus.units[0].addresses.drawn), ({0xFFFFFF}, 0xFFFFFE))


def test_compare_and_the_search_address(folder):
    for search, answer in [(AT_123456, "FF"), (AT_123455, "--"), ("B112 B334 B557", "FF"), ("B112 B335 B500", "FF"),
                           ("B111 B3FF B5FF", "--"), ("B113 B300 B500", "FF"), ("", "FF"), ("B100", "--")]:
        want_last(f"{BROUGHT_IN} {search} A900", answer)
    for words in (f"{AT_123456} A900", f"{BROUGHT_IN} A100 A900", f"{BROUGHT_IN} {AT_123456} AB00 A900"):
        want_last(words, "--")
    for rules in READINGS:
        want_last(f"B100 {BROUGHT_IN} A900", "--" if rules.searches_disabled else "FF", rules=rules)


def test_withdraw(folder):
    want_state(f"{BROUGHT_IN} {AT_123456} AB00", WITHDRAWN)
    want_state(f"{BROUGHT_IN} {AT_123455} AB00", ENABLED)
    want_state(f"{AT_123456} AB00", DISABLED)
    want_state(f"{BROUGHT_IN} {AT_123456} AB00 A100", DISABLED)
    for rules in READINGS:
        want_state(f"{BROUGHT_IN} {AT_123456} AB00 {BROUGHT_IN}", ENABLED if rules.re_enables else WITHDRAWN,
                   rules=rules)


def test_program_verify_and_query_short_address(folder):
    for program, short in [("B713", 9), ("B701", 0), ("B77F", 63), ("B7FF", None), ("B712", 5), ("B781", 5),
                           ("B700", 5), ("B7FE", 5)]:
        for words, is_heard in [(f"{BROUGHT_IN} {AT_123456}", True), (f"{BROUGHT_IN} {AT_123456} AB00", True),
                                (f"{BROUGHT_IN} {AT_123455}", False), (AT_123456, False)]:
            want((program, words, one(f"{words} {program}")[1].short_address),
                 (program, words, short if is_heard else 5))
    want(one(f"{BROUGHT_IN} {AT_123456} BB00 B90B B90D B713 BB00 B7FF BB00 FF96")[0].split()[5:],
         "0B FF -- -- 13 -- FF FF".split())
    want_last(f"{BROUGHT_IN} {AT_123455} BB00", "--")
    want_last(f"{AT_123456} BB00", "--")
    want_last("B90B", "--")


def test_power_ends_the_initialisation_state_and_keeps_both_addresses(folder):
    # So many seconds after each of the addresses was changed.
    for drawn_for, given_for, is_drawn, short in ((0, 0, False, None), (31, 0, True, None), (0, 31, True, 9)):
        bus = crowd(1, rules=Rules(store_time=30))
        unit = bus.units[0]
        answers(bus, f"{DRAWN} {drawn_for}s")
        drawn = unit.addresses.drawn
        answers(bus, f"B1{drawn >> 16:02X} B3{drawn >> 8 & 0xFF:02X} B5{drawn & 0xFF:02X} B713 {given_for}s")
        want((unit.short_address, unit.addresses.state), (9, ENABLED))
        unit.power_up()
        found = unit.addresses
        want((unit.short_address, found.drawn, found.state, found.search),
             (short, drawn if is_drawn else 0xFFFFFF, DISABLED, 0xFFFFFF))


def test_a_unit_that_draws_is_deaf(folder):
    for is_deaf, told in ((True, "-- -- FF"), (False, "FF FF FF")):
        found = one(f"{DRAWN} FF96 FF96 0.1s FF96", short=None, rules=Rules(is_deaf_drawing=is_deaf))[0]
        want(" ".join(found.split()[4:]), told)


def test_memory_is_that_of_the_address_that_was_given(folder):
    words = f"{BROUGHT_IN} {AT_123456} B713 A100 0B98 1398 C301 A300 13C5 1381 1381 C301 A302 C755 C712 A303 13C5"
    found, unit = one(words)
    want(found.split()[7:], "-- 00 -- -- 77 -- -- -- -- 55 12 -- 12".split())
    want(unit.banks[1][3], 0x12)
    # A word of the search ends write enable, as any other does.
    want_last("0B81 0B81 A100 C301 A302 C755", "--")
    want(one("0B98 0D98 FF98 0BC5 0B81 0B81 C301 A302 C755", short=None)[0].split()[-1], "--")


def test_a_stored_run_is_that_of_a_unit_that_can_be_given_an_address(folder):
    sent = [line.split()[1:] for line in case_of("run_gtin_frames").wanted.decode().splitlines()
            if line.startswith("send ")]
    assert len(sent) > 90
    status, told, _ = run(SIMULATED, ["--folder", folder, "--unit", "5", "--edition", "2"], [word for word, _ in sent])
    want((status, told), (7, [answer for _, answer in sent]))


# Several at once


def test_several_answers_at_once(folder):
    for chances, told in [({}, "FF FF FF -- --"), ({"alike": 1}, "FF FF FF 01 --"), ({"is_deaf": True}, 5 * "-- "),
                          ({"is_deaf": True, "alike": 1}, "FF FF FF 01 --")]:
        bus = crowd(2, [5, 5], chances=chances)
        for unit in bus.units:
            unit.registers[1] = 1
        bus.units[2].registers[0] = 1
        want((chances, answers(bus, "FF96 0B91 A500 A500 A900 0B9C 0B98").split()),
             (chances, told.split()[:2] + ["--", "--"] + told.split()[2:]))


def test_chances(folder):
    bus = crowd(0, [5], chances={"each_loss": 0.1})
    lost = [bus.carry(0x0B91) is None for _ in range(10000)]
    assert abs(sum(lost) - 1000) < 150, sum(lost)
    bus = crowd(0, [5], chances={"noise": 0.1})
    found = [(bus.carry(0x0B98), bus.carry(0x0D91), bus.carry(0x0D98)) for _ in range(10000)]
    # Noise makes a yes where only YES answers, and takes each other answer away. Five deviations are allowed.
    for counted in (sum(it[0] is None for it in found), sum(it[1] == 0xFF for it in found)):
        assert abs(counted - 1000) < 150, counted
    want({it[2] for it in found}, {None})
    # The losses by the seed are the same with these chances and without.
    buses = [crowd(0, [5], seed=4, loss=0.3, chances=it) for it in ({}, {"each_loss": 0.5, "noise": 0.2})]
    draws = [[bus.chance.random() for _ in range(5)] for bus in buses if bus.carry(0x0B91) or True]
    want(draws[0], draws[1])


# The simulated link


def addresses_in(folder):
    """Give the lines of the file of addresses."""
    return (folder / "addresses.txt").read_text().splitlines()


def played(folder, options, words):
    """Play frames over the simulated link; give the answers."""
    status, told, text = run(SIMULATED, ["--folder", folder, *options.split()], words.split())
    want((status, "Traceback" in text), (7, False))
    return " ".join(told)


def test_addresses_are_kept_over_runs(folder):
    want(played(folder, "--new 1", "FF96 0B91 0B98"), "FF -- --")
    want(addresses_in(folder), ["new_1 -- FFFFFF"])
    played(folder, "--new 1", DRAWN)
    name, short, drawn = addresses_in(folder)[0].split()
    want((name, short, drawn != "FFFFFF"), ("new_1", "--", True))
    at_it = f"B1{drawn[:2]} B3{drawn[2:4]} B5{drawn[4:]}"
    # The seed draws the same one again.
    want(played(folder, "--new 1", f"{DRAWN} {at_it} BB00 B70B BB00 0B91 FF96").split()[7:], "FF -- 0B FF --".split())
    want(addresses_in(folder), [f"new_1 5 {drawn}"])
    want(played(folder, "--new 1", "0BC2 0BC3 0BC4 A900 0B81 0B81 C301 A302 C755 C712"),
         f"{drawn[:2]} {drawn[2:4]} {drawn[4:]} -- -- -- -- -- 55 12")
    want((folder / "new_1.hex").read_text().splitlines()[0], "77 FF FF 12 FF FF FF FF FF FF FF FF FF FF FF FF")
    # Units that aren't on the bus keep theirs, and others are drawn otherwise.
    want(played(folder, "--unit 7 --twin 7", "FF96 0B91 0F91"), "-- -- FF")
    found = addresses_in(folder)
    want([line.split()[:2] for line in found], [["new_1", "5"], ["unit_7", "7"], ["twin_1", "7"]])
    want(len({line.split()[2] for line in found}), 3)
    want(sorted(it.name for it in folder.iterdir()), ["addresses.txt", "new_1.hex", "twin_1.hex", "unit_7.hex"])


def test_addresses_stand_before_the_answer_comes(folder):
    words = f"{DRAWN} pause kill".split()
    want(run(SIMULATED, ["--folder", folder, "--new", "1"], words)[0], 137)
    assert addresses_in(folder)[0] != "new_1 -- FFFFFF"


def test_seeds_draw_others(folder):
    drawn = set()
    for seed in (1, 2, 3, 2):
        played(folder, f"--new 2 --seed {seed}", DRAWN)
        drawn.add(tuple(addresses_in(folder)))
    want(len(drawn), 3)


def test_editions_differ(folder):
    # SEARCHADDRH outside of the initialisation state.
    for options, told in (("", "FF"), ("--edition 2", "FF"), ("--edition 1", "--")):
        (folder / "addresses.txt").write_text("new_1 -- 123456\n")
        want((options, played(folder, f"--new 1 {options}", f"B100 {BROUGHT_IN} A900").split()[-1]), (options, told))


def test_without_the_options_no_unit_is_asked_for_addresses(folder):
    want(played(folder, "", f"FF96 0B91 0BC2 {DRAWN} A900 BB00"), " ".join(9 * ["--"]))
    want([it.name for it in folder.iterdir()], ["unit_5.hex"])


def test_options_of_several_answers(folder):
    want(played(folder, "--new 2", "FF96 FF96"), "FF FF")
    want(played(folder, "--new 2 --deaf", "FF96 FF96"), "-- --")
    want(played(folder, "--new 2 --deaf --alike", "FF96 FF96"), "FF FF")
    want(played(folder, "--new 2 --each-loss 1", "FF96 FF96"), "-- --")
    want(played(folder, "--new 0 --noise 1", "FF96 0B98"), "FF --")
    want(played(folder, "--new 1 --unit 9", "0B91 1391 FF96"), "-- FF FF")


def test_addressing_that_cannot_start(folder):
    for options in ("--new -1", "--new x", "--new 1000", "--twin 6", "--new 1 --twin 5", "--unit 5 --unit 5 --new 1",
                    "--edition 3", "--each-loss 2", "--noise x", "--alike 1.5", "--unit 64 --new 1"):
        status, told, text = run(SIMULATED, ["--folder", folder, *options.split()], ["A312"])
        assert (status, told) == (2, None) and text and "Traceback" not in text, (options, status, text)
    for line in ("new_1 64 123456", "new_1 5", "new_1 5 12345", "5 5 5 123456"):
        (folder / "addresses.txt").write_text(f"{line}\n")
        status, told, text = run(SIMULATED, ["--folder", folder, "--new", "1"], ["A312"])
        want((status, told, text), (2, None, f"simulated_link: {folder}/addresses.txt: the line {line!r} is no unit"
                                             " with a short address, or --, and a random address\n"))


# The plan over them


def test_plan_where_nothing_is_lost(folder):
    for want_so in (cases.want_new_units_given, cases.want_named_ones, cases.want_addressed_ones_left,
                    cases.want_taken_ones_refused, cases.want_lists, cases.want_two_at_one_address, cases.want_counts,
                    cases.want_64_and_one_more, cases.want_readings, cases.want_left_open_closed):
        want_so(plan_over)


def test_plan_with_losses_and_kills(folder):
    cases.want_each_loss_made_good(plan_over, 1)
    cases.want_each_loss_made_good(plan_over, 2)
    cases.want_each_altered_answer_made_good(plan_over)
    cases.want_each_loss_of_power_made_good(plan_over, 1)
    cases.want_none_given_twice(plan_over)
    cases.want_killed_count(plan_over)
    cases.want_killed_goes_on(plan_over, 1)
    cases.want_killed_goes_on(plan_over, 2, 7)
    cases.want_anew_after_a_kill(plan_over, 41)


def test_plan_over_what_is_damaged(folder):
    cases.want_noise_heard_through(plan_over)
    cases.want_alike_answers_told_apart(plan_over)
    cases.want_deaf_interface_misses_two(plan_over)


def test_plan_over_benches(folder):
    for seed in range(20):
        cases.want_bench(plan_over, seed)
