"""Tests of `dali_bench address` over simulated units: what each of them holds in the end, and its line."""

import address_cases as cases
from address_runs import program_over
from base import BenchTest, in_cases

BENCHES = 40
SHARES = 4  # of the benches, each a case


class UnitsTest(BenchTest):
    """The cases of address_cases.py."""

    def setUp(self):
        """Take the program."""
        super().setUp()
        self.over = program_over()

    def test_new_units(self):
        cases.want_new_units_given(self.over)
        cases.want_named_ones(self.over)
        cases.want_addressed_ones_left(self.over)
        cases.want_taken_ones_refused(self.over)

    def test_lists_and_shared_addresses(self):
        cases.want_lists(self.over)
        cases.want_two_at_one_address(self.over)
        cases.want_counts(self.over)

    def test_64_and_one_more(self):
        cases.want_64_and_one_more(self.over)

    def test_each_reading_of_the_standard(self):
        cases.want_readings(self.over)
        cases.want_left_open_closed(self.over)

    def test_each_loss_for_one_unit(self):
        cases.want_each_loss_made_good(self.over, 1)
        cases.want_each_altered_answer_made_good(self.over)

    def test_each_loss_for_two_units(self):
        cases.want_each_loss_made_good(self.over, 2)

    def test_each_loss_of_power(self):
        cases.want_each_loss_of_power_made_good(self.over, 1)
        cases.want_none_given_twice(self.over)

    def test_killed_counts(self):
        cases.want_killed_count(self.over)

    def test_kills_at_each_frame(self):
        cases.want_killed_goes_on(self.over, 1)

    def test_kills_with_two_units(self):
        cases.want_killed_goes_on(self.over, 2, 3)

    def test_kills_where_all_are_given_anew(self):
        cases.want_anew_after_a_kill(self.over, 41)

    def test_what_is_damaged(self):
        cases.want_noise_heard_through(self.over)
        cases.want_alike_answers_told_apart(self.over)
        cases.want_deaf_interface_misses_two(self.over)

    @in_cases(SHARES)
    def test_benches(self, case):
        """Of benches of ten units every fourth."""
        for seed in range(case, BENCHES, SHARES):
            cases.want_bench(self.over, seed)
