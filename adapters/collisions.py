"""The answer on a simulated bus if several units answer at once, and what reaches each unit by itself."""

import random

from adapter import only_yes_answers

YES = 0xFF
DAMAGED = -1


class Collisions:
    """Chances: that one unit doesn't hear a frame, that equal answers look like one, that what comes back is noise.

    Other answers at once are damaged, or told as none by an interface that is deaf to what is damaged. Which ones, says
    the seed.
    """

    def __init__(self, each_loss=0, alike=0, noise=0, is_deaf=False, seed=1):
        self.each_loss, self.alike, self.noise, self.is_deaf = each_loss, alike, noise, is_deaf
        # A chance of its own: what a bus loses by the same seed is the same.
        self.chance = random.Random(f"each {seed}")

    def happens(self, chance):
        """Tell whether something of this chance happens now."""
        return chance > 0 and self.chance.random() < chance

    def reaches(self):
        """Tell whether a frame reaches the next unit."""
        return not self.happens(self.each_loss)

    def back(self, answers):
        """Give what comes back where units have answered so: a byte, DAMAGED, or None."""
        if self.happens(self.noise):
            return DAMAGED
        if len(answers) > 1:
            return answers[0] if len(set(answers)) == 1 and self.happens(self.alike) else DAMAGED
        return answers[0] if answers else None

    def told(self, word, back):
        """Give what an interface tells of what came back to a frame: a byte, or None."""
        if back == DAMAGED:
            return YES if only_yes_answers(word) and not self.is_deaf else None
        return back
