"""A stream beside a player to its end: differing commands are left out, or played around, and the rest is compared."""
from judging.commands import COMMANDS
from judging.streams import play_steps, steps_of

# How often one stream is played anew.
MOST = 100


class Stream:
    """A stream as far as it is compared. `turns` are those that are left, and `keys` their places in the stream as it was drawn."""

    def __init__(self, judge, turns):
        self.judge, self.turns = judge, turns
        self.keys, self.counted, self.steps = list(range(len(turns))), set(), None
        self.replies, self.at, self.played, self.passed = None, 0, 0, set()
        judge.streams += 1
        judge.player.around = ()

    def compare(self):
        """Compares the present stream, from the place up to which it was compared already."""
        if self.replies is None:
            self.replies, self.at, self.played = self.judge.player.replies(self.turns), 0, self.played + 1
            self.passed = set()
        found = self.judge.compare(self.turns, self.replies, self.keys, self.counted, self.at)
        self.at = found.replies
        return found._replace(difference=found.difference and self.without_passed(found.difference))

    def without_passed(self, difference):
        """Returns a difference without the questions that were passed over."""
        return difference._replace(turns=[it for at, it in enumerate(difference.turns) if at not in self.passed])

    def pass_over(self, difference, case):
        """Passes over a question if only its reply differs. Returns whether it does."""
        last = difference.turns[-1].command[0]
        is_question = last in COMMANDS and not COMMANDS[last].changes and "fault" not in difference.told
        if not is_question or not case.again or case.place != len(case.commands) - 1:
            return False
        self.passed.add(self.replies[self.at - 1][0])
        return True

    def go_around(self, name):
        """Has the adapter play around a fault. Returns whether it does so from now on."""
        player = self.judge.player
        if not name or name in player.around or name not in player.can_go_around:
            return False
        player.around, self.replies = (*player.around, name), None
        return True

    def leave_out(self, place):
        """Leaves out the command at a place, and those that name its objects. Returns whether anything is left to compare."""
        if self.played >= MOST:
            return False
        steps = self.steps or steps_of(self.turns)
        gone = steps[place].key
        with self.judge.core() as core:
            self.steps, self.turns = play_steps(core, [it for it in steps if it.key != gone])
        self.keys, self.replies = [it.key for it in self.steps], None
        return any(it not in self.counted for it in self.keys)
