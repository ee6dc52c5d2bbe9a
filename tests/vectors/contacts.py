"""What a machine knows of another's program: "Openings" and "Clocks and silence" of docs/WIRE.md."""
import copy

WRAP, HALF = 1 << 32, 1 << 31
CLOCKS_EVERY, SHARE, QUARTER = 16, 16, 4
UNANSWERED = 10
BEHIND = 1 << 20


def since(now, moment):
    """How many milliseconds ago a moment was: none, if it is to come."""
    passed = (now - moment) % WRAP
    return passed if passed < HALF else 0


def is_later(clock, other):
    """Whether a clock is later than another."""
    return 0 < (clock - other) % WRAP < HALF


class Clock:
    """A clock that never goes back, and begins with the low bits of a draw."""

    def __init__(self, draw):
        self.moment, self.last = draw % WRAP, None

    def tick(self, now):
        """The program's own clock shows this."""
        passed = 0 if self.last is None else since(now, self.last)
        self.moment, self.last = (self.moment + passed) % WRAP, now
        return self.moment


class Contact:
    """What a machine knows of another's program."""

    def __init__(self):
        self.playing = self.confirmed = self.owes_hello = self.carries = False
        self.draw = self.echo = self.restarted = self.bye = 0
        self.patience = self.answered = self.answered_at = self.unanswered = 0
        self.clocks_at = self.plays_left = self.sent = self.after = self.behind = 0
        self.theirs = None

    def copy(self):
        return copy.copy(self)

    # ---- hellos

    def hear_hello(self, own, hello, is_match, now):
        """A hello was heard. `own` says what this machine's hellos say. Whether its sender was found to be started again."""
        if not self.playing:
            self.echo = hello.draw
            self.meet(own, hello, is_match, now)
        elif hello.draw != self.draw:
            return self.hear_another(own, hello, is_match, now)
        return False

    def meet(self, own, hello, is_match, now):
        """Its draw is believed if it echoes this machine's, and means the same match."""
        if hello.echo != own.draw:
            return
        self.playing = is_match
        if is_match:
            self.draw = hello.draw
            self.patience = min(own.patience, hello.patience) or own.patience or hello.patience
            self.carries = bool(own.abilities & hello.abilities & 1)
            self.answered, self.answered_at, self.unanswered = (now - 1) % WRAP, now, 0

    def hear_another(self, own, hello, is_match, now):
        """A hello with another draw than the one that is believed. One of 0 shows no restart."""
        if hello.echo != own.draw:
            self.owes_hello |= hello.draw != self.restarted
        elif self.confirmed:
            before, self.restarted = self.restarted, hello.draw or self.restarted
            return before == 0 and self.restarted != 0
        else:
            self.meet(own, hello, is_match, now)
        return False

    def says_hello(self):
        """Whether a hello goes to it next, and no play."""
        return not self.playing or not self.confirmed and self.sent % 2 == 0 or self.owes_hello and self.sent % 16 == 8

    # ---- plays

    def hear_play(self, number, clocks, frame, now):
        """A play was opened, while this machine is at a frame."""
        if not self.confirmed:
            self.confirmed, self.answered_at, self.unanswered = True, now, 0
        self.after = max(self.after, number + 1)
        if clocks and (self.theirs is None or self.theirs[0] < number):
            self.hear_clocks(number, clocks, frame, now)

    def hear_clocks(self, number, clocks, frame, now):
        """The newest clocks of all."""
        theirs, _, clock, heard, _ = clocks
        if heard and is_later(heard, self.answered) and not is_later(heard, now):
            self.answered, self.answered_at, self.unanswered = heard, now, 0
        self.theirs = number, clock, now, theirs
        self.behind = max(-BEHIND, min(BEHIND, theirs - frame))

    def are_clocks_due(self, now):
        """Whether it is time for clocks, whether it answers or not."""
        return self.plays_left == 0 or self.patience > 0 and since(now, self.clocks_at) >= self.patience // SHARE

    def clocks(self, frame, now):
        """The clocks of the next play to it, if it has some; and the play is counted as sent."""
        due = self.are_clocks_due(now)
        wanted = due or self.patience > 0 and self.silence(now) > self.patience // QUARTER
        if due:
            self.unanswered, self.clocks_at, self.plays_left = self.unanswered + 1, now, CLOCKS_EVERY - 1
        else:
            self.plays_left -= 1
        if not wanted:
            return None
        _, clock, at, _ = self.theirs or (0, 0, now, 0)
        return frame, max(0, frame + self.behind), now or 1, clock, since(now, at)

    def silence(self, now):
        """For how many milliseconds no newer clock of this machine's came back."""
        return since(now, self.answered_at) if self.playing else 0

    def is_silent(self, now, silent_after):
        """Whether it is to be regarded as gone for its silence."""
        return self.confirmed and 0 < silent_after < self.silence(now) and self.unanswered >= UNANSWERED

    def hear_too(self, other, now):
        """What is known of it in another epoch: a later answer there counts here."""
        if self.playing and other.playing and self.draw == other.draw and since(now, other.answered_at) < since(now, self.answered_at):
            self.answered, self.answered_at, self.unanswered = other.answered, other.answered_at, other.unanswered
