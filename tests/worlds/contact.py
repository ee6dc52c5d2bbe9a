"""How two machines come to play with each other, and when one of them is silent.

Each opening of a program draws 64 bits, its *draw*. A *hello* tells the sender's draw, and says back (its *echo*) the draw that was
heard of the receiver. A machine plays with another, and believes its draw, once a hello of it says back this machine's own draw and
means the same match. All but hellos is sealed with both draws, so it is opened only in the openings that it was made for.

Before the match a hello goes in each turn to a machine with which this one doesn't play; to one with which it plays, and of which it
has opened no play yet, hellos and plays in turn; and then plays. A machine of which a play was opened, and that says hello with
another draw which echoes, and isn't 0, was *started again*: it can't come back. If no play of it was opened yet, the new draw takes
the old one's place.

Plays tell *clocks*: the sender's clock, the newest one of the receiver's that it heard, and how long ago. A play has them if a sixteenth
of the patience of the two has passed since the last ones, or the 15 plays before had none. It has them also if no clock of one's own
came back for a quarter of the patience: of what goes by several bad lines little comes through. A clock of one's own that comes back,
and that is newer than all that came back before, ends a silence, by whatever way it came. A machine is *silent* if none came back for
longer than `silent_after`, and ten or more clocks were sent to it since, not counting those that only the quarter asked for.

Moments are milliseconds. That the real clocks begin anew after 2^32 isn't in this model.
"""
from typing import NamedTuple, Optional

from rules import holds

CLOCKS_EVERY = 16
UNANSWERED = 10


class Hello(NamedTuple):
    """Who the sender is, and which match it means."""
    match: int
    draw: int
    echo: int
    patience: int


class Clocks(NamedTuple):
    """The sender's clock, and what it heard of the receiver's. `number`: how many datagrams it had sent before."""
    number: int
    frame: int
    clock: int
    heard_clock: int
    held: int


class Contact:
    """What a machine knows of another's program."""

    def __init__(self):
        self.playing, self.draw, self.echo = False, 0, 0
        self.owes_hello, self.confirmed, self.restarted, self.begun = False, False, 0, False
        self.patience, self.answered, self.answered_at, self.unanswered = 0, 0, 0, 0
        self.clocks_at, self.plays_left, self.sent, self.after = 0, 0, 0, 0
        self.theirs: Optional[Clocks] = None
        self.theirs_at = 0

    # ---- hellos

    def hear_hello(self, own, hello, now):
        """A hello was heard. Whether its sender was found to be started again."""
        if not self.playing:
            self.echo = hello.draw
            self.believe(own, hello, now)
        elif hello.draw != self.draw:
            return self.hear_another(own, hello, now)
        return False

    def hear_another(self, own, hello, now):
        """A hello with another draw than the one that is believed. A draw of 0 is that of no opening."""
        if hello.echo != own.draw:
            self.owes_hello |= hello.draw != self.restarted
        elif self.confirmed:
            before, self.restarted = self.restarted, hello.draw or self.restarted
            return before == 0 and self.restarted != 0
        else:
            self.believe(own, hello, now)
        return False

    def believe(self, own, hello, now):
        """The hello's draw is believed, if it says back this machine's and means the same match."""
        if hello.echo != own.draw and holds("echo"):
            return
        self.playing = hello.match == own.match
        if not self.playing:
            return
        self.draw = hello.draw
        self.patience = min(own.patience, hello.patience)
        self.answered, self.answered_at, self.unanswered = now - 1, now, 0

    def says_hello(self):
        """Whether a hello goes to it next, and no play."""
        return not self.playing or not self.confirmed and self.sent % 2 == 0 or self.owes_hello and self.sent % 16 == 8

    def hello(self, own):
        """The hello for it, which is counted as sent."""
        self.owes_hello = False
        self.sent += 1
        return own._replace(echo=self.draw if self.playing else self.echo)

    # ---- clocks

    def hear_play(self, number, clocks, now):
        """A play of the draw that is believed was opened. Whether it is newer than all before."""
        if not self.confirmed:
            self.confirmed, self.answered_at, self.unanswered = True, now, 0
        is_newer = number >= self.after
        self.after = max(self.after, number + 1)
        if clocks and (self.theirs is None or self.theirs.number < clocks.number):
            if self.answered < clocks.heard_clock <= now or not holds("fresh"):
                self.answered, self.answered_at, self.unanswered = clocks.heard_clock, now, 0
            self.theirs, self.theirs_at = clocks, now
            self.begun |= clocks.frame > 0
        return is_newer

    def clocks(self, frame, now):
        """The clocks of the next play to it, if it has some; and the play is counted as sent. Only those count as unanswered that
        would be sent anyhow, so that ten of them take their time."""
        number = self.sent
        self.sent += 1
        if not self.plays_left or now - self.clocks_at >= self.patience // 16:
            self.unanswered += 1
            self.clocks_at, self.plays_left = now, CLOCKS_EVERY - 1
        else:
            self.plays_left -= 1
            if self.silence(now) <= self.patience // 4 or not holds("quarter"):
                return None
        return Clocks(number, frame, now, self.theirs.clock if self.theirs else 0, now - self.theirs_at if self.theirs else 0)

    def silence(self, now):
        """For how long no newer clock came back."""
        return now - self.answered_at

    def is_silent(self, now, silent_after):
        """Whether it has been silent for so long that it is gone. The caller asks only once its silence counts."""
        return self.silence(now) > silent_after and (self.unanswered >= UNANSWERED or not holds("ten"))
