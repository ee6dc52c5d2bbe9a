"""Edits of what play.c says of a match that goes on in epochs: what a wrong program could have said. Each of them has to be found.

An edit takes the lines, and answers others; None if it has no place among them.
"""


def first(lines, verb, fits):
    """The place of the first line of a verb that fits, by its words; None if none does."""
    return next((at for at, line in enumerate(lines) if line.startswith(verb + " ") and fits(line.split())), None)


def replaced(lines, at, *new):
    """The lines with others in the place of one."""
    return None if at is None else [*lines[:at], *new, *lines[at + 1:]]


def changed(lines, at, word, by):
    """The lines with another number in the place of a word of one line."""
    if at is None:
        return None
    words = lines[at].split()
    words[word] = str(int(words[word]) + by)
    return replaced(lines, at, " ".join(words))


def bases(lines):
    """The first frames of the epochs that aren't the first one."""
    return {words[2] for words in map(str.split, lines) if words[0] == "epoch" and words[2] != "0"}


def later_epoch(lines):
    """The place of an epoch's line that isn't the first one's."""
    return first(lines, "epoch", lambda words: words[2] != "0")


def without_its_mark(lines):
    """The mark by which an epoch ended wasn't put."""
    ends = bases(lines)
    return replaced(lines, first(lines, "mark", lambda words: str(int(words[2]) + 1) in ends))


def with_another_mark(lines):
    """A mark, as if it had been put on the first word of the match, didn't end the epoch."""
    at = first(lines, "gave", lambda words: True)
    return None if at is None else replaced(lines, at, f"mark {lines[at].split()[1]} {lines[at].split()[2]} -1 0 0", lines[at])


def with_another_threshold(lines):
    """An epoch opened with another threshold, for one machine."""
    return changed(lines, later_epoch(lines), 3, 1)


def with_another_delay(lines):
    """An epoch opened with another delay of a player, for one machine."""
    return changed(lines, later_epoch(lines), 16, 1)


def with_another_owner(lines):
    """A player has another owner, for one machine."""
    return changed(lines, later_epoch(lines), 8, 1)


def with_another_number(lines):
    """An epoch has another number, for one machine."""
    return changed(lines, later_epoch(lines), 1, 1)


def with_an_epoch_that_was_over(lines):
    """An epoch was over a turn before."""
    return changed(changed(lines, later_epoch(lines), 6, 1000), later_epoch(lines), 7, 1000)


def with_a_frame_that_went_back(lines):
    """Frames past the end weren't run again, for one machine."""
    return changed(lines, later_epoch(lines), 5, 1)


def with_a_word_for_another_frame(lines):
    """A word was given for the frame after, and again for the next one."""
    return changed(lines, first(lines, "gave", lambda words: int(words[2]) > 100), 2, 1)


def with_another_word_given(lines):
    """A word that a machine gave is another one in all rows."""
    return changed(lines, first(lines, "gave", lambda words: int(words[2]) > 100), 3, 1)


def with_another_word_settled(lines):
    """One machine has settled another word."""
    return changed(lines, first(lines, "row", lambda words: int(words[1]) > 100 and words[2] != "-"), 2, 1)


def without_a_row(lines):
    """One machine has a row less in an epoch."""
    ends = bases(lines)
    return replaced(lines, first(lines, "row", lambda words: str(int(words[1]) + 1) in ends))


def with_one_put_out(lines):
    """Somebody isn't there for the first machine that plays on."""
    at = first(lines, "ends", lambda words: words[3] == "plays")
    if at is None:
        return None
    words = lines[at].split()
    return replaced(lines, at, " ".join([*words[:2], "0" * 8, *words[3:]]))


def with_a_match_that_stands(lines):
    """The first machine that plays on shows no frame any more."""
    at = first(lines, "ends", lambda words: words[3] == "plays")
    return changed(lines, at, 1, -1000)


EDITS = (without_its_mark, with_another_mark, with_another_threshold, with_another_delay, with_another_owner, with_another_number,
         with_an_epoch_that_was_over, with_a_frame_that_went_back, with_a_word_for_another_frame, with_another_word_given,
         with_another_word_settled, without_a_row, with_one_put_out, with_a_match_that_stands)
