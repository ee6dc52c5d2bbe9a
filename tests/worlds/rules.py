"""The rules that can be left out of a run, to see what each of them is for."""

RULES = {
    # whom a machine believes, and when players leave
    "fence": "a machine hears nothing of one that it regards as gone",
    "sets": "players leave only once all who stay have told the same set of machines that are gone",
    "counts": "players leave only once all who stay have told the same counts of their words",
    # openings and silence
    "echo": "a draw is believed only in a hello that says back one's own",
    "fresh": "a silence ends only if a newer clock of one's own comes back",
    "ten": "ten clocks have to be unanswered before a machine is silent",
    "quarter": "who hasn't answered for a quarter of the patience is sent clocks in each play",
    "most": "only who hears most calls silent machines gone",
    "stalls": "only who hears most calls stalled machines gone",
    "opened": "a newcomer counts among those of whom most have to be heard only once a play of it was opened",
    "begun": "nobody is cut off before the match has begun",
    "ends": "who is cut off says bye and ends",
    # lines
    "carry": "what can't go straight is carried",
    "newer": "only a play that is newer than all before shows that its line works",
    "one_way": "it is carried too if only the way back is down",
    "probe": "where the map says that a line is down, one turn in 17 sends straight all the same",
    "odd": "one in 17, and not in 16",
    "no_carrier": "with no carrier it sends straight in each turn",
    "numbers": "an entry of the map is taken only if its number is greater",
    "own_entry": "who hears a wrong entry of itself makes its number greater",
    "news": "the map is told in each of the 16 turns after an entry changed",
    "again": "the map is told in one turn of 16, whatever happens",
    "in_turn": "each carrier is taken in its turn, and not always the nearest",
    "pass_over": "after 16 of them one carrier is passed over",
    "sure": "a carrier hands on straight if each of the two hears the other",
    "steps": "what is carried has a number of steps",
    "packed": "parcels for one next machine go in one datagram",
    "together": "what goes straight goes with the parcels that wait for the same machine",
    "letters": "a parcel says for whom it is in place of its datagram's first four bytes, which are always the same",
    "full": "at most four datagrams wait for one next machine",
    "share": "of what waits for one next machine each maker has its share at most",
    # epochs
    "settled": "a mark counts only once its row is settled",
    "first": "the mark of the first row counts, and not that of the lowest player",
    "void": "void marks don't count",
    "marks_told_on": "who tells words of a gone machine on tells their marks",
    "left_in_id": "where players left goes into the id of the next epoch",
    "seam_gone": "who is gone is gone in the next epoch",
    "both_gone": "who is gone in one epoch is gone in the other",
    "given_again": "words past the end are given again",
    "map_over": "the map of the next epoch begins with the masks of the old one",
    "told_on": "the old epoch is told beside the new one",
    "late": "who is heard, and hasn't begun in an epoch that follows another one, is gone",
    "until_heard": "it is told until all were heard in the new one, and not until all have its words",
    # newcomers
    "caught_up": "a newcomer is proposed only once it has the settled rows",
    "any_host": "a newcomer hears rows of any host",
    "compare": "a newcomer begins anew if the digest before a host's rows is another",
    "anew": "a newcomer begins anew if its epoch isn't told any more",
    "unsure": "so does one that has opened an epoch and heard nobody there who isn't gone",
    "drawn_anew": "who begins anew draws anew",
    "join": "a newcomer that doesn't come is gone",
    "twice": "it is waited for twice as long as one who is silent, since its host may be kept in the epoch before for as long",
    "early": "for a newcomer the silence of another counts before a play of it was opened",
    "patient": "a newcomer waits longer for those that it hasn't heard yet",
    "all_count": "for a newcomer all others count among those of whom it has to hear most",
}

# In which worlds it shows that a rule was left out.
NEEDED = {
    "fence": ["anything"], "sets": ["anything"], "counts": ["anything"], "echo": ["openings"], "fresh": ["deaf"], "ten": ["leaps"],
    "quarter": ["swallows", "lines"], "most": ["deaf", "split"], "stalls": ["split"], "opened": ["hard"], "begun": ["openings"],
    "ends": ["split"], "carry": ["lines"], "newer": ["copies"], "share": ["floods"], "one_way": ["lines"],
    "probe": ["openings"], "odd": ["openings"], "no_carrier": ["openings", "lines"], "numbers": ["lines"],
    "own_entry": ["forges"], "news": ["lines"], "again": ["lines"], "in_turn": ["swallows"],
    "pass_over": ["swallows"], "sure": ["lines"], "steps": ["lines"], "packed": ["lines"], "together": ["lines"], "full": ["lines"],
    "settled": ["hard"], "first": ["hard"], "void": ["epochs"], "marks_told_on": ["hard"], "left_in_id": ["hard", "parted"],
    "seam_gone": ["hard"], "both_gone": ["hard"], "given_again": ["epochs"], "map_over": ["everything"], "told_on": ["hard"],
    "late": ["hangs"],
    "until_heard": ["hard"], "caught_up": ["hard"], "any_host": ["hard"], "compare": ["hard"], "anew": ["hard"], "unsure": ["hard"],
    "drawn_anew": ["hard"], "join": ["hard"], "twice": ["hard"], "early": ["hard"],
    "patient": ["hard"], "all_count": ["hard", "parted"],
}

left_out = set()


def holds(rule):
    """Whether a rule holds in this run."""
    assert rule in RULES, rule
    return rule not in left_out
