"""Measures which guesses are worth making: python3 bench/choices.py [ROLLDUEL], or --parts [TRIALS]

Two players and 1,000 frames. Each player's words are among four, and are held for 3, 10 or 30 frames on average; or they are
those of the bots of programs/duel, which take another of sixteen words in one frame of eight. Player 2's are
heard 0 to 8 frames late, in order, and told with a sync. After each advance guesses of them are made, in the order of
a rule, until so many of them gave jobs; each job is run, and its branch grafted. Counted are the frames that the syncs ran
again, as a share of those that GGPO runs again on the same words.

Which states are kept is followed here, by their paths, so the table needs no program. With ROLLDUEL the first 200 frames of
each match are played through it too, as a script, and it must count the same jobs and the same frames. And a second table is
printed, of 20 matches of the program beside it for each number of jobs: `faz-sim --guesses best`.

With --parts the players of tests/c/trials/habits.c are measured: one who plays with a pad, and one who has four words. The guesses are
chosen by whole words, by parts, and by what foresaw more. TRIALS is the program of tests/c/trials: it must count the same
frames and jobs, unless there was no room for the states of some; this follows no such limit.

The choosers are written again here from their definitions, crates/roll_guess/specs.
"""
import random
import subprocess
import sys
from itertools import accumulate, islice
from pathlib import Path

THRESHOLD, PATH_LIMIT, BRANCH_LIMIT = 8, 24, 8
HEADER = f"roll 1 players 2 local 1 delay 0,0 threshold {THRESHOLD}"
WORDS = range(4)
BUDGETS = (1, 2, 4, 8, 16)
BOTS = "bots"


def held_words(words):
    """The older rule: the last word held for 0 to 8 frames more, and then each word, all up to this frame."""

    def guesses(now, heard, last, settled):
        for k in range(min(8, now - heard - 1) + 1):
            yield from (([last] * k + [word], now) for word in words if k == 0 or word != last)

    return guesses


class Chooser:
    """The chooser of crates/roll_guess."""

    CERTAIN, GUESSES, UNKNOWN, TURNS, KNOWN, PLAIN, TURN = 32768, 32, 16, 16, 8, 8, 4

    def __init__(self, likely):
        self.held, self.age = 0, 0
        self.tallies, self.turns, self.known = [[0, 0] for _ in range(3)], [], []
        for word in [0, *likely]:
            self.know(word)

    def know(self, word):
        if word not in self.known:
            self.known = (self.known + [word])[-self.KNOWN :]

    def tally(self, age):
        return self.tallies[0 if age < 4 else 1 if age < 16 else 2]

    def note(self, word):
        tally = self.tally(self.age)
        if 255 in tally:
            tally[:] = [count // 2 for count in tally]
        tally[0] += 1
        if word == self.held:
            self.age += 1
        else:
            tally[1] += 1
            self.turns = (self.turns + [(self.held, word)])[-self.TURNS :]
            self.held, self.age = word, 1
        self.know(word)

    def chance(self, held, age, word):
        seen, turned = self.tally(age)
        turning = min((turned + 1) * self.CERTAIN // (seen + 8), self.CERTAIN)
        if word == held:
            return self.CERTAIN - turning
        weight = self.PLAIN + sum(to == word for _, to in self.turns) + self.TURN * self.turns.count((held, word))
        left = sum(from_ == held for from_, _ in self.turns)
        weights = self.KNOWN * self.PLAIN + len(self.turns) + self.TURN * left
        return turning * (weight * self.CERTAIN // weights) // self.CERTAIN

    def further(self, course, word):
        words, held, age, chance = course
        chance = chance * self.chance(held, age, word) // self.CERTAIN
        return words + [word], word, age + 1 if word == held else 1, chance

    def offer_changes(self, ranking, course, unknown):
        for _ in range(len(course[0]), unknown):
            for word in self.known:
                if word != course[1]:
                    words, _, _, chance = self.further(course, word)
                    worth = chance * (unknown - len(words) + 1)
                    place = sum(worth <= other for other, _ in ranking)
                    if place < self.GUESSES and all(words != others for _, others in ranking):
                        ranking[self.GUESSES - 1 :] = []
                        ranking.insert(place, (worth, words))
            course = self.further(course, course[1])

    def choose(self, now, heard, last, settled):
        unknown = min(max(now - heard, 0), self.UNKNOWN)
        singles, ranking, start = [], [], ([], self.held, self.age, self.CERTAIN)
        self.offer_changes(singles, start, unknown)
        self.offer_changes(ranking, start, unknown)
        for _, words in singles:
            course = start
            for word in words:
                course = self.further(course, word)
            self.offer_changes(ranking, course, unknown)
        for _, words in ranking:
            yield words, max(settled + 1, min(heard + len(words) + 7, settled + PATH_LIMIT))


class PartChooser:
    """The chooser by parts of a word."""

    def __init__(self, masks, likely):
        rest = 2**32 - 1
        for mask in masks:
            rest &= ~mask
        masks = [*masks, rest] if rest else masks
        self.held, self.parts = 0, [(mask, Chooser([word & mask for word in likely])) for mask in masks]

    def note(self, word):
        self.held = word
        for mask, part in self.parts:
            part.note(word & mask)

    def chance(self, more, word):
        chance = Chooser.CERTAIN
        for mask, part in self.parts:
            chance = chance * part.chance(part.held, part.age + more, word & mask) // Chooser.CERTAIN
        return chance

    def foreseen(self, word):
        chance = Chooser.CERTAIN
        for mask, part in self.parts:
            chance = chance * foreseen(part, word & mask) // Chooser.CERTAIN
        return chance

    def changed(self, word):
        """The words that come of one by a change of a part that is in it as it is held."""
        for mask, part in self.parts:
            if word & mask == part.held:
                yield from (word & ~mask | value for value in part.known if value != part.held)

    def offer_changes(self, ranking, holds, word, unknown):
        more, chance = holds
        for word in self.changed(word):
            worth = (chance * self.chance(more, word) // Chooser.CERTAIN) * (unknown - more)
            place = sum(worth <= other for other, _ in ranking)
            words = [self.held] * more + [word]
            if place < Chooser.GUESSES and all(words != others for _, others in ranking):
                ranking[Chooser.GUESSES - 1 :] = []
                ranking.insert(place, (worth, words))

    def ranking(self, unknown):
        holds = [(0, Chooser.CERTAIN)]
        for more in range(unknown):
            holds.append((more + 1, holds[more][1] * self.chance(more, self.held) // Chooser.CERTAIN))
        singles = []
        for more in range(unknown):
            self.offer_changes(singles, holds[more], self.held, unknown)
        ranking = [*singles]
        for _, words in singles:
            self.offer_changes(ranking, holds[len(words) - 1], words[-1], unknown)
        return ranking

    def choose(self, now, heard, last, settled):
        for _, words in self.ranking(min(max(now - heard, 0), Chooser.UNKNOWN)):
            yield words, max(settled + 1, min(heard + len(words) + 7, settled + PATH_LIMIT))


def foreseen(chooser, word):
    """The chance that a chooser gave a word that came."""
    return chooser.chance(chooser.held, chooser.age, word) if word in chooser.known else 0


class BothChooser:
    """The choice between whole words and parts."""

    def __init__(self, masks, likely):
        self.words, self.parts, self.of_words, self.of_parts = Chooser(likely), PartChooser(masks, likely), 0, 0

    def note(self, word):
        if word != self.words.held:
            self.of_words += foreseen(self.words, word) - self.of_words // 16
            self.of_parts += self.parts.foreseen(word) - self.of_parts // 16
        self.words.note(word)
        self.parts.note(word)

    def choose(self, *where):
        return (self.parts if self.of_words < self.of_parts else self.words).choose(*where)


class Player:
    """The players of tests/c/trials/habits.c."""

    WAYS, FEW = (16, 32, 64, 128, 64, 128), (0, 64, 128, 256)

    def __init__(self, kind, state):
        self.kind, self.state, self.held, self.until = kind, state, [0, 0, 0], [0, 0, 0]

    def draw(self, below):
        self.state = (self.state * 6364136223846793005 + 1442695040888963407) % 2**64
        return (self.state >> 33) % below

    def another(self):
        word = self.FEW[self.draw(4)]
        return word if word != self.held[0] else self.another()

    def cross(self):
        if self.draw(4) and self.held[0]:
            return 0, 2 + self.draw(12)
        return self.WAYS[self.draw(6)], 8 + self.draw(25)

    def a(self):
        pause = self.draw(8) == 0
        if not self.held[1]:
            return 256, 4 + self.draw(4)
        return 0, 60 if pause else 6 + self.draw(15)

    def b(self):
        return (0, 60 + self.draw(120)) if self.held[2] else (1, 5 + self.draw(10))

    def few(self):
        return self.another(), 5 + self.draw(11)

    def word(self, frame):
        for at, press in enumerate((self.cross, self.a, self.b) if self.kind == "pad" else (self.few,)):
            if frame >= self.until[at]:
                self.held[at], more = press()
                self.until[at] = frame + more
        return sum(self.held)


PAD = (240, 256, 1, 2, 4, 8, 512, 1024, 2048)


def bot(seed, number):
    """The words of a bot of programs/duel, as `draw_word` there has them."""
    state, word = 0x9E3779B97F4A7C15 * (4 * seed + number) % 2**64, 0
    while True:
        yield word
        state ^= state << 13 & 2**64 - 1
        state ^= state >> 7
        state ^= state << 17 & 2**64 - 1
        if state >> 32 & 7 == 0:
            word = state >> 40 & 15


class Match:
    """A match, and the paths of the states that are kept, from the settled frame on: a tree by rows."""

    def __init__(self, frames, held, seed):
        draw = random.Random(seed)
        if held == BOTS:
            self.own, self.words = ([*islice(bot(seed, number), frames)] for number in (1, 2))
        else:
            self.own, self.words = ([*self.drawn(frames, held, draw)] for _ in range(2))
        self.when = [*accumulate((frame + draw.randrange(THRESHOLD + 1) for frame in range(frames)), max)]
        self.begin()

    def begin(self):
        self.kept, self.settled, self.heard = {}, 0, 0
        self.lines, self.jobs, self.rerun, self.ggpo = [HEADER], 0, 0, 0

    @staticmethod
    def of(kind, frames, seed):
        """A match of tests/c/trials/habits.c."""
        match = Match.__new__(Match)
        one, two, line = Player(kind, 2 * seed), Player(kind, 2 * seed + 1), Player(kind, seed)
        late, match.own, match.words = [], [], []
        for frame in range(frames):
            late.append(frame + line.draw(THRESHOLD + 1))
            match.own.append(one.word(frame))
            match.words.append(two.word(frame))
        match.when = [*accumulate(late, max)]
        match.begin()
        return match

    @staticmethod
    def drawn(frames, held, draw):
        word = 0
        for _ in range(frames):
            if draw.random() * held < 1:
                word = draw.choice([other for other in WORDS if other != word])
            yield word

    def run(self, rows, most):
        """Keeps the states along these rows, so many new ones at most, and says how many are new."""
        node, new = self.kept, 0
        for row in rows:
            if row not in node:
                if new == most:
                    break
                new += 1
            node = node.setdefault(row, {})
        return new

    def settle(self, frame):
        for at in range(self.settled, min(self.heard, frame)):
            self.kept = self.kept[self.own[at], self.words[at]]
            self.settled = at + 1

    def guess(self, now, words, until):
        theirs = self.words[self.settled : self.heard] + words
        theirs += words[-1:] * (until - self.settled - len(theirs))
        own = self.own[self.settled : min(now, until)] + self.own[now - 1 : now] * (until - now)
        new = self.run(zip(own, theirs), BRANCH_LIMIT)
        self.lines.append(f"G 2 {until} {','.join(map(str, words))}")
        if new:
            self.lines.append(f"B {self.jobs}")
            self.jobs += 1
        return new > 0

    def play(self, guesses, note, budget):
        used = []
        for now in range(len(self.words)):
            told = self.heard
            while self.heard < len(self.when) and self.when[self.heard] == now:
                note(self.words[self.heard])
                self.lines.append(f"R 2 {self.heard} {self.words[self.heard]}")
                self.heard += 1
            last = self.words[self.heard - 1] if self.heard else 0
            if self.heard > told:
                self.lines.append("S")
                known = self.words[: min(self.heard, now)] + [last] * (now - self.heard)
                self.ggpo += now - next((frame for frame in range(now) if used[frame] != known[frame]), now)
                self.rerun += self.run(zip(self.own[self.settled : now], known[self.settled :]), now)
                self.settle(now)
                used = known
            used.append(self.words[now] if now < self.heard else last)
            self.lines += [f"L 1 {self.own[now]}", "A"]
            self.run(zip(self.own[self.settled : now + 1], used[self.settled :]), now + 1)
            self.settle(now + 1)
            if self.heard <= now:
                made = (self.guess(now + 1, *guess) for guess in guesses(now + 1, self.heard, last, self.settled))
                list(islice((job for job in made if job), budget))


def played(frames, held, seed, rule, budget):
    match = Match(frames, held, seed)
    chooser = Chooser(() if held == BOTS else WORDS)
    older = held_words(range(16) if held == BOTS else WORDS)
    match.play(*((older, lambda word: None) if rule == "held words" else (chooser.choose, chooser.note)), budget)
    return match


def check(program, match):
    """The program must count the same jobs and the same frames that syncs ran again."""
    text = "".join(line + "\n" for line in match.lines).encode()
    said = subprocess.run([program], input=text, stdout=subprocess.PIPE).stdout.decode().splitlines()
    rerun = sum(int(reply.split()[5]) for line, reply in zip(match.lines[1:], said) if line == "S")
    jobs = sum(reply.startswith("job ") for reply in said)
    if (rerun, jobs) != (match.rerun, match.jobs):
        sys.exit(f"the program ran {rerun} frames again, and {jobs} jobs: not {match.rerun} and {match.jobs}")


def counts(program, *words):
    """What a match counts: frames that both sides ran again, those of GGPO, and the guesses."""
    said = subprocess.run([program, *words], stdout=subprocess.PIPE, check=True).stdout.decode().splitlines()[-1]
    found = dict(pair.partition("=")[::2] for pair in said.split())
    return [sum(map(int, found[name].split(","))) for name in ("rerun", "ggpo", "guessed")]


def print_matches(program):
    print("\n| Words held for | Guesses |", " | ".join(f"{budget} jobs" for budget in BUDGETS), "|")
    print("|---|---|" + "---|" * len(BUDGETS))
    for held in (3, 10, 30):
        cells = []
        for budget in BUDGETS:
            how = ["--guesses", "best", "--jobs", str(budget), "--hold", str(held)]
            all_counts = [counts(program, "--seed", str(seed), *how) for seed in range(1, 21)]
            rerun, ggpo, jobs = map(sum, zip(*all_counts))
            cells.append(f"{rerun / ggpo:.2f} ({jobs / 40000:.1f})")
        print(f"| {held} frames | `best` |", " | ".join(cells), "|", flush=True)


def share(kind, way, budget):
    """What the guesses of a way leave in three matches: frames run again, those of GGPO, and jobs."""
    counts = [0, 0, 0]
    for seed in (1, 2, 3):
        match = Match.of(kind, 1000, seed)
        chooser = Chooser(()) if way == "words" else (PartChooser if way == "parts" else BothChooser)(PAD, ())
        match.play(chooser.choose, chooser.note, budget)
        counts = [had + more for had, more in zip(counts, (match.rerun, match.ggpo, match.jobs))]
    return counts


def parts(programs):
    said = "".join(subprocess.run([it, "shares"], stdout=subprocess.PIPE, check=True).stdout.decode() for it in programs)
    told = dict(line.split(": ") for line in said.splitlines())
    print("| A player | Guesses |", " | ".join(f"{budget} jobs" for budget in BUDGETS), "|")
    print("|---|---|" + "---|" * len(BUDGETS))
    for kind in ("pad", "few"):
        for way in ("words", "parts", "chosen"):
            cells = []
            for budget in BUDGETS:
                rerun, ggpo, jobs = counts = share(kind, way, budget)
                name = f"{kind} {way} {budget}"
                *said, full = map(int, told.get(name, "0 0 0 1").split())
                if full == 0 and said != counts:
                    sys.exit(f"{name}: the program counts {said}, and not {counts}")
                cells.append(f"{rerun / ggpo:.2f} ({jobs / 3000:.1f})")
            print(f"| {kind} | {way} |", " | ".join(cells), "|", flush=True)


def main():
    if sys.argv[1:2] == ["--parts"]:
        return parts(sys.argv[2:])
    print("| Words held for | Guesses |", " | ".join(f"{budget} jobs" for budget in BUDGETS), "|")
    print("|---|---|" + "---|" * len(BUDGETS))
    for held in (3, 10, 30, BOTS):
        for rule in ("held words", "chooser"):
            cells = []
            for budget in BUDGETS:
                matches = [played(1000, held, seed, rule, budget) for seed in (1, 2, 3)]
                share = sum(match.rerun for match in matches) / sum(match.ggpo for match in matches)
                cells.append(f"{share:.2f} ({sum(match.jobs for match in matches) / 3000:.1f})")
                for program in sys.argv[1:]:
                    check(program, played(200, held, 1, rule, budget))
            name = "the duel's bots" if held == BOTS else f"{held} frames"
            print(f"| {name} | {rule} |", " | ".join(cells), "|", flush=True)
    for program in sys.argv[1:]:
        print_matches(Path(program).with_name("faz-sim"))


main()
