Matches whose machines hold words of others back, until a second game has run their frames.

`seeds` gives the last lines of the matches of the first seeds.

  $ seeds() { count=$1; shift; for seed in $(seq $count); do faz-sim --seed $seed "$@" | tail -1; done; }

If a second game keeps up, no frame is run again on the first, at any seed. Each word is held back for one turn, which is as long as
its frames take to be run.

  $ seeds 20 --frames 300 --late 4 --held 2 > two
  $ sed 's/.* \(rerun=[^ ]*\) .* \(wrong=[^ ]*\) .* \(agree=[^ ]*\) .*/\1 \2 \3/' two | uniq -c | tr -s ' '
   20 rerun=0,0 wrong=0,0 agree=yes
  $ sed 's/.* held_words=\([^ ]*\) held_turns=\([^ ]*\) held_soon=\([^ ]*\) .*/\1 \2 \3/' two \
  >   | awk '{ split($1, words, ","); odd += $1 != $2 || $2 != $3; all += words[1] } END { print NR, odd + 0, (all > 0) }'
  20 0 1

Neither the rows nor the states depend on it. `last` gives what is settled, and the state.

  $ last() { faz-sim --frames 120 "$@" | sed -n '/^all/p'; }
  $ for match in "--late 4" "--lost 20" "--peers 3 --lost 5" "--peers 4 --game duel --hold 3 --delay 1" "--threshold 3 --late 6"; do
  >   last $match > without
  >   for turns in 1 2 3 8; do last $match --held $turns | cmp - without; last $match --held $turns --guesses best | cmp - without; done
  > done
  $ last --peers 3 --hostile 3 > without
  $ last --peers 3 --hostile 3 --held 2 | cmp - without

For one turn nothing is held back: each word is handed over in the turn in which it came, and all is as without.

  $ faz-sim --frames 300 --late 6 --lost 5 > without
  $ faz-sim --frames 300 --late 6 --lost 5 --held 1 > once
  $ sed 's/, words held back for at most 1 turn$//; /^machine words held/,/^$/d; s/ held=1 / /; s/ held_words=0,0 held_turns=0,0 held_soon=0,0 held_jobs=0,0 / /' once | cmp - without

No word is held back for as many turns as are named, or more. Those for at most two are counted among all, and a job is run 1 to 8
frames ahead.

  $ for turns in 2 3 4 8; do seeds 5 --frames 300 --late 8 --lost 10 --held $turns; done > many
  $ sed 's/.* held=\([0-9]\) .* taken=\([0-9]*\),.* ahead=\([0-9]*\),.* held_words=\([0-9]*\),.* held_turns=\([0-9]*\),.* held_soon=\([0-9]*\),.* held_jobs=\([0-9]*\),.*/\1 \2 \3 \4 \5 \6 \7/' many \
  >   | awk '{ odd += $5 < $4 || $5 > $4 * ($1 - 1) || $6 > $4 || $7 < $2 || $3 < $7 || 8 * $7 < $3; all += $4 } END { print NR, odd + 0, (all > 0) }'
  20 0 1

A machine that goes silent leaves with all its words, also with those that are held back.

  $ faz-sim --peers 4 --frames 60 --stop 2:30 --stop 0:40 --seed 17 --held 4 | sed -n 's/, state.*//; /^all/p'
  all 2 that stay agree: frame 60 settled, machine 0 left at 40, machine 2 left at 30

The same seed prints the same.

  $ faz-sim --peers 3 --frames 60 --lost 30 --stop 1:30 --held 3 > once
  $ faz-sim --peers 3 --frames 60 --lost 30 --stop 1:30 --held 3 | cmp - once

What can't be.

  $ faz-sim --held 0 2>&1 | sed -n 1p
  error: invalid value '0' for '--held <TURNS>': 0 is not in 1..=8
  $ faz-sim --held 9 2>&1 | sed -n 1p
  error: invalid value '9' for '--held <TURNS>': 9 is not in 1..=8
  $ faz-sim --held 9 > none 2>&1
  [2]
  $ faz-sim --held 2 --held 3 2>&1 | sed -n 1p
  error: the argument '--held <TURNS>' cannot be used multiple times
  $ faz-sim --held two > none 2>&1
  [2]
