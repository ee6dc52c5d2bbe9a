Many matches of two machines over a bad network.

The machines agree for each of 200 seeds, and no claim is wrong. `wells` counts how matches ended.

  $ wells() { sed -n 's/^match .* \(wrong=[^ ]*\) .* \(agree=[^ ]*\) .*/\1 \2/p; /^status/p' | sort | uniq -c | tr -s ' '; }
  $ seeds() { for seed in $(seq 0 199); do faz-sim --frames 60 --late 8 --lost 20 --seed $seed "$@" || echo "status $?"; done; }
  $ seeds | wells
   200 wrong=0,0 agree=yes
  $ seeds --guesses best | wells
   200 wrong=0,0 agree=yes
  $ seeds --game duel --delay 1 | wells
   200 wrong=0,0 agree=yes

The same seed prints the same, with guesses and without, and with each game.

  $ for game in tally duel; do for guesses in none best; do
  >   faz-sim --frames 60 --late 8 --lost 20 --guesses $guesses --game $game > once
  >   faz-sim --frames 60 --late 8 --lost 20 --guesses $guesses --game $game | cmp - once && echo same
  > done; done | uniq -c | tr -s ' '
   4 same

Over 20 seeds of 1,000 frames: without guesses neither machine runs more frames again than GGPO does, and some are. `reruns` gives
the frames that either machine ran again, then those of GGPO.

  $ twenty() { for seed in $(seq 20); do faz-sim --seed $seed "$@" || echo "status $?"; done; }
  $ reruns() { sed -n 's/^match .* rerun=\([0-9]*\),\([0-9]*\) ggpo=\([0-9]*\),\([0-9]*\) .*/\1 \2 \3 \4/p'; }
  $ twenty > none
  $ wells < none
   20 wrong=0,0 agree=yes
  $ reruns < none | awk '{ more += $1 > $3 || $2 > $4; ours += $1 + $2 } END { print NR, more, (ours > 0) }'
  20 0 1
Of the best guesses four jobs a tick save four frames of five, and sixteen nine of ten. No tick has more jobs than that; after the
last frame the machines wait for some more ticks.

  $ twenty --guesses best > four
  $ wells < four
   20 wrong=0,0 agree=yes
  $ reruns < four | awk '{ ours += $1 + $2; theirs += $3 + $4 } END { print NR, (5 * ours <= theirs) }'
  20 1
  $ twenty --guesses best --jobs 16 > sixteen
  $ reruns < sixteen | awk '{ ours += $1 + $2; theirs += $3 + $4 } END { print NR, (10 * ours <= theirs) }'
  20 1
  $ sed -n 's/^match .* guessed=\([0-9]*\),\([0-9]*\) .*/\1 \2/p' four | awk '$1 > 4100 || $2 > 4100 { more++ } END { print NR, more + 0 }'
  20 0
  $ faz-sim --guesses best --jobs 0 > none 2>&1 || echo "status $?"
  status 2
  $ faz-sim --guesses best --jobs 33 > none 2>&1 || echo "status $?"
  status 2
