The script of what a machine's session was told: rollduel, which is proved, answers it with as many rollbacks and frames that were run
again as the tables tell, and with the state to which the match came. `rolls` counts both; `value` gives what the last line of a match has
under a name, of the machine in that place.

  $ value() { tail -n 1 told | tr ' ' '\n' | sed -n "s/^$1=//p" | cut -d , -f "$2"; }
  $ rolls() {
  >   sed 1d played.roll | cut -d ' ' -f 1 | paste -d ' ' - replies | awk '
  >     $2 == "frame" { frames = $7 - ($1 == "A"); again += frames; rolls += frames > 0 }
  >     END { print rolls, again }'; }
  $ replay() {
  >   machine=$1; shift
  >   faz-sim --trace trace "$@" > told && script trace $machine > played.roll && rollduel play $game played.roll > replies
  >   grep -c refused replies; tail -n 1 replies | sed 's/.* state //' > state
  >   sed -n 's/.* state=//p' told | cmp - state; }
  $ compare() { replay "$@"; [ "$(rolls)" = "$(value rollbacks $(($1 + 1))) $(value rerun $(($1 + 1)))" ] || { rolls; tail -n 1 told; }; }

  $ for seed in 1 2 3 4; do compare 0 --seed $seed --frames 200 --late 8 --lost 10; compare 1 --seed $seed --frames 200 --delay 1; done | uniq -c | tr -s ' '
   8 0
  $ compare 4 --frames 300 --lost 20 --peers 6 --threshold 12 --delay 2
  0
  $ compare 0 --frames 300 --peers 3 --break 0-1:30
  0
  $ game='--game duel' && compare 2 --frames 300 --lost 10 --peers 3 --game duel --stop 1:100
  0

So with guesses, and in a match that goes on; its first epoch is the script.

  $ game= && for seed in 1 2 3 4; do replay 1 --seed $seed --frames 200 --lost 10 --guesses best; done | uniq -c | tr -s ' '
   4 0
  $ faz-sim --frames 120 --late 4 --delay-at 1:3:40 --trace trace > told && script trace 1 > played.roll && rollduel play played.roll | sed -n 's/^\(frame [0-9]*\) .*/\1/p' | tail -n 1
  frame 41

What is run ahead for words that are held back no script says.

  $ faz-sim --frames 60 --held 2 --trace trace > told && script trace
  script: words were held back in this match, and what is run ahead for them no script says
  [1]
