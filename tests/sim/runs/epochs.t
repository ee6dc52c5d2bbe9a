Matches that go on in epochs. `value` gives what the last line of a match has under a name.

  $ value() { tail -n 1 | tr ' ' '\n' | sed -n "s/^$1=//p"; }

A machine that is at frame 40 and has no delay puts its mark on the word of frame 40, and so the epoch ends at 41. With a delay of three
frames it is the word of frame 43. If both ask in the same frame, one mark counts, and the other machine asks with the first word of the
next epoch. Who has that delay already asks for nothing, and of a word after the last frame nothing comes.

  $ faz-sim --frames 120 --late 4 --delay-at 1:3:40 > out
  $ value epochs < out
  0,41
  $ value delay_at < out
  1:3:40
  $ sed -n '/^epochs/p; /^delay/p; /^all/s/,.*//p' out
  delay 0, threshold 8, delay 3 of machine 1 from frame 40
  epochs begin at frames 0 41
  all 2 that stay agree: frame 120 settled
  $ faz-sim --frames 120 --late 4 --delay 3 --delay-at 1:0:40 | value epochs
  0,44
  $ faz-sim --frames 120 --late 0 --delay-at 0:2:40 --delay-at 1:2:40 | value epochs
  0,41,42
  $ faz-sim --frames 120 --late 4 --delay 3 --delay-at 1:3:40 | value epochs
  0
  $ faz-sim --frames 120 --late 4 --delay-at 1:3:119 | value epochs
  0,120
  $ faz-sim --frames 120 --late 4 --delay 3 --delay-at 1:0:117 | value epochs
  0

On a network where each word is there in the next tick, each frame is run again for its words as long as there is no delay, and none with
a delay of two frames. Here that is from frame 3 on: the words of frame 0 come in the tick of frame 1, and are the only ones for which
frames are run again, since those of frames 1 and 2 end an epoch.

  $ faz-sim --frames 40 --hold 1 --late 0 | value rollbacks
  40,40
  $ faz-sim --frames 40 --hold 1 --late 0 --delay-at 0:2:1 --delay-at 1:2:1 > out
  $ value epochs < out; value rollbacks < out; value rerun < out; value deepest < out
  0,2,3
  1,1
  1,1
  1,1

Where datagrams are up to three ticks late, a delay of four frames leaves no rollback: all that there are come before it. In 26 frames
there are at most as many.

  $ faz-sim --frames 600 --hold 2 --late 2 --delay-at 0:4:20 --delay-at 1:4:20 | value rollbacks | tr , '\n' | awk '{ print ($1 <= 26) }'
  1
  1
  $ faz-sim --frames 600 --hold 2 --late 2 | value rollbacks | tr , '\n' | awk '{ print ($1 >= 100) }'
  1
  1

The words are those of the match's frames, whatever the delay and whichever the epoch. A tally's state has a digit for each of the last
six rows, so it is that of a match without any delay.

  $ for seed in 1 2 3 4 5; do
  >   plain=$(faz-sim --frames 120 --hold 2 --late 4 --seed $seed | value state)
  >   for at in 1:3:40 0:8:100 '0:5:30 --delay-at 1:2:30 --delay-at 0:0:80' '1:1:109'; do
  >     [ "$(faz-sim --frames 120 --hold 2 --late 4 --seed $seed --delay-at $at | value state)" = "$plain" ] || echo "seed $seed at $at"
  >   done
  > done

Machines agree whatever the network does: datagrams that are lost and late, lines that break before a seam and mend after it, a machine that
stops before a seam or at it, and other thresholds. `ends` counts how matches of the first seeds end.

  $ ends() {
  >   for seed in 1 2 3 4 5 6 7 8; do
  >     faz-sim --frames 200 --seed $seed "$@" > out || echo "status $?"
  >     echo "$(sed -n 's/ that stay agree.*//p' out), epochs $(value epochs < out | tr -cd , | wc -c)"
  >   done | sort | uniq -c | tr -s ' '
  > }
  $ ends --late 8 --lost 30 --delay-at 0:4:60 --delay-at 1:2:120
   8 all 2, epochs 2
  $ ends --peers 3 --late 4 --lost 10 --break 0-2:50 --heal 0-2:130 --delay-at 2:3:60 --delay-at 0:2:120
   8 all 3, epochs 2
  $ ends --peers 3 --late 4 --lost 10 --stop 1:70 --delay-at 0:3:100
   8 all 2, epochs 1
  $ ends --peers 4 --threshold 3 --game duel --late 2 --delay-at 3:8:50 --delay-at 3:0:100
   8 all 4, epochs 2
  $ ends --peers 5 --threshold 15 --late 12 --lost 20 --delay-at 4:6:60
   8 all 5, epochs 1

A machine's player left in the first epoch: it is told at which frame of the match.

  $ faz-sim --peers 3 --frames 200 --late 0 --stop 1:60 --delay-at 2:3:150 | sed -n '/^all/s/, state.*//p'
  all 2 that stay agree: frame 200 settled, machine 1 left at 60

The same seed prints the same.

  $ match="faz-sim --peers 3 --frames 120 --lost 30 --stop 1:30 --delay-at 2:2:60 --seed 5"
  $ $match > one
  $ $match | cmp - one

What can't be played is refused before anything is, and standard error says why.

  $ faz-sim --delay-at 1:3
  error: --delay-at takes M:D:FRAME, as 1:3:200
  [2]
  $ faz-sim --delay-at 1:3:40x
  error: --delay-at takes M:D:FRAME, as 1:3:200
  [2]
  $ faz-sim --delay-at 1:300:40
  error: --delay-at takes M:D:FRAME, as 1:3:200
  [2]
  $ faz-sim --delay-at 2:3:40
  error: --delay-at 2: there is no such machine, for they are counted from 0
  [2]
  $ faz-sim --delay-at 1:9:40
  error: --delay-at 1: a delay is 0 to 8 frames
  [2]
  $ faz-sim --delay-at 1:3:0
  error: --delay-at 1: the frame has to be after the first, and before the match's last
  [2]
  $ faz-sim --frames 40 --delay-at 0:1:20 --delay-at 1:3:40
  error: --delay-at 1: the frame has to be after the first, and before the match's last
  [2]
  $ faz-sim $(for frame in 1 2 3 4 5 6 7 8 9; do echo --delay-at 0:1:$frame; done)
  error: --delay-at is given 8 times at most
  [2]
  $ for option in '--guesses best' '--held 2' '--hostile 1'; do faz-sim --delay-at 0:1:20 $option; done
  error: --delay-at and --come aren't played with --guesses, --held or --hostile
  error: --delay-at and --come aren't played with --guesses, --held or --hostile
  error: --delay-at and --come aren't played with --guesses, --held or --hostile
  [2]
