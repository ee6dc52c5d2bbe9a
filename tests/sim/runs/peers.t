Matches of several machines. `agreement` gives the line on whether they agree, and `ends` counts how the matches of the first seeds
end, each with its status if that isn't 0.

  $ agreement() { sed -n '/^all\|^THE\|^A MACHINE/p'; }
  $ ends() { seeds=$1; shift; for seed in $(seq $seeds); do
  >   faz-sim --frames 60 --seed $seed "$@" > out || echo "status $?"
  >   agreement < out | sed 's/,.*//'
  > done | sort | uniq -c | tr -s ' '; }

The machines agree, however many there are, and however many datagrams are lost.

  $ for lost in 0 30 60; do ends 18 --peers 2 --lost $lost; done
   18 all 2 that stay agree: frame 60 settled
   18 all 2 that stay agree: frame 60 settled
   18 all 2 that stay agree: frame 60 settled
  $ for lost in 0 30 60; do ends 15 --peers 3 --lost $lost; done
   15 all 3 that stay agree: frame 60 settled
   15 all 3 that stay agree: frame 60 settled
   15 all 3 that stay agree: frame 60 settled
  $ for lost in 0 30 60; do ends 8 --peers 5 --lost $lost; done
   8 all 5 that stay agree: frame 60 settled
   8 all 5 that stay agree: frame 60 settled
   8 all 5 that stay agree: frame 60 settled
  $ for lost in 0 30 60; do ends 4 --peers 8 --lost $lost; done
   4 all 8 that stay agree: frame 60 settled
   4 all 8 that stay agree: frame 60 settled
   4 all 8 that stay agree: frame 60 settled

So do those that stay where others go silent.

  $ for lost in 0 30 60; do ends 10 --peers 4 --lost $lost --stop 2:30; done
   10 all 3 that stay agree: frame 60 settled
   10 all 3 that stay agree: frame 60 settled
   10 all 3 that stay agree: frame 60 settled
  $ for lost in 0 30 60; do ends 5 --peers 5 --lost $lost --stop 1:30 --stop 3:20 --hold 1; done
   5 all 3 that stay agree: frame 60 settled
   5 all 3 that stay agree: frame 60 settled
   5 all 3 that stay agree: frame 60 settled
  $ ends 5 --peers 4 --game duel --lost 40 --stop 0:20 --delay 2
   5 all 3 that stay agree: frame 60 settled
  $ ends 3 --peers 8 --lost 30 --stop 1:30 --stop 3:20 --stop 5:15 --stop 6:40
   3 all 4 that stay agree: frame 60 settled

A machine that goes silent has told all its words where no datagram is lost.

  $ faz-sim --peers 4 --frames 60 --stop 2:30 --stop 0:40 --seed 17 | agreement | sed 's/, state.*//'
  all 2 that stay agree: frame 60 settled, machine 0 left at 40, machine 2 left at 30

The same seed prints the same. Hostile datagrams change neither what was played nor what it cost, nor the last lines.

  $ match="faz-sim --peers 3 --frames 60 --lost 30 --stop 1:30 --seed 5"
  $ $match > plain
  $ $match | cmp - plain
  $ $match --hostile 9 > attacked
  $ played() { sed -n '/^machine  *frames/,/^machine  *bytes/p; /^all/,$p' $1; }
  $ played plain > want
  $ played attacked | cmp - want
  $ wc -l < want
  14
  $ grep -c '^hostile datagrams: [1-9][0-9]*; ignored: [1-9][0-9]*; real ones heard again: [1-9][0-9]*; deceived: 0$' attacked
  1
  $ $match --hostile 9 | cmp - attacked

Where the line between two of three or more machines breaks, others carry what the two send each other, and nobody is put out,
however long it lasts: a machine that isn't heard for five seconds would be. No frame is missing, and nobody left.

  $ broken() { seeds=$1; shift; for seed in $(seq $seeds); do
  >   faz-sim --frames 500 --seed $seed "$@" > out || echo "status $?"
  >   agreement < out | sed 's/, state.*//'
  > done | sort | uniq -c | tr -s ' '; }
  $ broken 3 --peers 3 --break 0-2:30
   3 all 3 that stay agree: frame 500 settled
  $ broken 2 --peers 3 --break 1-2:30 --lost 20
   2 all 3 that stay agree: frame 500 settled
  $ broken 2 --peers 4 --break 0-1:20 --break 2-3:40 --break 0-3:60 --lost 10
   2 all 4 that stay agree: frame 500 settled
  $ broken 2 --peers 4 --break 0-1:20 --heal 0-1:120 --break 0-1:220 --break 1-2:60 --heal 1-2:200 --delay 2
   2 all 4 that stay agree: frame 500 settled

Neither where all lines but those of one machine are broken, nor in a chain.

  $ broken 1 --peers 5 --break 1-2:20 --break 1-3:20 --break 1-4:20 --break 2-3:20 --break 2-4:20 --break 3-4:20
   1 all 5 that stay agree: frame 500 settled
  $ broken 1 --peers 5 --break 0-2:20 --break 0-3:30 --break 0-4:40 --break 1-3:20 --break 1-4:30 --break 2-4:50
   1 all 5 that stay agree: frame 500 settled

Who goes silent is put out there as ever, also if it carried what others sent, and hostile datagrams deceive nobody.

  $ broken 2 --peers 4 --break 0-2:20 --stop 1:40
   2 all 3 that stay agree: frame 500 settled, machine 1 left at 40
  $ faz-sim --peers 3 --frames 120 --break 0-2:10 --hostile 3 > out
  $ grep -c '^hostile datagrams: [1-9][0-9]*; .*; deceived: 0$' out
  1
  $ agreement < out | sed 's/, state.*//'
  all 3 that stay agree: frame 120 settled

Guesses change neither what is settled nor the states: all is printed as without them, but for what the rollbacks cost.

  $ last() { faz-sim "$@" | agreement; }
  $ for machines in 2 3 4; do
  >   last --peers $machines --frames 60 --lost 10 > without
  >   last --peers $machines --frames 60 --lost 10 --guesses best | cmp - without
  > done
  $ last --peers 4 --game duel --frames 60 --hold 3 --delay 1 > without
  $ last --peers 4 --game duel --frames 60 --hold 3 --delay 1 --guesses best --jobs 32 | cmp - without
  $ rest() { sed -n '/^machine  *frames/,/^$/p; /^machine  *bytes/,/^all/p'; }
  $ $match | rest > without
  $ $match --guesses best --jobs 1 | rest | cmp - without

Fewer frames are run again. As many branches as jobs are taken in at most, and a job runs 1 to 8 frames.

  $ costs() { faz-sim "$@" | sed -n '/^machine  *rollbacks/,/^$/p' | sed '1d;$d'; }
  $ again() { costs "$@" | awk '{ sum += $3 } END { print sum }'; }
  $ for machines in 2 3 4; do
  >   test $(again --peers $machines --frames 200 --guesses best) -lt $(again --peers $machines --frames 200) && echo fewer
  > done
  fewer
  fewer
  fewer
  $ costs --peers 3 --frames 60 --guesses best | awk '$9 < 1 || $8 < $9 || $10 < $8 || 8 * $8 < $10'

No machine runs more frames again than GGPO, however many there are, and also where one leaves.

  $ costs --peers 5 --frames 200 --lost 10 --stop 1:100 | awk '{ more += $3 > $4; all += $4 } END { print NR, more, (all > 0) }'
  5 0 1

Standard input isn't read, and a delay that no session has is refused.

  $ echo nothing | ($match | cmp - plain; cat)
  nothing
  $ faz-sim --peers 3 --delay 9 2>&1 | sed -n 1p
  error: invalid value '9' for '--delay <D>': 9 is not in 0..=8
  $ faz-sim --peers 5 --frames 60 --threshold 15 | agreement | sed 's/,.*//'
  all 5 that stay agree: frame 60 settled

Of two machines one may stop too, and they may be deceived.

  $ faz-sim --frames 60 --stop 1:30 --hostile 1 | agreement | sed 's/, state.*//'
  all 1 that stay agree: frame 60 settled, machine 1 left at 30

What can't be.

  $ faz-sim --peers 9 2>&1 | sed -n 1p
  error: invalid value '9' for '--peers <N>': 9 is not in 2..=8
  $ faz-sim --peers 1 2>&1 | sed -n 1p
  error: invalid value '1' for '--peers <N>': 1 is not in 2..=8
  $ faz-sim --peers 3 --stop 3:30
  error: --stop 3: there is no such machine, for they are counted from 0
  [2]
  $ faz-sim --peers 3 --stop 300:30
  error: --stop 300: there is no such machine, for they are counted from 0
  [2]
  $ faz-sim --peers 3 --stop 2
  error: --stop takes MACHINE:FRAME, as 2:30
  [2]
  $ faz-sim --peers 3 --stop 2:x
  error: --stop takes MACHINE:FRAME, as 2:30
  [2]
  $ faz-sim --peers 3 --stop 1:30 --stop 1:40
  error: --stop 1: this machine is named twice
  [2]
  $ faz-sim --peers 3 --stop 1:0
  error: --stop 1: the frame has to be from 1 to the match's last
  [2]
  $ faz-sim --peers 3 --frames 60 --stop 1:61
  error: --stop 1: the frame has to be from 1 to the match's last
  [2]
  $ faz-sim --peers 3 --break 0-3:30
  error: --break 0-3: there is no line between two such machines
  [2]
  $ faz-sim --peers 3 --break 1-1:30
  error: --break 1-1: there is no line between two such machines
  [2]
  $ faz-sim --peers 3 --break 0-1
  error: --break and --heal take A-B:FRAME, as 0-2:30
  [2]
  $ faz-sim --peers 3 --break 0-1:30 --heal 0:1:40
  error: --break and --heal take A-B:FRAME, as 0-2:30
  [2]
  $ faz-sim --peers 3 $(for frame in 1 2 3 4 5 6 7 8 9; do echo --break 0-1:$frame; done)
  error: --break and --heal are given 8 times each at most
  [2]
  $ faz-sim --peers 3 --break 0-1:30 --held 4
  error: --break and --split aren't played with --held
  [2]
  $ faz-sim --peers 2 --stop 0:30 --stop 1:30
  error: --stop: at least one machine has to stay
  [2]
  $ faz-sim --peers 5 --game duel
  error: --game duel has ships for 4 machines at most
  [2]
