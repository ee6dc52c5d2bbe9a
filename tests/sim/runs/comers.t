Machines that come into a match, anew or for the first time, and networks that split. `value` gives what the last line of a match has under
a name, and `told` what is said of the machines at the end.

  $ value() { tail -n 1 | tr ' ' '\n' | sed -n "s/^$1=//p"; }
  $ told() { sed -n '/^all/s/, state.*//p'; }

The lowest machine that is at the frame marks its word of that frame, so the next epoch begins after it.

  $ faz-sim --peers 3 --frames 200 --late 0 --stop 1:60 --come 1:100 > out
  $ told < out; value epochs < out
  all 3 that stay agree: frame 200 settled, machine 1 left at 60, machine 1 came at 101
  0,101
  $ faz-sim --peers 3 --frames 200 --late 0 --come 2:100 | told
  all 3 that stay agree: frame 200 settled, machine 2 came at 101
  $ faz-sim --frames 200 --late 0 --come 1:1 | told
  all 2 that stay agree: frame 200 settled, machine 1 came at 2
  $ faz-sim --frames 200 --late 0 --stop 0:30 --come 0:100 | told
  all 2 that stay agree: frame 200 settled, machine 0 left at 30, machine 0 came at 101

A second machine that is to come a frame later comes in an epoch after it, and a delay that changes in the same frame needs no epoch of its own.

  $ faz-sim --peers 4 --frames 200 --late 0 --stop 1:60 --come 1:100 --come 3:101 > out
  $ told < out | grep -c 'machine 1 came at 101, machine 3 came at 1[0-9][0-9]$'; value epochs < out | tr , '\n' | wc -l
  1
  3
  $ faz-sim --peers 3 --frames 200 --late 0 --come 2:100 --delay-at 0:2:100 | value epochs
  0,101

Its words are those of the match's frames. A tally's state has a digit for each of the last six rows, so it is that of a match in which all
are there.

  $ for seed in 1 2 3; do
  >   plain=$(faz-sim --peers 3 --frames 200 --hold 2 --seed $seed | value state)
  >   for come in '--stop 2:50 --come 2:120' '--come 1:150' '--stop 0:30 --come 0:60 --come 2:100'; do
  >     [ "$(faz-sim --peers 3 --frames 200 --hold 2 --seed $seed $come | value state)" = "$plain" ] || echo "seed $seed with $come"
  >   done
  > done

Machines agree whatever the network does. `ends` counts how matches of the first seeds end.

  $ ends() {
  >   for seed in 1 2 3 4; do
  >     faz-sim --frames 200 --seed $seed "$@" > out || echo "status $?"
  >     echo "$(sed -n 's/ that stay agree.*//p' out), epochs $(value epochs < out | tr -cd , | wc -c)"
  >   done | sort | uniq -c | tr -s ' '
  > }
  $ ends --late 8 --lost 30 --stop 1:60 --come 1:120
   4 all 2, epochs 1
  $ ends --peers 4 --late 4 --lost 10 --break 0-1:20 --stop 2:40 --come 2:100 --delay-at 3:2:150
   4 all 4, epochs 2
  $ ends --peers 4 --late 4 --break 0-2:20 --heal 0-2:150 --stop 2:40 --come 2:100
   4 all 4, epochs 1
  $ ends --peers 4 --game duel --late 4 --lost 20 --come 3:40 --stop 0:80
   4 all 3, epochs 1
  $ ends --peers 8 --threshold 15 --late 8 --come 7:30
   4 all 8, epochs 1

What can't be played is refused before anything is.

  $ faz-sim --come 1
  error: --come takes MACHINE:FRAME, as 2:300
  [2]
  $ faz-sim --come 2:30
  error: --come 2: there is no such machine, for they are counted from 0
  [2]
  $ faz-sim --come 1:0
  error: --come 1: the frame has to be after the first, and before the match's last
  [2]
  $ faz-sim --frames 40 --come 1:40
  error: --come 1: the frame has to be after the first, and before the match's last
  [2]
  $ faz-sim --come 1:20 --come 1:30
  error: --come 1: this machine is named twice
  [2]
  $ faz-sim --stop 1:60 --come 1:60
  error: --come 1: the frame has to be after the one of --stop
  [2]
  $ faz-sim --peers 3 --stop 0:20 --come 2:50
  error: --come 2: machine 0 isn't there then, and has to come first
  [2]
  $ for option in '--guesses best' '--held 2' '--hostile 1'; do faz-sim --come 1:20 $option; done
  error: --delay-at and --come aren't played with --guesses, --held or --hostile
  error: --delay-at and --come aren't played with --guesses, --held or --hostile
  error: --delay-at and --come aren't played with --guesses, --held or --hostile
  [2]

A machine that is at frame 100 sends nothing over the split. What it sent at frame 99 had its words of the frames up to 98, so 99 of them are
there. The smaller part has as many of the others' words, goes as far as its threshold of 8 past them, and is told after ten seconds that
the match is over.

  $ faz-sim --peers 5 --frames 1500 --late 0 --split 3:100 --split 4:100 | told
  all 3 that stay agree: frame 1500 settled, machine 3 left at 99, machine 3 was cut off at 107, machine 4 left at 99, machine 4 was cut off at 107
  $ faz-sim --peers 3 --frames 1500 --late 0 --split 0:50 | told
  all 2 that stay agree: frame 1500 settled, machine 0 left at 49, machine 0 was cut off at 57

Of two parts that are as large the one with machine 0 plays on, whichever is named.

  $ for named in '--split 2:100 --split 3:100' '--split 0:100 --split 1:100'; do
  >   faz-sim --peers 4 --frames 1500 --late 0 $named | told
  > done
  all 2 that stay agree: frame 1500 settled, machine 2 left at 99, machine 2 was cut off at 107, machine 3 left at 99, machine 3 was cut off at 107
  all 2 that stay agree: frame 1500 settled, machine 2 left at 99, machine 2 was cut off at 107, machine 3 left at 99, machine 3 was cut off at 107

A machine that is parted later carries for the one that was before.

  $ faz-sim --peers 5 --frames 1500 --late 0 --split 3:100 --split 4:600 | told | grep -o 'machine 3 left at [0-9]*\|machine 4 left at [0-9]*' | awk '{ print $2, ($5 > 590) }'
  3 1
  4 1
  $ faz-sim --peers 3 --frames 1000 --lost 10 --split 2:300 --delay-at 0:2:600 | value epochs
  0,601

  $ faz-sim --peers 3 --split 2
  error: --split takes MACHINE:FRAME, as 2:300
  [2]
  $ faz-sim --peers 3 --split 3:30
  error: --split 3: there is no such machine, for they are counted from 0
  [2]
  $ faz-sim --peers 3 --split 2:30 --split 2:40
  error: --split 2: this machine is named twice
  [2]
  $ faz-sim --peers 3 --split 2:0
  error: --split 2: the frame has to be from 1 to the match's last
  [2]
  $ faz-sim --split 1:30
  error: --split takes a match of 3 machines or more
  [2]
  $ faz-sim --peers 3 --split 0:30 --split 1:30 --split 2:30
  error: --split names all machines: some have to be on each side
  [2]
  $ faz-sim --peers 3 --split 2:30 --stop 1:40
  error: --split isn't played with --stop or --come
  [2]
  $ faz-sim --peers 3 --split 2:30 --held 2
  error: --break and --split aren't played with --held
  [2]
