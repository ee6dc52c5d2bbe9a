Spectators: each is sent every settled row once and in order, at whatever pace it takes them. `two` opens a session of two
players, of whom the first is local, and `alone` one of a single player, whose word in each frame is the frame's number.

  $ two() { { echo 'game tally'; echo "roll 1 players 2 local ${local:-1} delay 0,0 threshold 8"; cat; } | test_stage; }
  $ alone() { { echo 'game tally'; echo 'roll 1 players 1 local 1 delay 0 threshold 8'; cat; } | test_stage; }

The state before such a frame, by the game's rule: ten times the state before, plus the word, modulo a million.

  $ before() { awk -v frame=$1 'BEGIN { for (f = 0; f < frame; f++) s = (s * 10 + f) % 1000000; print s + 0 }'; }
  $ each() { awk -v from=$1 -v to=$2 'BEGIN { for (f = 0; f < to; f++) { s = (s * 10 + f) % 1000000
  > if (f >= from) print "frame " f + 1 " state " s } }'; }
  $ copies() { yes "$2" | head -n $1; }

A row that comes late: the predicted rows are sent to nobody, nor the row that is known while the frame still stands as it was
predicted.

  $ { printf 'feed\nadd\nwatch 0\n'; for call in 'L 1 1' A 'L 1 1' A 'R 2 0 3'; do printf "$call\npush\nstep 0\n"; done; \
  > printf 'S\npush\nstep 0\nseen\nstep 0\nwatch 0\n'; } | two
  fed
  spectator 0
  shown state 0 turns 0 refusals 0
  ok
  sent 0
  refused 4 state 0
  frame 1 from 0 rerun 1 settled 0 state 1
  sent 0
  refused 4 state 0
  ok
  sent 0
  refused 4 state 0
  frame 2 from 1 rerun 1 settled 0 state 11
  sent 0
  refused 4 state 0
  taken
  sent 0
  refused 4 state 0
  frame 2 from 0 rerun 2 settled 1 state 77 row 1,3
  sent 1
  frame 1 state 7
  frame 2 settled 1 log 6 state 77 settled state 7 plan to 2 from 0 rerun 2
  refused 4 state 7
  shown state 7 turns 1 refusals 0

The other peer, whose own player is the second, and its spectator see the same.

  $ local=2 two <<END
  > feed
  > add
  > R 1 0 1
  > L 2 3
  > A
  > push
  > step 0
  > seen
  > END
  fed
  spectator 0
  taken
  ok
  frame 1 from 0 rerun 1 settled 1 state 7
  sent 1
  frame 1 state 7
  frame 1 settled 1 log 3 state 7 settled state 7 plan to 1 from 0 rerun 1

A ring has 64 places. What found none is sent later.

  $ { printf 'feed\nadd\nframes 70\npush\npush\n'; copies 65 'step 0'; echo push; copies 7 'step 0'; echo push; } | alone > seventy
  $ grep -n sent seventy
  4:sent 64
  5:sent 0
  71:sent 6
  79:sent 0
  $ grep -n refused seventy | sed "s/state $(before 64)/after 64/; s/state $(before 70)/after 70/"
  70:refused 4 after 64
  78:refused 4 after 70
  $ grep '^frame' seventy | tail -n +2 > stepped; each 0 70 | diff - stepped

There are 32 spectators at most, those who are gone too.

  $ { echo feed; copies 33 add; printf 'frames 2\npush\nadd\npush\n'; for i in $(seq 0 31); do copies 3 "step $i"; done; \
  > for i in $(seq 0 31); do echo "leave $i"; done; echo add; } | alone > many
  $ sed -n '2p;33,38p' many
  spectator 0
  spectator 31
  refused 10
  frame 2 from 1 rerun 1 settled 2 state 1
  sent 64
  refused 10
  sent 0
  $ sed -n '39,134p' many | sort | uniq -c | sed 's/^ *//'
  32 frame 1 state 0
  32 frame 2 state 1
  32 refused 4 state 1
  $ tail -n 2 many
  left
  refused 10

Each has its pace. The quick one steps at each frame, the slow one at one in three, and one is gone after 20 of its 30
rows: its ring has places up to the 84th. The slow one had taken 33 rows at the last push, so that it was sent 97.

  $ some() { for f in $(seq $1 $(($2 - 1))); do printf 'frames 1\npush\nstep 1\n'; [ $((f % 3)) = 0 ] && echo 'step 2'; done; }
  $ { printf 'feed\nadd\nadd\nadd\n'; some 0 30; copies 20 'step 0'; echo 'leave 0'; } > first
  $ { cat first; some 30 100; } > hundred
  $ { cat hundred; copies 64 'step 2'; echo push; copies 3 'step 2'; } > all
  $ sent() { alone | sed -n 's/^sent //p' | awk '{ s += $1 } END { print s }'; }
  $ sent < first; sent < hundred; sent < all
  90
  281
  284
  $ alone < all | grep '^frame [0-9]* state' > stepped; grep -c . stepped
  220
  $ { each 0 100; each 0 20; each 0 100; } | sort > wanted; sort stepped | diff wanted -
  $ alone < all | tail -n 5 | head -n 2 | sed "s/state $(before 97)/after 97/"
  refused 4 after 97
  sent 3
  $ alone < all | tail -n 3 > last; each 97 100 | diff - last

A spectator whose game refuses to advance is stopped, and shows nothing more.

  $ for k in 1 2 3; do
  > { printf "feed\nadd refusing advance $k\nframes 3\npush\n"; copies $((k - 1)) 'step 0'; printf 'watch 0\n'; copies 4 'step 0'; \
  > echo 'watch 0'; } | alone | tail -n +5
  > done
  shown state 0 turns 0 refusals 0
  refused 107 state -
  refused 116 state -
  refused 116 state -
  refused 116 state -
  shown state - turns 1 refusals 1
  frame 1 state 0
  shown state 0 turns 1 refusals 0
  refused 107 state -
  refused 116 state -
  refused 116 state -
  refused 116 state -
  shown state - turns 2 refusals 1
  frame 1 state 0
  frame 2 state 1
  shown state 1 turns 2 refusals 0
  refused 107 state -
  refused 116 state -
  refused 116 state -
  refused 116 state -
  shown state - turns 3 refusals 1

Where the game refuses to load the opening, game and ring are handed back, and can be used again, whatever was sent since.

  $ alone <<END
  > feed
  > add refusing load 1
  > frames 2
  > push
  > step 0
  > step 0
  > END
  fed
  refused 107 turns 0 refusals 1; spectator 0
  frame 2 from 1 rerun 1 settled 2 state 1
  sent 2
  frame 1 state 0
  frame 2 state 1

The rows of 10,000 frames to 32 spectators, 64 at a time. After that there is nothing more to send.

  $ { echo 'frames 10000'; echo feed; copies 32 add; echo 'relay 157'; echo 'relay 10000'; echo seen; copies 32 '' \
  > | awk '{ print "watch " NR - 1 }'; } | alone | sed "s/state $(before 10000)/after all/g" > all
  $ sed -n '35,36p' all
  sent 320000
  sent 0
  $ sed -n '37p' all | grep -o 'settled after all'
  settled after all
  $ tail -n 32 all | sort | uniq -c | sed 's/^ *//'
  32 shown after all turns 10000 refusals 0
