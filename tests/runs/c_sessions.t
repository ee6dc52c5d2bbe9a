Sessions of the static library for C: their limits, what they refuse, and long runs. `two` opens a session of two players, of
whom the first is local, and `alone` one of a single player.

  $ header='roll 1 players 2 local 1 delay 0,0 threshold 8'
  $ two() { { echo "game tally${options:+ $options}"; echo "$header"; cat; } | c_stage; }
  $ alone() { { echo "game tally${options:+ $options}"; echo 'roll 1 players 1 local 1 delay 0 threshold 8'; cat; } | c_stage; }

The last frame: no word counts past it.

  $ options='limit 2' alone <<END
  > L 1 0
  > A
  > L 1 0
  > A
  > L 1 0
  > END
  ok
  frame 1 from 0 rerun 1 settled 1 state 0
  ok
  frame 2 from 1 rerun 1 settled 2 state 0
  refused 106

A session that plays to the greatest limit: then a word is refused, and with it missing no frame is reached. It still rolls to
the frame that it is at.

  $ alone <<END
  > frames 1048575 0
  > frames 1 0
  > L 1 0
  > A
  > S
  > END
  frame 1048575 from 1048574 rerun 1 settled 1048575 state 0
  frame 1048576 from 1048575 rerun 1 settled 1048576 state 0
  refused 106
  refused 101
  frame 1048576 from 1048576 rerun 0 settled 1048576 state 0 row 0

Room in a log of two entries.

  $ options='log 2' two <<END
  > reserve 2
  > reserve 3
  > L 1 0
  > A
  > S
  > END
  ok
  refused 114
  ok
  frame 1 from 0 rerun 1 settled 0 state 0
  refused 114

Refused words, once two frames were played and nothing came of the second player: each of these changes nothing.

  $ {
  > printf 'L 1 1\nA\nL 1 1\nA\n'
  > printf 'L 0 1\nL 2 1\nL 3 1\nR 0 0 1\nR 1 0 1\nR 3 0 1\nR 2 1 1\nD 0\nD 1\nD 3\nG 0 3 1\nG 3 3 1\nG 2 0 1\nG 2 25 1\nA\nB 0\n'
  > printf 'seen\nL 1 1\nL 1 1\nL 1 2\nR 2 0 4\nR 2 0 4\nR 2 0 5\nR 2 2 1\nD 2\nD 2\nR 2 1 1\nR 2 0 4\nG 2 3 1\nseen\n'
  > } | two | tail -n +5
  refused 2
  refused 2
  refused 2
  refused 2
  refused 2
  refused 2
  refused 103
  refused 2
  refused 2
  refused 2
  refused 2
  refused 2
  refused 11
  refused 11
  refused 101
  refused 120
  frame 2 settled 0 log 4 state 11 settled state 0 plan to 2 from 1 rerun 1
  ok
  refused 102
  refused 102
  taken
  repeated
  refused 104
  refused 103
  gone 2
  refused 9
  refused 9
  refused 9
  refused 9
  frame 2 settled 0 log 7 state 11 settled state 0 plan to 2 from 1 rerun 1

A local word at the prediction threshold, and a remote one past the 128 that have room behind the eighth frame, up to which all
is settled.

  $ { for i in 1 2 3 4 5 6 7 8; do printf 'L 1 0\nA\n'; done; printf 'L 1 0\nA\nremotes 136 2 0 0\nR 2 136 0\nL 1 0\n'; } | two \
  > | tail -n 5
  refused 4
  refused 101
  taken
  refused 105
  ok

Long runs: the second player's words are predicted right in nine frames of ten, and each comes up to 8 frames late. The last
state is what the game's rule alone adds up to.

  $ words() { awk -v frames=$1 '
  > function late(f) { return int(f * 2654435761 % 4294967296 / 65536) % 9 }
  > BEGIN {
  >   for (now = 0; now < frames; now++) {
  >     before = heard
  >     while (heard <= now && heard + late(heard) <= now) {
  >       printf "R 2 %d %d\n", heard, int(heard / 10) % 10
  >       heard++
  >     }
  >     if (heard > before) print "S"
  >     printf "L 1 %d\nA\n", now % 7
  >   }
  >   for (; heard < frames; heard++) printf "R 2 %d %d\n", heard, int(heard / 10) % 10
  >   print "S\nseen"
  > }'; }
  $ sum() { awk -v frames=$1 'BEGIN { for (f = 0; f < frames; f++) s = (s * 10 + f % 7 + 2 * (int(f / 10) % 10)) % 1000000; print s }'; }
  $ for frames in 1000 10000 100000; do
  > words $frames | two | tail -n 1 | cut -d ' ' -f 1-4,7-8 > shown
  > echo "frame $frames settled $frames state $(sum $frames)" | diff - shown
  > done

A guess is refused for a player that isn't there, without words and with more than 24, and up to a frame that isn't 1 to 24
past the settled one; and for a player who has left, whatever else is wrong with it.

  $ many=$(seq -s , 25 | sed 's/[0-9]*\(,\|$\)/3\1/g')
  $ { echo 'guess 0 1 3'; echo 'guess 3 0 -'; echo 'guess 2 1 -'; echo "guess 2 1 $many"; echo 'guess 2 0 3'; \
  > echo 'guess 2 25 3'; echo 'D 2'; echo 'guess 2 0 -'; } | two
  refused 2
  refused 2
  refused 11
  refused 11
  refused 11
  refused 11
  gone 2
  refused 9
