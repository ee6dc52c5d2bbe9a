A game that adds the number of its earlier advances comes out different at once, and the test is stopped.

  $ test_stage <<END
  > sync drifting 0 1
  > step 1,3 3
  > counts
  > END
  mismatch 0
  refused 116
  refused 116
  loads 2 saves 2 copies 0 turns 2 refusals 0

The first frame that differs is named. Here the advances of the first three rows are 0 to 2, and then again 3 to 5; those of the
next 6 to 8, and then again 9 and 10, of which 10 is the first that counts.

  $ test_stage <<END
  > sync drifting 10 3
  > step 1,3 7
  > counts
  > END
  run
  run
  verified 3
  run
  run
  mismatch 4
  refused 116
  loads 3 saves 11 copies 0 turns 11 refusals 0

What is not saved shows where a state is loaded: at the fifth advance since the load.

  $ test_stage <<END
  > sync forgetful 2
  > step 1,3 7
  > END
  run
  verified 2
  run
  verified 4
  run
  mismatch 4
  refused 116

A file of rows is tested up to the first frame that differs.

  $ { echo drifting 0 1; echo rolltest 1 players 2; yes 1,3 | head -n 2; } | test_stage
  mismatch 0
  different
  $ { echo drifting 0 2; echo rolltest 1 players 2; yes 1,3 | head -n 2; } | test_stage
  run
  mismatch 0
  different
  $ { echo drifting 10 3; echo rolltest 1 players 2; yes 1,3 | head -n 7; } | test_stage
  run
  run
  verified 3
  run
  run
  mismatch 4
  different

A tally comes out the same. Each row is run once, and each verified row again: each such number of rows loads once, and so does the
start.

  $ for frames in 1 2 3 4 5 6 7 8; do
  >     printf "sync tally $frames\nstep 1,3 16\ncounts\n" | test_stage | tr '\n' ' ' | sed 's/verified/v/g;s/ $//'
  >     echo
  > done
  v 1 v 2 v 3 v 4 v 5 v 6 v 7 v 8 v 9 v 10 v 11 v 12 v 13 v 14 v 15 v 16 loads 17 saves 32 copies 0 turns 32 refusals 0
  run v 2 run v 4 run v 6 run v 8 run v 10 run v 12 run v 14 run v 16 loads 9 saves 32 copies 0 turns 32 refusals 0
  run run v 3 run run v 6 run run v 9 run run v 12 run run v 15 run loads 6 saves 31 copies 0 turns 31 refusals 0
  run run run v 4 run run run v 8 run run run v 12 run run run v 16 loads 5 saves 32 copies 0 turns 32 refusals 0
  run run run run v 5 run run run run v 10 run run run run v 15 run loads 4 saves 31 copies 0 turns 31 refusals 0
  run run run run run v 6 run run run run run v 12 run run run run loads 3 saves 28 copies 0 turns 28 refusals 0
  run run run run run run v 7 run run run run run run v 14 run run loads 3 saves 30 copies 0 turns 30 refusals 0
  run run run run run run run v 8 run run run run run run run v 16 loads 3 saves 32 copies 0 turns 32 refusals 0

So does a duel.

  $ printf 'sync duel 2\nstep 1,3 4\n' | test_stage
  run
  verified 2
  run
  verified 4

A test starts with 1 to 8 frames. Else it hands back the game, which was asked for nothing, and the opening.

  $ for frames in 0 9 4294967295; do echo "sync from 70 $frames" | test_stage; done
  refused 11
  loads 0 saves 0 copies 0 turns 0 refusals 0
  opening 70
  refused 11
  loads 0 saves 0 copies 0 turns 0 refusals 0
  opening 70
  refused 11
  loads 0 saves 0 copies 0 turns 0 refusals 0
  opening 70
  $ printf 'sync from 70 1\nstep 1,3\n' | test_stage
  verified 1

A test of two frames in which the kth load, save, advance or copy is refused: it is stopped from that step on, or is started
once more if the load at its start was refused. The second step and
the fourth run two rows again: each loads once.

  $ each() {
  >     for k in $2; do
  >         printf "sync tally 2 $1 $k\nstep 1,3 5\n" | test_stage | tr '\n' ' ' | sed 's/verified /v/g;s/refused //g;s/ $//'
  >         echo
  >     done
  > }
  $ each load '1 2 3 4'
  107 loads 1 saves 0 copies 0 turns 0 refusals 1 opening 0 run v2 run v4 run
  run 107 116 116 116
  run v2 run 107 116
  run v2 run v4 run
  $ each save '1 2 3 4 5 6 7 8 9'
  107 116 116 116 116
  run 107 116 116 116
  run 107 116 116 116
  run 107 116 116 116
  run v2 107 116 116
  run v2 run 107 116
  run v2 run 107 116
  run v2 run 107 116
  run v2 run v4 107
  $ each advance '1 2 3 4 5 6 7 8 9'
  107 116 116 116 116
  run 107 116 116 116
  run 107 116 116 116
  run 107 116 116 116
  run v2 107 116 116
  run v2 run 107 116
  run v2 run 107 116
  run v2 run 107 116
  run v2 run v4 107
  $ each copy 1
  run v2 run v4 run

A test takes 1,048,576 rows.

  $ printf 'sync tally 1\nlast 1,3 1048576\nstep 1,3 2\n' | test_stage
  verified 1048576
  refused 106
  refused 106
