Branches that are made by hand, and what a session says of each: first why it would be refused, or `fine`, and then what
the graft answers. A branch is written as the base and the own rows of its path, the worth of the state there, and the rows
that are run; `two` opens a session of two players, of whom the first is local.

  $ header='roll 1 players 2 local 1 delay 0,0 threshold 8'
  $ two() { { echo "game tally${options:+ $options}"; echo "$header"; cat; } | test_stage; }
  $ rows() { seq -s / $1 | sed "s/[0-9]*\(\/\|$\)/$(echo $2 | sed 's/,/\\,/g')\1/g"; }
  $ zeros() { rows $1 0,0; }

Two rows from the opening are worth 7 and 77.

  $ two <<END
  > workers 1
  > issue 0 . 0 1,3/1,3
  > work 0
  > collect
  > END
  workers 1
  ticket 0
  did 0
  ticket 0 states 7 77

A guess that was right costs nothing, and grafted again it adds nothing.

  $ two <<END | tail -5
  > L 1 1
  > A
  > L 1 1
  > A
  > graft 0 . 0 1,3/1,3
  > graft 0 . 0 1,3/1,3
  > R 2 0 3
  > S
  > seen
  > END
  fine, added 2
  fine, added 0
  taken
  frame 2 from 2 rerun 0 settled 1 state 77 row 1,3
  frame 2 settled 1 log 8 state 77 settled state 7 plan to 2 from 2 rerun 0

Of a session that has run nothing: the branches of other states, of other frames and of other players are strangers; the
wrong number of the second comes to what is right after its row. Then one goes too far, and of two the start isn't kept.
Nothing is kept of any of these but the opening, and only the last one is taken in.

  $ at_the_start() {
  > echo "0 . 4 1,3"
  > echo "0 . 100000 0,0"
  > echo "1 . 0 0,0"
  > echo "0 0 0 0,0"
  > echo "0 0,0,0 0 0,0"
  > echo "0 . 0 0,0,0"
  > echo "0 . 0 0,0/0"
  > echo "0 $(zeros 17) 0 $(zeros 8)"
  > echo "0 $(zeros 16) 0 $(zeros 8)"
  > echo "0 0,7 14 0,0"
  > }
  $ { at_the_start | sed 's/^/graft /'; echo kept; echo 'graft 0 . 0 0,0/0,0'; } | two
  refused 108, refused 108
  refused 108, refused 108
  refused 108, refused 108
  refused 108, refused 108
  refused 108, refused 108
  refused 108, refused 108
  refused 108, refused 108
  refused 109, refused 109
  refused 111, refused 111
  refused 111, refused 111
  kept 1; 0 .
  fine, added 2

A path of 24 rows, the longest that a branch can start from, with one row to run: that is too far past the settled frame. Of
23 rows the start isn't kept.

  $ { echo "graft 0 $(zeros 24) 0 0,0"; echo "graft 0 $(zeros 23) 0 0,0"; } | two
  refused 109, refused 109
  refused 111, refused 111

A session of two frames, of which the row of the first is settled: the states of frames 1 and 2 are worth 1 and 11. The
number of the last branch is wrong at the end of its path, and right where the settled rows end.

  $ settled_one='L 1 1\nA\nL 1 1\nA\nR 2 0 0\nS\n'
  $ past_settled() {
  > echo "2 . 11 1,5"
  > echo "1 $(zeros 17) 0 $(zeros 8)"
  > echo "0 . 7 5,5"
  > echo "0 5,0 50 1,0"
  > echo "0 . 0 5,0/1,0"
  > echo "1 $(zeros 16) 0 $(zeros 8)"
  > echo "0 1,0/1,7 99 1,0"
  > echo "0 1,0/1,7 25 1,0"
  > echo "0 . 4 1,0/1,5"
  > echo "0 1,0 2 1,0"
  > echo "1 1,0 1 2,5"
  > echo "0 1,0 1 1,0"
  > echo "0 . 0 1,0/1,0"
  > echo "1 1,0 11 2,5"
  > echo "0 . 100000 1,0/1,5"
  > }
  $ { printf "$settled_one"; past_settled | sed 's/^/graft /'; printf 'R 2 1 5\nS\nseen\n'; } | two | tail -n +7
  refused 108, refused 108
  refused 109, refused 109
  refused 110, refused 110
  refused 112, refused 112
  refused 112, refused 112
  refused 112, refused 112
  refused 111, refused 111
  refused 111, refused 111
  refused 108, refused 108
  refused 108, refused 108
  refused 108, refused 108
  fine, added 0
  fine, added 0
  fine, added 1
  fine, added 1
  taken
  frame 2 from 2 rerun 0 settled 2 state 21 row 1,5
  frame 2 settled 2 log 12 state 21 settled state 21 plan to 2 from 2 rerun 0

A branch runs ahead of a player who leaves: that player counts for 5.

  $ two <<END
  > graft 0 . 0 0,x
  > L 1 0
  > D 2
  > A
  > END
  fine, added 1
  ok
  gone 2
  frame 1 from 1 rerun 0 settled 1 state 5

A log with room for one event. That it is full is told last.

  $ options='log 1' two <<END
  > graft 0 . 0 0,0
  > graft 0 . 4 0,0/0,0
  > graft 0 . 0 0,0/0,0
  > graft 0 . 0 0,0
  > END
  fine, added 1
  refused 108, refused 108
  refused 114, refused 114
  refused 114, refused 114

A guess that was wrong adds nothing.

  $ two <<END
  > R 2 0 4
  > graft 0 . 0 1,3/1,3
  > END
  taken
  fine, added 0

A graft settles what it brings, once the word has come; a branch that ends where that settles is late.

  $ two <<END | tail -n +5
  > L 1 1
  > A
  > L 1 1
  > A
  > R 2 0 3
  > seen
  > graft 0 . 0 1,3/1,3
  > graft 0 . 0 1,3
  > seen
  > END
  taken
  frame 2 settled 0 log 5 state 11 settled state 0 plan to 2 from 1 rerun 1
  fine, added 2
  refused 110, refused 110
  frame 2 settled 1 log 6 state 11 settled state 7 plan to 2 from 1 rerun 1

A guess goes on from what is kept, and is copied where there is a job: the opening was copied once. A job's path is what
it starts from, and it has 8 rows at most.

  $ two <<END
  > L 1 1
  > A
  > G 2 1 0
  > counts
  > G 2 2 0
  > G 2 2 3
  > G 2 24 0,3
  > counts
  > END
  ok
  frame 1 from 0 rerun 1 settled 0 state 1
  kept
  loads 2 saves 1 copies 1 turns 1 refusals 0
  job 0 rows 1 path 1
  job 1 rows 2 path 0
  job 2 rows 8 path 1
  loads 2 saves 1 copies 4 turns 1 refusals 0
