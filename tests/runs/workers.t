Pools of workers, each of whose turns is a command, and hosts whose guesses they run. `two` opens a session of two players, of
whom the first is local, `after` plays two frames first and shows what comes then, and `pool` needs no session.

  $ header='roll 1 players 2 local 1 delay 0,0 threshold 8'
  $ two() { { echo "game tally${options:+ $options}"; echo "$header"; cat; } | test_stage; }
  $ after() { { printf 'L 1 1\nA\nL 1 1\nA\n'; cat; } | two | tail -n +5; }
  $ copies() { yes "$2" | head -n $1; }
  $ job='issue 0 . 0 1,3'

A pool has one to four workers.

  $ for n in 0 1 2 3 4 5; do echo "workers $n"; done | two
  refused 11
  workers 1
  workers 2
  workers 3
  workers 4
  refused 11

A worker stops at a full ring, which has places for 16 results, and goes on once one is collected.

  $ { echo 'workers 1'; copies 17 "$job"; copies 17 'work 0'; echo collect; echo 'work 0'; } | two | tail -n +19
  did 0
  did 1
  did 2
  did 3
  did 4
  did 5
  did 6
  did 7
  did 8
  did 9
  did 10
  did 11
  did 12
  did 13
  did 14
  did 15
  ring full
  ticket 0 states 7
  did 16

The 65th job is handed back as it was, with the number 9 that each has until it is issued; once a result is collected, there
is a place again.

  $ { echo 'workers 1'; copies 65 "$job"; echo out; echo 'work 0'; echo collect; echo "$job"; echo out; } > full
  $ two < full | sed -n '2p;65,$p'
  ticket 0
  ticket 63
  refused 119 back 9
  out 64 issued 64
  did 0
  ticket 0 states 7
  ticket 64
  out 64 issued 65

Results are collected from the first worker first, whoever ran first.

  $ { echo 'workers 2'; copies 3 "$job"; printf 'work 1\nwork 0\nwork 1\nwork 1\n'; copies 4 collect; } | two | tail -n +5
  did 0
  did 1
  did 2
  empty
  ticket 1 states 7
  ticket 0 states 7
  ticket 2 states 7
  none

A job that the game refuses to run answers its number.

  $ { echo 'workers 1'; copies 2 "$job"; copies 2 'work 0'; copies 2 collect; } > refuses
  $ options='helper advance 1' two < refuses | tail -n +4
  did 0
  did 1
  refused 0
  ticket 1 states 7

A pool that is closed does no work, and hands its jobs back.

  $ for n in 2 4; do
  > { echo "workers $n"; copies 3 "$job"; echo close; for i in $(seq 0 $((n - 1))); do echo "work $i"; done; echo collect; \
  > echo settle; } | two | tail -n +5
  > done
  closed
  closed
  closed
  none
  issued 3 collected 0 withdrawn 0 late left 0 1 2
  closed
  closed
  closed
  closed
  closed
  none
  issued 3 collected 0 withdrawn 0 late left 0 1 2

Two workers run a job each, and both results are collected: nothing is late, and nothing is left.

  $ { echo 'workers 2'; copies 2 "$job"; printf 'work 0\nwork 1\ncollect\ncollect\ncollect\nclose\nsettle\n'; } | two | tail -n +4
  did 0
  did 1
  ticket 0 states 7
  ticket 1 states 7
  none
  closed
  issued 2 collected 2 withdrawn 0 late left

Of three jobs one is collected, the result of the second is late, and the third is left.

  $ { echo 'workers 2'; copies 3 "$job"; printf 'work 0\nwork 1\ncollect\nclose\nsettle\n'; } | two | tail -n 1
  issued 3 collected 1 withdrawn 0 late 1 left 2

A host: a guess costs nothing where it was right, and is kept then.

  $ after <<END
  > workers 1
  > host
  > absorb
  > speculate 2 2 3
  > work 0
  > absorb
  > speculate 2 2 3
  > session
  > R 2 0 3
  > S
  > seen
  > END
  workers 1
  hosted
  taken 0 added 0 dropped 0 unmade 0
  ticket 0
  did 0
  taken 1 added 2 dropped 0 unmade 0
  kept
  alone
  taken
  frame 2 from 2 rerun 0 settled 1 state 77 row 1,3
  frame 2 settled 1 log 7 state 77 settled state 7 plan to 2 from 2 rerun 0

A job that the game refused to run has no branch, and no entry in the log. A host that is closed lets no worker work.

  $ options='helper advance 1' two <<END
  > workers 1
  > host
  > speculate 2 2 3
  > work 0
  > absorb
  > log
  > close
  > work 0
  > END
  workers 1
  hosted
  ticket 0
  did 0
  taken 1 added 0 dropped 0 unmade 1
  log 0
  closed
  closed

With k jobs out, 1 to 64, the next guess has the number k. With 64 of them the oldest that no worker has taken makes place for it,
and is withdrawn: here the first, so a worker takes the second. A guess that is refused takes no place.

  $ { printf 'workers 1\nhost\n'; copies 64 'speculate 2 2 3'; echo 'speculate 2 2 3'; echo 'speculate 0 0 -'; echo 'work 0'; \
  > echo 'speculate 0 0 -'; echo absorb; echo 'speculate 0 0 -'; echo 'speculate 2 2 4'; } > guesses
  $ after < guesses | sed -n '3,66p' > tickets; seq 0 63 | sed 's/^/ticket /' | diff - tickets
  $ after < guesses | tail -n +67
  ticket 64
  refused 2
  did 1
  refused 2
  taken 1 added 2 dropped 0 unmade 0
  refused 2
  ticket 65

On a fresh host it is the same, with another word in each guess.

  $ { printf 'workers 1\nhost\n'; seq -f 'speculate 2 1 %g' 65; printf 'work 0\nabsorb\nspeculate 2 1 65\n'; } | two > said
  $ sed -n '3,66p' said | diff - tickets; tail -n +67 said
  ticket 64
  did 1
  taken 1 added 1 dropped 0 unmade 0
  ticket 65

After two frames, a worker whose game refuses its first advance: the guess's job is done, and nothing comes of it.

  $ options='helper advance 1' after <<END
  > workers 1
  > host
  > speculate 2 2 3
  > work 0
  > absorb
  > END
  workers 1
  hosted
  ticket 0
  did 0
  taken 1 added 0 dropped 0 unmade 1

A host without workers takes no guess, has nothing to take in or to close, and nothing is left of its jobs.

  $ after <<END
  > host
  > speculate 2 2 3
  > absorb
  > close
  > settle
  > seen
  > END
  hosted
  refused 119
  taken 0 added 0 dropped 0 unmade 0
  closed
  issued 0 collected 0 withdrawn 0 late left
  frame 2 settled 0 log 4 state 11 settled state 0 plan to 2 from 1 rerun 1

One to four workers of whom none ran anything: all jobs are handed back.

  $ for n in 1 2 3 4; do
  > { printf "workers $n\nhost\nspeculate 2 2 3\nspeculate 2 2 4\nspeculate 2 2 5\nclose\nsettle\nseen\n"; } | after | tail -n 2
  > done
  issued 3 collected 0 withdrawn 0 late left 0 1 2
  frame 2 settled 0 log 4 state 11 settled state 0 plan to 2 from 1 rerun 1
  issued 3 collected 0 withdrawn 0 late left 0 1 2
  frame 2 settled 0 log 4 state 11 settled state 0 plan to 2 from 1 rerun 1
  issued 3 collected 0 withdrawn 0 late left 0 1 2
  frame 2 settled 0 log 4 state 11 settled state 0 plan to 2 from 1 rerun 1
  issued 3 collected 0 withdrawn 0 late left 0 1 2
  frame 2 settled 0 log 4 state 11 settled state 0 plan to 2 from 1 rerun 1

The same list of calls as `links.t` has, made by one call: the guess goes to the worker, which the close stops.

  $ two <<END
  > workers 1
  > host
  > send 0 2 0 3
  > round
  > work 0
  > settle
  > END
  workers 1
  hosted
  sent
  applied 1 refused 0
  frame 1 from 0 rerun 1 settled 1 state 7 row 0,3
  ok
  frame 1 from 0 rerun 1 settled 1 state 7
  ticket 0
  taken 0 added 0 dropped 0 unmade 0
  link
  ok
  left 0
  closed
  all done
  closed
  issued 1 collected 0 withdrawn 0 late left 0
