Hosts whose remote words come by links. A host has one link from the start, number 0; `sends` sends words of a player from a
frame on, and says how many of them found a place. `two` opens a session of two players, of whom the first is local.

  $ header='roll 1 players 2 local 1 delay 0,0 threshold 8'
  $ two() { { echo "game tally${options:+ $options}"; echo "$header"; echo host; cat; } | test_stage | tail -n +2; }

Three words: the link's end says that none is left, and the log has each of them.

  $ two <<END
  > send 0 2 0 0
  > send 0 2 1 3
  > send 0 2 2 3
  > pump
  > finish 0
  > log
  > END
  sent
  sent
  sent
  applied 3 refused 0
  left 0
  log 3; R 2 0 0; R 2 1 3; R 2 2 3

What a sender sent before it was dropped is applied.

  $ two <<END
  > send 0 2 0 0
  > send 0 2 1 0
  > drop 0
  > pump
  > pump
  > END
  sent
  sent
  dropped
  applied 2 refused 0
  applied 0 refused 0

A player leaves between two words: another word for a frame is refused, and so is any word of a player who has left.

  $ two <<END
  > send 0 2 0 1
  > send 0 2 0 2
  > pump
  > gone 2
  > send 0 2 1 2
  > pump
  > log
  > END
  sent
  sent
  applied 2 refused 1
  event 1004
  sent
  applied 1 refused 1
  log 2; R 2 0 1; D 2

Words that are refused for good count as applied, and the link goes on: one of a local player, one past a gap, and one in place
of another.

  $ two <<END
  > send 0 2 0 1
  > send 0 1 0 0
  > send 0 2 2 0
  > send 0 2 0 2
  > send 0 2 1 5
  > pump
  > log
  > END
  sent
  sent
  sent
  sent
  sent
  applied 5 refused 3
  log 2; R 2 0 1; R 2 1 5

The 65th item finds no place until the others were taken.

  $ two <<END
  > sends 64 2 0 0
  > send 0 2 64 0
  > pump
  > send 0 2 64 0
  > pump
  > END
  sent 64
  refused 119
  applied 64 refused 0
  sent
  applied 1 refused 0

A host has four links at most.

  $ two <<END
  > link
  > link
  > link
  > link
  > END
  link 1
  link 2
  link 3
  refused 11

A word is held while its player has 128 words past the settled frame, and tried again by each pump.

  $ two <<END
  > sends 64 2 0 0
  > pump
  > sends 64 2 64 0
  > pump
  > sends 1 2 128 0
  > pump
  > pump
  > L 1 0
  > A
  > pump
  > finish 0
  > seen
  > END
  sent 64
  applied 64 refused 0
  sent 64
  applied 64 refused 0
  sent 1
  applied 0 refused 0 held refused 105
  applied 0 refused 0 held refused 105
  ok
  frame 1 from 0 rerun 1 settled 1 state 0
  applied 1 refused 0
  left 0
  frame 1 settled 1 log 131 state 0 settled state 0 plan to 1 from 0 rerun 1

The same with a worker beside.

  $ { echo 'game tally'; echo "$header"; cat; } <<END | test_stage | tail -n +3
  > workers 1
  > host
  > sends 64 2 0 0
  > pump
  > sends 64 2 64 0
  > pump
  > sends 1 2 128 0
  > pump
  > L 1 0
  > A
  > pump
  > finish 0
  > settle
  > seen
  > END
  sent 64
  applied 64 refused 0
  sent 64
  applied 64 refused 0
  sent 1
  applied 0 refused 0 held refused 105
  ok
  frame 1 from 0 rerun 1 settled 1 state 0
  applied 1 refused 0
  left 0
  issued 0 collected 0 withdrawn 0 late left
  frame 1 settled 1 log 131 state 0 settled state 0 plan to 1 from 0 rerun 1

The end of a link says how many items are left, of which one is held here. Pumps go on taking them.

  $ two <<END
  > sends 64 2 0 0
  > pump
  > sends 64 2 64 0
  > pump
  > sends 3 2 128 0
  > pump
  > finish 0
  > pump
  > L 1 0
  > A
  > pump
  > L 1 0
  > A
  > pump
  > L 1 0
  > A
  > pump
  > pump
  > END
  sent 64
  applied 64 refused 0
  sent 64
  applied 64 refused 0
  sent 3
  applied 0 refused 0 held refused 105
  left 3
  applied 0 refused 0 held refused 105
  ok
  frame 1 from 0 rerun 1 settled 1 state 0
  applied 1 refused 0 held refused 105
  ok
  frame 2 from 1 rerun 1 settled 2 state 0
  applied 1 refused 0 held refused 105
  ok
  frame 3 from 2 rerun 1 settled 3 state 0
  applied 1 refused 0
  applied 0 refused 0

Room in a log of two entries: there is none for a third, and a word is held then.

  $ options='log 2' two <<END
  > reserve 2
  > reserve 3
  > L 1 0
  > A
  > S
  > send 0 2 0 0
  > pump
  > END
  ok
  refused 114
  ok
  frame 1 from 0 rerun 1 settled 0 state 0
  refused 114
  sent
  applied 0 refused 0 held refused 114

Links are pumped in their order, whichever was sent to first. In the second pump the word of the first link comes before the
one that it lacks.

  $ two <<END
  > link
  > send 1 2 1 5
  > send 0 2 0 4
  > pump
  > send 1 2 2 5
  > send 0 2 3 4
  > pump
  > S
  > END
  link 1
  sent
  sent
  applied 2 refused 0
  sent
  sent
  applied 2 refused 1
  frame 0 from 0 rerun 0 settled 0 state 0 row 0,4

A list of calls is made by one call. `round` makes such a list: a pump, a sync, player 1's word 1, an advance, a guess that
player 2 gives the word 3 up to frame 2, an absorb, a link more, room for four events, the end of link 0, a close. What a sync or
an advance is answered is told with the state after the whole list. Without workers the guess finds no place.

  $ two <<END
  > send 0 2 0 3
  > round
  > log
  > END
  sent
  applied 1 refused 0
  frame 1 from 0 rerun 1 settled 1 state 7 row 0,3
  ok
  frame 1 from 0 rerun 1 settled 1 state 7
  refused 119
  taken 0 added 0 dropped 0 unmade 0
  link
  ok
  left 0
  closed
  all done
  log 4; R 2 0 3; S; L 1 1; A
