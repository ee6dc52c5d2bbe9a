The inputs of two players alone, of whom the first is local.

  $ echo 'board 2 1' | test_stage
  ok
  $ test_stage <<END
  > board 2 1
  > seen
  > local 1 1
  > remote 2 0 3
  > row 0
  > row 1
  > seen
  > END
  ok
  frame 0 settled 0 front 0 confirmed 0 0
  ok
  taken
  1,3
  1,3
  frame 0 settled 0 front 1 confirmed 1 1

Words that are refused, or known already.

  $ test_stage <<END
  > board 2 1
  > local 2 1
  > local 3 1
  > local 1 1
  > local 1 1
  > remote 1 0 1
  > remote 2 5 1
  > remote 2 0 1
  > remote 2 0 1
  > remote 2 0 2
  > gone 1
  > gone 3
  > END
  ok
  refused 2
  refused 2
  ok
  refused 102
  refused 2
  refused 103
  taken
  repeated
  refused 104
  refused 2
  refused 2

A player who leaves is gone from the first frame without a word on. Rows are settled up to the front and the frame.

  $ test_stage <<END
  > board 2 1
  > next
  > local 1 1
  > remote 2 0 3
  > gone 2
  > gone 2
  > remote 2 1 3
  > settle 1
  > next
  > row 0
  > row 1
  > source 2 0
  > source 2 1
  > source 1 1
  > source 3 0
  > word 2 0
  > word 2 1
  > settle 2
  > settle 1
  > row 0
  > row 1
  > seen
  > END
  ok
  not yet
  ok
  taken
  ok
  refused 9
  refused 9
  not yet
  frame 1
  1,3
  1,x
  confirmed
  gone
  predicted
  none
  word 3
  none
  not yet
  ok
  settled
  1,x
  frame 1 settled 1 front 1 confirmed 1 1

A queue takes 128 words past the settled frame.

  $ { echo 'board 2 1'; seq -f 'remote 2 %g 0' 0 128; } | test_stage | uniq -c | tr -s ' '
   1 ok
   128 taken
   1 refused 105

Numbers of players, and local players, for which there is no board.

  $ for start in '9 1' '0 1' '2 3' '2 0'; do echo "board $start" | test_stage; done
  refused 3
  refused 3
  refused 11
  refused 11

Inputs that go on from frames before: until a player's first word comes, the last one before them is predicted; and a local player
begins with words of its own, one for each frame of its delay. Player 1 gave 6 last, and begins with 50 and 51; player 2 gave 7.

  $ test_stage <<END
  > board 2 1 delay 2 after 5
  > seen
  > row 0
  > row 1
  > row 2
  > local 1 9
  > remote 2 0 3
  > row 1
  > row 2
  > row 3
  > END
  ok
  frame 0 settled 0 front 0 confirmed 2 0
  50,7
  51,7
  51,7
  ok
  taken
  51,3
  9,3
  9,3

Without a delay it begins with none of them.

  $ test_stage <<END
  > board 2 1 after 5
  > row 0
  > gone 2
  > row 0
  > END
  ok
  6,7
  ok
  6,x
