What a session shows that no script does: settled rows, where cells are from, and logs that are played again. `two` opens a
session of two players, of whom the first is local.

  $ header='roll 1 players 2 local 1 delay 0,0 threshold 8'
  $ two() { { echo "game tally${options:+ $options}"; echo "$header"; cat; } | test_stage; }
  $ late='L 1 1\nA\nL 1 1\nA\nR 2 0 3\nS\n'

What a refused roll saved is kept: of the last sync the first and the second save are refused, and its load, and the next sync
starts from what was saved. In between there is no state, no plan and no claim.

  $ for refused in 'save 3' 'save 4' 'load 4'; do
  > { printf "${late}seen\nC\nS\nseen\n"; } | options="refusing $refused" two | tail -n +6
  > done
  refused 107
  frame 2 settled 0 log 6 state - settled state 0 no plan
  refused 117
  frame 2 from 0 rerun 2 settled 1 state 77 row 1,3
  frame 2 settled 1 log 7 state 77 settled state 7 plan to 2 from 0 rerun 2
  refused 107
  frame 2 settled 1 log 6 state - settled state 7 no plan
  refused 117
  frame 2 from 1 rerun 1 settled 1 state 77 row 1,3
  frame 2 settled 1 log 7 state 77 settled state 7 plan to 2 from 1 rerun 1
  refused 107
  frame 2 settled 0 log 6 state - settled state 0 no plan
  refused 117
  frame 2 from 0 rerun 2 settled 1 state 77 row 1,3
  frame 2 settled 1 log 7 state 77 settled state 7 plan to 2 from 0 rerun 2

What is settled after a late word, and what is kept before anything and then; taken apart, the session hands back its game.

  $ { printf "kept\n${late}seen\nrow 0\nrow 1\nkept\ncounts\nlog\nparts\n"; } | two
  kept 1; 0 .
  ok
  frame 1 from 0 rerun 1 settled 0 state 1
  ok
  frame 2 from 1 rerun 1 settled 0 state 11
  taken
  frame 2 from 0 rerun 2 settled 1 state 77 row 1,3
  frame 2 settled 1 log 6 state 77 settled state 7 plan to 2 from 0 rerun 2
  1,3
  -
  kept 2; 1 .; 1 1,3
  loads 4 saves 4 copies 1 turns 4 refusals 0
  log 6; L 1 1; A; L 1 1; A; R 2 0 3; S
  shown state 77 opening 0 turns 4 refusals 0

A word that is delayed by two frames.

  $ { echo 'game tally'; echo 'roll 1 players 2 local 1 delay 2,0 threshold 8'; cat; } <<END | test_stage
  > player 1
  > L 1 5
  > player 1
  > cell 1 1
  > cell 1 2
  > cell 1 3
  > A
  > player 1
  > player 2
  > player 3
  > END
  local input 2 confirmed 2
  ok
  local input 3 confirmed 3
  word 0 confirmed
  word 5 confirmed
  word - predicted
  frame 1 from 0 rerun 1 settled 0 state 0
  local input 3 confirmed 3
  not local input - confirmed 0
  not local input - confirmed -

Where cells are from, before a player leaves and after.

  $ { printf "${late}cell 2 0\ncell 2 1\nD 2\ncell 2 0\ncell 2 1\ncell 3 0\ncell 0 0\nplayer 1\nplayer 2\nsettings\n"; } \
  > | two | tail -n +7
  word 3 confirmed
  word - predicted
  gone 2
  word 3 confirmed
  word - gone
  word - none
  word - none
  local input 2 confirmed 2
  not local input - confirmed 1
  ggpo players 2 local 1 threshold 8 limit 1048576 log 16777216 delay 0,0,0,0,0,0,0,0 mask 4294967295,4294967295,4294967295,4294967295,4294967295,4294967295,4294967295,4294967295

A log that is played again on a new session. Once more on the same, its two frames are played once more, up to the word that
counts already.

  $ printf "${late}replay\n" | two | tail -n 1
  ok frame 2 state 77 log 6, again entry 4 repeats a word frame 4 state 7777 log 10

A log that is made of calls.

  $ printf 'L 1 3\nA\ncopied\n' | two | tail -n 1
  ok frame 1 state 3 log 2, again ok frame 2 state 33 log 4

No replay makes a graft: it stops there.

  $ { printf 'L 1 1\nA\nL 1 1\nA\ngraft 0 . 0 1,3/1,3\nlog\nreplay\n'; } | two | tail -n 2
  log 5; L 1 1; A; L 1 1; A; graft 9
  entry 4 is no call frame 2 state 11 log 4, again entry 4 is no call frame 4 state 1111 log 8

Lines that can't be read: the number of each is told.

  $ printf 'games tally\n' | test_stage
  unreadable: line 1
  [2]
  $ printf 'game tally\nroll 1\n' | test_stage
  unreadable: line 2
  [2]
  $ printf 'seen\nL 1\n' | two
  frame 0 settled 0 log 0 state 0 settled state 0 no plan
  unreadable: line 4
  [2]
