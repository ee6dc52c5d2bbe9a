Settings with which a session starts: two players, the first local; one; eight in the wide profile. `start` opens a session with a header
behind the options of the first line, and plays no line of it.

  $ start() { printf "game tally${2:+ $2}\n$1\n" | test_stage; }
  $ start 'roll 1 players 2 local 1 delay 0,0 threshold 8'
  $ start 'roll 1 players 1 local 1 delay 0 threshold 8'
  $ eight='mask 0,0,0,0,0,0,0,0'
  $ start "roll 3 players 8 local 1,8 delay 0,0,0,0,0,0,0,0 $eight threshold 15"

What a start refuses, with what is wrong. First numbers of players; those that no header has, as they are refused where settings
are made.

  $ start 'roll 1 players 5 local 1 delay 0,0,0,0,0 threshold 8'
  refused 3 the number of players is out of range
  $ printf 'settings\nnew 0 1\nnew 9 1\nnew 200 1\n' | test_stage
  refused 3 the number of players is out of range
  refused 3 the number of players is out of range
  refused 3 the number of players is out of range

No local player, and one outside the players.

  $ start 'roll 1 players 2 local 1 delay 0,0 threshold 8' 'local 0'
  refused 11 no player is local
  $ start 'roll 1 players 2 local 1 delay 0,0 threshold 8' 'local 5'
  refused 11 local player 3 is not one of the players

Delays of a remote player, and of over 8 frames.

  $ start 'roll 1 players 2 local 1 delay 0,1 threshold 8'
  refused 11 player 2 is not local and has a delay
  $ start 'roll 1 players 2 local 1 delay 9,0 threshold 8'
  refused 11 the delay of player 1 is too long
  $ start 'roll 1 players 2 local 1 delay 8,0 threshold 8'

The threshold and the limits.

  $ for threshold in 9 0; do start "roll 1 players 2 local 1 delay 0,0 threshold $threshold"; done
  refused 11 the prediction threshold is out of range
  refused 11 the prediction threshold is out of range
  $ start "roll 3 players 8 local 1,8 delay 0,0,0,0,0,0,0,0 $eight threshold 16"
  refused 11 the prediction threshold is out of range
  $ for limit in 'limit 1048577' 'limit 0' 'log 16777217' 'log 0'; do start 'roll 1 players 2 local 1 delay 0,0 threshold 8' "$limit"; done
  refused 11 the frame limit is out of range
  refused 11 the frame limit is out of range
  refused 11 the log limit is out of range
  refused 11 the log limit is out of range
  $ start 'roll 1 players 2 local 1 delay 0,0 threshold 1' 'limit 1 log 1'

Settings that are made step by step. A step that is refused changes nothing.

  $ test_stage <<END
  > settings
  > new 2 1
  > new 9 1
  > new 2 -
  > new 2 1,3
  > new 8 8,1
  > with_threshold 15
  > with_mask 8 255
  > with_profile 4
  > with_delay 9 1
  > with_frame_limit 0
  > with_log_limit 0
  > with_delay 8 2
  > with_frame_limit 600
  > with_log_limit 100
  > with_profile 8
  > END
  ggpo players 2 local 1 threshold 8 limit 1048576 log 16777216 delay 0,0,0,0,0,0,0,0 mask 4294967295,4294967295,4294967295,4294967295,4294967295,4294967295,4294967295,4294967295
  refused 3 the number of players is out of range
  refused 11 no player is local
  refused 11 local player 3 is not one of the players
  wide players 8 local 129 threshold 8 limit 1048576 log 16777216 delay 0,0,0,0,0,0,0,0 mask 4294967295,4294967295,4294967295,4294967295,4294967295,4294967295,4294967295,4294967295
  wide players 8 local 129 threshold 15 limit 1048576 log 16777216 delay 0,0,0,0,0,0,0,0 mask 4294967295,4294967295,4294967295,4294967295,4294967295,4294967295,4294967295,4294967295
  wide players 8 local 129 threshold 15 limit 1048576 log 16777216 delay 0,0,0,0,0,0,0,0 mask 4294967295,4294967295,4294967295,4294967295,4294967295,4294967295,4294967295,255
  refused 3 the number of players is out of range
  refused 11 there is no player 9
  refused 11 the frame limit is out of range
  refused 11 the log limit is out of range
  wide players 8 local 129 threshold 15 limit 1048576 log 16777216 delay 0,0,0,0,0,0,0,2 mask 4294967295,4294967295,4294967295,4294967295,4294967295,4294967295,4294967295,255
  wide players 8 local 129 threshold 15 limit 600 log 16777216 delay 0,0,0,0,0,0,0,2 mask 4294967295,4294967295,4294967295,4294967295,4294967295,4294967295,4294967295,255
  wide players 8 local 129 threshold 15 limit 600 log 100 delay 0,0,0,0,0,0,0,2 mask 4294967295,4294967295,4294967295,4294967295,4294967295,4294967295,4294967295,255
  wide players 8 local 129 threshold 15 limit 600 log 100 delay 0,0,0,0,0,0,0,2 mask 4294967295,4294967295,4294967295,4294967295,4294967295,4294967295,4294967295,255
