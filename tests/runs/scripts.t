Scripts that are played with Tally. `two` opens a session of two players, of whom the first is local.

  $ two() { { echo 'roll 1 players 2 local 1 delay 0,0 threshold 8'; cat; } | rollduel play -; }

  $ echo S | two
  frame 0 from 0 rerun 0 settled 0 state 0

A word that was predicted right costs nothing.

  $ two <<END
  > L 1 1
  > A
  > L 1 1
  > A
  > R 2 0 0
  > S
  > END
  ok
  frame 1 from 0 rerun 1 settled 0 state 1
  ok
  frame 2 from 1 rerun 1 settled 0 state 11
  taken
  frame 2 from 2 rerun 0 settled 1 state 11

The greatest word: its remainder by a million.

  $ printf 'L 1 4294967295\nA\n' | two
  ok
  frame 1 from 0 rerun 1 settled 0 state 967295

A delay of two frames.

  $ rollduel play - <<END
  > roll 1 players 2 local 1 delay 2,0 threshold 8
  > L 1 9
  > A
  > L 1 0
  > A
  > L 1 0
  > A
  > END
  ok
  frame 1 from 0 rerun 1 settled 0 state 0
  ok
  frame 2 from 1 rerun 1 settled 0 state 0
  ok
  frame 3 from 2 rerun 1 settled 0 state 9

Of player 2's word only the lowest bit is predicted to be held; then all of it.

  $ rollduel play - <<END
  > roll 2 players 2 local 1 delay 0,0 mask 4294967295,1 threshold 8
  > L 1 1
  > A
  > R 2 0 3
  > L 1 0
  > A
  > R 2 1 1
  > S
  > END
  ok
  frame 1 from 0 rerun 1 settled 0 state 1
  taken
  ok
  frame 2 from 0 rerun 2 settled 1 state 72
  taken
  frame 2 from 2 rerun 0 settled 2 state 72
  $ two <<END
  > L 1 1
  > A
  > R 2 0 3
  > L 1 0
  > A
  > END
  ok
  frame 1 from 0 rerun 1 settled 0 state 1
  taken
  ok
  frame 2 from 0 rerun 2 settled 1 state 76

A session stops where no word has come for as many frames as its threshold: eight, and fifteen in the wide profile.

  $ frames() { for frame in $(seq $1); do printf 'L 1 0\nA\n'; done; }
  $ { frames 8; printf 'L 1 0\nR 2 0 0\nL 1 0\n'; } | two > told
  [1]
  $ tail -n 3 told
  refused 4
  taken
  ok
  $ five() { { echo 'roll 3 players 5 local 1 delay 0,0,0,0,0 mask 4294967295,4294967295,4294967295,4294967295,4294967295 threshold 15'; cat; } | rollduel play -; }
  $ { frames 15; echo L 1 0; } | five > told
  [1]
  $ tail -n 2 told
  frame 15 from 14 rerun 1 settled 0 state 0
  refused 4

A word too early, one again, and another one for the same frame.

  $ two <<END
  > R 2 5 1
  > R 2 0 1
  > R 2 0 1
  > R 2 0 2
  > END
  refused 103
  taken
  repeated
  refused 104
  [1]

Words of a frame that is settled, and the words of a player who leaves.

  $ two <<END
  > L 1 1
  > R 2 0 3
  > A
  > R 2 0 3
  > R 2 0 4
  > R 2 1 4
  > END
  ok
  taken
  frame 1 from 0 rerun 1 settled 1 state 7
  repeated
  refused 104
  taken
  [1]
  $ two <<END
  > R 2 0 3
  > D 2
  > L 1 1
  > A
  > L 1 1
  > A
  > END
  taken
  gone 2
  ok
  frame 1 from 0 rerun 1 settled 1 state 7
  ok
  frame 2 from 1 rerun 1 settled 2 state 76

Refusals: a remote player's word as a local one, an advance too early, a word twice, a local player's word as a remote
one, a local player who leaves, and players that there aren't.

  $ two <<END
  > L 2 1
  > A
  > L 1 1
  > L 1 1
  > R 1 0 1
  > D 1
  > L 257 1
  > R 258 0 1
  > D 258
  > END
  refused 2
  refused 101
  ok
  refused 102
  refused 2
  refused 2
  refused 2
  refused 2
  refused 2
  [1]

A queue holds 128 words past the settled frame.

  $ { seq -f 'R 2 %g 0' 0 127; printf 'R 2 128 0\nR 2 129 0\nR 2 0 0\nR 2 127 0\nL 1 0\nA\nR 2 128 0\n'; } | two > told
  [1]
  $ head -n 128 told | sort | uniq -c | tr -s ' '
   128 taken
  $ tail -n +129 told
  refused 105
  refused 103
  repeated
  repeated
  ok
  frame 1 from 0 rerun 1 settled 1 state 0
  taken

Eight players, of whom two are local: the frame waits for both.

  $ rollduel play - <<END
  > roll 3 players 8 local 1,8 delay 0,0,0,0,0,0,0,0 mask 0,0,0,0,0,0,0,0 threshold 15
  > R 5 0 2
  > L 1 7
  > A
  > L 8 9
  > A
  > L 8 0
  > END
  taken
  ok
  refused 101
  ok
  frame 1 from 0 rerun 1 settled 0 state 89
  ok
  [1]

What can be read and is outside a session's limits is refused when it starts, and nothing else is written.

  $ open() { { echo "$1"; echo S; } | rollduel play -; }
  $ open 'roll 1 players 5 local 1 delay 0,0,0,0,0 threshold 8'
  refused 3
  [1]
  $ open 'roll 1 players 2 local 1 delay 0,0 threshold 9'
  refused 11
  [1]
  $ open 'roll 1 players 2 local 1 delay 0,1 threshold 8'
  refused 11
  [1]
  $ open 'roll 1 players 2 local 3 delay 0,0 threshold 8'
  refused 11
  [1]

A script without a command writes nothing.

  $ true | two

Claims: none before a roll, one after a player left, and one of five players.

  $ printf 'C\n' | two
  refused 117
  [1]
  $ printf 'L 1 1\nC\nC\n' | two
  ok
  refused 117
  refused 117
  [1]
  $ two <<END
  > L 1 1
  > A
  > L 1 1
  > A
  > D 2
  > S
  > R 2 0 3
  > D 2
  > C
  > END
  ok
  frame 1 from 0 rerun 1 settled 0 state 1
  ok
  frame 2 from 1 rerun 1 settled 0 state 11
  gone 2
  frame 2 from 0 rerun 2 settled 2 state 66
  refused 9
  refused 9
  rollcert 1
  players 2
  base 0
  from 0
  time 2
  1,x
  1,x
  kept 1
  -
  differs 0
  [1]
  $ five <<END
  > L 1 1
  > A
  > R 5 0 2
  > S
  > C
  > END
  ok
  frame 1 from 0 rerun 1 settled 0 state 1
  taken
  frame 1 from 0 rerun 1 settled 0 state 11
  rollcert 2
  players 5
  base 0
  from 0
  time 1
  1,0,0,0,2
  kept 1
  -
  differs 0

Lines that can't be read: each is named, and nothing is written of the script.

  $ printf 'L 1 1\nA\nL 1 1\nA\nR 2 0 3\nS' | two
  rollduel: unreadable: line 7
  [2]
  $ printf 'L 1 1\nA\nL 1 1\nA\nR 2 0 03\nS\n' | two
  rollduel: unreadable: line 6
  [2]
  $ printf 'L 1 1\r\nA\n' | two
  rollduel: unreadable: line 2
  [2]
  $ printf 'A\nL  1 1\n' | two
  rollduel: unreadable: line 3
  [2]
  $ printf 'A\n\nA\n' | two
  rollduel: unreadable: line 3
  [2]
  $ printf 'A\nL 1 4294967296\n' | two
  rollduel: unreadable: line 3
  [2]
  $ printf 'A\nA\nL 1 \262\n' | two
  rollduel: unreadable: line 4
  [2]
  $ printf 'A\nX\n' | two
  rollduel: unreadable: line 3
  [2]
  $ printf 'A\nL 1 1 1\n' | two
  rollduel: unreadable: line 3
  [2]

Headers that can't be read.

  $ true | rollduel play -
  rollduel: unreadable: line 1
  [2]
  $ while read -r header; do echo "$header" | rollduel play -; done <<END 2>&1 | sort | uniq -c | tr -s ' '
  > roll 1 players 9 local 1 delay 0,0,0,0,0,0,0,0,0 threshold 8
  > roll 1 players 0 local 1 delay 0 threshold 8
  > roll 1 players 2 local 2,1 delay 0,0 threshold 8
  > roll 1 players 2 local 9 delay 0,0 threshold 8
  > roll 1 players 2 local 1 delay 0 threshold 8
  > roll 1 players 2 local 1 delay 0,0 mask 1,1 threshold 8
  > roll 2 players 2 local 1 delay 0,0 threshold 8
  > roll 2 players 2 local 1 delay 0,0 mask 1 threshold 8
  > roll 4 players 2 local 1 delay 0,0 mask 1,1 threshold 8
  > roll 1 players 2 local 1 delay 0,0 threshold 08
  > END
   10 rollduel: unreadable: line 1
  $ printf 'roll 1 players 2 local 1 delay 0,0 threshold 8 \n' | rollduel play -
  rollduel: unreadable: line 1
  [2]

Duels.

  $ rollduel play - --game duel <<END
  > roll 1 players 2 local 1 delay 0,0 threshold 8
  > L 1 1
  > A
  > L 1 1
  > A
  > END
  ok
  frame 1 from 0 rerun 1 settled 0 state 20496,15360,16,0,0,0,0 61440,46080,0,0,4,0,0 b0
  ok
  frame 2 from 1 rerun 1 settled 0 state 20528,15360,32,0,0,0,0 61440,46080,0,0,4,0,0 b0
  $ printf 'roll 1 players 3 local 1 delay 0,0,0 threshold 8\nS\n' | rollduel play - --game duel
  frame 0 from 0 rerun 0 settled 0 state 20480,15360,0,0,0,0,0 61440,46080,0,0,4,0,0 61440,15360,0,0,4,0,0 b0
  $ printf 'roll 1 players 1 local 1 delay 0 threshold 8\nS\n' | rollduel play - --game duel
  refused 3
  [1]
