Guesses, and the branches of their jobs. `two` opens a session of two players, of whom the first is local; `after` plays
two frames first, shows what comes then, and leaves the whole in the file `told`.

  $ header='roll 1 players 2 local 1 delay 0,0 threshold 8'
  $ two() { { echo "$header"; cat; } | rollduel play -; }
  $ after() { { printf 'L 1 1\nA\nL 1 1\nA\n'; cat; } | two > told; status=$?; tail -n +5 told; return $status; }

A guess that was right: the roll runs no frame. Its claim lists the branch's states that can still matter.

  $ two <<END
  > L 1 1
  > A
  > L 1 1
  > A
  > G 2 2 3
  > B 0
  > R 2 0 3
  > S
  > C
  > END
  ok
  frame 1 from 0 rerun 1 settled 0 state 1
  ok
  frame 2 from 1 rerun 1 settled 0 state 11
  job 0 rows 2
  added 2
  taken
  frame 2 from 2 rerun 0 settled 1 state 77
  rollcert 1
  players 2
  base 1
  from 2
  time 1
  1,3
  kept 2
  -
  1,3
  differs 0

The example of a guess: of two that were grafted, the second was right in both frames.

  $ rollduel play ../examples/guessed-input.roll
  ok
  frame 1 from 0 rerun 1 settled 0 state 1
  ok
  frame 2 from 1 rerun 1 settled 0 state 11
  job 0 rows 2
  added 2
  job 1 rows 2
  added 2
  taken
  taken
  frame 2 from 2 rerun 0 settled 2 state 77

A branch that ends past the frame, and whose second row was wrong. The claim says where, and is right.

  $ after <<END
  > R 2 0 0
  > S
  > L 1 1
  > A
  > G 2 3 3,0
  > B 0
  > R 2 1 3
  > S
  > C
  > END
  taken
  frame 2 from 2 rerun 0 settled 1 state 11
  ok
  frame 3 from 2 rerun 1 settled 1 state 111
  job 0 rows 2
  added 2
  taken
  frame 3 from 2 rerun 1 settled 2 state 177
  rollcert 1
  players 2
  base 2
  from 2
  time 1
  1,3
  kept 2
  -
  1,0
  differs 1
  1 2 2
  $ tail -n 11 told | rollduel certify -
  yes: from 2 to 3 rerun 1

One guess twice: its branches add nothing once the rows were run, and the second comes too late.

  $ after <<END
  > G 2 2 3
  > G 2 2 3
  > R 2 0 3
  > S
  > B 0
  > R 2 1 3
  > S
  > B 1
  > END
  job 0 rows 2
  job 1 rows 2
  taken
  frame 2 from 0 rerun 2 settled 1 state 77
  added 0
  taken
  frame 2 from 2 rerun 0 settled 2 state 77
  refused 110
  [1]

One guess twice, and another word came: before it is settled a branch adds nothing, and then it is dead.

  $ after <<END
  > G 2 2 3
  > G 2 2 3
  > R 2 0 5
  > B 0
  > S
  > B 1
  > END
  job 0 rows 2
  job 1 rows 2
  taken
  added 0
  frame 2 from 0 rerun 2 settled 1 state 121
  refused 112
  [1]

A word that contradicts the state which a job started from, before any frame is settled.

  $ printf 'G 2 4 0,0,5\nR 2 0 7\nB 0\n' | after
  job 0 rows 2
  taken
  refused 112
  [1]

A guess of the very word that is predicted, before the frame is run; and one of the local player's own words.

  $ two <<END
  > L 1 1
  > G 2 1 0
  > B 0
  > A
  > END
  ok
  job 0 rows 1
  added 1
  frame 1 from 1 rerun 0 settled 0 state 1
  $ two <<END
  > G 1 2 4,5
  > B 0
  > L 1 4
  > A
  > L 1 5
  > A
  > END
  job 0 rows 2
  added 2
  ok
  frame 1 from 1 rerun 0 settled 0 state 4
  ok
  frame 2 from 2 rerun 0 settled 0 state 45

Each guessed word counts for one frame, the last one for all later ones; and they come after those that are confirmed.

  $ two <<END
  > G 2 3 3,4
  > B 0
  > R 2 0 3
  > R 2 1 4
  > L 1 0
  > A
  > L 1 0
  > A
  > L 1 0
  > A
  > END
  job 0 rows 3
  added 3
  taken
  taken
  ok
  frame 1 from 1 rerun 0 settled 1 state 6
  ok
  frame 2 from 2 rerun 0 settled 2 state 68
  ok
  frame 3 from 3 rerun 0 settled 2 state 688
  $ two <<END
  > R 2 0 7
  > G 2 2 3
  > B 0
  > L 1 0
  > A
  > R 2 1 3
  > L 1 0
  > A
  > END
  taken
  job 0 rows 2
  added 2
  ok
  frame 1 from 1 rerun 0 settled 1 state 14
  taken
  ok
  frame 2 from 2 rerun 0 settled 2 state 146

Of a guess's last word only the bits of the mask are held.

  $ rollduel play - <<END
  > roll 2 players 2 local 1 delay 0,0 mask 4294967295,1 threshold 8
  > L 1 1
  > A
  > R 2 0 3
  > L 1 0
  > A
  > R 2 1 1
  > S
  > G 2 4 3
  > B 0
  > R 2 2 3
  > L 1 0
  > A
  > L 1 0
  > A
  > END
  ok
  frame 1 from 0 rerun 1 settled 0 state 1
  taken
  ok
  frame 2 from 0 rerun 2 settled 1 state 72
  taken
  frame 2 from 2 rerun 0 settled 2 state 72
  job 0 rows 2
  added 2
  taken
  ok
  frame 3 from 3 rerun 0 settled 3 state 726
  ok
  frame 4 from 4 rerun 0 settled 3 state 7262

A job has at most 8 rows, and starts where the kept states end; where all are kept there is none.

  $ two <<END
  > G 2 20 3
  > B 0
  > G 2 20 3
  > B 1
  > G 2 20 3
  > B 2
  > G 2 20 3
  > END
  job 0 rows 8
  added 8
  job 1 rows 8
  added 8
  job 2 rows 4
  added 4
  kept
  $ printf 'G 2 2 0\nG 2 0 1\nG 2 25 1\n' | after
  kept
  refused 11
  refused 11
  [1]

The end of a guess is 1 to 24 rows past the settled frame, here 1.

  $ after <<END
  > R 2 0 0
  > S
  > G 2 1 5
  > G 2 25 5
  > G 2 26 5
  > G 2 4294967295 5
  > G 2 2 5
  > END
  taken
  frame 2 from 2 rerun 0 settled 1 state 11
  refused 11
  job 0 rows 8
  refused 11
  refused 11
  job 1 rows 1
  [1]

A guess of somebody who isn't there, or has left. 257 and 258 are nobody, and not players 1 and 2.

  $ printf 'D 2\nG 3 0 1\nG 0 1 1\nG 2 0 1\nG 2 1 1\n' | two
  gone 2
  refused 2
  refused 2
  refused 9
  refused 9
  [1]
  $ printf 'G 255 2 3\nG 256 2 3\nG 257 2 3\nG 258 2 3\nG 4294967295 2 3\nG 2 2 3\n' | two
  refused 2
  refused 2
  refused 2
  refused 2
  refused 2
  job 0 rows 2
  [1]

A guess that is kept or refused uses no number.

  $ printf 'G 2 2 0\nG 5 2 3\nG 2 25 1\nG 2 2 3\nG 2 2 0\nG 3 2 3\nG 2 2 4\nB 1\nB 0\n' | after
  kept
  refused 2
  refused 11
  job 0 rows 2
  kept
  refused 2
  job 1 rows 2
  added 2
  added 2
  [1]

No such job: none was made, it was taken and its branch accepted, and it was taken and its branch refused.

  $ printf 'B 0\n' | two
  refused 120
  [1]
  $ printf 'G 2 2 3\nB 1\nB 256\nB 4294967295\nB 0\nB 0\n' | two
  job 0 rows 2
  refused 120
  refused 120
  refused 120
  added 2
  refused 120
  [1]
  $ two <<END
  > G 2 2 3
  > B 0
  > B 0
  > G 2 2 4
  > R 2 0 5
  > L 1 0
  > A
  > B 1
  > B 1
  > B 0
  > G 2 2 6
  > END
  job 0 rows 2
  added 2
  refused 120
  job 1 rows 2
  taken
  ok
  frame 1 from 0 rerun 1 settled 1 state 10
  refused 112
  refused 120
  refused 120
  job 2 rows 1
  [1]

Status 1 where a guess or a branch alone is refused, and 0 where none is.

  $ printf 'G 5 1 0\n' | two
  refused 2
  [1]
  $ printf 'G 2 2 3\nG 2 2 3\nB 0\nB 1\n' | two
  job 0 rows 2
  job 1 rows 2
  added 2
  added 0

Refusals of all kinds of commands.

  $ two <<END
  > L 2 1
  > A
  > L 1 1
  > L 1 1
  > R 1 0 1
  > D 1
  > G 5 1 0
  > C
  > B 7
  > END
  refused 2
  refused 101
  ok
  refused 102
  refused 2
  refused 2
  refused 2
  refused 117
  refused 120
  [1]

Branches fill the tree up to 240 kept states; the next one is refused, and the frame goes on.

  $ guesses() { for k in $(seq $1); do printf 'G 2 8 %s\nB %s\n' $k $((k - 1)); done; }
  $ grafted() { for job in $(seq $1 $2); do printf 'job %s rows 8\nadded 8\n' $job; done; }
  $ { guesses 29; printf 'G 2 7 30\nB 29\nG 2 1 31\nB 30\nL 1 0\nA\n'; } | two > told
  [1]
  $ grafted 0 28 > want
  $ head -n 58 told | cmp - want
  $ tail -n +59 told
  job 29 rows 7
  added 7
  job 30 rows 1
  refused 113
  ok
  frame 1 from 0 rerun 1 settled 0 state 0

A second branch of the first guess adds nothing, so it is accepted though the tree is full.

  $ printf 'G 2 8 1\nG 2 8 1\nB 0\n' > again
  $ for k in $(seq 2 29); do printf 'G 2 8 %s\nB %s\n' $k $k; done >> again
  $ printf 'G 2 7 30\nB 30\nG 2 1 31\nB 31\nL 1 0\nA\nB 1\n' >> again
  $ two < again > told
  [1]
  $ head -n 3 told
  job 0 rows 8
  job 1 rows 8
  added 8
  $ grafted 2 29 > want
  $ tail -n +4 told | head -n 56 | cmp - want
  $ tail -n +60 told
  job 30 rows 7
  added 7
  job 31 rows 1
  refused 113
  ok
  frame 1 from 0 rerun 1 settled 0 state 0
  added 0

Up to 224 in the wide profile.

  $ header='roll 3 players 2 local 1 delay 0,0 mask 4294967295,4294967295 threshold 8'
  $ { guesses 27; printf 'G 2 7 28\nB 27\nG 2 1 29\nB 28\nL 1 0\nA\n'; } | two > told
  [1]
  $ grafted 0 26 > want
  $ head -n 54 told | cmp - want
  $ tail -n +55 told
  job 27 rows 7
  added 7
  job 28 rows 1
  refused 113
  ok
  frame 1 from 0 rerun 1 settled 0 state 0

Duels: the branches of a right guess, of one who fires, and among three ships.

  $ duel() { { echo "roll 1 players $1 threshold 8"; cat; } | rollduel play - --game duel; }
  $ duel '2 local 1 delay 0,0' <<END
  > L 1 1
  > A
  > L 1 1
  > A
  > G 2 2 1
  > B 0
  > R 2 0 1
  > S
  > END
  ok
  frame 1 from 0 rerun 1 settled 0 state 20496,15360,16,0,0,0,0 61440,46080,0,0,4,0,0 b0
  ok
  frame 2 from 1 rerun 1 settled 0 state 20528,15360,32,0,0,0,0 61440,46080,0,0,4,0,0 b0
  job 0 rows 2
  added 2
  taken
  frame 2 from 2 rerun 0 settled 1 state 20528,15360,32,0,0,0,0 61392,46080,-32,0,4,0,0 b0
  $ printf 'G 2 1 8\nB 0\nL 1 0\nR 2 0 8\nA\n' | duel '2 local 1 delay 0,0'
  job 0 rows 1
  added 1
  ok
  taken
  frame 1 from 1 rerun 0 settled 1 state 20480,15360,0,0,0,0,0 61440,46080,0,0,4,8,0 b1
  $ printf 'G 3 1 1\nB 0\nL 1 0\nR 3 0 1\nA\n' | duel '3 local 1 delay 0,0,0'
  job 0 rows 1
  added 1
  ok
  taken
  frame 1 from 1 rerun 0 settled 0 state 20480,15360,0,0,0,0,0 61440,46080,0,0,4,0,0 61424,15360,-16,0,4,0,0 b0
  $ printf 'G 3 1 1\nB 0\n' | duel '2 local 1 delay 0,0'
  refused 2
  refused 120
  [1]

A guess has 1 to 24 words: one with more can't be read, nor can other lines that are no guess or branch.

  $ header='roll 1 players 2 local 1 delay 0,0 threshold 8'
  $ { echo S; echo G 2 24 $(seq -s , 23 -1 0); } | two
  frame 0 from 0 rerun 0 settled 0 state 0
  job 0 rows 8
  $ { echo S; echo G 2 24 $(seq -s , 24 -1 0); } | two
  rollduel: unreadable: line 3
  [2]
  $ while IFS= read -r line; do printf 'S\n%s\nS\n' "$line" | two; done <<END
  > G 2 2
  > G 2 2 -
  > G 2 2 3,
  > G 2 2 3 4
  > G 2 2 03
  > G 2 2 4294967296
  > G 2 3
  > G
  > B
  > B 00
  > B 0 0
  > B 4294967296
  > b 0
  > END
  rollduel: unreadable: line 3
  rollduel: unreadable: line 3
  rollduel: unreadable: line 3
  rollduel: unreadable: line 3
  rollduel: unreadable: line 3
  rollduel: unreadable: line 3
  rollduel: unreadable: line 3
  rollduel: unreadable: line 3
  rollduel: unreadable: line 3
  rollduel: unreadable: line 3
  rollduel: unreadable: line 3
  rollduel: unreadable: line 3
  rollduel: unreadable: line 3
  [2]
