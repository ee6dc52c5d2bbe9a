Each call of a game is refused once, and made again: in the end the same is seen. A roll loads once, and advances and saves for
each frame that it runs; a start copies the opening and loads it, and a guess copies the state that its job starts from.

`each CALL COUNT` plays the file `script` on games of which the first of these calls is refused, the second, and so on, up to
one that isn't made any more. It shows for how many of them how often the game refused, how many grafts added two states, and
what is seen at the end.

  $ header='roll 1 players 2 local 1 delay 0,0 threshold 8'
  $ told() { { echo "game tally $1"; echo "$header"; cat script; echo seen; } | test_stage > told
  > echo "refused $(grep -c '^refused 107$' told) added $(grep -c '^added 2$' told) $(tail -n 1 told | cut -d ' ' -f 1-4,7-8)"; }
  $ each() { for k in $(seq $(($2 + 1))); do told "refusing $1 $k retry"; done | uniq -c | sed 's/^ *//'; }

A late input.

  $ printf 'L 1 1\nA\nL 1 1\nA\nR 2 0 3\nS\n' > script
  $ each load 4
  4 refused 1 added 0 frame 2 settled 1 state 77
  1 refused 0 added 0 frame 2 settled 1 state 77
  $ each save 4
  4 refused 1 added 0 frame 2 settled 1 state 77
  1 refused 0 added 0 frame 2 settled 1 state 77
  $ each copy 1
  1 refused 1 added 0 frame 2 settled 1 state 77
  1 refused 0 added 0 frame 2 settled 1 state 77
  $ each advance 4
  4 refused 1 added 0 frame 2 settled 1 state 77
  1 refused 0 added 0 frame 2 settled 1 state 77

A guess whose branch is grafted.

  $ printf 'L 1 1\nA\nL 1 1\nA\nG 2 2 3\nB 0\nR 2 0 3\nS\n' > script
  $ each load 4
  4 refused 1 added 1 frame 2 settled 1 state 77
  1 refused 0 added 1 frame 2 settled 1 state 77
  $ each save 2
  2 refused 1 added 1 frame 2 settled 1 state 77
  1 refused 0 added 1 frame 2 settled 1 state 77
  $ each copy 2
  2 refused 1 added 1 frame 2 settled 1 state 77
  1 refused 0 added 1 frame 2 settled 1 state 77
  $ each advance 2
  2 refused 1 added 1 frame 2 settled 1 state 77
  1 refused 0 added 1 frame 2 settled 1 state 77

The game that runs the job is refused a call. The job is lost then, and is guessed again; where it wasn't refused, the second
guess finds all of it kept. A run of two rows loads once, and advances and saves twice.

  $ helper() { for k in 1 2 3; do told "helper $1 $k"; done | uniq -c | sed 's/^ *//'; }
  $ printf 'L 1 1\nA\nL 1 1\nA\nG 2 2 3\nB 0\nG 2 2 3\nB 1\nR 2 0 3\nS\n' > script
  $ helper load
  1 refused 1 added 1 frame 2 settled 1 state 77
  2 refused 0 added 1 frame 2 settled 1 state 77
  $ helper save
  2 refused 1 added 1 frame 2 settled 1 state 77
  1 refused 0 added 1 frame 2 settled 1 state 77
  $ helper copy
  3 refused 0 added 1 frame 2 settled 1 state 77
  $ helper advance
  2 refused 1 added 1 frame 2 settled 1 state 77
  1 refused 0 added 1 frame 2 settled 1 state 77

A roll that starts from a branch: the second player's word of the first frame came as it was predicted, and the next one is
guessed.

  $ before='L 1 1\nA\nL 1 1\nA\nR 2 0 0\nS\nL 1 1\nA\n'
  $ printf "${before}G 2 3 3,0\nB 0\nR 2 1 3\nS\n" > script
  $ each load 6
  6 refused 1 added 1 frame 3 settled 2 state 177
  1 refused 0 added 1 frame 3 settled 2 state 177
  $ each save 4
  4 refused 1 added 1 frame 3 settled 2 state 177
  1 refused 0 added 1 frame 3 settled 2 state 177
  $ each copy 2
  2 refused 1 added 1 frame 3 settled 2 state 177
  1 refused 0 added 1 frame 3 settled 2 state 177
  $ each advance 4
  4 refused 1 added 1 frame 3 settled 2 state 177
  1 refused 0 added 1 frame 3 settled 2 state 177
  $ printf "${before}G 2 3 3,0\nB 0\nG 2 3 3,0\nB 1\nR 2 1 3\nS\n" > script
  $ helper load
  1 refused 1 added 1 frame 3 settled 2 state 177
  2 refused 0 added 1 frame 3 settled 2 state 177
  $ helper save
  2 refused 1 added 1 frame 3 settled 2 state 177
  1 refused 0 added 1 frame 3 settled 2 state 177
  $ helper copy
  3 refused 0 added 1 frame 3 settled 2 state 177
  $ helper advance
  2 refused 1 added 1 frame 3 settled 2 state 177
  1 refused 0 added 1 frame 3 settled 2 state 177
