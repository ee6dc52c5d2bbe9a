Pictures: what the words may say of them, and what is printed besides. `tests/pictures` looks at the pictures themselves.

What is printed is what is printed without a picture, and so is the status. The same words draw the same.

  $ rollduel play ../examples/branch-ahead.roll --picture ahead.svg > told
  $ rollduel play ../examples/branch-ahead.roll | cmp - told
  $ rollduel play ../examples/branch-ahead.roll --picture again.svg --explain | cmp - told
  $ cmp ahead.svg again.svg
  $ rollduel play - --picture ahead.svg < ../examples/branch-ahead.roll | cmp - told
  $ grep -c 'standard input' ahead.svg
  2

The deepest rollback is told, and whose word made it.

  $ grep -o 'Worst rollback[^<]*\|The word of[^<]*' again.svg
  Worst rollback: 1 frame run again at frame 3 (without guesses: 2 frames).
  The word of player 2 for frame 1 came 2 frames late.

A player who leaves makes a rollback too.

  $ printf 'roll 1 players 2 local 1 delay 0,0 threshold 8\nL 1 1\nR 2 0 5\nA\nL 1 1\nA\nD 2\nS\n' > left
  $ rollduel play left --picture left.svg
  ok
  taken
  frame 1 from 0 rerun 1 settled 1 state 11
  ok
  frame 2 from 1 rerun 1 settled 1 state 121
  gone 2
  frame 2 from 1 rerun 1 settled 2 state 116
  $ grep -o 'Player 2 had left[^<]*\|frame 2: [^<]*left[^<]*' left.svg
  Player 2 had left at frame 1.
  frame 2: 1 run again, from 1 on; GGPO: 1. Player 2 left, from frame 1 on

A part of a play, and the states that were saved at a frame.

  $ rollduel play ../examples/branch-ahead.roll --picture part.svg --from 2 --to 3 --tree 2 > told
  $ grep -o 'frames 2 to 2\|States saved[^<]*' part.svg
  frames 2 to 2
  States saved as the session went to frame 2: 2. It started from that of frame 2

Parts of no picture, and no part.

  $ rollduel play ../examples/late-input.roll --from 3
  error: --from, --to and --tree can't be used without --picture
  [2]
  $ rollduel play ../examples/late-input.roll --tree 3
  error: --from, --to and --tree can't be used without --picture
  [2]
  $ rollduel play ../examples/late-input.roll --picture x.svg --from 3 --to 3
  error: --to has to be past --from
  [2]
  $ rollduel play ../examples/late-input.roll --picture x.svg --from 100 --to 701
  error: --from 100 --to 701: a picture shows 600 frames at most
  [2]
  $ rollduel play ../examples/late-input.roll --picture x.svg --to 601
  error: --from 0 --to 601: a picture shows 600 frames at most
  [2]
  $ ls x.svg 2> why
  [2]

A file that is no picture isn't overwritten, but a picture is.

  $ echo 'my notes' > notes.svg
  $ rollduel play ../examples/late-input.roll --picture notes.svg > told
  error: --picture notes.svg: this file is no picture, and isn't overwritten
  [2]
  $ cat notes.svg
  my notes
  $ rollduel play ../examples/late-input.roll | cmp - told
  $ cp ../docs/pictures/match-lost.svg old.svg
  $ rollduel play ../examples/late-input.roll --picture old.svg > told && grep -c 'Worst rollback: 2 frames' old.svg
  1

Nothing is drawn if nothing is played, or if the text can't be read.

  $ printf 'roll 1 players 5 local 1 delay 0,0,0,0,0 threshold 8\nS\n' > five
  $ rollduel play five --picture x.svg
  refused 3
  no picture: nothing was played
  [1]
  $ printf 'roll 1\n' | rollduel play - --picture x.svg
  rollduel: unreadable: line 1
  [2]
  $ ls x.svg 2> why
  [2]

A file that can't be written.

  $ rollduel play ../examples/late-input.roll --picture nowhere/x.svg > told
  rollduel: cannot write
  [2]
  $ rollduel play ../examples/late-input.roll | cmp - told

Each allocation is refused in turn: the play ends whole with its picture, or says what couldn't be made.

  $ counted() { REFUSE_COUNTS=counts LD_PRELOAD=$REFUSE "$@"; }
  $ each() {
  >     counted "$@" > whole; cp y.svg whole.svg; most=$(cut -d ' ' -f 2 counts)
  >     for n in $(seq $most); do
  >         rm -f y.svg
  >         REFUSE_ALLOCATION=$n counted "$@" > told 2> why
  >         echo "$? $(cmp -s told whole && echo whole; test -s told || echo nothing) $(cmp -s y.svg whole.svg && echo drawn; test -e y.svg || echo undrawn) $(cat why)"
  >     done | sort -u
  > }
  $ each rollduel play ../examples/branch-ahead.roll --picture y.svg
  0 whole drawn 
  2 nothing undrawn rollduel: out of memory
