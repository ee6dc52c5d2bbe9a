Memory that is refused: of each example below each allocation is refused in turn. Either the example ends whole all the same, or what could
not be made says so.

`each COMMAND..` runs a command with each of its allocations refused in turn, and tells how the runs end: with its whole output; or with
nothing written and the reason.

  $ counted() { REFUSE_COUNTS=counts LD_PRELOAD=$REFUSE "$@"; }
  $ each() {
  >     counted "$@" > whole; most=$(cut -d ' ' -f 2 counts)
  >     for n in $(seq $most); do
  >         REFUSE_ALLOCATION=$n counted "$@" > told 2> why
  >         echo "$? $(cmp -s told whole && echo whole; test -s told || echo nothing) $(cat why) $(test "$(cut -d ' ' -f 10 counts)" = "$(cut -d ' ' -f 12 counts)" || echo 'a thread is left')"
  >     done | sort -u
  > }

A script with a late word; one with a guess whose branch goes past the frame; a duel whose second player was guessed to thrust; a sync test of
a duel; and a claim.

  $ printf 'roll 1 players 2 local 1 delay 0,0 threshold 8\nL 1 1\nA\nL 1 1\nA\nR 2 0 3\nS\nC\n' > late
  $ each rollduel play late
  0 whole  
  2 nothing rollduel: out of memory 
  $ tail -n +6 whole | head -n 1
  frame 2 from 0 rerun 2 settled 1 state 77
  $ printf 'roll 1 players 2 local 1 delay 0,0 threshold 8\nL 1 1\nA\nL 1 1\nA\nR 2 0 0\nS\nL 1 1\nA\nG 2 3 3,0\nB 0\nR 2 1 3\nS\nC\n' > guess
  $ each rollduel play guess
  0 whole  
  2 nothing rollduel: out of memory 
  $ cat whole
  ok
  frame 1 from 0 rerun 1 settled 0 state 1
  ok
  frame 2 from 1 rerun 1 settled 0 state 11
  taken
  frame 2 from 2 rerun 0 settled 1 state 11
  ok
  frame 3 from 2 rerun 1 settled 1 state 111
  job 0 rows 2
  added 2
  taken
  frame 3 from 2 rerun 1 settled 2 state 177
  rollcert 1
  players 2
  base 2
  from 2
  time 1
  1,3
  kept 2
  -
  1,0
  differs 1
  1 2 2
  $ printf 'roll 1 players 2 local 1 delay 0,0 threshold 8\nG 2 2 1\nB 0\nL 1 0\nR 2 0 1\nA\n' > duel
  $ each rollduel play duel --game duel
  0 whole  
  2 nothing rollduel: out of memory 
  $ cat whole
  job 0 rows 2
  added 2
  ok
  taken
  frame 1 from 1 rerun 0 settled 1 state 20480,15360,0,0,0,0,0 61424,46080,-16,0,4,0,0 b0
  $ printf 'rolltest 1 players 2\n4294967295,0\nx,3\n4294967295,4294967295\n' > rows
  $ each rollduel synctest rows --game duel --frames 2
  0 whole  
  2 nothing rollduel: out of memory 
  $ cat whole
  run
  verified 2
  run
  $ printf 'rollcert 1\nplayers 2\nbase 2\nfrom 2\ntime 1\n1,3\nkept 2\n-\n1,0\ndiffers 1\n1 2 2\n' > claim
  $ each rollduel certify claim
  0 whole  
  2 nothing rollduel: out of memory 
  $ cat whole
  yes: from 2 to 3 rerun 1

The script with a guess, played live with two workers. The threads have ended.

  $ each rollduel live guess --workers 2
  0 whole  
  2 nothing rollduel: out of memory 
  $ cat whole
  ok
  frame 1 state 1
  ok
  frame 2 state 11
  taken
  frame 2 state 11
  ok
  frame 3 state 111
  taken
  frame 3 state 177
