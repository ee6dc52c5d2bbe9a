Reads and writes that fail in mid-stream, for each task of the program: scripts, also played live with two workers, files of rows, and claims.

  $ printf 'roll 1 players 2 local 1 delay 0,0 threshold 8\nL 1 1\nA\nL 1 1\nA\nR 2 0 3\nS\nC\n' > play
  $ printf 'rolltest 1 players 2\n4294967295,0\nx,3\n4294967295,4294967295\n' > synctest
  $ printf 'rollcert 1\nplayers 2\nbase 2\nfrom 2\ntime 1\n1,3\nkept 2\n-\n1,0\ndiffers 1\n1 2 2\n' > certify
  $ cp play live
  $ task() {
  >     case $1 in
  >         synctest) echo "rollduel synctest synctest --frames 2";;
  >         live) echo "rollduel live live --workers 2";;
  >         *) echo "rollduel $1 $1";;
  >     esac
  > }
  $ run() { LD_PRELOAD=$REFUSE $(task $1); }
  $ run play | tee play.whole
  ok
  frame 1 from 0 rerun 1 settled 0 state 1
  ok
  frame 2 from 1 rerun 1 settled 0 state 11
  taken
  frame 2 from 0 rerun 2 settled 1 state 77
  rollcert 1
  players 2
  base 0
  from 0
  time 2
  1,3
  1,3
  kept 1
  -
  differs 0
  $ run live | tee live.whole
  ok
  frame 1 state 1
  ok
  frame 2 state 11
  taken
  frame 2 state 77
  $ run synctest | tee synctest.whole
  run
  verified 2
  run
  $ run certify | tee certify.whole
  yes: from 2 to 3 rerun 1

A text of two pieces is read: the third read finds its end. Where a read fails nothing is written. A fourth read isn't made.

  $ reads() { for n in 1 2 3 4; do MOST_READ=50 REFUSE_READ=$n run $1 > told 2> why; echo "$? $(wc -c < told) $(cat why)"; done; }
  $ reads play
  2 0 rollduel: cannot read
  2 0 rollduel: cannot read
  2 0 rollduel: cannot read
  0 206 
  $ reads live
  2 0 rollduel: cannot read
  2 0 rollduel: cannot read
  2 0 rollduel: cannot read
  0 62 
  $ reads synctest
  2 0 rollduel: cannot read
  2 0 rollduel: cannot read
  2 0 rollduel: cannot read
  0 19 
  $ reads certify
  2 0 rollduel: cannot read
  2 0 rollduel: cannot read
  2 0 rollduel: cannot read
  0 25 

Three writes are made. Where one of them fails, or takes nothing, what was written before stands.

  $ writes() {
  >     third=$((($(wc -c < $1.whole) + 2) / 3))
  >     for n in 1 2 3 4; do
  >         env LD_PRELOAD=$REFUSE MOST_WRITTEN=$third $2=$n $(task $1) > told 2> why
  >         echo "$? $(head -c $(($third * ($n - 1))) $1.whole | cmp - told && echo front) $(cat why)"
  >     done
  > }
  $ for task in play live synctest certify; do writes $task REFUSE_WRITE; writes $task REFUSE_TAKING; done | sort | uniq -c | tr -s ' '
   8 0 front 
   24 2 front rollduel: cannot write
